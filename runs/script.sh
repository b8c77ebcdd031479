# For runs of the script ./lrt, which read this file: they are skipped where the programs are built without a proof, since the
# script would prove its program first.

[ "$LRT" = "$TOP/out/lrt" ] || { echo 'the script would prove the program first'; exit 77; }
