# For runs of ./look, which read this file: over what building.sh makes, the stand-in for rt is now a whole kit. Its rt
# try compiles and links in a folder of the kit, and then removes the program; at a source that says `slow` it waits before
# that. It proves as before. The program tells the source and how it was compiled. `look` calls the script; `left` lists
# what it leaves.

. "$TOP/runs/building.sh"
cp "$TOP/look" top/look
cp "$TOP/crates/lrt/kit.sh" "$TOP/crates/lrt/unproved.sh" top/crates/lrt/
mkdir -p c toolchain/bin top/out tmp
export TMPDIR="$PWD/tmp"
touch bin/rtlib.py
mv bin/rt bin/prove
cat >bin/rt <<'END'
#!/bin/sh
kit=${0%/*}/..
case $1 in
doc) exec echo "$kit/START.md" ;;
version) exec echo a kit ;;
lib | run) exec "$kit/bin/prove" "$@" ;;
esac
echo "rt $*"
if grep -q bad src/*; then exit 1; fi
cp src/main.rt "$kit/source" && mkdir -p "$kit/temp" && cd "$kit/temp" && echo BC >module.bc || exit
../toolchain/bin/clang -mllvm -safe -O0 -fsanitize=address && ../toolchain/bin/ld.lld -pie -o program || exit
if grep -q slow ../source; then exec sleep 20; fi
rm program
END
cat >toolchain/bin/ld.lld <<'END'
#!/bin/sh
[ "$1" = -r ] || { cp module program && exec chmod +x program; }
told=''
for word; do case $word in --lto-O* | -safe) told="$told $word" ;; esac; done
echo "echo '$(cat ../source)$told' \"\$@\"; cat" | tee module >module.o
END
chmod +x bin/rt toolchain/bin/*

look() {
    top/look "$@" 2>said
    status=$?
    sed 's/[0-9]* s\b/N s/' said >&2
    return $status
}

left() {
    find top/out tmp -mindepth 1 | sort
}
