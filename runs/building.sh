# For runs of the building itself, which read this file: makes a little repository of two crates in `top`, with the scripts of
# this one, and puts a stand-in for rt in front of PATH. It refuses a crate whose source says `bad`, and at one that says
# `slow` it leaves half a program and waits. `lrt` calls the script; in what that says, each number of seconds becomes an N.

mkdir -p top/crates/low/src top/crates/lrt/src bin
cp "$TOP/lrt" top/lrt
cp "$TOP/crates/lrt/build.sh" top/crates/lrt/
printf 'other: low\nlrt: low std\nlow:\n' >top/crates.txt
echo low >top/crates/low/src/lib.rt
echo first >top/crates/lrt/src/main.rt
cat >bin/rt <<'END'
#!/bin/sh
echo "rt $1"
if grep -q bad src/*; then exit 1; fi
[ "$1" = run ] || exit 0
mkdir -p out
made=out/${PWD##*/}
echo 'echo half a program' >$made
chmod +x $made
if grep -q slow src/*; then exec sleep 20; fi
echo "echo '$(cat src/main.rt)' \"\$@\"; cat" >>$made
sed -i 1d $made
touch $made.stamp
END
chmod +x bin/rt
PATH=$PWD/bin:$PATH

lrt() {
    top/lrt "$@" 2>said
    status=$?
    sed 's/[0-9]* s\b/N s/' said >&2
    return $status
}
