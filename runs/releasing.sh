# For runs of ./release, which read this file: over what installing.sh makes, a stand-in for rt that leaves the object file of a
# program that tells its arguments, and libraries with licences. `release` calls the script; in what that says, each number of
# seconds and bytes becomes an N. It takes musl-gcc, without which the run is skipped.

. "$TOP/runs/installing.sh"
if ! command -v musl-gcc >/dev/null; then
    echo 'there is no musl-gcc'
    exit 77
fi
cp "$TOP/release" "$TOP/LICENSE" "$TOP/CHANGELOG.md" top/
cp -r "$TOP/packaging" "$TOP/bindings" top/
echo 'lrc staticlib: low std' >>top/crates.txt
mkdir -p top/crates/lrc/src
echo calls >top/crates/lrc/src/lib.rt
echo 'unsigned lrc_table(void) { return 5; }' >library.c
echo 'Command::new("lrcheck").version("1.2.3")' >top/crates/lrcheck/src/command_line.rt
echo 'lrcheck status=2: low std parser' >top/crates.txt.new
grep -v '^lrcheck' top/crates.txt >>top/crates.txt.new && mv top/crates.txt.new top/crates.txt
mkdir -p rlibs/std.rlib rlibs/parser.rlib rlibs/names.rlib rattle/parser rattle/names rattle/other
touch rlibs/std.rlib/format
printf 'crate parser\ndep std\ndep names\n' >rlibs/parser.rlib/format
printf 'crate names\ndep std\ndep parser\n' >rlibs/names.rlib/format
echo 'of parser' >rattle/parser/LICENSE-MIT
echo 'of names' >rattle/names/LICENSE
echo 'of other' >rattle/other/LICENSE
cat >program.c <<'END'
#include <stddef.h>
#include <unistd.h>

size_t rattle_arg_count(void);
ptrdiff_t rattle_arg(size_t number, unsigned char *place, size_t size);

int main(void)
{
    static unsigned char place[8];
    size_t number;

    for (number = 1; number < rattle_arg_count(); number++) {
        ptrdiff_t length = rattle_arg(number, place, sizeof place - 1);
        place[length < 0 ? 7 : length] = '\n';
        if (length != -2 && write(1, place, (size_t)length + 1) < 0)
            return 1;
    }
    return rattle_arg(number, place, 1) == -1 ? 0 : 2;
}
END
mv bin/prove bin/prove_quietly
cat >bin/prove <<'END'
#!/bin/sh
kit=${0%/*}/..
"$kit/bin/prove_quietly" "$@" || exit
case $2 in
--target) with='aarch64-linux-gnu-gcc -specs /usr/lib/aarch64-linux-musl/musl-gcc.specs' ;;
*) with=gcc ;;
esac
case ${PWD##*/}:$* in
*:"run --cpu x86-64" | *:"run --target aarch64-unknown-linux-gnu") $with -c -o "out/${PWD##*/}.o" "$kit/program.c" ;;
lrc:lib*) mkdir -p out && $with -fPIC -c -o lrc.o "$kit/library.c" && ar rcs out/liblrc.a lrc.o ;;
*) exit 0 ;;
esac
echo "logic=$(cat "$kit/verdict" 2>/dev/null || echo proved) functions=1"
END
cat >toolchain/bin/ld.lld <<'END'
#!/bin/sh
kit=${0%/*}/../..
if [ "$1" = -r ]; then gcc -c -o module.o "$kit/program.c"; else echo >program; fi
END
chmod +x bin/prove toolchain/bin/ld.lld

release() {
    top/release "$@" >told 2>said
    status=$?
    sed "/aarch64/d; s|$PWD|.|g; s/^.* root .*release/a file: release/" told
    sed '/aarch64/d; s/[0-9]* s\b/N s/' said >&2
    return $status
}

# Unpacks a tarball into the folder `place`, and tells what is there.
unpack() {
    mkdir place && tar -xf "$1" -C place --strip-components=1 && (cd place && find . -type f | LC_ALL=C sort)
}
