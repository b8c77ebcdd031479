# Builds programs without their proof, for the scripts at the top, which read this file behind build.sh and kit.sh.

# Names the program that is built of a crate, and is kept beside the proved one.
name_unproved() {
    crate=$1 program=$kept/look build_room=''
    [ "$1" = lrt ] || program=$kept/look-${1#lr}
}

# Names the library for C that is built of a crate without its proof.
name_unproved_library() {
    crate=$1 program=$kept/look-lib$1.a build_room='' product=library
}

# Copies the sources of all crates into a folder.
copy_crates() {
    (cd "$top" && tar --exclude=out -cf - crates crates.txt) | tar -xf - -C "$1"
}

# Makes a kit in `build_room` by which what rt try compiles is about as fast as what is proved: without the checks of each access.
make_kit_without_checks() {
    make_kit "$build_room" && rm "$build_room/c/asan.a" && printf '!<arch>\n' >"$build_room/c/asan.a"
}

# Makes such a kit for a program. Bitcode of a whole program is compiled by the linker, which takes less time for it, and leaves
# copies of both.
make_kit_of_program() {
    make_kit_without_checks && rm "$build_room/toolchain/bin/ld.lld" || return
    cat >"$build_room/toolchain/bin/clang" <<'END'
#!/bin/sh
room=${0%/*}/../.. options='' before=''
[ "$(head -c 2 module.bc)" = BC ] || exec "$room/tools/clang" "$@"
for word; do
    [ "$before" != -mllvm ] || options="$options -mllvm $word"
    before=$word
done
"$room/tools/ld.lld" -r -m elf_x86_64 --lto-O2 --lto-partitions=4 $options -o module.o module.bc &&
    cp module.bc module.o "$room"
END
    make_linker
    chmod +x "$build_room/toolchain/bin/ld.lld"
}

# Makes the linker of that kit, which leaves a copy of what it links, since rt try removes that. What was compiled so has a fixed
# place in memory.
make_linker() {
    cat >"$build_room/toolchain/bin/ld.lld" <<'END'
#!/bin/sh
room=${0%/*}/../..
for word; do
    shift
    [ "$word" != -pie ] || word=-no-pie
    set -- "$@" "$word"
done
"$room/tools/ld.lld" "$@" || exit
while [ "$1" != -o ]; do shift; done
cp "$2" "$room/linked" && mv "$room/linked" "$room/built"
END
}

# Makes the folder `build_room` for what a build needs. It lies outside of the repository, in which rt ci stops at links.
make_build_room() {
    build_room=$(mktemp -d) || return
    trap 'rm -rf "$build_room"' EXIT
    made=$build_room/built log=$build_room/log
}

# Compiles the program of the crate in a folder, and has it read nothing. The status of rt try is then that of the program, so it
# is the copy that tells of success.
compile_in() {
    make_kit_of_program 2>"$log" && run_in "$1" "$build_room/bin/rt" try --steps 1
    [ -e "$made" ] || tell_failure 'rt try failed'
}

compile() {
    make_build_room && compile_in "$top/crates/$crate"
}

# Lays out the crate of the library as a program, since rt try takes no library.
lay_out_as_program() {
    folder=$build_room/sources/crates/$crate/src
    mkdir "$build_room/sources" && copy_crates "$build_room/sources" &&
        cat "$folder/lib.rt" "$top/packaging/library.rs" >"$folder/main.rt" && rm "$folder/lib.rt" &&
        sed -i "s/^$crate staticlib:/$crate:/" "$build_room/sources/crates.txt"
}

# Leaves the bitcode of that program in `build_room`, by a kit whose clang compiles no more than small modules.
leave_bitcode() {
    make_kit_without_checks || return
    cat >"$build_room/toolchain/bin/clang" <<'END'
#!/bin/sh
room=${0%/*}/../..
[ "$(head -c 2 module.bc)" = BC ] || exec "$room/tools/clang" "$@"
cp module.bc "$room"
exit 1
END
    run_in "$build_room/sources/crates/$crate" "$build_room/bin/rt" try --steps 1
    [ -e "$build_room/module.bc" ] || tell_failure 'rt try failed'
}

# Gives the functions of that program whose names begin with that of the crate to callers in C, by these names, and the rest to
# nobody: code that may lie anywhere in memory.
compile_calls_of_c() {
    "$build_room/tools/clang" -S -emit-llvm -Xclang -disable-llvm-passes -x ir module.bc -o program.ll &&
        { sed "s/^define internal \(.*@\)\"$crate::\(${crate}_[a-z]*\)\"/define \1\2/
            s/@\"$crate::\(${crate}_[a-z]*\)\"/@\1/g
            s/^define \(.*@main(\)/define internal \1/" program.ll &&
            printf '\n!llvm.module.flags = !{!99}\n!99 = !{i32 8, !"PIC Level", i32 2}\n'; } >library.ll &&
        "$build_room/tools/clang" -c -emit-llvm -Xclang -disable-llvm-passes -Wno-override-module -x ir library.ll -o library.bc &&
        "$build_room/tools/ld.lld" -r -m elf_x86_64 --lto-O1 --lto-partitions=4 -o library.o library.bc &&
        "$build_room/tools/llvm-ar" rcsD "$made" library.o
}

compile_library() {
    make_build_room && lay_out_as_program && leave_bitcode || return
    (cd "$build_room" && compile_calls_of_c) >"$log" 2>&1 || tell_failure 'its calls could not be compiled'
}

# Builds the program or the library unless it is there, and tells of it on standard error.
build_unproved() {
    case $product in
    program) build_by compile ;;
    library) build_by compile_library ;;
    esac || return
    [ -z "$build_room" ] || rm -rf "$build_room"
}
