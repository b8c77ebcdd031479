# Makes a library for C of what rt makes of the crate lrc, for the scripts at the top, which set `top` to their folder and read
# this file.

# Makes liblrc.a and liblrc.so by a compiler, of an archive of rt and of what hands out memory, and puts them and lrc.py and lrc.rs
# into one folder, and lrc.h into another. The shared library names no C library, but takes that of the program that loads it.
make_library() {
    compiler=$1 archive=$2
    objects=$(mktemp -d) || return
    (cd "$objects" && ar x "$archive" &&
        $compiler -O2 -fPIC -fvisibility=hidden -c -o memory.o "$top/packaging/memory.c" &&
        ar rcsD liblrc.a *.o &&
        $compiler -shared -nostdlib -Wl,-soname,liblrc.so -Wl,-z,noexecstack -s -o liblrc.so *.o) &&
        cp "$objects/liblrc.a" "$objects/liblrc.so" "$top/bindings/lrc.py" "$top/bindings/lrc.rs" "$3" &&
        cp "$top/bindings/lrc.h" "$4"
    made_library=$?
    rm -rf "$objects"
    return $made_library
}
