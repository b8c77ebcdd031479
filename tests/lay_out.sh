# Lays out a copy of the repository with one crate more, for the scripts that compile what is here without a proof, which set
# `top` to the folder of the repository and read this file. Sources of such a crate end in .rs, since `rt ci` takes no .rt that no
# proved crate has.

# Copies all crates into a folder, and beside them the sources of one more: its name, the folder of its sources, and the
# libraries that it uses. Those of the program in the folder `calls` are no part of the tests that lie beside it.
lay_out() {
    copy=$1 name=$2 folder=$3
    shift 3
    mkdir -p "$copy/crates/$name/src" &&
        (cd "$top" && find crates -name out -prune -o -type f -exec cp --parents -t "$copy" {} +) &&
        (cd "$folder" && find . -name '*.rs' -not -path './calls/*' -exec cp --parents -t "$copy/crates/$name/src" {} +) &&
        find "$copy/crates/$name" -name '*.rs' -exec sh -c 'mv "$1" "${1%.rs}.rt"' _ {} \; &&
        { cat "$top/crates.txt" && echo "$name: $*"; } >"$copy/crates.txt"
}
