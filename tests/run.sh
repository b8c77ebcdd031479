#!/bin/sh
# Compiles the tests of this folder without a proof, by `rt try`, and runs them with each access checked. The last line is
# 'N passed, M failed'.
set -u
top=$(dirname "$(dirname "$(readlink -f "$0")")")
. "$top/crates/lrt/kit.sh"
. "$top/tests/lay_out.sh"
room=$(mktemp -d) || exit 1
trap 'rm -rf "$room"' EXIT
trap 'exit 130' HUP INT TERM

# Prints the names of the libraries of the repository.
libraries() {
    sed -n 's/^\(lr[a-z]*\):.*/\1/p' "$top/crates.txt" | while read -r name; do
        [ -e "$top/crates/$name/src/main.rt" ] || echo "$name"
    done
}

mkdir "$room/kit" && make_kit "$room/kit" && lay_out "$room" tests "$top/tests" $(libraries) && cd "$room/crates/tests" || exit 1
"$room/kit/bin/rt" try --test --seconds 600 </dev/null 2>&1 | tee "$room/log"
line=$(sed -n 's/^test result: .* \([0-9]*\) passed; \([0-9]*\) failed;.*/\1 passed, \2 failed/p' "$room/log")
echo "${line:-0 passed, 1 failed}"
case $line in *' 0 failed') ;; *) exit 1 ;; esac
