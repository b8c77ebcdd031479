# Builds programs for the scripts at the top, which set `top` to their folder and read this file. A program is kept in out/ at
# the top, beside the sum of the sources that it was built from, the times that crates took, and the last log of rt. `look`
# keeps another one, and sets the names of the program anew; `library` keeps a library for C in the same way.

kept=$top/out
log=$kept/build.log

# Names the program that is built: that of a crate. Where its own sources are no crate's, `apart` is the folder of these.
name_program() {
    program=$kept/$1 made=$top/crates/$1/out/$1 speaker=$1 apart='' product=program
}

# Names the library for C that is built: that of a crate.
name_library() {
    program=$kept/lib$1.a made=$top/crates/$1/out/lib$1.a speaker=$1 apart='' product=library
}

name_program lrt

say() {
    echo "$speaker: $*" >&2
}

# Prints a sum over the paths and texts of all sources.
sources() {
    (cd "$top" && find crates crates.txt $apart -name out -prune -o \
        \( -name '*.rt' -o -name '*.rs' -o -name '*.antt' -o -name crates.txt \) -print0 |
        LC_ALL=C sort -z | xargs -0 sha256sum | sha256sum)
}

# Whether the program was built from the sources with this sum.
is_built() {
    [ -e "$program" ] && [ "$(cat "$program.sources" 2>/dev/null)" = "$1" ]
}

# Keeps the program that was made from the sources with this sum. The sum comes last, so that the next call takes nothing for
# the program where this is interrupted.
keep_program() {
    mkdir -p "$kept" && rm -f "$program.sources" &&
        cp "$made" "$program.$$" && mv "$program.$$" "$program" &&
        echo "$1" >"$program.sources.$$" && mv "$program.sources.$$" "$program.sources"
}

# Prints the crates that the program is made of, each behind those that it uses.
needed_crates() {
    awk '
        { sub(/#.*/, "") }
        NF { name = $1; sub(/:$/, "", name); $1 = ""; uses[name] = $0 }
        function visit(crate,  below, count, k) {
            if (!(crate in uses) || (crate in visited)) return
            visited[crate]
            count = split(uses[crate], below)
            for (k = 1; k <= count; k++) visit(below[k])
            print crate
        }
        END { visit(program) }' program="$speaker" "$top/crates.txt"
}

duration() {
    if [ "$1" -lt 60 ]; then echo "$1 s"; else echo "$(($1 / 60)) min $(($1 % 60)) s"; fi
}

# Runs a command in a folder. It runs beside this script, which so can end it.
run_in() {
    (cd "$1" && shift && exec "$@") </dev/null >"$log" 2>&1 &
    running=$!
    wait "$running"
}

# Shows what a command wrote, and tells that it failed.
tell_failure() {
    cat "$log" >&2
    say "the $product could not be built: $1, as it says above"
    return 1
}

# Proves a crate, and builds it. Of a program rt tells by a stamp that it is built: the status is that of the program, which rt
# runs once.
prove() {
    [ "$1" = "$speaker" ] && [ "$product" = program ] || { run_in "$top/crates/$1" rt lib; return; }
    rm -f "$made.stamp"
    run_in "$top/crates/$1" rt run
    [ -e "$made.stamp" ]
}

# The same, telling of it; the time is kept where there was something to prove.
prove_aloud() {
    crate=$1 number=$2 count=$3
    last=$(cat "$kept/seconds.$crate" 2>/dev/null) && last=", which took $(duration "$last") here last"
    say "proving $crate ($number of $count)$last"
    began=$(date +%s)
    prove "$crate" || { tell_failure "rt failed at $crate"; return; }
    [ ! -s "$log" ] || echo $(($(date +%s) - began)) >"$kept/seconds.$crate"
}

# Proves the crates that the program is made of, and builds it.
prove_crates() {
    crates=$(needed_crates) number=0
    for crate in $crates; do
        number=$((number + 1))
        prove_aloud "$crate" "$number" "$(echo "$crates" | wc -l)" || return
    done
}

stop_build() {
    kill "$running" 2>/dev/null && wait "$running" 2>/dev/null
    rm -rf "$kept"/*.$$
    say "interrupted before the $product was built"
    exit 130
}

# Builds the program by this command unless it is there, and tells of it on standard error.
build_by() {
    sum=$(sources)
    is_built "$sum" && return
    mkdir -p "$kept" || return
    running='' start=$(date +%s)
    trap stop_build HUP INT TERM
    say "building the $product, since $([ -e "$program" ] && echo its sources have changed || echo it is not there yet)"
    "$1" || return
    if [ "$(sources)" != "$sum" ]; then
        say "the $product could not be built: sources changed meanwhile"
        return 1
    fi
    keep_program "$sum" || return
    trap - HUP INT TERM
    say "built in $(duration $(($(date +%s) - start)))"
}

build_program() {
    build_by prove_crates
}
