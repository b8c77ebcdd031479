#!/bin/sh
# Times `lrt conflicts` on files, but for the text of conflicts, with `from_yacc` and with `state_table` in its place, so that no
# graph is made: seconds of processor time, the least of RUNS, and MB at the most. Both programs are built without a proof. For
# example
#
#     bench/without_graph.sh mariadb.y
#
# Needs the program `time` (Debian's package of that name).
set -eu
top=$(dirname "$(dirname "$(readlink -f "$0")")")
room=$(mktemp -d)
trap 'rm -rf "$room"' EXIT

# Prints the row of a file for a program.
measure() {
    for _ in $(seq "${RUNS:-5}"); do
        /usr/bin/time -f "%U %S %M" "$room/$1/out/look" conflicts "$2" 2>&1 >"$room/told" | tail -n 1
    done | awk -v name="$1" -v file="$2" '
        { seconds = $1 + $2; if (!least || seconds < least) least = seconds; if ($3 > most) most = $3 }
        END { printf "%s: %s: %.3f s, %.0f MB\n", file, name, least, most / 1024 }'
}

mkdir "$room/graph"
(cd "$top" && find . -name out -prune -o -name .git -prune -o -type f -exec cp --parents -t "$room/graph" {} +)
printing=crates/lrcommand/src/printing.rt
sed -i 's/Some(conflicts) => Ok(conflicts.pp(grm)?),/Some(_) => Ok(String::from_str(alloc, "conflicts\\n")?),/' \
    "$room/graph/$printing"
cp -r "$room/graph" "$room/table"
sed -i '/^fn conflicts_text/,/^}/ {
    s/let (graph, table) = from_yacc(/let (table, _counts) = state_table(/
    /leave(graph);/d
}
s/from_yacc};/from_yacc, state_table};/' "$room/table/$printing"
for name in graph table; do
    "$room/$name/look" conflicts "$top/examples/c.y" >"$room/$name.told"
done
cmp "$room/graph.told" "$room/table.told"
for file; do
    for name in graph table; do
        measure "$name" "$file"
    done
done
