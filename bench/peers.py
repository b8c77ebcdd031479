#!/usr/bin/env python3
"""Times `lrt conflicts` beside Bison and Menhir, which make the tables of the same grammars, without precedences.

    peers.py LRCHECK LRT FOLDER..

Takes the files `.y`, `.yy` and `.ypp` that are named or in the folders, and leaves out what `lrcheck` refuses. `lrcheck` tells
the grammar of each, which is written anew for the others, with names of their own: for Bison 3.8.2, which makes its tables by
IELR and writes no parser, and for Menhir, which merges states by Pager's rule and is then given nothing to read. For each it
prints a row: productions; seconds of `lrt conflicts`; those of Bison and of Menhir, each with the ratio of those of `lrt` to
them. The last row adds up the files that have all.

Whole processes, seconds of processor time, the least of RUNS, which take turns, and once where a call takes more than SLOWEST;
a call is ended after MOST seconds. Times of a busy machine are told, ratios are what counts.
"""

import argparse
import os
import re
import subprocess
import sys
import tempfile
from pathlib import Path

sys.dont_write_bytecode = True
from processes import called, grammar_files, ratio

RUNS = 3
SLOWEST = 10
MOST = 300
WITHOUT = "--without-precedences"
HEADS = "| File | Productions | `lrt`, s | Bison, s | to it | Menhir, s | to it |"
CALLS = {
    "lrt": ["conflicts", "grammar.y"],
    "bison": ["bison", "-Wnone", "-fsyntax-only", "-Flr.type=ielr", "grammar.yy"],
    "menhir": ["menhir", "--interpret", "--unused-tokens", "grammar.mly"],
}
QUOTED = re.compile("'[^']*'|\"[^\"]*\"")
SYMBOL = re.compile(QUOTED.pattern + r"|\S+")


class Grammar:
    """A grammar text that `lrcheck` prints, with names of its own: tokens stand in quotes, `$end` ends each sentence."""

    def __init__(self, text):
        head, rules = text.split("\n%%\n", 1)
        names = [name for name in QUOTED.findall(head) if name != "'$end'"]
        self.names = {name: f"T{place}" for place, name in enumerate(names)}
        self.rules = {}
        for rule in rules.split("\n    ;\n")[:-1]:
            name, bodies = rule.split(":", 1)  # A rule can come in parts.
            self.rules.setdefault(name, []).extend(SYMBOL.findall(body) for body in bodies.split("\n    |"))
        self.names |= {name: f"r{place}" for place, name in enumerate(self.rules)} | {"'$end'": ""}

    def productions(self):
        return sum(map(len, self.rules.values()))

    def text(self, start, more, action, end):
        """As Yacc would have it, with one rule more, an action behind each body, and an end behind each rule."""
        lines = [f"%token {' '.join(name for name in self.names.values() if name.startswith('T'))}", start, "%%", *more]
        for rule, bodies in self.rules.items():
            bodies = (" ".join(self.names[name] for name in body) + action for body in bodies)
            lines.append(f"{self.names[rule]}: {' | '.join(bodies)}{end}")
        return "\n".join([*lines, ""])

    def write(self, folder):
        (folder / "grammar.yy").write_text(self.text("%start r0", [], "", ";"))
        # The end of a sentence is a token for Menhir.
        start = "%token END\n%start <unit> sentence"
        (folder / "grammar.mly").write_text(self.text(start, ["sentence: r0 END {}"], " {}", ""))


def least(calls, folder):
    """The least seconds of each of the named calls, which take turns; None for one that fails."""
    found = {name: [] for name in calls}
    for _ in range(RUNS):
        for name, words in calls.items():
            if not found[name] or found[name][0][1] <= SLOWEST:
                found[name].append(called(["timeout", str(MOST), *words], folder / "printed", cwd=folder))
    return {name: None if any(status for status, _ in runs) else min(taken for _, taken in runs) for name, runs in found.items()}


def row_of(lrcheck, lrt, path):
    """The number of productions of a file, and what each program takes; None where the file is refused."""
    told = subprocess.run([lrcheck, "--grammar", WITHOUT, path], capture_output=True)
    if told.returncode:
        return None
    grammar = Grammar(told.stdout.decode())
    with tempfile.TemporaryDirectory() as name:
        folder = Path(name)
        (folder / "grammar.y").write_bytes(told.stdout)
        grammar.write(folder)
        return grammar.productions(), least({**CALLS, "lrt": [lrt, *CALLS["lrt"]]}, folder)


def line(name, productions, taken):
    lrt, bison, menhir = taken.values()
    seconds = ["?" if it is None else f"{it:.3f}" for it in (lrt, bison, menhir)]
    cells = [name, productions, seconds[0], seconds[1], ratio(lrt, bison), seconds[2], ratio(lrt, menhir)]
    return f"| {' | '.join(map(str, cells))} |"


def main():
    parser = argparse.ArgumentParser()
    parser.add_argument("lrcheck", type=os.path.abspath)
    parser.add_argument("lrt", type=os.path.abspath)
    parser.add_argument("folders", nargs="+", type=Path)
    arguments = parser.parse_args()
    print(HEADS + "\n|" + "---|" * (HEADS.count("|") - 1))
    count, whole = 0, dict.fromkeys(CALLS, 0)
    for path in grammar_files(arguments.folders):
        row = row_of(arguments.lrcheck, arguments.lrt, path)
        if not row:
            continue
        productions, taken = row
        print(line(f"`{path.parent.name}/{path.name}`", productions, taken), flush=True)
        if None not in taken.values():
            count += productions
            whole = {name: whole[name] + seconds for name, seconds in taken.items()}
    print(line("all", count, whole))


if __name__ == "__main__":
    main()
