#!/usr/bin/env python3
"""Times `lrcheck`, which looks for a sentence with two trees for each conflict, beside `lrt conflicts` on the same grammar and
Bison's counterexamples.

    check_reasons.py [--without-bison] LRCHECK LRT FOLDER..

Takes the files `.y`, `.yy` and `.ypp` that are named or in the folders, and leaves out what `lrcheck` refuses. For each it
prints two rows, with precedences and without: conflicts, each entry by itself; for how many of them there is a text with two
trees; seconds of `lrt conflicts`, which makes the table; those of `lrcheck --summary`, and these as a part of what is aimed at,
which is as many as `lrt conflicts` takes, and A_ENTRY for each entry. Then for how many of its reports Bison has an ambiguous
sentence, and its seconds; it is ended after MOST seconds. The last rows add up.

Whole processes, seconds of processor time, the least of RUNS, which take turns, and once where a call takes more than SLOWEST;
Bison is called once, two at a time, when all else is done. `lrt` gets the grammar from `lrcheck --grammar`. Needs Bison 3.8.2.
"""

import argparse
import json
import os
import subprocess
import sys
import tempfile
from concurrent.futures import ThreadPoolExecutor
from dataclasses import dataclass
from pathlib import Path

sys.dont_write_bytecode = True
from processes import called, counterexamples, grammar_files, ratio
from yacc_files import without

RUNS = 3
SLOWEST = 5
A_ENTRY = 0.0006
MOST = 120
PROCESSES = 2
WITHOUT = "--without-precedences"
WAYS = ([], [WITHOUT])
HEADS = (
    "| File | Precedences | Entries | With texts | `lrt`, s | `lrcheck`, s | to `lrt` | to the aim "
    "| Bison: with a sentence | of reports | s |"
)


@dataclass
class Row:
    """What is told of a file, or of all."""

    name: str
    options: list
    entries: int = 0
    texts: int = 0
    lrt: float = 0
    lrcheck: float = 0
    shown: int = 0  # By Bison, which is not asked where it has taken no time.
    reports: int = 0
    bison: float = 0
    is_ended: bool = False

    def add(self, row):
        for name in ("entries", "texts", "lrt", "lrcheck", "shown", "reports", "bison", "is_ended"):
            setattr(self, name, getattr(self, name) + getattr(row, name))

    def text(self):
        aim = self.lrt + A_ENTRY * self.entries
        cells = [self.name, "no" if WITHOUT in self.options else "yes", self.entries, self.texts, f"{self.lrt:.3f}"]
        cells += [f"{self.lrcheck:.3f}", ratio(self.lrcheck, self.lrt), ratio(self.lrcheck, aim)]
        bison = [self.shown, self.reports, f"{'more than ' if self.is_ended else ''}{self.bison:.1f}"]
        return f"| {' | '.join(map(str, [*cells, *(bison if self.bison else '???')]))} |"


def least(calls, folder):
    """The least seconds of each of the calls, which take turns."""
    times = [[] for _ in calls]
    for _ in range(RUNS):
        for call, seconds in zip(calls, times):
            if not seconds or seconds[0] <= SLOWEST:
                status, taken = called(call, folder / "printed")
                seconds.append(taken)
                if status not in (0, 1):
                    sys.exit(f"{call} ends with status {status}")
    return [min(seconds) for seconds in times]


def our_row(lrcheck, lrt, path, options):
    """What is told of a file but for Bison; None where it is refused."""
    told = subprocess.run([lrcheck, "--json", "--all", *options, path], capture_output=True)
    if told.returncode not in (0, 1):
        return None
    conflicts = json.loads(told.stdout)["conflicts"]
    texts = sum(it["ambiguity"] is not None and it["ambiguity"]["own"] for it in conflicts)
    row = Row(f"`{path.parent.name}/{path.name}`", options, len(conflicts), texts)
    with tempfile.TemporaryDirectory() as name:
        folder = Path(name)
        called([lrcheck, "--grammar", *options, path], folder / "grammar.y", stderr=subprocess.DEVNULL)
        calls = [[lrt, "conflicts", folder / "grammar.y"], [lrcheck, "--summary", *options, path]]
        row.lrt, row.lrcheck = least(calls, folder)
    return row


def ask_bison(row, path):
    """The row with what Bison tells of the file."""
    text = without(path.read_bytes().decode("latin-1"), WITHOUT not in row.options)
    with tempfile.TemporaryDirectory() as name:
        folder = Path(name)
        (folder / "grammar.y").write_text(text, encoding="latin-1")
        row.shown, row.reports, row.bison, row.is_ended, fault = counterexamples("grammar.y", MOST, folder)
    if fault:
        sys.exit(f"Bison fails at {path}: {fault}")
    return row


def main():
    parser = argparse.ArgumentParser()
    parser.add_argument("--without-bison", action="store_true")
    parser.add_argument("lrcheck", type=os.path.abspath)
    parser.add_argument("lrt", type=os.path.abspath)
    parser.add_argument("folders", nargs="+", type=Path)
    arguments = parser.parse_args()
    tasks = [(path, options) for path in grammar_files(arguments.folders) for options in WAYS]
    rows = ((our_row(arguments.lrcheck, arguments.lrt, path, options), path) for path, options in tasks)
    rows = ((row, path) for row, path in rows if row)
    print(HEADS + "\n|" + "---|" * (HEADS.count("|") - 1))
    with ThreadPoolExecutor(PROCESSES) as pool:
        told = (row for row, _ in rows) if arguments.without_bison else pool.map(ask_bison, *zip(*rows))
        wholes = [Row("all", options) for options in WAYS]
        for row in told:
            print(row.text(), flush=True)
            wholes[WITHOUT in row.options].add(row)
    print("\n".join(whole.text() for whole in wholes))


if __name__ == "__main__":
    main()
