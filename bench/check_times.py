#!/usr/bin/env python3
"""Times `lrcheck` beside `lrt conflicts` and Bison on grammar files, whole processes, the least of five.

    check_times.py LRCHECK LRT FOLDER..

Takes the files `.y`, `.yy` and `.ypp` that are named or in the folders, and leaves out what `lrcheck` refuses. For each it prints
a row: milliseconds of processor time of `lrcheck --summary`, and those of others with the ratio to them: `lrt conflicts` on the
same grammar; Bison as it is called, which writes a parser; Bison with an empty skeleton, which makes the tables alone, LALR and
IELR. Then the milliseconds that reading alone takes, `lrcheck --grammar`. The last row adds up the files that have all. `lrt`
gets the grammar from `lrcheck --grammar`; where this option is not known, from the file NAME.y of `--texts FOLDER`, or not at all.

Needs Bison 3.8.2; what it writes goes to a temporary folder. Times of a busy machine are told, ratios are what counts: the calls
on a file take turns.
"""

import argparse
import math
import os
import re
import subprocess
import sys
import tempfile
from pathlib import Path

sys.dont_write_bytecode = True
from processes import called, grammar_files, ratio

RUNS = 5
SLOWEST = 5  # Seconds, past which a call is made once.


def seconds_of(words, folder, output=None):
    """The status of a call in a folder and its seconds of processor time; what it prints goes to a file, if one is named."""
    return called(words, output or folder / "printed", cwd=folder, stderr=subprocess.DEVNULL)


def least(calls, folder):
    """The least seconds of each of the named calls, which take turns; None for one that ends with another status than it may."""
    times = {name: [] for name in calls}
    for _ in range(RUNS):
        for name, (words, most) in calls.items():
            if times[name] and times[name][0] > SLOWEST:
                continue
            status, seconds = seconds_of(words, folder)
            times[name].append(seconds if 0 <= status <= most else math.inf)
    return {name: None if math.inf in runs else min(runs) for name, runs in times.items()}


def options_of(program):
    """The options that the program knows."""
    run = subprocess.run([program, "--help"], capture_output=True, text=True)
    return set(re.findall(r"--[\w-]+", run.stdout))


def text_of(lrcheck, has_grammar, path, texts, folder):
    """The grammar of a file as `lrt` reads it; None where it is not to be had."""
    if not has_grammar:
        text = texts / f"{path.stem}.y" if texts else None
        return text if text and text.exists() else None
    text = folder / "grammar.y"
    status, _ = seconds_of([lrcheck, "--grammar", path], folder, text)
    return text if status < 2 else None


def calls_on(lrcheck, lrt, has_grammar, path, texts, folder):
    """The calls on a file, by name, each with the greatest status that it may end with."""
    (folder / "empty.m4").touch()
    bison = ["bison", "-Wnone", "-o", "made.c"]
    # With an empty skeleton each `%define` is a fault, which Bison tells when it has the tables.
    tables = [*bison, "-S", "./empty.m4"]
    calls = {
        "check": ([lrcheck, "--summary", path], 1),
        "bison": ([*bison, path], 0),
        "lalr": ([*tables, "-Flr.type=lalr", path], 1),
        "ielr": ([*tables, "-Flr.type=ielr", path], 1),
    }
    text = text_of(lrcheck, has_grammar, path, texts, folder)
    if text:
        calls["lrt"] = ([lrt, "conflicts", text], 0)
    if has_grammar:
        calls["read"] = ([lrcheck, "--grammar", path], 0)
    return calls


def told(seconds):
    """Seconds as milliseconds."""
    return "?" if seconds is None else f"{1000 * seconds:.1f}"


def row(name, times):
    """A row of times and ratios."""
    check = times["check"]
    kinds = ("lrt", "bison", "lalr", "ielr")
    others = [cell for kind in kinds for cell in (told(times.get(kind)), ratio(check, times.get(kind)))]
    read = times.get("read")
    return f"| {' | '.join([name, told(check), *others, told(read), ratio(read, check)])} |"


def main():
    parser = argparse.ArgumentParser()
    parser.add_argument("lrcheck", type=os.path.abspath)
    parser.add_argument("lrt", type=os.path.abspath)
    parser.add_argument("folders", nargs="+", type=Path)
    parser.add_argument("--texts", type=Path, help="a folder of grammars for lrt, NAME.y each")
    arguments = parser.parse_args()
    has_grammar = "--grammar" in options_of(arguments.lrcheck)
    heads = (
        "| File | `lrcheck`, ms | `lrt`, ms | to it | Bison, ms | to it | LALR, ms | to it | IELR, ms | to it "
        "| Reading, ms | of `lrcheck` |"
    )
    print(heads + "\n|" + "---|" * (heads.count("|") - 1))
    rows = []
    with tempfile.TemporaryDirectory() as name:
        folder = Path(name)
        for path in grammar_files(arguments.folders):
            path = path.resolve()
            if seconds_of([arguments.lrcheck, "--summary", path], folder)[0] not in (0, 1):
                continue
            calls = calls_on(arguments.lrcheck, arguments.lrt, has_grammar, path, arguments.texts, folder)
            times = least(calls, folder)
            print(row(f"`{path.parent.name}/{path.name}`", times), flush=True)
            rows.append(times)
    if not rows:
        sys.exit("no file that lrcheck reads")
    whole = [times for times in rows if None not in times.values() and len(times) == max(map(len, rows))]
    names = set().union(*whole)
    print(row(f"{len(whole)} of {len(rows)} files", {name: sum(times[name] for times in whole) for name in names}))


if __name__ == "__main__":
    main()
