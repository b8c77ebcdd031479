#!/usr/bin/env python3
"""Has each request for memory that one public call makes refused in turn, in all cases of the program lrcalls or in those
that the arguments name. README.md says how the answers are judged. The last line is 'N passed, M failed'.

    calls.py [CASE..]
    calls.py CASE NUMBER    refuses this one request, and prints what is answered

A CASE is one argument: a line that the program prints where it is called without arguments."""

import concurrent.futures
import functools
import itertools
import os
import shlex
import subprocess
import sys
import tempfile
from pathlib import Path

sys.dont_write_bytecode = True
KEPT = Path(__file__).resolve().parent.parent / "out" / "lrcalls"
os.environ["LRT_PROGRAM"] = os.environ.get("LRCALLS_PROGRAM", str(KEPT))
from cases import Case
from rules import Fault
from run import PROGRAMS, Room, Unfit, built_library, main, shown, tell_wrong

PROGRAM = PROGRAMS["lrt"]

# One request is refused, or in the cases of calls that take no memory each one.
ONE = Fault("memory", "refused", False, None)
EACH = Fault("memory", "refused", True, None)
PLAIN = "free-"

# A call with some hundred thousand requests. Those behind its greatest tree are the last ones, which alone are refused.
DEEP, LAST = "parse-deep", 20

# A call of searches, each of which takes what the one before it left, and lets go of that where memory is refused to it.
SEARCHES = "reasons-reasons"

LINES = "begin\nend\n{}, arguments as they were, same answer\n"
ANSWERED, REFUSED = (LINES.format(call).encode() for call in ("answered", "out of memory"))


class Window(Room):
    """A folder in which a case is called, and in which calls are counted in the window alone."""

    def __init__(self, folder, library, name):
        super().__init__(folder, library, Case(name, name.split(), None), {"FAULT_BETWEEN": "1"})


def is_right(found, outs):
    return found.status == 0 and found.err == b"" and found.out in outs


def wrong_at(name, number, found):
    again = shlex.join(["python3", "faults/calls.py", name, str(number)])
    return f"{shown(found)}; to repeat it: {again}"


def try_plain(window, name):
    """Has each request refused. There is to be none. Answers how many there were, and what was wrong."""
    whole, calls = window.call()
    found, _ = window.call(EACH, 1)
    wrong = [wrong_at(name, 1, it) for it in (whole, found) if not is_right(it, [ANSWERED])]
    if calls["memory"]:
        wrong.append(f"there are {calls['memory']} requests for memory")
    return calls["memory"], wrong


def try_requests(window, name):
    """Has each request refused in turn, or the last ones, until none is met. Answers how many were refused, and what was
    wrong."""
    whole, calls = window.call()
    first = max(1, calls["memory"] + 1 - LAST) if name == DEEP else 1
    wrong = [] if is_right(whole, [ANSWERED]) else [wrong_at(name, 0, whole)]
    less = 0
    for number in itertools.count(first):
        found, counts = window.call(ONE, number)
        is_met = any(found.faults)
        if not is_right(found, [ANSWERED, REFUSED] if is_met else [ANSWERED]):
            wrong.append(wrong_at(name, number, found))
        if found.out == REFUSED and name.startswith(SEARCHES):
            less = less or min(0, counts["held"])
        if found.out == REFUSED and counts["held"] not in (0, less):
            wrong.append(f"{counts['held']} blocks more are held behind the call; {wrong_at(name, number, found)}")
        if found.status is None or not is_met:
            break
    if not wrong and number - 1 != calls["memory"]:
        wrong.append(f"requests were refused until {number - 1}, though there are {calls['memory']}")
    return number - first, wrong


def outcome(library, name):
    with tempfile.TemporaryDirectory() as folder:
        window = Window(folder, library, name)
        return (try_plain if name.startswith(PLAIN) else try_requests)(window, name)


def try_all(library, names):
    """Tries all cases, and answers an outcome for each."""
    outcomes, refused = [], 0
    with concurrent.futures.ProcessPoolExecutor(os.cpu_count()) as workers:
        for name, (count, wrong) in zip(names, workers.map(functools.partial(outcome, library), names, chunksize=8)):
            refused += count
            tell_wrong(Case(name, None, None), wrong)
            outcomes.append("failed" if wrong else "passed")
    print(f"{refused} requests for memory refused")
    return outcomes


def show_one(library, name, number):
    """Refuses one request, prints what is answered, and answers the outcome."""
    with tempfile.TemporaryDirectory() as folder:
        window = Window(folder, library, name)
        found, calls = window.call(EACH if name.startswith(PLAIN) else ONE, number)
    print(f"{shown(found)}; requests: {calls['memory']}, refused: {sum(found.faults)}")
    return ["passed" if is_right(found, [ANSWERED, REFUSED]) else "failed"]


def listed_names():
    listed = subprocess.run([PROGRAM], stdout=subprocess.PIPE, text=True)
    if listed.returncode or not listed.stdout:
        raise Unfit(f"{PROGRAM} lists no cases")
    return listed.stdout.splitlines()


def outcomes_of(words):
    if not PROGRAM.exists():
        raise Unfit(f"there is no {PROGRAM}: ./test calls builds it")
    with tempfile.TemporaryDirectory() as folder:
        library = built_library(folder, [PROGRAM])
        names = listed_names()
        if len(words) == 2 and words[0] in names and words[1].isdecimal():
            return show_one(library, words[0], int(words[1]))
        for word in words:
            if word not in names:
                raise Unfit(f"there is no case {word}")
        return try_all(library, words or names)


if __name__ == "__main__":
    sys.exit(main(sys.argv[1:], outcomes_of))
