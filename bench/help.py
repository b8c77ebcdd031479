#!/usr/bin/env python3
"""Does what the help of `lrcheck` says, and looks whether it helps.

    help.py LRCHECK LRT [--drawn N] [FILE..]

Of each FILE, and of N drawn grammars (500 unless it is said), each help of `lrcheck --all` that proposes levels is applied to the
text: the precedence lines are put above or below those that are there, in each way that the help leaves open. Then the conflict
has to be gone, and no other may have come; and of a drawn grammar just the same lists of at most six tokens have to be accepted
as before, which `lrt run` tells. Where Bison is installed, all conflicts are with a shift, and the IELR automaton has as many,
this has to be so behind the help too. What the help for `%expect` says has to make the file one as expected.

Each help that fails is told with its grammar; ends with status 1 where there is one, or where no help was applied. What is drawn is the same in each run.
"""

import argparse
import itertools
import json
import random
import re
import shutil
import subprocess
import sys
import tempfile
from collections import Counter
from pathlib import Path

TOP = Path(__file__).resolve().parent.parent
sys.dont_write_bytecode = True
sys.path.insert(0, str(TOP / "runs"))
from drawn_grammars import drawn_text

NEW = "HELPED"  # A token for `%prec` that stands in no rule.
LONGEST = 6
STEPS = 1_000
EXPECTED = re.compile(r"^help: .*say (%expect \d+)$", re.MULTILINE)
BLOCK = re.compile(r"^conflict: .*?(?=^$)", re.MULTILINE | re.DOTALL)
HELP = re.compile(r"^ *= help: (.*)$", re.MULTILINE)

ABOVE, BELOW = "above", "below"  # Whether the lines behind it stand above or below those of the file.

# What a help proposes, in each way that it leaves open: by its words, precedence lines, and the token for `%prec`.
PROPOSALS = [
    (
        r"to keep the shift, give (?!this)(.+) a level by (%\w+), and (.+) one in a line below it.*",
        [BELOW, "{1} {0}", "{1} {2}"],
        None,
    ),
    (
        r"to keep the shift, give (?!this)(.+) a level by (%\w+), and (.+) one in a line below it; the other way round.*",
        [BELOW, "{1} {2}", "{1} {0}"],
        None,
    ),
    (r"give (.+) one level by %left or %right to resolve it", [BELOW, "%left {0}"], None),
    (r"give (.+) one level by %left or %right to resolve it", [BELOW, "%right {0}"], None),
    (r"to keep the shift, give (.+) one level by %right, in a line below all others", [BELOW, "%right {0}"], None),
    (r"give (?!this)(.+) a level by (%\w+): in a line above all others to keep the shift.*", [ABOVE, "{1} {0}"], None),
    (r"give (?!this)(.+) a level by (%\w+): in a line below all others to keep the shift.*", [BELOW, "{1} {0}"], None),
    (r"give (?!this)(.+) a level by (%\w+): .*, above them to reduce", [ABOVE, "{1} {0}"], None),
    (r"give (?!this)(.+) a level by (%\w+): .*, below them to reduce", [BELOW, "{1} {0}"], None),
    (
        r"give this production %prec NAME, and NAME a level by %\w+: in a line above all others to keep the shift.*",
        [ABOVE, f"%precedence {NEW}"],
        NEW,
    ),
    (r"give this production %prec NAME, and NAME a level by %\w+: .*, below them to reduce", [BELOW, f"%precedence {NEW}"], NEW),
    (
        r"to keep the shift, give this production %prec NAME, NAME a level by %\w+, and (.+) one in a line below it",
        [BELOW, f"%precedence {NEW}", "%precedence {0}"],
        NEW,
    ),
    (
        r"to keep the shift, give this production %prec NAME, NAME a level by %\w+ in a line above all others, and (.+) one in a line below them",
        [ABOVE, f"%precedence {NEW}", BELOW, "%precedence {0}"],
        NEW,
    ),
]


def call(words, given=""):
    """What a call prints; what it is given stands on standard input."""
    return subprocess.run(words, input=given, capture_output=True, text=True, errors="replace", timeout=120).stdout


def names_of(words):
    """The tokens that a help names, with blanks between them."""
    return " ".join(re.findall(r"'(?:\\.|[^'\\])+'|\"(?:\\.|[^\"\\])*\"|[\w.]+", re.sub(r"\band\b", " ", words)))


def changed(text, lines, conflict, token):
    """The text with precedence lines above its first line or before its rules, and with `%prec` behind the production of a
    conflict."""
    rows = text.split("\n")
    if token:
        place = conflict["reduce"]
        row = rows[place["end_line"] - 1]
        at = place["end_column"] - 1
        rows[place["end_line"] - 1] = f"{row[:at]} %prec {token} {row[at:]}"
    first = next(number for number, row in enumerate(rows) if row.startswith("%%"))
    parts = {ABOVE: [], BELOW: []}
    for line in lines:
        if line in parts:
            part = parts[line]
        else:
            part.append(line)
    return "\n".join(parts[ABOVE] + rows[:first] + parts[BELOW] + rows[first:])


def key(conflict):
    """What meets in a conflict, without the number of the state."""
    name = lambda it: it and (it["rule"], tuple(it["body"]))
    return conflict["kind"], tuple(conflict["tokens"]), name(conflict["reduce"]), name(conflict.get("other"))


class Checker:
    """Calls of `lrcheck`, `lrt` and Bison on texts, which are written into a folder."""

    def __init__(self, lrcheck, lrt, room):
        self.lrcheck, self.lrt, self.path = lrcheck, lrt, Path(room) / "a.y"

    def conflicts(self, text):
        """The conflicts of a text as JSON tells them, each token by itself; None where it is no grammar."""
        self.path.write_text(text, errors="surrogateescape")
        told = json.loads(call([self.lrcheck, "--json", "--all", "--steps=0", str(self.path)]))
        return None if told["verdict"] == "not read" else told["conflicts"]

    def helps(self, text):
        """The help of each conflict in turn, and that for the file."""
        self.path.write_text(text, errors="surrogateescape")
        report = call([self.lrcheck, "--plain", "--all", str(self.path)])
        expected = EXPECTED.search(report)
        return [HELP.search(block.group()) for block in BLOCK.finditer(report)], expected and expected.group(1)

    def status(self, text):
        self.path.write_text(text, errors="surrogateescape")
        return subprocess.run([self.lrcheck, "--summary", str(self.path)], capture_output=True).returncode

    def accepted(self, text, tokens):
        """Which lists of few tokens the table accepts."""
        self.path.write_text(text)
        grammar = call([self.lrcheck, "--grammar", str(self.path)])
        lists = [" ".join(it) for size in range(LONGEST + 1) for it in itertools.product(tokens, repeat=size)]
        self.path.write_text(grammar)
        answers = call([self.lrt, "run", str(self.path), str(STEPS)], "\n".join(lists) + "\n").split("\n")
        return [answer.split(" ")[0] for answer in answers[: len(lists)]]

    def bison(self, text):
        """How many conflicts Bison counts; None where it is not installed."""
        if not shutil.which("bison"):
            return None
        self.path.write_text(re.sub(r"^%expect.*$", "", text, flags=re.MULTILINE), errors="surrogateescape")
        words = ["bison", "-Wno-all", "-Wconflicts-sr", "-Wconflicts-rr", "-Dlr.type=ielr", "-o", f"{self.path}.c", str(self.path)]
        told = subprocess.run(words, capture_output=True, text=True, errors="replace").stderr
        return sum(int(it) for it in re.findall(r"(\d+) (?:shift|reduce)/reduce conflict", told))


def proposed(words):
    """In each way that a help leaves open: the precedence lines, and the token for `%prec`."""
    for pattern, lines, token in PROPOSALS:
        if match := re.fullmatch(pattern, words):
            parts = [it if it.startswith("%") else names_of(it) for it in match.groups()]
            yield [line.format(*parts) for line in lines], token


def faults_of(checker, text, tokens):
    """What is wrong with the helps of a text, and how many of them were applied. These are the tokens where sentences are tried."""
    before = checker.conflicts(text)
    helps, expected = checker.helps(text)
    accepted = tokens and checker.accepted(text, tokens)
    is_compared = all(it["kind"] == "shift/reduce" for it in before) and checker.bison(text) == len(before)
    count = 0
    if expected and checker.status(f"{expected}\n{text}") != 0:
        yield expected, "not as expected"
    for conflict, found in zip(before, helps):
        for lines, token in proposed(found.group(1)) if found else []:
            told = f"{found.group(1)} | {lines} | {key(conflict)}"
            after_text = changed(text, lines, conflict, token)
            after = checker.conflicts(after_text)
            if after is None:
                yield told, "no grammar"
                continue
            left, known = Counter(map(key, after)), Counter(map(key, before))
            if left[key(conflict)] >= known[key(conflict)]:
                yield told, "the conflict is still there"
            if left - known:
                yield told, f"others came: {list(left - known)}"
            if tokens and checker.accepted(after_text, tokens) != accepted:
                yield told, "other lists are accepted"
            if is_compared and checker.bison(after_text) != len(after):
                yield told, "Bison counts others"
            count += 1
    yield None, count


def main():
    words = argparse.ArgumentParser()
    words.add_argument("lrcheck")
    words.add_argument("lrt")
    words.add_argument("files", nargs="*", type=Path)
    words.add_argument("--drawn", type=int, default=500)
    given = words.parse_args()
    texts = [(str(it), it.read_text(errors="surrogateescape"), None) for it in given.files]
    for number in range(given.drawn):
        text = drawn_text(random.Random(number))
        texts.append((f"drawn {number}", text, re.findall(r"'(\w)'", text.split("\n")[0])))
    count, bad = 0, 0
    with tempfile.TemporaryDirectory() as room:
        checker = Checker(given.lrcheck, given.lrt, room)
        for name, text, tokens in texts:
            if checker.conflicts(text) is None:
                continue
            for told, fault in faults_of(checker, text, tokens):
                if told is None:
                    count += fault
                    continue
                bad += 1
                print(f"{name}: {fault}: {told}")
                if tokens:
                    print("   " + text.replace("\n", "\n   "))
    print(f"{count} helps were applied, {bad} of them are bad")
    sys.exit(1 if bad or not count else 0)


if __name__ == "__main__":
    main()
