"""Whether a parser that is told to accept every sentence does so, for drawn grammars: all texts of a few tokens are run by the
states that `lrcheck --json --states` prints, and the sentences are worked out from the grammar text alone.

    exact.py LRCHECK FIRST COUNT
"""

import json
import random
import subprocess
import sys
from collections import Counter
from itertools import product
from pathlib import Path

from drawn_grammars import drawn_text

LONGEST = 6
STEPS = 1_000
ACCEPTS = "accepts every sentence"
BUT_AT_ERRORS = "rejects sentences only by %nonassoc"


def productions(text):
    """Each rule of the text with its bodies, each a list of symbols."""
    rules = (rule.split(":", 1) for rule in text.split("%%\n")[1].split(";\n") if rule.strip())
    return {name.strip(): [body.split() for body in bodies.split("|")] for name, bodies in rules}


def joined(lists, longest):
    """All lists of one from each, one after another, that are not too long."""
    found = {()}
    for some in lists:
        found = {one + other for one in found for other in some if len(one) + len(other) <= longest}
    return found


def sentences(rules, longest):
    """The texts of the first rule that are not too long."""
    found, is_done = {rule: set() for rule in rules}, False
    while not is_done:
        is_done = True
        for rule, bodies in rules.items():
            for body in bodies:
                new = joined([found.get(it, {(it,)}) for it in body], longest) - found[rule]
                found[rule] |= new
                is_done = is_done and not new
    return found[next(iter(rules))]


class Machine:
    def __init__(self, states):
        self.shifts = [{it["token"]: it["state"] for it in state["shifts"]} for state in states]
        self.gotos = [{it["rule"]: it["state"] for it in state["gotos"]} for state in states]
        self.errors = [set(state["errors"]) for state in states]
        self.reductions = [{token: it for it in state["reductions"] for token in it["tokens"]} for state in states]

    def run(self, text):
        """How it ends: `accept`, `error` where precedences make one, `reject`, or `unfinished`."""
        stack, left = [0], [*text, "$end"]
        for _ in range(STEPS):
            top = stack[-1]
            if left[0] in self.shifts[top]:
                stack.append(self.shifts[top][left.pop(0)])
                if not left:
                    return "accept"
            elif left[0] in self.reductions[top]:
                made = self.reductions[top][left[0]]
                del stack[len(stack) - len(made["body"]) :]
                stack.append(self.gotos[stack[-1]][made["rule"]])
            else:
                return "error" if left[0] in self.errors[top] else "reject"
        return "unfinished"


def check(text, told, counts):
    proved = told["proved"]
    if ACCEPTS not in proved and BUT_AT_ERRORS not in proved:
        counts["nothing told"] += 1
        return
    counts[ACCEPTS if ACCEPTS in proved else BUT_AT_ERRORS] += 1
    rules = productions(text)
    wanted, machine = sentences(rules, LONGEST), Machine(told["automaton"]["states"])
    tokens = sorted({it for bodies in rules.values() for body in bodies for it in body if it not in rules})
    ends = {"accept"} if ACCEPTS in proved else {"accept", "error"}
    for length in range(LONGEST + 1):
        for one in product(tokens, repeat=length):
            how = machine.run(one)
            if how not in ends if one in wanted else how == "accept":
                sys.exit(f"{' '.join(one)} is {'a' if one in wanted else 'no'} sentence: {how}\n{text}")
            counts["lost by %nonassoc"] += one in wanted and how == "error"


def main(lrcheck, first, count):
    counts, texts = Counter(), [drawn_text(random.Random(number)) for number in range(int(first), int(first) + int(count))]
    names = [f"{number}.y" for number in range(len(texts))]
    for name, text in zip(names, texts):
        Path(name).write_text(text)
    lines = subprocess.run([lrcheck, "--json", "--states", *names], capture_output=True, text=True).stdout.splitlines()
    for text, line in zip(texts, lines, strict=True):
        told = json.loads(line)
        if told["verdict"] == "not read":
            counts["without a text"] += 1
        else:
            check(text, told, counts)
    print(", ".join(f"{name}: {number}" for name, number in sorted(counts.items())))
    if not counts[ACCEPTS]:
        sys.exit("none is told to accept every sentence")


if __name__ == "__main__":
    main(*sys.argv[1:])
