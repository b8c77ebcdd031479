#!/usr/bin/env python3
"""drawn.py PROGRAM: whether PROGRAM answers drawn grammar texts, whole and damaged ones, as the definitions say. The texts are the same
at each call. Many have `%prec`, with names that are old and new, and at places where it may not stand."""

import random
import subprocess
import sys
from collections import Counter
from pathlib import Path

import definitions

TEXTS = 600
NAMES = ("a", "b", "S", "A", "U")
PIECES = (" %prec ", " %prec a ", " /* ", " // ", " | ", " ; ", "'", "%")


def drawn_name(draw):
    return draw.choice(("%s", "'%s'", '"%s"')) % draw.choice(NAMES)


def drawn_line(draw):
    names = draw.sample(NAMES, draw.randrange(1, 3))
    return " ".join((draw.choice(("%token", "%left", "%right", "%nonassoc")), *names))


def drawn_body(draw):
    names = [drawn_name(draw) for _ in range(draw.randrange(4))]
    return " ".join(names + ["%prec", drawn_name(draw)] * (draw.random() < 0.4))


def drawn_text(draw):
    lines = ["%token a b U"] * (draw.random() < 0.7) + [drawn_line(draw) for _ in range(draw.randrange(3))]
    rules = [
        f"{rule}: {' | '.join(drawn_body(draw) for _ in range(draw.randrange(1, 4)))};"
        for rule in draw.sample(("S", "A", "B"), draw.randrange(1, 4))
    ]
    return " ".join((*lines, "%%", *rules))


def damaged(draw, text):
    at = draw.randrange(len(text))
    behind = at + draw.randrange(2)
    return text[:at] + draw.choice(("", text[at], draw.choice(PIECES))) + text[behind:]


def owed(program, text, command, *numbers, lines=b""):
    """The answer to the text and the lines by the definitions, which the program gives."""
    Path("a.y").write_text(text)
    arguments = [command, "a.y", *numbers]
    wanted = definitions.answer(arguments, text.encode(), lines)
    done = subprocess.run([program, *arguments], input=lines, capture_output=True)
    if wanted != (done.returncode, done.stdout, done.stderr):
        sys.exit(f"{command} of {text!r} and {lines!r}: {done}, and not {wanted}")
    return wanted


def main(program):
    draw = random.Random(1977)
    outcomes = Counter()
    for k in range(TEXTS):
        text = drawn_text(draw)
        for _ in range(k % 3):
            text = damaged(draw, text)
        _, _, fault = owed(program, text, draw.choice(definitions.LISTINGS))
        if "%prec" in text:
            outcomes[b" ".join(fault.split()[1:2])] += 1
    if min(outcomes[b""], outcomes[b"syntax"], outcomes[b"unknown"]) < TEXTS // 20:
        sys.exit(f"too few of a kind: {outcomes}")


if __name__ == "__main__":
    main(sys.argv[1])
