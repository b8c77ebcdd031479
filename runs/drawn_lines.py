#!/usr/bin/env python3
"""drawn_lines.py PROGRAM: whether PROGRAM answers drawn lines, by `run` and by `tree`, as the definitions say. Their grammar texts are
drawn too, and all is the same at each call."""

import random
import sys
from collections import Counter

import definitions
import drawn

TEXTS = 300
LINES = 20
NODES = 20
STEPS = ("12", "60")
LEVELS = ("%left '+'", "%right b", "%nonassoc a")
SYMBOLS = ("S", "A", "B", "'a'", "'a'", "'b'", "'+'", "'+'")
COMMANDS = {"run": b"accept", "tree": b"tree"}
OTHERS = (b"reject", b"unfinished", b"unknown")


def drawn_text(draw):
    levels = draw.sample(LEVELS, draw.randrange(4))
    bodies = lambda: (" ".join(draw.choices(SYMBOLS, k=draw.randrange(4))) for _ in range(draw.randrange(2, 5)))
    return " ".join((*levels, "%%", *(f"{rule}: {' | '.join(bodies())};" for rule in draw.choice(("SAB", "SABA")))))


def drawn_words(draw, grammar):
    """Words that the start rule gives by so many productions at the most, which are drawn one after another. The rules that are
    left then give nothing."""
    words, to_write, nodes = [], [*grammar.prods[-1][1]], 0
    while to_write:
        symbol = to_write.pop(0)
        if isinstance(symbol, int):
            words.append(grammar.tokens[symbol])
        elif nodes < NODES:
            nodes += 1
            to_write[:0] = draw.choice([body for rule, body in grammar.prods if rule == symbol])
    return words


def drawn_line(draw, grammar):
    words = drawn_words(draw, grammar)
    if draw.random() < 0.2:
        words.insert(draw.randrange(len(words) + 1), draw.choice((*grammar.tokens, b"c")))
    return b" ".join(words)


def main(program):
    draw = random.Random(2026)
    outcomes = Counter((command, word) for command in COMMANDS for word in (COMMANDS[command], *OTHERS))
    for _ in range(TEXTS):
        text, command, steps = drawn_text(draw), draw.choice((*COMMANDS,)), draw.choice(STEPS)
        grammar = definitions.meaning(definitions.read(text.encode()))
        lines = b"\n".join(drawn_line(draw, grammar) for _ in range(LINES))
        _, out, _ = drawn.owed(program, text, command, steps, lines=lines)
        outcomes.update((command, line.split()[0]) for line in out.splitlines())
    if min(outcomes.values()) < TEXTS // 4:
        sys.exit(f"too few of a kind: {outcomes}")


if __name__ == "__main__":
    main(sys.argv[1])
