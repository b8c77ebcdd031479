#!/usr/bin/env python3
"""Writes a large grammar text: layered rules of many levels, 3,000 productions over 500 tokens.

Each level has the form of an operator of its own, and one of its rules comes from the far end of the layers, so that
lookaheads travel both down and up.
"""

LEVELS = 250
TOKENS = 500
PRODUCTIONS = 3000


def level(n):
    left, right = f"'left{n}'", f"'right{n}'"
    higher = f"Level{n + 1}" if n + 1 < LEVELS else "Atom"
    back = f"Level{LEVELS - 1 - n}"
    return [
        higher,
        f"Level{n} {left} {higher}",
        f"Level{n} {right} {higher}",
        f"{left} {higher}",
        f"{right} {back} {left}",
        f"{left} {back} {right} {higher}",
        f"Option{n} {right} {higher}",
    ]


def option(n):
    return ["", f"'left{n}' 'left{n}'", f"'right{n}' Option{n}", f"Option{(n + 1) % LEVELS} 'left{n}'"]


def rules():
    yield "Text", ["Level0"]
    for n in range(LEVELS):
        yield f"Level{n}", level(n)
        yield f"Option{n}", option(n)
    yield "Atom", ["'left0' Level0 'right0'"]


def main():
    written = list(rules())
    count = sum(len(bodies) for _, bodies in written)
    spare = [f"'left{n % LEVELS}' 'right{n % LEVELS}' 'left{(n + 7) % LEVELS}'" for n in range(PRODUCTIONS - count)]
    written[-1][1].extend(spare)
    assert sum(len(bodies) for _, bodies in written) == PRODUCTIONS
    assert 2 * LEVELS == TOKENS
    print("%token " + "\n    ".join(f"'left{n}' 'right{n}'" for n in range(LEVELS)))
    print("%%")
    for name, bodies in written:
        print(f"{name}: " + "\n    | ".join(bodies) + "\n    ;")


if __name__ == "__main__":
    main()
