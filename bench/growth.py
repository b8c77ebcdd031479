#!/usr/bin/env python3
"""Times `lrt conflicts` on layered grammars of 500 to 8,000 productions, prints a row for each, and draws the picture.

A grammar is made of blocks of 50 productions: 20 levels of operators over atoms, whose lookaheads travel up and down. Blocks
share operators; each has a keyword of its own, and its atoms may hold the next block, so that blocks hang together.

    growth.py           prints the rows and writes docs/growth.svg
    growth.py SIZE      prints the grammar of so many productions, a multiple of 50

Needs the program `time` (Debian's package of that name), since what a child inherits from Python would be counted too.
"""

import subprocess
import sys
import tempfile
from pathlib import Path

TOP = Path(__file__).resolve().parent.parent
PROGRAM = TOP / "out/lrt"
PICTURE = TOP / "docs/growth.svg"
SIZES = (500, 1000, 2000, 3000, 4000, 5000, 6000, 7000, 8000)
BLOCK = 50
LEVELS = 20
RUNS = 3


def block(n, blocks):
    """The rules of a block: 1 production, 2 for each level, 4 for atoms, 2 for lists, and 3 for options."""
    yield f"Block{n}", [f"'begin{n}' Option{n} Level{n}x0 'end'"]
    for k in range(LEVELS):
        higher = f"Level{n}x{k + 1}" if k + 1 < LEVELS else f"Atom{n}"
        yield f"Level{n}x{k}", [f"Level{n}x{k} 'operator{k}' {higher}", higher]
    yield f"Atom{n}", ["'name'", f"'(' Level{n}x0 ')'", f"'call' '(' List{n} ')'", f"Block{(n + 1) % blocks}"]
    yield f"List{n}", [f"List{n} ',' Level{n}x0", f"Level{n}x0"]
    yield f"Option{n}", ["", f"'option' Option{n}", f"'option{n}'"]


def grammar(size):
    """The text of a grammar whose blocks have so many productions."""
    blocks = size // BLOCK
    rules = [("Text", ["Block0"])]
    for n in range(blocks):
        rules += block(n, blocks)
    assert sum(len(bodies) for _, bodies in rules) == size + 1
    return "%%\n" + "".join(f"{name}: " + " | ".join(bodies) + ";\n" for name, bodies in rules)


def measured(path):
    """Seconds of processor time and MB at the most, of one run."""
    run = subprocess.run(
        ["/usr/bin/time", "-f", "%U %S %M", PROGRAM, "conflicts", path],
        stdout=subprocess.DEVNULL,
        stderr=subprocess.PIPE,
        check=True,
        text=True,
    )
    user, system, most = run.stderr.split()
    return float(user) + float(system), int(most) / 1024


def rows():
    for size in SIZES:
        with tempfile.NamedTemporaryFile("w", suffix=".y") as text:
            text.write(grammar(size))
            text.flush()
            runs = [measured(text.name) for _ in range(RUNS)]
        yield size, min(seconds for seconds, _ in runs), max(most for _, most in runs)


def step(most):
    """The distance between two marks of an axis that ends at `most`, so that there are four to eight of them."""
    unit = 10.0 ** -3
    while True:
        for factor in (1, 2, 5):
            if most / (unit * factor) <= 8:
                return unit * factor
        unit *= 10


def panel(left, title, points):
    """One diagram of the picture: a point for each size, and the straight line from nothing to the last of them."""
    width, height, top = 380, 260, 50
    most_x, most_y = max(x for x, _ in points), max(y for _, y in points) * 1.05

    def place(x, y):
        return f"{left + x / most_x * width:.1f},{top + height - y / most_y * height:.1f}"

    yield f'<text x="{left}" y="{top - 20}" class="title">{title}</text>'
    yield f'<polyline points="{left},{top} {left},{top + height} {left + width},{top + height}" class="axis"/>'
    for x in range(0, most_x + 1, 2000):
        at = left + x / most_x * width
        yield f'<text x="{at:.1f}" y="{top + height + 20}" text-anchor="middle">{x:,}</text>'
    marks = step(most_y)
    for k in range(int(most_y / marks) + 1):
        y = top + height - k * marks / most_y * height
        yield f'<line x1="{left}" y1="{y:.1f}" x2="{left + width}" y2="{y:.1f}" class="mark"/>'
        yield f'<text x="{left - 8}" y="{y + 4:.1f}" text-anchor="end">{k * marks:g}</text>'
    last_x, last_y = points[-1]
    yield f'<polyline points="{place(0, 0)} {place(last_x, last_y)}" class="straight"/>'
    yield f'<polyline points="{" ".join(place(x, y) for x, y in points)}" class="line"/>'
    for x, y in points:
        at_x, at_y = place(x, y).split(",")
        yield f'<circle cx="{at_x}" cy="{at_y}" r="3.5"/>'
    yield f'<text x="{left + width / 2}" y="{top + height + 42}" text-anchor="middle">productions</text>'


def picture(measures):
    yield '<svg xmlns="http://www.w3.org/2000/svg" width="960" height="370" font-family="sans-serif" font-size="13">'
    yield "<style>.axis{fill:none;stroke:#333} .mark{stroke:#ddd} .straight{stroke:#bbb;stroke-dasharray:5 4}"
    yield ".line{fill:none;stroke:#1f5fa8;stroke-width:2} circle{fill:#1f5fa8} .title{font-size:15px;font-weight:bold}</style>"
    yield '<rect width="960" height="370" fill="white"/>'
    yield from panel(70, "lrt conflicts, seconds", [(size, seconds) for size, seconds, _ in measures])
    yield from panel(550, "lrt conflicts, MB at the most", [(size, most) for size, _, most in measures])
    yield "</svg>"


def main():
    if len(sys.argv) > 1:
        print(grammar(int(sys.argv[1])), end="")
        return
    subprocess.run([TOP / "lrt", "start", TOP / "examples/assignments.y"], check=True, stdout=subprocess.DEVNULL)
    print("| Productions | Seconds | MB |\n|---|---|---|")
    measures = []
    for size, seconds, most in rows():
        print(f"| {size:,} | {seconds:.2f} | {most:.0f} |", flush=True)
        measures.append((size, seconds, most))
    PICTURE.write_text("\n".join(picture(measures)) + "\n")


if __name__ == "__main__":
    main()
