#!/usr/bin/env python3
"""Times `lrt run` on the grammar of terms and factors: one line of a million tokens and of two million, and 100,000 and
200,000 lines of nine. Prints a row for each: steps, seconds of processor time, steps a second, and MB at the most.

Needs the program `time` (Debian's package of that name), since what a child inherits from Python would be counted too.
"""

import subprocess
import tempfile
from pathlib import Path

TOP = Path(__file__).resolve().parent.parent
PROGRAM = TOP / "out/lrt"
GRAMMAR = "%% Expr: Expr '+' Term | Term; Term: Term '*' Factor | Factor; Factor: '(' Expr ')' | 'id';\n"
STEPS = 100_000_000
RUNS = 3
SHORT = "id * ( id + id ) + id"


def long_line(tokens):
    """A line of so many tokens, an odd number: a sum of products of two."""
    names = ["id"]
    while len(names) < tokens:
        names += ["*" if len(names) % 4 == 1 else "+", "id"]
    return " ".join(names)


def measured(grammar, lines):
    """Steps in all, seconds of processor time and MB at the most, of one run in which each line is accepted."""
    run = subprocess.run(
        ["/usr/bin/time", "-f", "%U %S %M", PROGRAM, "run", grammar, str(STEPS)],
        input=lines,
        capture_output=True,
        check=True,
        text=True,
    )
    answers = run.stdout.splitlines()
    assert len(answers) == lines.count("\n") and all(answer.startswith("accept ") for answer in answers)
    steps = sum(int(answer.split(":")[0].split()[1]) for answer in answers)
    user, system, most = run.stderr.split()
    return steps, float(user) + float(system), int(most) / 1024


def row(name, grammar, lines):
    runs = [measured(grammar, lines) for _ in range(RUNS)]
    steps, seconds = runs[0][0], min(seconds for _, seconds, _ in runs)
    print(f"| {name} | {steps:,} | {seconds:.2f} | {steps / seconds / 1e6:.1f} million | {max(m for _, _, m in runs):.0f} |")


def main():
    subprocess.run([TOP / "lrt", "start", TOP / "examples/assignments.y"], check=True, stdout=subprocess.DEVNULL)
    print("| Lines | Steps | Seconds | Steps a second | MB |\n|---|---|---|---|---|")
    with tempfile.NamedTemporaryFile("w", suffix=".y") as grammar:
        grammar.write(GRAMMAR)
        grammar.flush()
        for tokens in (1_000_001, 2_000_001):
            row(f"one of {tokens:,} tokens", grammar.name, long_line(tokens) + "\n")
        for lines in (100_000, 200_000):
            row(f"{lines:,} of nine tokens", grammar.name, (SHORT + "\n") * lines)


if __name__ == "__main__":
    main()
