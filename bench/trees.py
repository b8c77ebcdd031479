#!/usr/bin/env python3
"""Times `lrt tree` beside `lrt run` on long lines: 200,000 tokens of a list that nests leftwards and of one that nests rightwards,
and a token within 100,000 brackets. Prints a row for each: seconds of processor time and MB at the most of both commands.

Needs the program `time` (Debian's package of that name), since what a child inherits from Python would be counted too.
"""

import subprocess
import tempfile
from pathlib import Path

TOP = Path(__file__).resolve().parent.parent
PROGRAM = TOP / "out/lrt"
STEPS = 100_000_000
RUNS = 3
LINES = {
    "200,000 tokens, leftwards": ("%% S: S 'a' | 'a';\n", "a " * 200_000),
    "200,000 tokens, rightwards": ("%% S: 'a' S | 'a';\n", "a " * 200_000),
    "100,000 nested brackets": ("%% S: '(' S ')' | 'a';\n", "( " * 100_000 + "a" + " )" * 100_000),
}


def measured(command, grammar, line):
    """Seconds of processor time and MB at the most, of one run in which the line is accepted."""
    run = subprocess.run(
        ["/usr/bin/time", "-f", "%U %S %M", PROGRAM, command, grammar, str(STEPS)],
        input=line + "\n",
        capture_output=True,
        check=True,
        text=True,
    )
    assert run.stdout.startswith(("accept ", "tree "))
    user, system, most = run.stderr.split()
    return float(user) + float(system), int(most) / 1024


def cells(command, grammar, line):
    runs = [measured(command, grammar, line) for _ in range(RUNS)]
    return f"{min(seconds for seconds, _ in runs):.2f} | {max(most for _, most in runs):.0f}"


def main():
    subprocess.run([TOP / "lrt", "start", TOP / "examples/assignments.y"], check=True, stdout=subprocess.DEVNULL)
    print("| Line | `run`, s | MB | `tree`, s | MB |\n|---|---|---|---|---|")
    for name, (text, line) in LINES.items():
        with tempfile.NamedTemporaryFile("w", suffix=".y") as grammar:
            grammar.write(text)
            grammar.flush()
            print(f"| {name} | {' | '.join(cells(command, grammar.name, line) for command in ('run', 'tree'))} |")


if __name__ == "__main__":
    main()
