#!/usr/bin/env python3
"""Times `lrt start` on each example and on the large text, and prints a row for each: seconds and MB at the most.

Needs the program `time` (Debian's package of that name), since what a child inherits from Python would be counted too.
"""

import subprocess
import tempfile
import time
from pathlib import Path

TOP = Path(__file__).resolve().parent.parent
PROGRAM = TOP / "out/lrt"
RUNS = 5


def measured(path):
    began = time.perf_counter()
    run = subprocess.run(
        ["/usr/bin/time", "-f", "%M", PROGRAM, "start", path],
        stdout=subprocess.DEVNULL,
        stderr=subprocess.PIPE,
        check=True,
        text=True,
    )
    return time.perf_counter() - began, int(run.stderr) / 1024


def row(name, path):
    runs = [measured(path) for _ in range(RUNS)]
    print(f"| `{name}` | {min(s for s, _ in runs):.3f} | {max(m for _, m in runs):.1f} |")


def main():
    subprocess.run([TOP / "lrt", "start", TOP / "examples/assignments.y"], check=True, stdout=subprocess.DEVNULL)
    print("| Grammar | Seconds | MB |\n|---|---|---|")
    for path in sorted((TOP / "examples").glob("*.y")):
        row(path.name, path)
    with tempfile.NamedTemporaryFile("w", suffix=".y") as large:
        subprocess.run(["python3", TOP / "bench/large.py"], check=True, stdout=large)
        row("bench/large.py", large.name)


if __name__ == "__main__":
    main()
