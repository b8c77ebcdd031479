#!/usr/bin/env python3
"""Measures `lrcheck` on small files that could keep it busy for long, and on large ones.

    hostile_conflicts.py LRCHECK

Each file is checked once with the options that stand by it, or with none. A line tells the seconds of processor time and the MB
at the most, and how many there may be; a call is ended after LONGEST seconds. Ends with status 1 where it took more, or did not
end with status 0, 1 or 2.

CONFLICTS are large grammar files with conflicts, for which sentences with two trees are looked for, as `hostile_files.py` hands them
over: each as a number and how the text is made of it.
"""

import os
import subprocess
import sys
import tempfile
from pathlib import Path

LONGEST = 60


def names(letter, count):
    """Names of one letter and a number."""
    return [b"%s%d" % (letter, k) for k in range(count)]


def tokens(count):
    """The line that declares so many tokens."""
    return b"%token " + b" ".join(names(b"T", count)) + b"\n"


def lines(count, line):
    """So many lines, each of its number."""
    return b"".join(line(k) + b"\n" for k in range(count))


def chain(count):
    """Rules from r0 on, each of which derives the next one, up to the last."""
    return lines(count, lambda k: b"r%d: r%d;" % (k, k + 1))


def doubling(count):
    """Rules from r0 on, each of which derives the next one twice: the text of r0 is so long."""
    return lines(count, lambda k: b"r%d: r%d r%d;" % (k, k + 1, k + 1)) + b"r%d: 'x';\n" % count


def alternatives(count, body):
    """Bodies, each of its number, with bars between them."""
    return b" | ".join(body(k) for k in range(count))


CONFLICTS = {
    "rules above two reductions": (2_000, lambda n: b"%% s: r0;\n" + chain(n) + b"r%d: a | b; a: 'x'; b: 'x';" % n),
    "rules below a conflict": (2_000, lambda n: b"%% s: s s | r0;\n" + chain(n) + b"r%d: 'x';" % n),
    "rules above an empty one": (2_000, lambda n: b"%% s: r0 s 'y' | 'y';\n" + chain(n) + b"r%d: 'x' | ;" % n),
    "rules in a round": (
        2_000,
        lambda n: b"%% s: r0 'y';\n" + chain(n) + b"r%d: r0 | 'x';" % n,
    ),
    "empty rules in a round": (
        200,
        lambda n: b"%% s: r0 'x';\n" + lines(n, lambda k: b"r%d: r%d | ;" % (k, (k + 1) % n)),
    ),
    "brackets around two reductions": (
        2_000,
        lambda n: b"%%\n" + lines(n, lambda k: b"r%d: '(' r%d ')';" % (k, k + 1)) + b"r%d: a | b; a: 'x'; b: 'x';" % n,
    ),
    "brackets around what a second token tells": (
        2_000,
        lambda n: b"%%\n"
        + lines(n, lambda k: b"r%d: '(' r%d ')';" % (k, k + 1))
        + b"r%d: a 'x' 'c' | b 'x' 'd'; a: 'k'; b: 'k';" % n,
    ),
    "symbols before the dot": (10_000, lambda n: b"%% s: " + b"'a' " * n + b"s | " + b"'a' " * n + b"s 'e' s | 'x';"),
    "symbols behind the dot": (10_000, lambda n: b"%% s: 'i' s | 'i' s 'e' " + b"'a' " * n + b"s | 'x';"),
    "rules in a body, each of which can be empty": (200, lambda n: b"%% s: " + b"o " * n + b"; o: 'x' | ;"),
    "bytes in the name of a token of a conflict": (
        1_000_000,
        lambda n: b"%token " + b"T" * n + b"\n%% s: s " + b"T" * n + b" s | 'x';",
    ),
    "bytes in the name of a rule of a conflict": (
        1_000_000,
        lambda n: b"%% " + b"r" * n + b": " + b"r" * n + b" " + b"r" * n + b" | 'x';",
    ),
    "tokens of one shift": (
        2_000,
        lambda n: tokens(n) + b"%% e: e op e | 'x';\nop: " + alternatives(n, lambda k: b"T%d" % k) + b";",
    ),
    "tokens of two reductions": (
        2_000,
        lambda n: tokens(n) + b"%% s: a t | b t; a: 'x'; b: 'x';\nt: " + alternatives(n, lambda k: b"T%d" % k) + b";",
    ),
    "operators": (71, lambda n: tokens(n) + b"%% e: 'x' | " + alternatives(n, lambda k: b"e T%d e" % k) + b";"),
    "operators of one level": (
        71,
        lambda n: b"%left " + tokens(n)[7:] + b"%% e: 'x' | " + alternatives(n, lambda k: b"e T%d e" % k) + b";",
    ),
    "conflicts, each of rules of its own": (
        1_000,
        lambda n: tokens(n)
        + b"%% s: "
        + alternatives(n, lambda k: b"T%d s%d" % (k, k))
        + b";\n"
        + lines(n, lambda k: b"s%d: 'i' s%d | 'i' s%d 'e' s%d | 'x';" % (k, k, k, k)),
    ),
    "conflicts that a second token tells": (
        1_000,
        lambda n: tokens(n)
        + b"%% s: "
        + alternatives(n, lambda k: b"T%d a%d 'x' 'c' | T%d b%d 'x' 'd'" % (k, k, k, k))
        + b";\n"
        + lines(n, lambda k: b"a%d: 'k'; b%d: 'k';" % (k, k)),
    ),
    "palindromes": (50, lambda n: tokens(n) + b"%% s: | " + alternatives(n, lambda k: b"T%d s T%d" % (k, k)) + b";"),
    "palindromes of one level": (
        50,
        lambda n: b"%left " + tokens(n)[7:] + b"%% s: %prec T0 | " + alternatives(n, lambda k: b"T%d s T%d" % (k, k)) + b";",
    ),
    "reductions of one cell": (300, lambda n: b"%% s: 'x'" + b" | 'x'" * n + b";"),
    "reductions of one cell that the end tells": (
        6,
        lambda n: tokens(n)
        + b"%% s: 'y' | "
        + alternatives(n, lambda k: b"r%d s T%d" % (k, k))
        + b";\n"
        + lines(n, lambda k: b"r%d: 'x';" % k),
    ),
    "times that a text is doubled": (14, lambda n: b"%% s: s s | r0 'e';\n" + doubling(n)),
    "times that a text is doubled, and a second token tells": (
        14,
        lambda n: b"%% s: r0 a 'c' r0 'd' | r0 b 'c' r0 'e'; a: 'k'; b: 'k';\n" + doubling(n),
    ),
    "times that a text is doubled past all bounds": (
        200,
        lambda n: b"%% s: r0 a r0 | r0 b r0; a: 'k'; b: 'k';\n" + doubling(n),
    ),
}


def optional(count):
    """Rules from r0 on, each of which derives the next one twice, and the last one nothing too: all are empty, and the tree of
    r0 has two nodes more for each rule than the one before."""
    return b"%% s: r0 r0;\n" + lines(count, lambda k: b"r%d: r%d r%d;" % (k, k + 1, k + 1)) + b"r%d: 'x' | ;\n" % count


def operators(count):
    """So many operators of one rule, without levels."""
    return tokens(count) + b"%% e: 'x' | " + alternatives(count, lambda k: b"e T%d e" % k) + b";\n"


def brackets(count):
    """A body with so many brackets on each side."""
    return b"%% s: " + b"'(' " * count + b"s " + b"')' " * count + b"| 'x' | s s;\n"


def one_line(count):
    """So many productions, those of one rule in one line."""
    return (
        tokens(700)
        + b"%% s: "
        + alternatives(count, lambda k: b"T%d r%d" % (k % 700, k // 700))
        + b";\n"
        + lines(count // 700, lambda k: b"r%d: 'x' T%d;" % (k, k % 700))
    )


# What the file is, how it is made, the options, and how many seconds and MB it may take.
MEASURED = [
    ("16 rules, each twice the next one, all of them empty", lambda: optional(15), [], 1, 100),
    ("31 such rules", lambda: optional(30), [], 1, 100),
    ("400 operators without levels", lambda: operators(400), [], 3, None),
    ("10,000 empty alternatives", lambda: b"%% s: " + b" | " * 9_999 + b";\n", [], 2, None),
    ("100,000 empty alternatives", lambda: b"%% s: " + b" | " * 99_999 + b";\n", [], 5, None),
    (
        "2,000 unit rules in a round",
        lambda: b"%% s: r0;\n" + lines(2_000, lambda k: b"r%d: r%d | 'x';" % (k, (k + 1) % 2_000)),
        [],
        2,
        None,
    ),
    ("a body of 4,001 symbols", lambda: brackets(2_000), [], 1, None),
    ("a body of 40,001 symbols", lambda: brackets(20_000), [], 10, 1_000),
    ("a body of 5,000 optional symbols", lambda: b"%% s: " + b"o " * 5_000 + b"; o: 'x' | ;\n", [], 2, None),
    ("10 MB of NUL", lambda: bytes(10_000_000), [], 1, 100),
    ("700,000 productions in one line", lambda: one_line(700_000), [], 15, 1_500),
    ("100,000 precedence lines", lambda: lines(100_000, lambda k: b"%%left T%d" % k) + b"%% s: 'x';\n", [], 1, None),
    ("2,000 operators without levels", lambda: operators(2_000), ["--summary"], 10, 3_000),
]


def call(words):
    """The status, the seconds of processor time, and the MB at the most of a call, which is ended after LONGEST seconds."""
    words = ["timeout", str(LONGEST), *words]
    process = subprocess.Popen(words, stdout=subprocess.DEVNULL, stderr=subprocess.DEVNULL)
    _, status, used = os.wait4(process.pid, 0)
    return os.waitstatus_to_exitcode(status), used.ru_utime + used.ru_stime, used.ru_maxrss / 1024


def main():
    """Measures all, and tells whether all was as it may be."""
    if len(sys.argv) != 2:
        sys.exit(__doc__.split("\n\n")[1].strip())
    is_good = True
    with tempfile.TemporaryDirectory() as room:
        path = Path(room) / "a.y"
        for name, text, options, seconds, size in MEASURED:
            path.write_bytes(text())
            status, took, most = call([sys.argv[1], *options, str(path)])
            is_well = status in (0, 1, 2) and took <= seconds and most <= (size or most)
            is_good = is_good and is_well
            at_most = f"{seconds} s" + (f", {size} MB" if size else "")
            print(f"{name}: {took:.1f} s, {most:.0f} MB of {at_most}{'' if is_well else f': TOO MUCH, status {status}'}")
    sys.exit(0 if is_good else 1)


if __name__ == "__main__":
    main()
