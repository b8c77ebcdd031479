#!/usr/bin/env python3
"""Hands `lrt start` bad and odd texts: each must be a grammar, or one fault line that the formats name.

For each example, at each of its bytes: the beginning up to there, and the text with that byte deleted, doubled or turned into
another. Then some odd texts, and long ones, each at one length and at twice that length: the second may take at most three
times as long.
"""

import re
import subprocess
import sys
import time
from concurrent.futures import ThreadPoolExecutor
from pathlib import Path

TOP = Path(__file__).resolve().parent.parent
PROGRAM = TOP / "out/lrt"
FAULT = re.compile(
    rb"lrt: (syntax error at byte \d+|unknown symbol .+|token .+ has two precedences|too many (rules|tokens|productions)"
    rb"|production too long|symbol out of range|rule without production|reserved rule name|duplicate name"
    rb"|mixed precedence level|no start rule|standard input is not UTF-8)\n",
    re.DOTALL,
)
OTHERS = b"%'\":;|/* \n\x00\xff"


def answer(text):
    run = subprocess.run([PROGRAM], input=text, capture_output=True, timeout=60)
    if run.returncode == 0:
        return run.stdout.startswith(b"[") and run.stderr == b""
    return run.returncode == 1 and run.stdout == b"" and FAULT.fullmatch(run.stderr) is not None


def variants(text):
    for at in range(len(text)):
        yield text[:at]
        yield text[:at] + text[at + 1 :]
        yield text[: at + 1] + text[at:]
        yield text[:at] + OTHERS[at % len(OTHERS) :][:1] + text[at + 1 :]


ODD = {
    "other scripts in quotes": "%% S: 'это' \"日本\" | 'é';".encode(),
    "a carriage return in a quote": b"%% S: 'a\r';",
    "a quote over a line's end": b"%% S: 'a\n';",
    "a lone %": b"% %% S: ;",
    "a rule and a token of one name": b"%% S: 'S' S | ;",
    "tokens named like marks": b"%% S: ':' ';' '|' '%%' '%start';",
    "a %prec that names nothing": b"%% S: %prec;",
    "a %prec in the midst of a body": b"%% S: 'a' %prec 'b' 'c';",
    "a %prec that names a rule": b"%% S: 'a' %prec S;",
}

LONG = {
    "alternatives": (100_000, lambda n: b"%% S: 'a'" + b" | 'a'" * n + b";"),
    "letters in a name": (1_000_000, lambda n: b"%% " + b"n" * n + b": ;"),
    "symbols in a body": (100_000, lambda n: b"%% S: " + b"'a' " * n + b";"),
    "openings in a comment": (1_000_000, lambda n: b"/*" * n + b"*/ %% S: ;"),
    "comments": (1_000_000, lambda n: b"/**/" * n + b" %% S: ;"),
    "blanks": (2_000_000, lambda n: b" " * n + b"%% S: ;"),
    "stars in an unclosed comment": (1_000_000, lambda n: b"%% S: ; /*" + b" *" * n),
    "letters in an unclosed quote": (2_000_000, lambda n: b"%% S: '" + b"a" * n),
    "rules": (50_000, lambda n: b"%% " + b"".join(b"r%d: r%d; " % (k, (k * 7) % n) for k in range(n))),
    "tokens in a line": (100_000, lambda n: b"%token " + b" ".join(b"t%d" % k for k in range(n)) + b" %% S: ;"),
    "tokens in a precedence line": (100_000, lambda n: b"%left " + b" ".join(b"t%d" % k for k in range(n)) + b" %% S: ;"),
    "precedence lines": (100_000, lambda n: b"".join(b"%%left t%d " % k for k in range(n)) + b"%% S: ;"),
    "alternatives with %prec": (100_000, lambda n: b"%% S: 'a'" + b" | 'a' %prec b" * n + b";"),
    "bytes behind the second %%": (2_000_000, lambda n: b"%% S: ; %%" + b"'" * n),
}


def seconds(text):
    began = time.perf_counter()
    if not answer(text):
        sys.exit(f"{text[:60]!r}...")
    return time.perf_counter() - began


def main():
    subprocess.run([TOP / "lrt", "start", TOP / "examples/assignments.y"], check=True, stdout=subprocess.DEVNULL)
    with ThreadPoolExecutor() as pool:
        for path in sorted((TOP / "examples").glob("*.y")):
            text = path.read_bytes()
            for variant, well in zip(variants(text), pool.map(answer, variants(text))):
                if not well:
                    sys.exit(f"{path.name}: {variant!r}")
            print(f"{path.name}: {4 * len(text)} variants, each a grammar or one fault line")
    for name, text in ODD.items():
        if not answer(text):
            sys.exit(name)
    print(f"{len(ODD)} odd texts: each a grammar or one fault line")
    for name, (length, text) in LONG.items():
        once, twice = (min(seconds(text(n)) for _ in range(3)) for n in (length, 2 * length))
        print(f"{length} and {2 * length} {name}: {once:.2f} s and {twice:.2f} s")
        if twice > 3 * once + 0.05:
            sys.exit(f"the time grows faster than the length: {name}")


if __name__ == "__main__":
    main()
