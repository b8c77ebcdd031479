#!/usr/bin/env python3
"""Compares the options that lrcheck tells by --help with those that docs/LRCHECK.md, its page for man and its completions
tell. These may know further ones, but all the same. Where a completion tells what an option does, it has the words of the
help. A line is printed for each difference."""

import os
import re
import subprocess
import sys
from pathlib import Path

TOP = Path(os.environ["TOP"])
NAME = re.compile("--[a-z-]+")


def printed(option):
    return subprocess.run([os.environ["LRCHECK"], option], capture_output=True, text=True, check=True).stdout


def of_help():
    """Each option with what it does."""
    return dict(re.findall(r"^ +(?:-\w, )?(--[a-z-]+)(?: <[^>]+>)? +(\S.*)$", printed("--help"), re.MULTILINE))


def of_document():
    rows = [row for row in (TOP / "docs/LRCHECK.md").read_text().splitlines() if row.startswith("`--")]
    return {name for row in rows for name in NAME.findall(row.split(" | ")[0])}


def of_page(page):
    section = page.split(".SH OPTIONS\n")[1].split(".SH ")[0].replace("\\-", "-")
    return {name for part in section.split(".TP\n")[1:] for name in NAME.findall(part.split("\n")[0])}


def of_bash():
    return set(NAME.findall(re.search("options='(.*?)'", (TOP / "completions/lrcheck.bash").read_text(), re.DOTALL)[1]))


def of_zsh():
    return dict(re.findall(r"(--[a-z-]+)[=}]*'?\[(.*?)\]", (TOP / "completions/lrcheck.zsh").read_text()))


def of_fish():
    found = re.findall(" -l ([a-z-]+) .*-d '(.*)'$", (TOP / "completions/lrcheck.fish").read_text(), re.MULTILINE)
    return {"--" + name: words for name, words in found}


def differences():
    told, page = of_help(), (TOP / "man/lrcheck.1").read_text()
    if "--all" not in told:
        yield "the help tells no options"
    if f'"{printed("--version").strip()}"' not in page.split("\n")[0]:
        yield "the page has another version"
    for name in sorted(told.keys() - of_document()):
        yield f"{name} is not in docs/LRCHECK.md"
    known = {"page": of_page(page), "bash": of_bash(), "zsh": of_zsh(), "fish": of_fish()}
    names = set(told).union(*known.values())
    for place, options in known.items():
        for name in sorted(names - set(options)):
            yield f"{place} lacks {name}"
        if isinstance(options, dict):
            for name in sorted(told.keys() & options.keys()):
                if told[name] != options[name]:
                    yield f"{place} tells of {name}: {options[name]}"


if __name__ == "__main__":
    found = [*differences()]
    print(*found, sep="\n", end="\n" if found else "")
    sys.exit(1 if found else 0)
