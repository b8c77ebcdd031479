#!/usr/bin/env python3
"""marks.py LRCHECK FILE..: whether the trees in brackets that LRCHECK prints of the conflicts of files are parts of those that it
tells as JSON, with marks in place of the middle of chains alone. Prints of each file how many conflicts have two trees, and at
how many there are marks."""

import subprocess
import sys

import brackets
import reasons
import texts


def check(lrcheck, path):
    """The trees of each conflict of a file, of which it gives back those that are printed."""
    told = texts.told_of(lrcheck, path)
    printed = subprocess.run([lrcheck, "--plain", "--all", path], capture_output=True, text=True).stdout
    blocks = brackets.blocks(printed).get(path, [])
    known = [(it["ambiguity"], block.trees) for it, block in zip(told.file["conflicts"], blocks, strict=True) if it["ambiguity"]]
    for ambiguity, trees in known:
        reasons.check_brackets(told, ambiguity, reasons.pair_of(told, ambiguity), trees)
    return [trees for _, trees in known]


def main(lrcheck, *paths):
    for path in paths:
        try:
            trees = check(lrcheck, path)
        except texts.Wrong as why:
            sys.exit(f"{path}: {why}")
        print(f"{path}: {len(trees)} with two trees, {sum(brackets.MARK in str(it) for it in trees)} with marks")


if __name__ == "__main__":
    main(*sys.argv[1:])
