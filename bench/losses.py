#!/usr/bin/env python3
"""Counts for how many conflicts `lrcheck` tells a sentence that the parser rejects, and finds out which of them it misses.

    losses.py [--drawn N] [--steps N] [--list] LRCHECK [FILE..]

Takes the files `.y`, `.yy` and `.ypp` that are named or in folders that are, and leaves out what `lrcheck` refuses. For each it
prints two rows, with precedences and without: conflicts, each entry by itself; how many are ambiguous, with a text that has two
trees; how many have a lost text, which may be ambiguous too; and of the others how many are told to be decided, and how many are
open, with nothing. Then seconds of `lrcheck --json --all` and of `lrcheck --summary`: whole processes, processor time, the least
of three runs. The last rows add up.

Draws N grammars with conflicts, without their precedences: those of the runs `drawn-reasons-*`, and more of these (none unless it
is said). By `--steps N` fewer ambiguities are looked for, so that with one step each entry can have a lost text. Of each grammar it
finds out, by ways other than the program's, which texts of at most SHORT tokens are lost, and where: some tree's first moves are
all moves of the machine up to a cell, its next one is another candidate there, and the machine rejects the text.

- A lost text that is told has to be a sentence, which the machine rejects where it is said; it comes to the entry's state at the
  dot; and if it is short, it has to be lost there. No short text has two trees that part by the candidates of an entry that is
  told to be decided. Ends with status 1 where something is told wrongly.
- An entry is missed if a short text is lost there by one of its two candidates, and no lost text is told of it: of an ambiguous one
  only if its conflict is to blame, which is so where no tree of the text goes on by the machine's move.

Missed entries are counted by what the search has to find beyond the text of the example, the commonest kind first, each with the
smallest grammar and a shortest text; with `--list` all of them. Those to blame for a short text are counted by themselves.
"""

import argparse
import json
import os
import subprocess
import sys
import tempfile
from collections import Counter
from dataclasses import dataclass
from pathlib import Path

TOP = Path(__file__).resolve().parent.parent
sys.dont_write_bytecode = True
sys.path.insert(0, str(TOP / "runs"))
import graphs
import machine
import texts
from canonical import Canonical, TooLarge
from check_reasons import WAYS, WITHOUT, least
from drawn_grammars import drawn_grammars
from partings import Rests
from processes import grammar_files
from reasons import MOST_STACKS, MOST_STATES, SHORT, by_key
from sentences import Least
from texts import END, Wrong, hold

COLUMNS = ("Entries", "Ambiguous", "Lost", "Decided", "Open")
HEADS = f"| File | Precedences | {' | '.join(COLUMNS)} | With the search, s | Without, s |"
STEPS = 1_000  # Of a run on a short text; one that takes more is not rejected.

# What the search has to find for a missed entry: the first of these that one of its losses gives.
KINDS = (
    ("a list for one candidate alone, since both are real on another token only", lambda it: it.is_elsewhere),
    ("another rest as short", lambda it: it.has_list and it.has_input and it.is_least),
    ("a longer rest", lambda it: it.has_list and it.has_input),
    ("another text of the list", lambda it: it.has_list and it.is_least),
    ("another text of the list, and a longer rest", lambda it: it.has_list),
    ("another list", lambda it: it.is_least),
    ("another list, and a longer rest", lambda it: True),
)


# Files.


def kinds_of_entry(entry):
    """In which columns an entry is counted: it may be ambiguous and have a lost text."""
    known = [kind for kind, name in (("Ambiguous", "ambiguity"), ("Lost", "lost")) if entry[name]]
    return ["Entries", *(known or ["Decided" if entry.get("decided") else "Open"])]


def told_of_file(lrcheck, path, options):
    """How many entries of each kind a file has, and seconds with the search and without; None where the file is refused."""
    told = subprocess.run([lrcheck, "--json", "--all", *options, path], capture_output=True)
    if told.returncode not in (0, 1):
        return None
    counts = Counter(kind for entry in json.loads(told.stdout)["conflicts"] for kind in kinds_of_entry(entry))
    with tempfile.TemporaryDirectory() as name:
        calls = [[lrcheck, *words, *options, path] for words in (("--json", "--all"), ("--summary",))]
        seconds = least(calls, Path(name))
    return counts, seconds


def print_row(name, options, counts, seconds):
    cells = [name, "no" if WITHOUT in options else "yes", *(counts[it] for it in COLUMNS), *(f"{it:.3f}" for it in seconds)]
    print(f"| {' | '.join(map(str, cells))} |", flush=True)


def print_files(lrcheck, files):
    """A row for each file with precedences and without, and two that add up."""
    print(HEADS + "\n|" + "---|" * (HEADS.count("|") - 1))
    wholes = [(Counter(), [0, 0]) for _ in WAYS]
    for path in grammar_files(files):
        for options, (whole, times) in zip(WAYS, wholes):
            if told := told_of_file(lrcheck, path, options):
                counts, seconds = told
                whole.update(counts)
                times[:] = map(sum, zip(times, seconds))
                print_row(f"`{path.parent.name}/{path.name}`", options, counts, seconds)
    for options, (whole, times) in zip(WAYS, wholes):
        print_row("all", options, whole, times)


# Lost texts of a drawn grammar.


def moves_of(trees):
    """The moves that put trees together: productions, and None for each shift."""
    for tree in trees:
        if isinstance(tree, int):
            yield None
        else:
            prod, children = tree
            yield from moves_of(children)
            yield prod


def places(grammar, states, text, trees):
    """The places to which a run comes that puts these trees together: symbols on the stack, state, tokens taken, next move."""
    symbols, numbers, used = [], [0], 0
    for move in moves_of(trees):
        yield symbols, numbers[-1], used, move
        symbol, body = (text[used], []) if move is None else grammar.prods[move]
        used += move is None
        kept = len(symbols) - len(body)
        symbols = [*symbols[:kept], symbol]
        numbers = [*numbers[: kept + 1], states[numbers[kept]].edges[symbol]]


@dataclass
class Loss:
    """A lost text, with the place of the dot and the symbols on the stack there, whether no rest is shorter that can be read behind
    these by the lost move, and whether the machine's move is to blame: the text's own rest can't be read by that."""

    text: list
    dot: int
    symbols: list
    is_least: bool
    is_to_blame: bool


class Losses:
    """The losses by short texts at the cells of a grammar that have a choice: lists by state, token and lost move, with shorter
    texts first."""

    def __init__(self, drawn):
        self.grammar, self.states = drawn.grammar, graphs.graph(drawn.grammar)
        self.canonical = Canonical(self.grammar, MOST_STATES)
        self.rests = Rests(self.canonical, Least(self.grammar), SHORT + 1, MOST_STACKS)
        self.cells = {(it.state, it.token): it.cell for it in drawn.conflicts}
        self.found, self.known = {}, {}
        for text in self.sentences():
            verdict, _, _, trees = machine.run(self.grammar, self.states, text, STEPS)
            if verdict == "reject":
                self.find(text, trees)

    def sentences(self):
        """The short texts that have a tree, each with the token that ends it."""
        for length, numbers in enumerate(self.rests.rests[0,]):
            for number in graphs.tokens_of(numbers):
                yield [number // self.rests.count**place % self.rests.count for place in reversed(range(length))]

    def find(self, text, trees):
        """Finds the losses at all cells to which the machine comes on a text that it rejects behind these trees."""
        for symbols, state, used, move in places(self.grammar, self.states, text, trees):
            token = text[used]
            for other in self.cells.get((state, token), ()):
                if other != move and self.is_read(symbols, other, text[used:]):
                    is_least = not any(self.behind(symbols, other, token)[: len(text) - used])
                    loss = Loss(text[:-1], used, symbols, is_least, not self.is_read(symbols, move, text[used:]))
                    self.found.setdefault((state, token, other), []).append(loss)

    def behind(self, symbols, move, token):
        """The rests that begin with the token and can be read behind the symbols by the move."""
        key = (*symbols, move, token)
        if key not in self.known:
            stack = [0]
            for symbol in symbols:
                stack.append(self.canonical.states[stack[-1]].edges[symbol])
            self.known[key] = self.rests.begun(self.rests.behind(tuple(stack), move, token), token)
        return self.known[key]

    def is_read(self, symbols, move, rest):
        """Whether the rest can be read behind the symbols by the move."""
        number = 0
        for token in rest:
            number = number * self.rests.count + token
        return bool(self.behind(symbols, move, rest[0])[len(rest)] >> number & 1)

    def at(self, conflict, moves):
        """The losses at an entry's cell by any of the moves."""
        return [it for move in moves for it in self.found.get((conflict.state, conflict.token, move), ())]


# What is told of it.


def check_lost(told, losses, conflict, entry):
    """The lost text that is told of an entry is lost there."""
    lost, text = entry["lost"], told.symbols(entry["lost"]["text"])
    texts.check_lost(told, entry, lost)
    if entry["ambiguity"]:
        texts.check_doomed(told, entry, lost)
    _, _, _, trees = machine.run(told.grammar, told.states, [*text, END], texts.MOST_STEPS)
    come = places(told.grammar, told.states, [*text, END], trees)
    is_there = any((state, used) == (entry["state"], lost["dot"]) for _, state, used, _ in come)
    hold(is_there, f"the machine doesn't come to state {entry['state']} at the dot")
    if len(text) <= SHORT and losses.rests.is_whole:
        found = losses.at(conflict, conflict.cell)
        hold(any((it.text, it.dot) == (text, lost["dot"]) for it in found), f"{lost['text']} is not lost there")


def check_told(told, losses, conflict, entry):
    """The lost text is lost there; where it is told to be decided, no short text has two trees that part there."""
    if entry["lost"]:
        check_lost(told, losses, conflict, entry)
    if entry.get("decided"):
        shared = losses.rests.shared(conflict.items, conflict.pair, conflict.token)
        hold(shared is None, "it is told to be decided, and a short text has two trees")


@dataclass
class Missed:
    """A missed entry of a drawn grammar, with a loss there, and what the search has to find."""

    drawn: object
    conflict: object
    loss: Loss
    kind: str

    def size(self):
        """By what the smallest ones are told."""
        prods = self.drawn.grammar.prods
        return len(prods), sum(len(body) for _, body in prods), len(self.loss.text)

    def named(self, symbol):
        return (symbol if isinstance(symbol, bytes) else self.drawn.grammar.tokens[symbol]).decode()

    def body(self, prod):
        return " ".join(map(self.named, self.drawn.grammar.prods[prod][1]))

    def rules(self):
        """The grammar in a line, but for its first and last production."""
        bodies = {}
        for prod, (rule, _) in [*enumerate(self.drawn.grammar.prods)][1:-1]:
            bodies.setdefault(rule.decode(), []).append(self.body(prod))
        return " ".join(f"{rule}: {' | '.join(it)};" for rule, it in bodies.items())

    def text(self):
        """What is told of it, in two lines."""
        move = lambda it: "shift" if it is None else f"{self.named(self.drawn.grammar.prods[it][0])}: {self.body(it)}".rstrip()
        where = f"state {self.conflict.state}, {self.named(self.conflict.token)}, {' / '.join(map(move, self.conflict.pair))}"
        words, dot = [*map(self.named, self.loss.text)], self.loss.dot
        return f"    {self.rules()}\n        {where}: {' '.join((*words[:dot], '.', *words[dot:]))}"


@dataclass
class Beside:
    """How a loss stands to the example of its entry: whether that is on another token, whether its list is on the stack at the dot
    and its input before it, and whether no rest of the lost candidate is shorter."""

    is_elsewhere: bool
    has_list: bool
    has_input: bool
    is_least: bool


def missed(drawn, told, conflict, entry, losses):
    """A missed entry by the first kind that one of its losses gives."""
    if entry["ambiguity"]:
        return Missed(drawn, conflict, losses[0], "one beside a text with two trees")
    after = entry["after"]
    symbols, given = told.symbols(after["list"]), told.symbols(after["input"])
    is_elsewhere = told.symbol(after["token"]) != conflict.token
    for name, gives in KINDS:
        for loss in losses:
            beside = Beside(is_elsewhere, loss.symbols == symbols, loss.text[: loss.dot] == given, loss.is_least)
            if gives(beside):
                return Missed(drawn, conflict, loss, name)


def check_grammar(drawn, told, counts):
    """Checks what is told of a drawn grammar, and gives the entries that are missed."""
    losses, alone = Losses(drawn), by_key(drawn, told, told.file)
    counts["not whole"] += not losses.rests.is_whole
    for conflict in drawn.conflicts:
        entry = alone[conflict.state, conflict.token, conflict.pair]
        found = losses.at(conflict, conflict.pair)
        to_blame = [it for it in found if it.is_to_blame]
        for kind in kinds_of_entry(entry):
            counts[kind] += 1
            counts[kind, "short"] += bool(found)
            counts[kind, "to blame"] += bool(to_blame)
        try:
            check_told(told, losses, conflict, entry)
        except Wrong as why:
            counts["wrong"] += 1
            print(f"wrong: state {conflict.state}, {entry['tokens'][0]}: {why}\n{drawn.text}")
        counted = to_blame if entry["ambiguity"] else found
        if counted and not entry["lost"]:
            yield missed(drawn, told, conflict, entry, counted)


def told_of_drawn(lrcheck, options, all_drawn):
    """What is told of each of the grammars, without their precedences."""
    with tempfile.TemporaryDirectory() as folder:
        names = [f"{number}.y" for number in range(len(all_drawn))]
        for name, drawn in zip(names, all_drawn):
            (Path(folder) / name).write_text(drawn.text)
        told = []
        for option in "--all", "--grammar":
            words = [lrcheck, WITHOUT, *options, "--json", option, *names]
            told.append(subprocess.run(words, capture_output=True, text=True, cwd=folder).stdout.splitlines())
    for drawn, alone, grouped in zip(all_drawn, *told, strict=True):
        yield texts.Told(drawn.grammar, json.loads(alone), json.loads(grouped))


def print_missed(all_missed, is_listed):
    """The missed entries by their kinds."""
    kinds = Counter(it.kind for it in all_missed)
    for kind, count in kinds.most_common():
        print(f"{count} want {kind}")
        of_kind = sorted((it for it in all_missed if it.kind == kind), key=Missed.size)
        print("\n".join(it.text() for it in (of_kind if is_listed else of_kind[:1])))


def print_drawn(lrcheck, options, count, is_listed):
    """What is found out of so many drawn grammars."""
    all_drawn = [it for it in drawn_grammars(0, count) if it.conflicts]
    counts, all_missed = Counter(), []
    for drawn, told in zip(all_drawn, told_of_drawn(lrcheck, options, all_drawn)):
        try:
            all_missed += check_grammar(drawn, told, counts)
        except TooLarge:
            counts["too large"] += 1
    columns = ", ".join(f"{name.lower()} {counts[name]} ({counts[name, 'short']})" for name in COLUMNS)
    print(f"{len(all_drawn)} grammars, in brackets with a short lost text: {columns}")
    blamed = [counts[name, "to blame"] for name in ("Entries", "Lost")]
    print("to blame for a short lost text {}, of which {} tell one".format(*blamed))
    print(f"{counts['wrong']} told wrongly, {len(all_missed)} missed")
    print(f"too large {counts['too large']}, with more stacks than are looked at {counts['not whole']}")
    print_missed(all_missed, is_listed)
    return counts["wrong"]


def main():
    parser = argparse.ArgumentParser()
    parser.add_argument("--drawn", type=int, default=0)
    parser.add_argument("--steps", action="append", default=[])
    parser.add_argument("--list", action="store_true")
    parser.add_argument("lrcheck", type=os.path.abspath)
    parser.add_argument("files", nargs="*", type=Path)
    given = parser.parse_args()
    if given.files:
        print_files(given.lrcheck, given.files)
    options = [f"--steps={it}" for it in given.steps]
    if given.drawn and print_drawn(given.lrcheck, options, given.drawn, given.list):
        sys.exit(1)


if __name__ == "__main__":
    main()
