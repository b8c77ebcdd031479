#!/usr/bin/env python3
"""What `lrt` has to answer for a command and a grammar text, worked out from the definitions of docs/FORMATS.md and not by
the program. This module reads the text and prints the answer; `graphs`, `tables` and `machine` work out what is to be printed.

    definitions.py COMMAND FILE         prints the answer or the fault line, and ends with the status
    definitions.py run FILE STEPS       the same for the lines of standard input
    definitions.py tree FILE STEPS      and with the trees of the lines

COMMAND is `start`, `core`, `closed` or `conflicts`.
"""

import re
import sys
from dataclasses import dataclass, field
from pathlib import Path

import graphs
import machine
import tables

LISTINGS = ("start", "core", "closed", "conflicts")
COMMANDS = (*LISTINGS, *machine.TEXTS)
BLANKS = re.compile(rb"(?:[ \t\r\n]+|//[^\n]*|/\*.*?\*/)*", re.DOTALL)
LEXEME = re.compile(
    rb"""(?P<NAME>[A-Za-z_.][A-Za-z0-9_.]*)
    | '(?P<single>[^'\n\r]+)' | "(?P<double>[^"\n\r]+)"
    | (?P<word>%[A-Za-z]+)
    | (?P<mark>%%|[:|;])""",
    re.VERBOSE,
)
LEVELS = ("%left", "%right", "%nonassoc")
DECLARATIONS = {"%start": "start", "%token": "token", "%%": "rules", **{word: "level" for word in LEVELS}}
# The places of a document: what it can go on with at each, and the place behind that.
PLACES = {
    "declarations": DECLARATIONS,
    "start": {"NAME": "declarations"},
    "token": {"NAME": "tokens", "QUOTED": "tokens"},
    "tokens": {"NAME": "tokens", "QUOTED": "tokens", **DECLARATIONS},
    "level": {"NAME": "levels", "QUOTED": "levels"},
    "levels": {"NAME": "levels", "QUOTED": "levels", **DECLARATIONS},
    "rules": {"NAME": "rule", "%%": "rest"},
    "rule": {":": "body"},
    "body": {"NAME": "body", "QUOTED": "body", "%prec": "precedence", "|": "body", ";": "rules"},
    "precedence": {"NAME": "behind", "QUOTED": "behind"},
    "behind": {"|": "body", ";": "rules"},
}


class Fault(Exception):
    """There is no answer, with this fault."""


@dataclass
class Body:
    """A body: its names, each a pair of NAME or QUOTED and the name, and the name behind its `%prec`."""

    names: list = field(default_factory=list)
    precedence: bytes | None = None


@dataclass
class Document:
    """What a text says, in its order; a level is a pair of its kind and its names, and a rule one of its name and its bodies."""

    start: bytes | None = None
    tokens: list = field(default_factory=list)
    levels: list = field(default_factory=list)
    rules: list = field(default_factory=list)

    def take(self, place, kind, name):
        """Takes the lexeme that leads to this place."""
        if place == "declarations":
            self.start = name
        elif place == "tokens":
            self.tokens.append(name)
        elif place == "level":
            self.levels.append((kind.encode(), []))
        elif place == "levels":
            self.levels[-1][1].append(name)
        elif place == "rule":
            self.rules.append((name, []))
        elif kind in (":", "|"):
            self.rules[-1][1].append(Body())
        elif place == "body":
            self.rules[-1][1][-1].names.append((kind, name))
        elif place == "behind":
            self.rules[-1][1][-1].precedence = name


def lexeme_at(text, at):
    """The kind of the lexeme that begins there, its name if it has one, and its end."""
    found = LEXEME.match(text, at)
    if found is None:
        return None, None, at
    kind, name = found.lastgroup, found[found.lastgroup]
    if kind in ("word", "mark"):
        return name.decode(), None, found.end()
    return "NAME" if kind == "NAME" else "QUOTED", name, found.end()


def read(text):
    """What the text says."""
    document, place, at = Document(), "declarations", 0
    while place != "rest":
        at = BLANKS.match(text, at).end()
        if at == len(text) and place == "rules":
            break
        kind, name, end = lexeme_at(text, at)
        if kind not in PLACES[place] or kind == "%start" and document.start is not None:
            raise Fault(b"syntax error at byte %d" % at)
        place, at = PLACES[place][kind], end
        document.take(place, kind, name)
    return document


@dataclass
class Grammar:
    """Productions as pairs of a rule's name and a body, the start production last; in a body a rule is its name, and a token
    its number. The tokens that have a precedence are `levelled`, each with its level and kind. The productions with `%prec`
    are `named`, each with the token that it names."""

    prods: list
    tokens: list
    levelled: dict
    named: dict


def meaning(document):
    """The grammar that the document means."""
    rules = {name for name, _ in document.rules}
    in_levels = [name for _, names in document.levels for name in names]
    known = {*document.tokens, *in_levels}
    bodies = [(rule, body) for rule, bodies in document.rules for body in bodies]
    if document.start not in {None, *rules}:
        raise Fault(b"unknown symbol " + document.start)
    for kind, name in (symbol for _, body in bodies for symbol in body.names):
        if kind == "NAME" and name not in rules and name not in known:
            raise Fault(b"unknown symbol " + name)
    levels = {}
    for level, (kind, names) in enumerate(document.levels):
        for name in names:
            if name in levels:
                raise Fault(b"token " + name + b" has two precedences")
            levels[name] = level, kind
    if not rules:
        raise Fault(b"no start rule")
    is_rule = lambda kind, name: kind == "NAME" and name in rules
    of_bodies = [name for _, body in bodies for kind, name in body.names if not is_rule(kind, name)]
    behind = {prod: body.precedence for prod, (_, body) in enumerate(bodies) if body.precedence is not None}
    tokens = list(dict.fromkeys([*document.tokens, *of_bodies, *in_levels, *behind.values()]))
    number = {name: place for place, name in enumerate(tokens)}
    symbol = lambda kind, name: name if is_rule(kind, name) else number[name]
    prods = [(rule, [symbol(*it) for it in body.names]) for rule, body in bodies]
    prods.append((b"^", [document.start or document.rules[0][0]]))
    levelled = {number[name]: level for name, level in levels.items()}
    return Grammar(prods, tokens, levelled, {prod: number[name] for prod, name in behind.items()})


class Texts:
    """The texts of a grammar's items, states and conflicts."""

    def __init__(self, grammar):
        self.grammar = grammar
        self.tokens = [*grammar.tokens, b"$"]
        self.quoted = [b"'%b'" % name for name in self.tokens]
        self.known_looks = {}

    def symbol(self, symbol):
        return symbol if isinstance(symbol, bytes) else self.quoted[symbol]

    def looks(self, looks):
        if looks not in self.known_looks:
            self.known_looks[looks] = b", ".join(self.quoted[token] for token in graphs.tokens_of(looks))
        return self.known_looks[looks]

    def item(self, item, looks):
        prod, dot = item
        rule, body = self.grammar.prods[prod]
        before, behind = (b"".join(b" " + self.symbol(it) for it in part) for part in (body[:dot], body[dot:]))
        return b"[%b ->%b .%b, {%b}]" % (rule, before, behind, self.looks(looks))

    def items(self, items):
        """A line for each item."""
        return [self.item(*it) for it in items.items()]

    def edges(self, edges):
        """A line for each edge, by target upwards; a state has no two edges with one target."""
        by_target = sorted((target, symbol) for symbol, target in edges.items())
        return [b"%b -> %d" % (self.symbol(symbol), target) for target, symbol in by_target]

    def states(self, states, shown):
        """The lines of each state: those of its items, `core` or `closed`, and those of its edges."""
        width = len(str(len(states)))
        for number, state in enumerate(states):
            head, *others = self.items(getattr(state, shown)) + self.edges(state.edges)
            yield f"{number}:".ljust(width + 2).encode() + head
            yield from (b" " * (width + 2) + line for line in others)

    def prod(self, prod):
        rule, body = self.grammar.prods[prod]
        names = (symbol if isinstance(symbol, bytes) else self.tokens[symbol] for symbol in body)
        return rule + b":" + b"".join(b' "%b"' % name for name in names)

    def conflicts(self, shift_reduce, reduce_reduce):
        """A headline for each list that has entries, and a line for each entry."""
        if not shift_reduce and not reduce_reduce:
            yield b"no conflicts"
        if shift_reduce:
            yield b"Shift/Reduce conflicts:"
        for token, prod, state in shift_reduce:
            yield b'   State %d: Shift("%b") / Reduce(%b)' % (state, self.tokens[token], self.prod(prod))
        if reduce_reduce:
            yield b"Reduce/Reduce conflicts:"
        for token, prod, other, state in reduce_reduce:
            prods = self.prod(prod), self.prod(other)
            yield b"   State %d (lookahead %b): Reduce(%b) / Reduce(%b)" % (state, self.tokens[token], *prods)


def lines(arguments, grammar, given):
    """What the command prints of the grammar and of what standard input gives, line by line."""
    texts, command = Texts(grammar), arguments[0]
    if command == "start":
        return texts.items(graphs.Closures(grammar).closed(graphs.start_core(grammar)))
    states = graphs.graph(grammar)
    if tables.accepts_and_reduces(grammar, states):
        raise Fault(b"Accept/reduce conflict")
    if command == "conflicts":
        return texts.conflicts(*tables.conflicts(grammar, states))
    if command in machine.TEXTS:
        return machine.answers(command, grammar, states, given, int(arguments[2]))
    return texts.states(states, command)


def answer(arguments, text, given):
    """The status, standard output and standard error that a call with these arguments owes this grammar text, which is UTF-8,
    and what standard input gives."""
    if arguments[0] not in COMMANDS:
        raise ValueError(f"no answer is defined for {arguments[0]}")
    try:
        out = lines(arguments, meaning(read(text)), given)
    except Fault as why:
        return 1, b"", b"lrt: %b\n" % why.args
    return 0, b"".join(line + b"\n" for line in out), b""


if __name__ == "__main__":
    given = sys.stdin.buffer.read() if sys.argv[1] in machine.TEXTS else b""
    status, out, fault = answer(sys.argv[1:], Path(sys.argv[2]).read_bytes(), given)
    sys.stdout.buffer.write(out)
    sys.stderr.buffer.write(fault)
    sys.exit(status)
