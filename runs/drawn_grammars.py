"""Draws grammar texts, and works out their conflicts as they are without precedences."""

import random
from dataclasses import dataclass
from math import inf

import definitions
import graphs
import tables
from sentences import Least

FIRST_TOKENS = (b"$end", b"error", b"$undefined")
HEAD = 3  # So many lines stand before the first body.


def drawn_body(draw, rules, tokens, share):
    length = draw.choices(range(4), (2, 4, 4, 3))[0]
    return " ".join(draw.choice(tokens) if draw.random() < share else draw.choice(rules) for _ in range(length))


def drawn_context(draw, rules, tokens):
    """A rule with tokens around it, of which the first or the last may be left out."""
    around = (draw.choice(tokens) if draw.random() < 0.9 else "" for _ in range(2))
    return draw.choice(rules).join(f" {it} " for it in around)


def drawn_bodies(draw, rules, tokens):
    """Bodies of each rule, which can be anything; or the first rule puts the others, which have few bodies, into contexts."""
    share = draw.choice((0.4, 0.55, 0.7))
    body = lambda: drawn_body(draw, rules, tokens, share)
    if len(rules) == 1 or draw.random() < 0.5:
        return {rule: [body() for _ in range(draw.choice((1, 2, 2, 3)))] for rule in rules}
    few = [body(), draw.choice(tokens)]
    bodies = {rule: [draw.choice(few) for _ in range(draw.choice((1, 1, 2)))] for rule in rules[1:]}
    return {"S": [drawn_context(draw, rules[1:], tokens) for _ in range(draw.randrange(3, 9))], **bodies}


def drawn_text(draw):
    """A grammar text of at most four rules, with three or four tokens. Each body has a line of its own."""
    rules = "SABC"[: draw.choice((1, 2, 3, 3, 4, 4))]
    tokens = [f"'{name}'" for name in "abcd"[: draw.choice((3, 3, 4))]]
    kinds = draw.sample(("%left", "%right", "%nonassoc"), draw.choice((0, 0, 0, 0, 1, 2)))
    levels = (f"{kind} {name}" for kind, name in zip(kinds, tokens))
    bodies = drawn_bodies(draw, rules, tokens)
    lines = (rule + ": " + "\n| ".join(bodies[rule]) + ";" for rule in bodies)
    return "\n".join((f"%token {' '.join(tokens)}", " ".join(levels), "%%", *lines, ""))


def drawn_grammars(first, count):
    """For each number, from the first on, as many as it takes until one has conflicts: the same at each call."""
    for number in range(first, first + count):
        draw, has_conflicts = random.Random(number), False
        while not has_conflicts:
            drawn = Drawn(drawn_text(draw))
            has_conflicts = bool(drawn.conflicts)
            yield drawn


@dataclass
class Conflict:
    """An entry of a list: its state and token, the moves that contend, which are productions or None for a shift, the core
    items of its state, and all moves of its cell."""

    state: int
    token: int
    pair: tuple
    items: frozenset
    cell: list

    def pairs(self):
        """The moves that may contend: the entry's own, or any two of its cell, of which only one may shift."""
        others = [(one, it) for place, one in enumerate(self.cell) for it in self.cell[place + 1 :]]
        return [self.pair, *(pair for pair in others if pair != self.pair)]


class Drawn:
    """A drawn text. Where it derives a text: its grammar as Bison reads it, but without precedences, in which one more rule
    derives the first one and the end token, and what no text needs is left out; the productions of the grammar by their lines;
    and its conflicts."""

    def __init__(self, text):
        read = definitions.meaning(definitions.read(text.encode()))
        *prods, (_, (start,)) = read.prods
        numbers = needed(prods, start)
        self.text, self.conflicts, self.derives = text, [], bool(numbers)
        if self.derives:
            tokens = [*FIRST_TOKENS, *(b"'%b'" % name for name in read.tokens)]
            prods_of_file = [(b"$accept", [start, 0]), *(numbered(*prods[it]) for it in numbers), (b"^", [b"$accept"])]
            self.grammar = definitions.Grammar(prods_of_file, tokens, {}, {})
            self.lines = {HEAD + 1 + number: place for place, number in enumerate(numbers, 1)}
            self.find_conflicts()

    def find_conflicts(self):
        """Finds the entries of both lists."""
        states = graphs.graph(self.grammar)
        shift_reduce, reduce_reduce = tables.conflicts(self.grammar, states)
        entries = [*((token, (prod, None), state) for token, prod, state in shift_reduce)]
        entries += ((token, (prod, other), state) for token, prod, other, state in reduce_reduce)
        for token, pair, number in entries:
            state = states[number]
            prods = [prod for prod, looks in tables.complete(self.grammar, state).items() if looks >> token & 1]
            cell = [*prods, *([None] if token in state.edges else [])]
            self.conflicts.append(Conflict(number, token, pair, frozenset(state.core), cell))

    def names(self):
        """What the names mean that are told of it."""
        tokens = {name.decode(): number for number, name in enumerate(self.grammar.tokens)}
        return tokens | {rule.decode(): rule for rule, _ in self.grammar.prods[:-1]}


def needed(prods, start):
    """The numbers of the productions that a text can need: with bodies that have texts, of rules that are reached by such."""
    least = Least(definitions.Grammar(prods, [], {}, {}))
    with_texts = [number for number, (_, body) in enumerate(prods) if least.text(body) < inf]
    reached, more = set(), {start}
    while more:
        reached |= more
        bodies = (prods[number][1] for number in with_texts if prods[number][0] in reached)
        more = {it for body in bodies for it in body if isinstance(it, bytes)} - reached
    return [number for number in with_texts if prods[number][0] in reached]


def numbered(rule, body):
    """A production with the tokens numbered behind the first ones."""
    return rule, [it if isinstance(it, bytes) else it + len(FIRST_TOKENS) for it in body]
