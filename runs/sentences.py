"""Texts of a grammar: their least lengths, their trees, and how they go on behind a list of symbols, worked out from what a
grammar means and not by the program.

A move is the number of a production, by which a reduction is made, or None for a shift.
"""

from itertools import product
from math import inf

MANY = 2  # As many trees as are told apart from more.


class Least:
    """Least lengths of texts."""

    def __init__(self, grammar):
        self.prods, self.begun = grammar.prods, {}
        self.rules = dict.fromkeys((rule for rule, _ in self.prods), inf)
        self.settle(self.rules, self.text)

    def settle(self, found, length_of):
        """Lowers what was found for each rule to the least length of its bodies, until none is less."""
        is_done = False
        while not is_done:
            is_done = True
            for rule, body in self.prods:
                length = length_of(body)
                is_done = is_done and length >= found[rule]
                found[rule] = min(found[rule], length)

    def text(self, symbols):
        """The least length of a text of the symbols, one after another."""
        return sum(self.rules.get(it, 1) for it in symbols)

    def beginning(self, symbols, token):
        """The least length of one that begins with the token."""
        least = inf
        for place, symbol in enumerate(symbols):
            begun = self.beginnings(token).get(symbol, 1 if symbol == token else inf)
            least = min(least, begun + self.text(symbols[place + 1 :]))
            if self.rules.get(symbol) != 0:
                break
        return least

    def beginnings(self, token):
        """For each rule the least length of a text that begins with the token."""
        if token not in self.begun:
            self.begun[token] = dict.fromkeys(self.rules, inf)
            self.settle(self.begun[token], lambda body: self.beginning(body, token))
        return self.begun[token]


class Behind:
    """What must come behind a list of symbols where a token comes next: least lengths."""

    def __init__(self, grammar, least, symbols, token):
        self.grammar, self.least, self.symbols, self.token = grammar, least, symbols, token
        self.settle()

    def settle(self):
        """The least length of what comes behind a rule whose text begins at a place of the list: of all such texts, and of
        those with which the token comes next."""
        self.all, self.next, is_done = {(0, b"^"): 0}, {(0, b"^"): inf}, False
        while not is_done:
            is_done = True
            for end in range(len(self.symbols) + 1):
                for prod, (rule, body) in enumerate(self.grammar.prods):
                    for dot, symbol in enumerate(body):
                        if isinstance(symbol, bytes) and self.ends(body[:dot], end):
                            is_done = not self.better((end, symbol), (end - dot, rule), body[dot + 1 :]) and is_done

    def ends(self, symbols, end):
        """Whether the list up to this place ends with the symbols."""
        return len(symbols) <= end and self.symbols[end - len(symbols) : end] == symbols

    def better(self, inner, outer, behind):
        """Puts in what comes behind a rule in a body and behind the rule of that body. Whether that is less than before."""
        length, around = self.least.text(behind), self.all.get(outer, inf)
        begun = self.least.beginning(behind, self.token) + around
        if length == 0:
            begun = min(begun, self.next.get(outer, inf))
        is_less = length + around < self.all.get(inner, inf) or begun < self.next.get(inner, inf)
        self.all[inner] = min(self.all.get(inner, inf), length + around)
        self.next[inner] = min(self.next.get(inner, inf), begun)
        return is_less

    def shortest(self, move):
        """The length of a shortest rest of a text, from the token on, by the move."""
        end, lengths = len(self.symbols), [inf]
        for prod, (rule, body) in enumerate(self.grammar.prods):
            if move == prod and self.ends(body, end):
                lengths.append(self.next.get((end - len(body), rule), inf))
            for dot, symbol in enumerate(body):
                if move is None and symbol == self.token and self.ends(body[:dot], end):
                    lengths.append(self.least.text(body[dot:]) + self.all.get((end - dot, rule), inf))
        return min(lengths)


class Trees:
    """How many trees there are over each part of a text, counted up to MANY."""

    def __init__(self, grammar, text):
        self.text, self.known = text, {}
        bodies = grammar.prods
        for length in range(len(text) + 1):
            for start in range(len(text) - length + 1):
                self.settle(bodies, start, start + length)

    def settle(self, bodies, start, end):
        """Counts the trees of all rules over a part: of ever greater height, until there are no more."""
        is_done = False
        while not is_done:
            counts = {}
            for rule, body in bodies:
                counts[rule] = min(MANY, counts.get(rule, 0) + self.count(body, start, end))
            is_done = all(self.known.get((rule, start, end), 0) == count for rule, count in counts.items())
            self.known.update(((rule, start, end), count) for rule, count in counts.items())

    def count(self, symbols, start=0, end=None):
        """How many rows of trees of the symbols have the part as their leaves."""
        end = len(self.text) if end is None else end
        if not symbols:
            return int(start == end)
        head, *rest = symbols
        if not isinstance(head, bytes):
            return self.count(rest, start + 1, end) if start < end and self.text[start] == head else 0
        if not rest:
            return self.known.get((head, start, end), 0)
        found = 0
        for middle in range(start, end + 1):
            if first := self.known.get((head, start, middle), 0):
                found += first * self.count(rest, middle, end)
        return min(MANY, found)


class ShortTexts:
    """The texts of each rule of at most so many tokens, and how many trees each has, counted up to MANY."""

    def __init__(self, grammar, most):
        self.prods, self.most, self.known = grammar.prods, most, {}
        while (counts := self.higher()) != self.known:
            self.known = counts

    def higher(self):
        """What is known, by trees that may be one higher."""
        counts = {}
        for rule, body in self.prods:
            known = counts.setdefault(rule, {})
            for text, count in self.rows(body).items():
                known[text] = min(MANY, known.get(text, 0) + count)
        return counts

    def rows(self, symbols):
        """The texts of the symbols, and how many rows of trees each has."""
        counts = {(): 1}
        for symbol in symbols:
            before, counts = counts, {}
            behind = self.known.get(symbol, {}) if isinstance(symbol, bytes) else {(symbol,): 1}
            for (text, count), (more, times) in product(before.items(), behind.items()):
                if len(text) + len(more) <= self.most:
                    counts[text + more] = min(MANY, counts.get(text + more, 0) + count * times)
        return counts

    def with_two_trees(self, rule):
        """Those of the rule that have two trees."""
        return [text for text, count in self.known.get(rule, {}).items() if count == MANY]
