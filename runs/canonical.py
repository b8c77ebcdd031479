"""The canonical LR(1) states of a grammar, and after which lists of symbols a conflict is real, worked out from what a
grammar means and not by the program."""

import graphs
import tables


class TooLarge(Exception):
    """The grammar has more canonical states than are looked at."""


class Canonical:
    """The canonical states: after a list of symbols one has the items that can stand there, with the tokens that can come
    behind. They are ordered by the length of a shortest list that leads to each. Of each the complete productions are kept,
    with the tokens at which they look."""

    def __init__(self, grammar, most):
        closures = graphs.Closures(grammar)
        self.grammar, self.states, self.lengths = grammar, [], []
        self.numbers, self.by_items, self.complete = {}, {}, []
        self.number(graphs.start_core(grammar), 0)
        for number, state in enumerate(self.states):
            if number == most:
                raise TooLarge
            state.closed = closures.closed(state.core)
            self.complete.append(tables.complete(grammar, state))
            for symbol, goto in graphs.gotos(grammar, state.closed).items():
                state.edges[symbol] = self.number(goto, self.lengths[number] + 1)

    def number(self, core, length):
        """The number of the state of this core, which is a new one if there is none."""
        key = tuple(sorted(core.items()))
        if key not in self.numbers:
            self.numbers[key] = len(self.states)
            self.by_items.setdefault(frozenset(core), []).append(len(self.states))
            self.states.append(graphs.State(core))
            self.lengths.append(length)
        return self.numbers[key]

    def after(self, symbols):
        """The number of the state to which the list leads; None where nothing can stand behind it."""
        number = 0
        for symbol in symbols:
            if symbol not in self.states[number].edges:
                return None
            number = self.states[number].edges[symbol]
        return number

    def can(self, number, move, token):
        """Whether the state can make the move, which is a production by which it reduces or None to shift, on the token."""
        if move is None:
            return token in self.states[number].edges
        return bool(self.complete[number].get(move, 0) >> token & 1)

    def shortest(self, items, moves, token):
        """The length of a shortest list after which there are these core items and all these moves can be made on the token;
        None where there is none."""
        numbers = self.by_items.get(frozenset(items), ())
        real = (self.lengths[it] for it in numbers if all(self.can(it, move, token) for move in moves))
        return min(real, default=None)
