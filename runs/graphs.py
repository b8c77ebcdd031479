"""Closed item sets and the state graph of a grammar, worked out from the definitions of docs/FORMATS.md and not by the
program.

An item is a pair of its production and its dot. An item set is a dict of items upwards, which gives each its lookaheads. A
set of tokens is a number with the bits of those tokens set.
"""

from dataclasses import dataclass, field
from itertools import chain, combinations


def tokens_of(tokens):
    """The tokens of a set, upwards."""
    return [token for token, bit in enumerate(reversed(f"{tokens:b}")) if bit == "1"]


def nullable_rules(grammar):
    """The rules that have a production whose symbols are all nullable rules: the least set of them."""
    nullable = set()
    while more := {rule for rule, body in grammar.prods if all(it in nullable for it in body)} - nullable:
        nullable |= more
    return nullable


def first_of(symbols, first, nullable):
    """FIRST of a list of symbols, and whether the list is nullable."""
    found = 0
    for symbol in symbols:
        found |= first.get(symbol, 0) if isinstance(symbol, bytes) else 1 << symbol
        if symbol not in nullable:
            return found, False
    return found, True


def first_sets(grammar, nullable):
    """FIRST of each rule, which has what FIRST of one of its bodies has: the least such sets."""
    first, is_done = {}, False
    while not is_done:
        is_done = True
        for rule, body in grammar.prods:
            found = first.get(rule, 0) | first_of(body, first, nullable)[0]
            is_done = is_done and found == first.get(rule, 0)
            first[rule] = found
    return first


class Closures:
    """The closures of a grammar's item sets."""

    def __init__(self, grammar):
        self.prods = grammar.prods
        self.nullable = nullable_rules(grammar)
        self.first = first_sets(grammar, self.nullable)
        self.prods_of = {}
        for prod, (rule, _) in enumerate(grammar.prods):
            self.prods_of.setdefault(rule, []).append(prod)
        self.begins = {
            rule: {it for prod in prods if (it := self.before_rule(prod, 0))} for rule, prods in self.prods_of.items()
        }

    def before_rule(self, prod, dot):
        """For an item that stands before a rule: the rule, FIRST of what is behind it, and whether that is nullable."""
        body = self.prods[prod][1]
        if dot < len(body) and body[dot] in self.prods_of:
            return body[dot], *first_of(body[dot + 1 :], self.first, self.nullable)

    def closed(self, core):
        """The least item set that holds the core and, for each of its items before a rule, the rule's productions at dot 0,
        looking at FIRST of what is behind the rule, and where that is nullable at what the item looks at. A core has none of
        them: at dot 0 it has at most the start production, whose rule is in no body."""
        of_rules = {}
        to_do = [(it, looks) for item, looks in core.items() if (it := self.before_rule(*item))]
        while to_do:
            (rule, first, is_nullable), looks = to_do.pop()
            joined = of_rules.get(rule, 0) | first | (looks if is_nullable else 0)
            if of_rules.get(rule) != joined:
                of_rules[rule] = joined
                to_do += [(it, joined) for it in self.begins[rule]]
        added = {(prod, 0): looks for rule, looks in of_rules.items() for prod in self.prods_of[rule]}
        return dict(sorted((added | core).items()))


@dataclass
class State:
    """A state, with its closed state while it is closed. An edge leads from a symbol to the number of a state."""

    core: dict
    closed: dict | None = None
    edges: dict = field(default_factory=dict)


def start_core(grammar):
    """The start production at dot 0, looking at the end token."""
    return {(len(grammar.prods) - 1, 0): 1 << len(grammar.tokens)}


def gotos(grammar, closed):
    """The gotos of a closed state, in the order in which its items first show their symbols."""
    found = {}
    for (prod, dot), looks in closed.items():
        body = grammar.prods[prod][1]
        if dot < len(body):
            found.setdefault(body[dot], {})[prod, dot + 1] = looks
    return found


def are_weakly_compatible(one, other):
    """Whether two item sets, which have the same items, may be merged."""
    return all(
        not (one[i] & other[j] or one[j] & other[i]) or one[i] & one[j] or other[i] & other[j]
        for i, j in combinations(one, 2)
    )


def next_unclosed(states, last):
    """The state to close after the state `last`, or None if all are closed."""
    numbers = chain(range(last + 1, len(states)), range(last + 1))
    return next((number for number in numbers if states[number].closed is None), None)


def place(states, candidates, goto):
    """The number of the state that takes the goto, which is one of the candidates or else a new one and then a candidate.
    They are the states made by the symbol of the goto and with its items, since no other one can take it."""
    for number in candidates:
        if states[number].core == goto:
            return number
    for number in candidates:
        core = states[number].core
        if are_weakly_compatible(core, goto):
            merged = {item: looks | goto[item] for item, looks in core.items()}
            if merged != core:
                states[number].core, states[number].closed = merged, None
            return number
    states.append(State(goto))
    candidates.append(len(states) - 1)
    return candidates[-1]


def made_states(grammar):
    """The states that are made, those too that are dropped in the end."""
    closures, states, candidates, last = Closures(grammar), [State(start_core(grammar))], {}, -1
    while (number := next_unclosed(states, last)) is not None:
        state = states[number]
        state.closed = closures.closed(state.core)
        for symbol, goto in gotos(grammar, state.closed).items():
            state.edges[symbol] = place(states, candidates.setdefault((symbol, *goto), []), goto)
        last = number
    return states


def reached(states):
    """The numbers of the states that can be reached from state 0, upwards."""
    found, to_do = {0}, [0]
    while to_do:
        more = {*states[to_do.pop()].edges.values()} - found
        found |= more
        to_do += more
    return sorted(found)


def graph(grammar):
    """The states of the grammar's graph by number."""
    states = made_states(grammar)
    kept = reached(states)
    numbers = {number: place for place, number in enumerate(kept)}
    return [
        State(it.core, it.closed, {symbol: numbers[target] for symbol, target in it.edges.items()})
        for it in (states[number] for number in kept)
    ]
