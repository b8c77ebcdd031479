"""Conflicts of a grammar's table and precedences of its productions, worked out from the definitions of docs/FORMATS.md and not
by the program."""

from graphs import tokens_of


def complete(grammar, state):
    """The complete productions of a state, upwards, each with its lookaheads."""
    return {prod: looks for (prod, dot), looks in state.closed.items() if dot == len(grammar.prods[prod][1])}


def accepts_and_reduces(grammar, states):
    """Whether in a state the complete start production and another one have the end token."""
    start, end = len(grammar.prods) - 1, len(grammar.tokens)
    at_end = ([prod for prod, looks in complete(grammar, state).items() if looks >> end & 1] for state in states)
    return any(start in prods and len(prods) > 1 for prods in at_end)


def precedence(grammar, prod):
    """The level and kind of the token that the production names by `%prec`, or else of the last token in its body; None where
    that token has none, or there is no such token."""
    tokens = [it for it in grammar.prods[prod][1] if not isinstance(it, bytes)]
    return grammar.levelled.get(grammar.named.get(prod, tokens[-1] if tokens else None))


def conflicts(grammar, states):
    """The lists of conflicts: shift/reduce, as token, production and state, and reduce/reduce, as token, least production,
    other production and state. No state both accepts and reduces."""
    shift_reduce, reduce_reduce = [], []
    for number, state in enumerate(states):
        least = {}
        for prod, looks in complete(grammar, state).items():
            for token in tokens_of(looks):
                if token in least:
                    reduce_reduce.append((token, least[token], prod, number))
                least.setdefault(token, prod)
        for token in sorted(least.keys() & state.edges.keys()):
            if token not in grammar.levelled or precedence(grammar, least[token]) is None:
                shift_reduce.append((token, least[token], number))
    return shift_reduce, reduce_reduce
