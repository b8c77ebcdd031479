"""Runs of the machine that a grammar's table drives, and the trees that it puts together, worked out from the definitions of
docs/FORMATS.md and not by the program.

A tree is the number of a token, or a pair of a production and the list of its children.
"""

import re

from tables import complete, precedence


def takes_shift(token, prod):
    """Whether the shift wins against the reduction, by their precedences; None where neither does."""
    if token is None or prod is None:
        return True
    if token[0] != prod[0]:
        return token[0] > prod[0]
    return {b"%right": True, b"%left": False, b"%nonassoc": None}[token[1]]


def cell(grammar, state, token):
    """What the state does on the token: a word, and a state or a production where it shifts or reduces."""
    start = len(grammar.prods) - 1
    prods = [prod for prod, looks in complete(grammar, state).items() if looks >> token & 1]
    reductions = [prod for prod in prods if prod != start]
    target = state.edges.get(token)
    if target is None and not reductions:
        return ("accept", None) if start in prods else ("error", None)
    if target is None:
        return "reduce", min(reductions)
    wins = not reductions or takes_shift(grammar.levelled.get(token), precedence(grammar, min(reductions)))
    return {True: ("shift", target), False: ("reduce", reductions and min(reductions)), None: ("error", None)}[wins]


def run(grammar, states, text, steps):
    """How the run on the text comes out, as `accept`, `reject` or `unfinished`, its steps, its reductions, and the trees of
    the symbols that led to the states on its stack."""
    stack, trees, used, reductions = [0], [], 0, []
    for step in range(steps):
        token = text[used] if used < len(text) else len(grammar.tokens)
        does, what = cell(grammar, states[stack[-1]], token)
        if does == "shift":
            stack.append(what)
            trees.append(token)
            used += 1
        elif does == "reduce":
            rule, body = grammar.prods[what]
            del stack[len(stack) - len(body) :]
            stack.append(states[stack[-1]].edges[rule])
            children = trees[len(trees) - len(body) :]
            del trees[len(trees) - len(body) :]
            trees.append((what, children))
            reductions.append(what)
        else:
            return "accept" if does == "accept" else "reject", step + 1, reductions, trees
    return "unfinished", steps, reductions, trees


def place(grammar, prod):
    """A production as its rule, and its place among the productions of that rule."""
    rule = grammar.prods[prod][0]
    return b"%b.%d" % (rule, sum(it[0] == rule for it in grammar.prods[:prod]))


def tree_text(grammar, tree):
    """The text of a tree, in a loop over its parts, since a tree may be deeper than calls may be."""
    written, to_write = [], [tree]
    while to_write:
        part = to_write.pop()
        if isinstance(part, bytes):
            written.append(part)
        elif isinstance(part, int):
            written.append(b"'%b'" % grammar.tokens[part])
        else:
            prod, children = part
            parted = [it for child in children for it in (b" ", child)][1:]
            to_write += [b")", *reversed(parted), place(grammar, prod) + b"("]
    return b"".join(written)


def run_text(grammar, verdict, made, reductions, _trees):
    """How `run` tells how a run came out."""
    if verdict == "accept":
        return b"accept %d:" % made + b"".join(b" " + place(grammar, prod) for prod in reductions)
    return b"%b %d" % (verdict.encode(), made)


def parse_text(grammar, verdict, _made, _reductions, trees):
    """How `tree` tells it. What is accepted is one tree."""
    if verdict == "accept":
        (tree,) = trees
        return b"tree " + tree_text(grammar, tree)
    return verdict.encode()


TEXTS = {"run": run_text, "tree": parse_text}


def line_answer(command, grammar, states, line, steps):
    """The answer of the command to a line."""
    words = [word for word in re.split(rb"[ \t]", line) if word]
    for word in words:
        if word not in grammar.tokens:
            return b"unknown " + word
    return TEXTS[command](grammar, *run(grammar, states, [grammar.tokens.index(word) for word in words], steps))


def answers(command, grammar, states, text, steps):
    """The answer of the command, `run` or `tree`, to each line of the text."""
    *whole, rest = text.split(b"\n")
    lines = [line.removesuffix(b"\r") for line in whole] + ([rest] if rest else [])
    return [line_answer(command, grammar, states, line, steps) for line in lines]
