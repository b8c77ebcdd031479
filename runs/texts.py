#!/usr/bin/env python3
"""Checks what `lrcheck` tells as JSON of the conflicts of grammar files, and of what precedences settle there.

    texts.py LRCHECK FILE..              prints for each file how many entries there are, and how many have a text
    texts.py --spoilt LRCHECK FILE..     spoils what is told, and prints how often that was seen

The grammar is the one that is told too. By other ways than the program's it is found out for each entry:

- its text has two trees of the grammar, or more;
- both trees told are trees of the grammar over the text, and differ, in the part that is one of the rule told;
- the dot stands where their moves part: by the reduction, and by the shift or the other reduction, at the token of the entry,
  and the symbols before it lead to the items of the entry's state;
- where no text is told, the list of symbols has the input as a text, the items of each candidate stand in one another after
  the list, and the rest makes a sentence of the input and follows from the items, from the token on;
- a text that is told to be lost is a sentence, and the machine of the table rejects it where it is said, behind the dot, which
  stands before the token of the entry; where the entry is ambiguous or resolved, no tree of it is left behind that move.

And there are as many entries of each kind as are counted.
"""

import copy
import json
import subprocess
import sys
from collections import Counter
from pathlib import Path

import definitions
import graphs
import machine
from sentences import MANY, Trees

END = 0  # The number of `$end`, which is the first token.
NO_TOKEN = "error"  # A token that stands in no text.
MOST_STEPS = 10_000  # Of a run on a text that is told to be lost.


class Wrong(Exception):
    """What the program tells is not so."""


def hold(is_so, what):
    if not is_so:
        raise Wrong(what)


class Told:
    """What is told of a file, and its grammar: productions by number, tokens as numbers, and rules as bytes. A move is a token
    for its shift, and a production in a tuple for its reduction; by its body it is a pair of rule and body, and None for a
    shift."""

    def __init__(self, grammar, file, grouped):
        """Told are the file, with each entry by itself, and the same with entries in groups and the grammar."""
        self.grammar, self.file, self.grouped = grammar, file, grouped
        self.states, self.trees = graphs.graph(grammar), {}
        self.name_symbols(grouped["grammar"])
        self.entries = [*file["conflicts"], *file["settled"]]

    def name_symbols(self, listed):
        """Finds what the names in JSON mean: the grammar is listed there in the same order, but without the start rule, and
        without tokens that are there for the sake of levels alone."""
        (self.root,) = self.grammar.prods[-1][1]
        first = sum(rule == self.root for rule, _ in self.grammar.prods)
        own = self.grammar.prods[first:-1]
        self.named = {token["name"]: number for number, token in enumerate(listed["tokens"])}
        more = range(len(self.named), len(self.grammar.tokens))
        hold(not any(token in body for _, body in own for token in more), "a token has no name")
        self.named |= {"$accept": self.root} | {it["rule"]: rule for it, (rule, _) in zip(listed["productions"], own)}
        hold([self.production(it) for it in listed["productions"]] == [body_of(*it) for it in own], "productions are others")
        self.alternatives, counts = {}, Counter()
        for number, production in enumerate(listed["productions"], first):
            counts[production["rule"]] += 1
            self.alternatives[production["rule"], counts[production["rule"]]] = number

    def symbol(self, name):
        hold(name in self.named, f"{name} is no symbol")
        return self.named[name]

    def symbols(self, names):
        return [self.symbol(name) for name in names]

    def production(self, told):
        """A production or item as rule and body."""
        return body_of(self.symbol(told["rule"]), self.symbols(told["body"]))

    def count(self, symbols, text):
        """How many rows of trees of the symbols there are over the text, up to MANY."""
        if tuple(text) not in self.trees:
            self.trees[tuple(text)] = Trees(self.grammar, text)
        return self.trees[tuple(text)].count(symbols)

    def moves(self, tree):
        """The moves of a tree, by leaves and nodes, each node behind those below it."""
        if isinstance(tree, str):
            return [self.symbol(tree)]
        rule, alternative, children = tree
        hold((rule, alternative) in self.alternatives, f"{rule} has no alternative {alternative}")
        number = self.alternatives[rule, alternative]
        body = self.symbols(root_of(child) for child in children)
        hold(self.grammar.prods[number][1] == body, f"alternative {alternative} of {rule} isn't {body}")
        return [move for child in children for move in self.moves(child)] + [(number,)]

    def stack(self, moves):
        """The symbols of the trees that these moves put together."""
        symbols = []
        for move in moves:
            if isinstance(move, int):
                symbols.append(move)
            else:
                rule, body = self.grammar.prods[move[0]]
                symbols[len(symbols) - len(body) :] = [rule]
        return symbols

    def items_after(self, symbols):
        """The core items of the state to which the symbols lead."""
        number = 0
        for symbol in symbols:
            hold(symbol in self.states[number].edges, f"nothing stands after {symbols}")
            number = self.states[number].edges[symbol]
        return self.states[number].core.keys()

    def by_body(self, move):
        """A move as it is told by its body."""
        return None if isinstance(move, int) else body_of(*self.grammar.prods[move[0]])

    def candidates(self, entry):
        """The two candidates of an entry, by their bodies, each with the place where its body stands."""
        told = [entry["reduce"], *([entry["other"]] if "other" in entry else [])]
        return {(it["line"], it["column"]): self.production(it) for it in told} | ({} if "other" in entry else {None: None})

    def own_pair(self, entry):
        """The two candidates of an entry, by their bodies."""
        return tuple(self.candidates(entry).values())

    def pairs(self, entry, token):
        """The candidates that may part where an entry is: its own, or any two others of its cell."""
        own, cell = self.candidates(entry), {}
        for other in self.entries:
            if other["state"] == entry["state"] and token in self.symbols(other["tokens"]):
                cell |= self.candidates(other)
        two = ((one, other) for one in cell.keys() - {None} for other in cell.keys() - {one})
        return [self.own_pair(entry), *((cell[one], cell[other]) for one, other in two if {one, other} != own.keys())]


def body_of(rule, body):
    return rule, tuple(body)


def root_of(tree):
    """The name of the symbol at the root of a tree."""
    return tree if isinstance(tree, str) else tree[0]


# A text with two trees.


def check_count(told, entry, ambiguity):
    """The text has two trees."""
    text = [*told.symbols(ambiguity["text"]), END]
    hold(told.count([told.root], text) == MANY, f"{ambiguity['text']} hasn't two trees")


def check_trees(told, entry, ambiguity):
    """The trees are two of the text."""
    one, other = ambiguity["trees"]
    hold(one != other, "the trees are the same")
    for tree in one, other:
        leaves = [move for move in told.moves(tree) if isinstance(move, int)]
        hold(leaves == told.symbols(ambiguity["text"]), f"the leaves aren't {ambiguity['text']}")
        hold((told.root, [told.symbol(root_of(tree)), END]) in told.grammar.prods, f"{root_of(tree)} is no start rule")


def check_rule(told, entry, ambiguity):
    """What differs lies within a part of both trees that is one of the rule."""
    rules = ["$accept", *(root_of(one) for one, _ in nodes_of_both(ambiguity))]
    hold(ambiguity["rule"] in rules, f"the trees differ within {rules}, and not within {ambiguity['rule']}")


def nodes_of_both(ambiguity):
    """The nodes of both trees, from the roots on, below which alone they differ."""
    nodes = [tuple(ambiguity["trees"])]
    while len(pairs := differing(*nodes[-1])) == 1:
        nodes += pairs
    return nodes


def differing(one, other):
    """The children of two nodes that differ, as pairs; none where they aren't nodes of one production."""
    if isinstance(one, str) or one[:2] != other[:2]:
        return []
    return [pair for pair in zip(one[2], other[2]) if pair[0] != pair[1]]


def parting(told, ambiguity):
    """The moves before the place where the trees part, and the two by which they do."""
    accepted = (0,)
    ways = [[*told.moves(tree), END, accepted] for tree in ambiguity["trees"]]
    place = next(place for place, (one, other) in enumerate(zip(*ways)) if one != other)
    return ways[0][:place], [way[place] for way in ways]


def check_parting(told, entry, ambiguity):
    """The trees part at the dot, where the entry is."""
    before, moves = parting(told, ambiguity)
    text = [*told.symbols(ambiguity["text"]), END]
    dot = sum(isinstance(move, int) for move in before)
    hold(ambiguity["dot"] == dot, f"the trees part at {dot}")
    hold(text[dot] in told.symbols(entry["tokens"]), "another token stands behind the dot")
    pair = tuple(told.by_body(move) for move in moves)
    hold(pair in told.pairs(entry, text[dot]), f"the trees part by {pair}")
    hold(not ambiguity["own"] or {*pair} == {*told.own_pair(entry)}, f"{pair} are not the entry's candidates")
    hold(ambiguity["length"] == len(ambiguity["text"]), "the text is longer, or shorter")
    items = told.items_after(told.stack(before))
    hold(items == told.states[entry["state"]].core.keys(), "what stands before the dot leads to another state")


# What an entry without a text is real after.


def check_input(told, entry, after):
    """The list has the input as a text, and the token is the entry's, or another one where two reductions meet."""
    own = told.symbol(after["token"]) in told.symbols(entry["tokens"])
    hold(own or entry["kind"] == "reduce/reduce", f"{after['token']} is not the entry's token")
    symbols, text = told.symbols(after["list"]), told.symbols(after["input"])
    hold(told.count(symbols, text) > 0, f"{after['input']} is no text of {after['list']}")
    items = told.items_after(symbols)
    hold(items == told.states[entry["state"]].core.keys(), f"{after['list']} leads to another state")


def nested(told, items):
    """The symbols before the dots of items that stand in one another, outer ones first, and those behind the dots, inner ones
    first, of which the last item's begin at its dot."""
    wanted, before, behind = told.root, [], []
    for place, item in enumerate(items):
        rule, body = told.production(item)
        hold(rule == wanted, f"{item['rule']} stands where {wanted} is wanted")
        hold((rule, list(body)) in told.grammar.prods, f"{item['rule']} has no body {item['body']}")
        before += body[: item["dot"]]
        is_last = place == len(items) - 1
        wanted, *left = [*body[item["dot"] :], None]
        behind = [*([wanted] if is_last else []), *left, *behind]
    return before, [symbol for symbol in behind if symbol is not None]


def check_derivation(told, entry, after, candidate, outlook):
    """The items stand in one another after the list, and the last one is the candidate's."""
    before, behind = nested(told, outlook["derivation"])
    hold(before == told.symbols(after["list"]), f"the items stand after {before}")
    last = outlook["derivation"][-1]
    if candidate is None:
        hold(behind[:1] == [told.symbol(after["token"])] and last["dot"] < len(last["body"]), "no item shifts the token")
    else:
        hold(told.production(last) == candidate and last["dot"] == len(last["body"]), "the last item isn't complete")
    return behind


def check_outlook(told, entry, after, candidate, outlook):
    """The rest follows from the items, begins with the token, and makes a sentence of the input."""
    behind = check_derivation(told, entry, after, candidate, outlook)
    rest, text = [*told.symbols(outlook["rest"]), END], told.symbols(after["input"])
    hold(rest[0] == told.symbol(after["token"]), "the rest begins with another token")
    hold(told.count(behind, rest) > 0, f"{outlook['rest']} is not what stands behind the items")
    hold(told.count([told.root], [*text, *rest]) > 0, "the whole is no sentence")


def check_outlooks(told, entry, after):
    """Both candidates are real after the list."""
    for candidate, outlook in zip(told.own_pair(entry), (after["reduce"], after["other"])):
        check_outlook(told, entry, after, candidate, outlook)


# Lost texts.


def leaves(tree):
    return 1 if isinstance(tree, int) else sum(map(leaves, tree[1]))


def check_lost(told, entry, lost):
    """The text is a sentence, and rejected where it is said; the dot stands before the token of the entry, and before that."""
    text, dot, stop = [*told.symbols(lost["text"]), END], lost["dot"], lost["stop"]
    hold(told.count([told.root], text) > 0, f"{lost['text']} is no sentence")
    verdict, _, _, trees = machine.run(told.grammar, told.states, text, MOST_STEPS)
    hold(verdict == "reject", f"{lost['text']} is not rejected: {verdict}")
    hold(sum(map(leaves, trees)) == stop, f"{lost['text']} is not rejected at {stop}")
    hold(dot <= stop and text[dot] in told.symbols(entry["tokens"]), f"the dot is at {dot}, and it is rejected at {stop}")


def places(told, text):
    """The places to which the machine comes on a text: the state on top, how many tokens were taken, and the symbols on the stack."""
    stack, used, symbols = [0], 0, []
    while True:
        yield stack[-1], used, [*symbols]
        does, what = machine.cell(told.grammar, told.states[stack[-1]], text[used])
        if does == "shift":
            symbols.append(text[used])
            used += 1
            stack.append(what)
        elif does == "reduce":
            rule, body = told.grammar.prods[what]
            del stack[len(stack) - len(body) :], symbols[len(symbols) - len(body) :]
            symbols.append(rule)
            stack.append(told.states[stack[-1]].edges[rule])
        else:
            return


def goes_on(told, symbols, rest):
    """Whether some tree's moves make these symbols first and then read the rest: a tree of the symbols and the rest no part of which
    ends before the symbols do, where a rule among them has no parts."""
    text, changes = [*symbols, *rest], True
    ends = {(symbol, at): {at + 1} for at, symbol in enumerate(text)}
    while changes:
        changes = False
        for rule, body in told.grammar.prods[:-1]:
            for at in range(len(text) + 1):
                reached = {at}
                for symbol in body:
                    reached = {end for middle in reached for end in ends.get((symbol, middle), ())}
                known = ends.setdefault((rule, at), set())
                more = {end for end in reached if end >= len(symbols)} - known
                known |= more
                changes |= bool(more)
    return len(text) in ends.get((told.root, 0), ())


def check_doomed(told, entry, lost):
    """What the table does at the entry is to blame: no tree's moves begin with those of the machine up to the one behind the dot."""
    text = told.symbols(lost["text"])
    come = [*places(told, [*text, END])]
    behind = [after for before, after in zip(come, come[1:]) if before[:2] == (entry["state"], lost["dot"])]
    goes_wrong = any(not goes_on(told, symbols, text[used:]) for _, used, symbols in behind)
    hold(goes_wrong, f"{lost['text']} may be read in another way behind the dot")


# All of a file.

OF_TEXTS = (check_count, check_trees, check_rule, check_parting)
OF_LISTS = (check_input, check_outlooks)


def check_entry(told, entry):
    """What is told of an entry."""
    hold(entry["kind"] == ("reduce/reduce" if "other" in entry else "shift/reduce"), "the kind is another one")
    for check in OF_TEXTS if entry["ambiguity"] else ():
        check(told, entry, entry["ambiguity"])
    for check in OF_LISTS if entry.get("after") else ():
        check(told, entry, entry["after"])
    if entry.get("lost"):
        check_lost(told, entry, entry["lost"])
        if len(entry["tokens"]) == 1 and (entry["ambiguity"] or "winner" in entry):
            check_doomed(told, entry, entry["lost"])
    hold(entry["ambiguity"] or entry.get("after") or "winner" in entry, "nothing is told of a conflict")


def check_numbers(told):
    """As many entries are told as are counted, each by itself and in groups."""
    for file in told.file, told.grouped:
        counts = Counter()
        for entry in file["conflicts"]:
            counts[entry["kind"]] += len(entry["tokens"])
        hold(counts["shift/reduce"] == file["shift_reduce"], "there are other shift/reduce conflicts than are counted")
        hold(counts["reduce/reduce"] == file["reduce_reduce"], "there are other reduce/reduce conflicts than are counted")
    cells = [(it["state"], *it["tokens"], *told.candidates(it)) for it in told.file["conflicts"]]
    hold(len({*cells}) == len(cells) == sum(counts.values()), "an entry is told twice, or with others")


def check(told):
    """All that is told of a file."""
    check_numbers(told)
    for entry in told.entries:
        try:
            check_entry(told, entry)
        except Wrong as why:
            raise Wrong(f"state {entry['state']}, {', '.join(entry['tokens'])}: {why}") from why
    groups = [it for it in told.grouped["conflicts"] if it not in told.file["conflicts"]]
    for entry in groups:
        check_entry(told, entry)


def numbers(told):
    """How many entries there are, and how many of them have a text."""
    texts = lambda entries: sum(it["ambiguity"] is not None for it in entries)
    settled = told.file["settled"]
    return (
        f"{told.file['shift_reduce']} shift/reduce, {told.file['reduce_reduce']} reduce/reduce, "
        f"{texts(told.file['conflicts'])} with texts; {len(settled)} settled, {texts(settled)} with texts"
    )


# What is told, spoilt.


def other_dot(item):
    item["dot"] += -1 if item["dot"] else 1


def other_alternative(ambiguity):
    ambiguity["trees"][0][1] += 1


def without_leaf(ambiguity):
    """Takes the last child of a tree away, and puts one in where there is none."""
    children = ambiguity["trees"][1][2]
    children[-1:] = [] if children else [NO_TOKEN]


def with_token(names):
    """Puts a token in that stands in no text."""
    names[-1:] = [NO_TOKEN]


def out_of_order(outlook):
    outlook["derivation"].reverse()


def without_item(outlook):
    del outlook["derivation"][-2]


def one_twice(ambiguity):
    """Tells that both trees are the same one."""
    ambiguity["trees"][1] = ambiguity["trees"][0]


SPOILT_TEXTS = {
    "a token of a text": (check_count, lambda it: with_token(it["text"])),
    "a token too many": (check_trees, lambda it: it["text"].append(NO_TOKEN)),
    "one tree twice": (check_trees, one_twice),
    "an alternative": (check_trees, other_alternative),
    "a child": (check_trees, without_leaf),
    "a rule": (check_rule, lambda it: it.update(rule=NO_TOKEN)),
    "a dot": (check_parting, other_dot),
    "trees the other way round": (check_parting, lambda it: it["trees"].reverse()),
}
SPOILT_LISTS = {
    "a token of an input": (check_input, lambda it: with_token(it["input"])),
    "the token": (check_outlooks, lambda it: it.update(token=NO_TOKEN)),
    "a symbol of a list": (check_outlooks, lambda it: with_token(it["list"])),
    "a dot of an item": (check_outlooks, lambda it: other_dot(it["reduce"]["derivation"][-1])),
    "a dot of an outer item": (check_outlooks, lambda it: other_dot(it["other"]["derivation"][0])),
    "an item": (check_outlooks, lambda it: without_item(it["other"])),
    "items the other way round": (check_outlooks, lambda it: out_of_order(it["reduce"])),
    "a token of a rest": (check_outlooks, lambda it: with_token(it["other"]["rest"])),
    "candidates the other way round": (check_outlooks, lambda it: it.update(reduce=it["other"], other=it["reduce"])),
}
SPOILT_LOSSES = {
    "a token of a lost text": (check_lost, lambda it: with_token(it["text"])),
    "where it stops": (check_lost, lambda it: it.update(stop=it["stop"] + 1)),
    "its dot": (check_lost, lambda it: it.update(dot=it["stop"] + 1)),
}


def is_seen(check, told, entry, part):
    """Whether the check refuses this part of an entry."""
    try:
        check(told, entry, part)
    except Wrong:
        return True
    return False


def spoil(told, counts):
    """Spoils what is told of each entry in each way, and counts how often that is seen, and how often not."""
    for entry in told.entries:
        for name, ways in (("ambiguity", SPOILT_TEXTS), ("after", SPOILT_LISTS), ("lost", SPOILT_LOSSES)):
            for way, (check, spoiling) in ways.items() if entry.get(name) else ():
                part = copy.deepcopy(entry[name])
                spoiling(part)
                counts[way, is_seen(check, told, entry, part)] += 1
    told.file["conflicts"].pop()
    counts["an entry left out", is_seen(lambda told, *_: check_numbers(told), told, None, None)] += 1


def told_of(lrcheck, path):
    """What is told of a file, and of the grammar that is told too."""
    answer = lambda *options: subprocess.run([lrcheck, *options, path], capture_output=True).stdout
    grammar = definitions.meaning(definitions.read(answer("--grammar")))
    file, grouped = (json.loads(answer("--json", *options)) for options in (("--all", "--settled"), ("--grammar",)))
    return Told(grammar, file, grouped)


def told_well(lrcheck, path):
    """What is told of a file, which is so."""
    try:
        told = told_of(lrcheck, path)
        check(told)
    except Wrong as why:
        sys.exit(f"{path}: {why}")
    return told


def main(lrcheck, *paths):
    for path in paths:
        print(f"{Path(path).name}: {numbers(told_well(lrcheck, path))}")


def main_spoilt(lrcheck, *paths):
    counts = Counter()
    for path in paths:
        spoil(told_well(lrcheck, path), counts)
    for way in dict.fromkeys(way for way, _ in counts):
        print(f"{way}: {counts[way, True]} seen, {counts[way, False]} not seen")


if __name__ == "__main__":
    if sys.argv[1] == "--spoilt":
        main_spoilt(*sys.argv[2:])
    else:
        main(*sys.argv[1:])
