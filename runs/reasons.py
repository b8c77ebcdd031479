#!/usr/bin/env python3
"""reasons.py LRCHECK FIRST COUNT: whether LRCHECK gives such reasons as the definitions allow for the conflicts of drawn
grammars, without their precedences: as many as COUNT with conflicts, of numbers from FIRST on. Prints how many there were of
each kind.

The entries are worked out from the drawn text. For each it is found out by other ways than the program's, beside what texts.py
finds out of its text and both trees, and of its list, which is told where texts are looked for by one step alone:

- after its list of symbols both candidates are real by the canonical LR(1) items, and none that is shorter will do;
- the input is a shortest text of the list, and no rest by either candidate is shorter;
- the trees part by two candidates of the entry's cell; the trees in brackets are parts of them that leave out the same in both,
  and part there too;
- where no text is told, no text of at most SHORT tokens has two trees that part there;
- where the grammar is told to be unambiguous although there are conflicts, none has two trees at all.
"""

import json
import re
import subprocess
import sys
from collections import Counter
from dataclasses import dataclass
from itertools import groupby, product
from pathlib import Path

import brackets
import texts
from canonical import Canonical, TooLarge
from drawn_grammars import Conflict, drawn_grammars
from partings import Rests
from sentences import Behind, Least, ShortTexts
from texts import END, Wrong, hold

SHORT = 5
YET = ", yet unambiguous (proved)"
MISSED = 0  # So many entries may be missed, of those that short texts show to be ambiguous.
MOST_STATES = 600  # Canonical ones; grammars with more are passed over.
MOST_STACKS = 3000
ONE_STEP = ("--steps", "1")  # No search finds a text in it, so that lists are told, but where their own texts have two trees.


class Known:
    """What is found out of a grammar by other ways than the program's."""

    def __init__(self, grammar):
        self.grammar, self.least, self.canonical = grammar, Least(grammar), Canonical(grammar, MOST_STATES)
        self.rests, self.behind = None, {}

    def shared(self, conflict, pair):
        """A short text with two trees that part at the conflict by these moves, if there is one."""
        self.rests = self.rests or Rests(self.canonical, self.least, SHORT + 1, MOST_STACKS)
        return self.rests.shared(conflict.items, pair, conflict.token)

    def shortest_rest(self, symbols, token, move):
        """The length of a shortest rest behind the list, from the token on, by the move."""
        key = tuple(symbols), token
        if key not in self.behind:
            self.behind[key] = Behind(self.grammar, self.least, symbols, token)
        return self.behind[key].shortest(move)


@dataclass
class Answer:
    """What is told of a grammar: as JSON in groups, with each entry alone, and by one step; in lines; and in the last one of these."""

    grouped: dict
    alone: dict
    by_one_step: dict
    blocks: list
    line: str


@dataclass
class Entry:
    """What is told of a conflict: as JSON, in lines, and as JSON by one step."""

    conflict: Conflict
    told: dict
    lines: brackets.Block
    by_one_step: dict


# After what an entry is real.


def check_list(known, conflict, symbols, token):
    """Both candidates are real after the list on the token, which is another one than the entry's only where they are real on
    that after no list, and is the least one then. No list is shorter."""
    canonical, number = known.canonical, known.canonical.after(symbols)
    hold(number is not None, f"nothing stands after {symbols}")
    hold(canonical.states[number].core.keys() == conflict.items, f"{symbols} leads to other items")
    for move in conflict.pair:
        hold(canonical.can(number, move, token), f"move {move} is not real after {symbols}")
    hold(len(symbols) == canonical.shortest(conflict.items, conflict.pair, token), f"{symbols} is not shortest")
    if token != conflict.token:
        hold(None not in conflict.pair, "a shift is not real on its token")
        for other in (conflict.token, *range(token)):
            hold(canonical.shortest(conflict.items, conflict.pair, other) is None, f"it is real on token {other}")


def check_after(known, told, entry, counts):
    """The list, its input, and how that goes on by either candidate; or a text that has two trees."""
    conflict, after = entry.conflict, entry.by_one_step["after"]
    if after is None:
        check_two_trees(told, conflict, entry.by_one_step)
        counts["ambiguous by one step"] += 1
        return
    symbols, token = told.symbols(after["list"]), told.symbol(after["token"])
    check_list(known, conflict, symbols, token)
    for check in texts.OF_LISTS:
        check(told, entry.by_one_step, after)
    hold(len(after["input"]) == known.least.text(symbols), f"{after['input']} is no shortest text of {after['list']}")
    for move, outlook in zip(conflict.pair, (after["reduce"], after["other"])):
        least = known.shortest_rest(symbols, token, move)
        hold(len([*outlook["rest"], END]) == least, f"{outlook['rest']} is no shortest rest")
    counts["other tokens"] += token != conflict.token


def check_fates(told, entry, counts):
    """The lost texts, with many steps and with one, also where a text has two trees. None is told where it is told that none is lost."""
    for one in entry.told, entry.by_one_step:
        if one["lost"]:
            texts.check_lost(told, one, one["lost"])
            if one["ambiguity"]:
                texts.check_doomed(told, one, one["lost"])
            hold(not one["kept"], f"{one['lost']['text']} is told to be lost, and that no text is")
    counts["lost"] += entry.by_one_step["lost"] is not None
    counts["ambiguous and lost"] += None not in (entry.told["ambiguity"], entry.told["lost"])


# Ambiguities.


def pair_of(told, ambiguity):
    """The moves by which both trees part."""
    _, moves = texts.parting(told, ambiguity)
    return tuple(None if isinstance(move, int) else move[0] for move in moves)


def check_pair(told, conflict, ambiguity):
    """The trees part by two candidates of the entry's cell."""
    pair = pair_of(told, ambiguity)
    hold(pair in conflict.pairs(), f"the trees part by {pair}")
    return pair


def check_two_trees(told, conflict, entry):
    """A text is told, with two trees that part by two candidates of the entry's cell."""
    ambiguity = entry["ambiguity"]
    hold(ambiguity is not None, "it is not told after what it is real")
    for check in texts.OF_TEXTS:
        check(told, entry, ambiguity)
    return check_pair(told, conflict, ambiguity)


def check_printed_text(ambiguity, printed):
    """The text is printed with a dot, but for tokens that are far from it."""
    text, dot = ambiguity["text"], ambiguity["dot"]
    whole, shown = " ".join((*text[:dot], ".", *text[dot:])), printed.removeprefix("... ").removesuffix(" ...")
    hold(shown in whole and (shown == whole or "..." in printed), f"{printed} is printed, and not {whole}")


def labels_of(told, one, other):
    """What stands before the trees that part by these moves."""
    if other is None:
        return ["reduce", "shift"]
    rules = [told.grammar.prods[move][0].decode() for move in (one, other)]
    return ["first", "second"] if rules[0] == rules[1] else [f"as {rule}" for rule in rules]


def body_by(told, move):
    """What moves are told apart by in brackets: for a reduction the rule and the body, and None for a shift."""
    return None if move is None else texts.body_of(*told.grammar.prods[move])


def undone(form, tree):
    """The trees in brackets of which this may be the one with marks, by the nodes that stand in the tree in place of these."""
    if isinstance(form, str):
        return [form] if texts.root_of(tree) == form else []
    rule, children = form
    if isinstance(tree, str) or len(children) != len(tree[2]):
        return []
    if rule == brackets.MARK:
        return [(tree[0], [it]) for below in (form, *children) for it in undone(below, *tree[2])]
    return [(rule, [*it]) for it in product(*map(undone, children, tree[2]))] if rule == tree[0] else []


def left_out(form, tree):
    """What a tree in brackets without marks leaves out of a tree, in a row; None where it is no part of that."""
    if isinstance(form, str):
        return [tree] if texts.root_of(tree) == form else None
    if isinstance(tree, str) or form[0] != tree[0] or len(form[1]) != len(tree[2]):
        return None
    parts = [left_out(*pair) for pair in zip(form[1], tree[2])]
    return None if None in parts else [it for part in parts for it in part]


def moves_of(told, form):
    """The moves of a tree in brackets: leaves as symbols, and nodes by their bodies."""
    if isinstance(form, str):
        return [told.symbol(form)]
    rule, children = form
    body = told.symbols(texts.root_of(child) for child in children)
    return [move for child in children for move in moves_of(told, child)] + [texts.body_of(told.symbol(rule), body)]


def partings(one, other, dot, bodies):
    """At which places the moves may part behind so many leaves by nodes of these bodies, where None stands for a leaf. Two
    productions of one rule and body aren't told apart."""
    read, found = 0, []
    for place, moves in enumerate(zip(one, other)):
        if read == dot and [it if isinstance(it, tuple) else None for it in moves] == bodies:
            found.append(place)
        if moves[0] != moves[1]:
            break
        read += not isinstance(moves[0], tuple)
    return found


def check_brackets(told, ambiguity, pair, trees):
    """The trees in brackets are parts of both trees below a node of the rule that is told, and leave out the same in both. They
    part at the dot by the pair of moves. The end of the text is not printed. Marks stand in place of the middle of chains."""
    labels, forms, (dot, other_dot) = zip(*trees)
    hold([*labels] == labels_of(told, *pair), f"{labels} stand before trees that part by {pair}")
    is_whole = ambiguity["rule"] == "$accept"
    rule = texts.root_of(ambiguity["trees"][0]) if is_whole else ambiguity["rule"]
    hold({*map(texts.root_of, forms)} == {rule}, f"the trees in brackets are none of {rule}")
    parts = [
        whole
        for nodes in texts.nodes_of_both(ambiguity)
        for whole in product(*map(undone, forms, nodes))
        if left_out(whole[0], nodes[0]) == left_out(whole[1], nodes[1])
    ]
    hold(parts, "the trees in brackets are no part of both trees")
    bodies, end = [body_by(told, move) for move in pair], [END] if is_whole else []
    places = [(whole, place) for whole in parts for place in partings(*(moves_of(told, it) + end for it in whole), dot, bodies)]
    hold(dot == other_dot and places, "the trees in brackets part elsewhere")
    hold(any(brackets.shown(*whole, place) == forms for whole, place in places), "other nodes are left out, with marks")


def check_ambiguity(told, entry, counts):
    """The text and its trees, and what is printed of them."""
    ambiguity = entry.told["ambiguity"]
    pair = check_two_trees(told, entry.conflict, entry.told)
    check_printed_text(ambiguity, entry.lines.text)
    check_brackets(told, ambiguity, pair, entry.lines.trees)
    hold(ambiguity["own"] == (pair == entry.conflict.pair), f"the trees part by {pair}, which is told otherwise")
    counts["by two others of three candidates"] += not ambiguity["own"]


def check_missed(known, conflict, counts):
    """No short text has two trees that part at the conflict."""
    for pair in conflict.pairs():
        if shared := known.shared(conflict, pair):
            counts["missed"] += 1
            print(f"missed: {known.grammar}: {conflict}: {pair}: {shared}")
            return
    counts["not known, with more stacks than are looked at"] += not known.rests.is_whole


def check_decided(known, entry, counts):
    """No short text has two trees that part by the candidates of an entry that is decided."""
    if entry.told["decided"] is None:
        return
    counts["decided"] += 1
    hold(entry.told["ambiguity"] is None, "it has a sentence with two trees, and is decided")
    shared = known.shared(entry.conflict, entry.conflict.pair)
    hold(not shared, f"it is decided, but two trees part there: {shared}")


# All of a grammar, and of all.


def check_entry(known, told, entry, counts):
    """All that is told of an entry."""
    kind = "reduce" if "other" in entry.told else "shift"
    head = f"conflict: {kind} or reduce at {entry.told['tokens'][0]} in state {entry.told['state']}"
    hold(entry.lines.head == head, f"{entry.lines.head} is printed, and not {head}")
    hold(entry.told["chosen"] == ("shift" if None in entry.conflict.cell else "reduce"), "the table does something else")
    check_after(known, told, entry, counts)
    check_fates(told, entry, counts)
    counts["ambiguous" if entry.told["ambiguity"] else "not known"] += 1
    if entry.told["ambiguity"]:
        check_ambiguity(told, entry, counts)
    else:
        hold(entry.told["after"] == entry.by_one_step["after"], "another list is told where a text was looked for")
        check_missed(known, entry.conflict, counts)
    check_decided(known, entry, counts)


def check_groups(told, alone):
    """Entries stand in the order of the file. Those in a row that meet alike in one state, where the table does the same, are
    told together: with the text of the first token that has one, or rather of the first that has one of its own candidates, the
    list of the first token where that has none, the lost text of the first that has one, and that they are decided where each is."""
    in_order = lambda key: (key[2][0], key[0], key[2][1] or 0, key[1])
    hold([*alone] == sorted(alone, key=in_order), f"the entries are out of order: {[*alone]}")
    rows = groupby(alone.values(), lambda it: {**it, **dict.fromkeys(("tokens", "shift", "ambiguity", "after", "lost", "kept", "decided"))})
    for group, (_, row) in zip(told.grouped["conflicts"], rows, strict=True):
        row = [*row]
        hold(group["tokens"] == [token for it in row for token in it["tokens"]], f"{group['tokens']} are told together")
        known = sorted((it["ambiguity"] for it in row if it["ambiguity"]), key=lambda it: not it["own"])
        lost = next((it["lost"] for it in row if it["lost"]), None)
        wanted = next(iter(known), None), row[0]["after"], lost
        kept = all(it["kept"] for it in row)
        hold(group["kept"] == (True if kept else None), f"{group['tokens']} are kept together otherwise than each")
        decided = {it["decided"] for it in row}
        hold(group["decided"] == (None if None in decided else decided.pop() if len(decided) == 1 else True),
             f"{group['tokens']} are decided by {group['decided']}, each by {decided}")
        hold((group["ambiguity"], group["after"], group["lost"]) == wanted, f"something else is told of {group['tokens']} together")


def check_line(answer):
    """The line tells for how many entries a text is told that is rejected."""
    lost = sum(it["lost"] is not None for it in answer.alone["conflicts"])
    words = f", {lost} with a rejected sentence" if lost else ""
    told = re.search(r", \d+ with a rejected sentence|$", answer.line)[0]
    hold(told == words, f"{lost} conflicts reject sentences, but the line is: {answer.line}")
    check_words_of_decided(answer)


def check_words_of_decided(answer):
    """The line tells of how many entries it is known that no sentence has two trees, where none with two trees is told."""
    all, decided = len(answer.alone["conflicts"]), sum(it["decided"] is not None for it in answer.alone["conflicts"])
    if any(it["ambiguity"] for it in answer.alone["conflicts"]) or not all:
        return
    if YET in answer.line:
        hold(decided == all, f"{decided} of {all} conflicts are decided, but the line is: {answer.line}")
        return
    known = ", not ambiguous" if all == 1 else ", none ambiguous"
    unknown = ", not known to be ambiguous" if all == 1 else ", none known to be ambiguous"
    words = known if decided == all else unknown + (f", {decided} known not to be" if decided else "")
    hold(words in answer.line, f"{decided} of {all} conflicts are decided, but the line is: {answer.line}")


def check_unambiguous(drawn, answer, counts):
    """The line and JSON tell alike whether the grammar is unambiguous although there are conflicts. No short text has two trees then."""
    told = YET in answer.line
    for file in (answer.grouped, answer.alone):
        hold(told == (file["verdict"] == "conflicts" and "unambiguous" in file["proved"]), f"JSON tells otherwise than the line: {answer.line}")
    if not told:
        return
    counts["unambiguous with conflicts"] += 1
    rule, _ = drawn.grammar.prods[0]
    ambiguous = ShortTexts(drawn.grammar, SHORT + 1).with_two_trees(rule)
    hold(not ambiguous, f"it is told to be unambiguous, but texts have two trees: {ambiguous}")


def by_key(drawn, told, file):
    """The entries by what tells them apart: the state, the token, and the moves that contend."""
    pair = lambda it: tuple(drawn.lines[it[name]["line"]] if name in it else None for name in ("reduce", "other"))
    return {(it["state"], told.symbol(it["tokens"][0]), pair(it)): it for it in file["conflicts"]}


def check_grammar(drawn, answer, counts):
    """All that is told of a grammar."""
    if not drawn.derives:
        hold(answer.grouped["verdict"] == "not read", "there is a grammar that derives no text")
        return
    told = texts.Told(drawn.grammar, answer.alone, answer.grouped)
    hold(told.named == drawn.names(), f"the symbols are {[*told.named]}")
    texts.check_numbers(told)
    alone, by_one_step = (by_key(drawn, told, file) for file in (answer.alone, answer.by_one_step))
    wanted = {(it.state, it.token, it.pair): it for it in drawn.conflicts}
    hold(alone.keys() == by_one_step.keys() == wanted.keys(), f"entries are {[*alone]}, and not {[*wanted]}")
    check_groups(told, alone)
    check_line(answer)
    check_unambiguous(drawn, answer, counts)
    known = Known(drawn.grammar) if wanted else None
    for (key, entry), lines in zip(alone.items(), answer.blocks, strict=True):
        try:
            check_entry(known, told, Entry(wanted[key], entry, lines, by_one_step[key]), counts)
        except Wrong as why:
            raise Wrong(f"state {key[0]}, {entry['tokens'][0]}: {why}") from why


def answers(lrcheck, all_drawn):
    """What is told of each of the grammars."""
    names = [f"{number}.y" for number in range(len(all_drawn))]
    for name, drawn in zip(names, all_drawn):
        Path(name).write_text(drawn.text)
    status = max(1 if drawn.conflicts else 0 if drawn.derives else 2 for drawn in all_drawn)

    def called(*options):
        done = subprocess.run([lrcheck, "--without-precedences", *options, *names], capture_output=True, text=True)
        hold(done.returncode == status, f"the status is {done.returncode}, with {done.stderr}")
        return done.stdout

    told = [called("--json", *options).splitlines() for options in (("--grammar",), ("--all",), ("--all", *ONE_STEP))]
    blocks = brackets.blocks(called("--plain", "--all"))
    lines = dict(line.split(": ", 1) for line in called("--summary").splitlines() if ": " in line)
    for name, *files in zip(names, *told, strict=True):
        yield Answer(*map(json.loads, files), blocks.get(name, []), lines.get(name, ""))


def main(lrcheck, first, count):
    counts, all_drawn = Counter(), [*drawn_grammars(int(first), int(count))]
    for drawn, answer in zip(all_drawn, answers(lrcheck, all_drawn), strict=True):
        counts["with conflicts" if drawn.conflicts else "without conflicts" if drawn.derives else "without a text"] += 1
        try:
            check_grammar(drawn, answer, counts)
        except TooLarge:
            counts["too large"] += 1
        except Wrong as why:
            sys.exit(f"{why}\n{drawn.text}")
    print(", ".join(f"{name}: {number}" for name, number in counts.items()))
    if counts["missed"] > MISSED or counts["too large"] > int(count) // 100:
        sys.exit("too many are missed, or too large")


if __name__ == "__main__":
    main(*sys.argv[1:])
