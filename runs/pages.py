#!/usr/bin/env python3
"""Reads a page that `lrcheck --page` made, and prints its text.

pages.py PAGE

Ends with status 1, and says why, where the page is not what it should be: elements are closed in order; there is one script and
one style sheet, both its own, and no other element or attribute than such pages have; text and values of attributes have
none of the characters < > & " ' but by their entities; no address is anything else than a place in the page, or in what the
script makes, and each is there once; symbols, productions and states that the script is to look up are there; and both trees of a
text, unless it has only one, are trees of the same leaves, which differ.

It prints the parts of the page in their order, an element of them a line, with `^` around what is marked, and what the script is
to make of the data: the productions of each rule, the tokens, and each state's items, conflicts and edges. Trees are printed in
brackets, with those of their nodes in angle brackets that the other tree doesn't have with the same rule and span, or, where it
has them all, with the same production and span.
"""

import re
import sys
from collections import Counter
from dataclasses import dataclass
from html import unescape
from html.parser import HTMLParser

ENTITIES = {"lt", "gt", "amp", "quot", "bull"}
VOID = {"meta", "input"}
ELEMENTS = set(
    "html head meta title style body header h1 h2 h3 p nav div a input span noscript main section details summary b code i mark"
    " figure figcaption pre script".split()
)
ATTRIBUTES = set("lang charset name content http-equiv class href id type placeholder aria-label role open hidden".split())
DATA = {"data-before", "data-steps", "data-state"}
LINES = {"h1", "h2", "p", "summary", "figcaption"}


class Page(HTMLParser):
    """What a page holds."""

    def __init__(self, text):
        super().__init__(convert_charrefs=False)
        self.faults, self.open, self.links = [], [], []
        self.ids, self.elements = Counter(), Counter()
        self.trees, self.cards = [], []
        self.rows = {}
        self.lines, self.line = [], ""
        self.feed(text)
        self.close()
        if self.open:
            self.fault(f"not closed: {self.open}")

    def fault(self, words):
        line, column = self.getpos()
        self.faults.append(f"{line}:{column + 1}: {words}")

    def end_line(self):
        if self.line.strip():
            self.lines.append(" ".join(self.line.split()))
        self.line = ""

    def handle_decl(self, declaration):
        if declaration != "DOCTYPE html" or self.elements:
            self.fault(f"declaration: {declaration}")

    def handle_comment(self, text):
        self.fault(f"comment: {text}")

    def handle_pi(self, text):
        self.fault(f"instruction: {text}")

    def handle_starttag(self, tag, attributes):
        if tag not in ELEMENTS:
            self.fault(f"element: {tag}")
        raw = self.get_starttag_text()
        values = re.findall(r'="([^"]*)"', raw)
        if tag != "meta" and any(re.search(r"[<>&']", value) for value in values) or raw.count('"') != 2 * len(values):
            self.fault(f"attributes: {raw}")
        for name, value in attributes:
            if name not in ATTRIBUTES | DATA:
                self.fault(f"attribute: {name}")
        self.elements[tag] += 1
        values = dict(attributes)
        self.take_in(tag, values)
        if tag in LINES or tag == "div":
            self.end_line()
        self.line += {"b": "", "mark": "^", "i": "line ", "span": " "}.get(tag, "")
        if tag not in VOID:
            self.open.append(tag)

    def take_in(self, tag, values):
        """Keeps what other parts of the page speak of, and what speaks of them."""
        if "id" in values:
            self.ids[values["id"]] += 1
        if "href" in values:
            self.links.append(values["href"])
            if not values["href"].startswith("#"):
                self.fault(f"address: {values['href']}")
        if tag == "pre":
            self.rows[values["id"]] = ""
        if "data-state" in values:
            self.cards.append([int(values["data-state"]), None, values["id"][0] == "c"])
        if values.get("class") == "title":
            self.end_line()
        if "data-before" in values:
            self.trees.append((values["data-before"].split(), []))
        if "data-steps" in values:
            self.trees[-1][1].append(values["data-steps"].split(" "))
            self.end_line()
            self.lines.append((len(self.trees) - 1, len(self.trees[-1][1]) - 1))

    def handle_endtag(self, tag):
        if not self.open or self.open.pop() != tag:
            self.fault(f"closed: {tag}")
        if tag == "pre":
            name = list(self.rows)[-1]
            self.rows[name] = [row.split("\t") for row in self.rows[name].split("\n")[1:-1]]
            self.lines.append([name])
        if tag == "span" and self.cards and self.cards[-1][1] is None:
            self.cards[-1][1] = " ".join(self.line.split())
        self.line += {"mark": "^", "summary": "", "span": " ", "i": " "}.get(tag, "")
        if tag in LINES or tag == "div":
            self.end_line()

    def handle_startendtag(self, tag, attributes):
        self.fault(f"element: {tag}")

    def handle_data(self, text):
        if self.open and self.open[-1] in ("style", "script"):
            return
        if re.search(r"[<>&\"']", text):
            self.fault(f"text: {text}")
        self.add(text)

    def handle_entityref(self, name):
        if name not in ENTITIES:
            self.fault(f"entity: {name}")
        self.add(unescape(f"&{name};"))

    def handle_charref(self, name):
        if name != "39":
            self.fault(f"character: {name}")
        self.add("'")

    def add(self, text):
        if self.open and self.open[-1] == "pre":
            self.rows[list(self.rows)[-1]] += text
        else:
            self.line += text

    def take_data(self):
        """Reads the rows of data: productions as a rule and symbols, with the token behind `%prec`; states as items and edges."""
        self.productions, self.states = [], []
        for symbols, *prec in self.rows["productions"]:
            self.productions.append(([int(symbol) for symbol in symbols.split(" ")], *prec))
        for row in self.rows.get("graph", []):
            self.states.append([[tuple(map(int, pair.split("."))) for pair in pairs.split()] for pairs in row])

    def name(self, symbol):
        """The name of a symbol: tokens have even numbers, rules odd ones."""
        return self.rows["rules" if symbol % 2 else "tokens"][symbol // 2][0]

    def words(self, symbols, dot=None):
        """The names of symbols, perhaps with a dot before one of them or behind all."""
        names = [self.name(symbol) for symbol in symbols]
        if dot is not None:
            names.insert(dot, "\u2022")
        return " ".join(names or ["%empty"])

    def grammar(self):
        """The lines of the grammar."""
        for rule, (name, *line) in enumerate(self.rows["rules"]):
            yield name
            yield from (f"line {number}" for number in line)
            for symbols, *prec in self.productions:
                if symbols[0] // 2 == rule:
                    yield " ".join([self.words(symbols[1:]), *(f"%prec {self.rows['tokens'][int(token)][0]}" for token in prec)])
        yield "Tokens"
        for name, *level in self.rows["tokens"]:
            if level != ["-"]:
                yield name
                yield from level

    def item(self, production, dot):
        """The lines of an item: around the grammar stands a production more, which is shown as those of the first rule."""
        if production < len(self.productions):
            rule, *body = self.productions[production][0]
            return [f"{self.name(rule)}: {self.words(body, dot)}"]
        if dot:
            return [f"{self.name(1)} \u2022"]
        return [line for number, (symbols, *_) in enumerate(self.productions) if symbols[0] == 1 for line in self.item(number, 0)]

    def graph(self):
        """The lines of the states."""
        for state, (items, edges) in enumerate(self.states):
            cards = [title for number, title, _ in self.cards if number == state]
            count = sum(is_conflict for number, _, is_conflict in self.cards if number == state)
            conflicts = f" {count} conflict{'s' * (count > 1)}" if count else ""
            yield f"State {state}" + conflicts + (f" {len(cards) - count} resolved" if count < len(cards) else "")
            for production, dot in items:
                yield from self.item(production, dot)
            yield from cards
            if edges:
                yield f"{len(edges)} edge{'s' * (len(edges) > 1)}"
                yield "edges: " + ", ".join(f"{self.name(symbol)} to {target}" for symbol, target in edges)


@dataclass(eq=False)
class Node:
    """A node of a tree: its symbol and its production, and which leaves stand below it."""

    symbol: int
    production: str
    start: int
    end: int
    below: list

    def nodes(self):
        """The node, and those below it."""
        return [self, *(node for child in self.below for node in child.nodes())]

    def shape(self):
        return self.symbol, self.production, tuple(child.shape() for child in self.below)


def tree_of(page, steps):
    """The tree of steps, without the node of $accept and the token that ends all."""
    row, leaves = [], 0
    for step in steps:
        if step == "s":
            row.append(Node(None, None, leaves, leaves + 1, []))
            leaves += 1
            continue
        rule, *body = page.productions[int(step)][0]
        count = max(0, len(row) - len(body))
        below = row[count:]
        for node, symbol in zip(below, body):
            node.symbol = symbol if node.production is None else node.symbol
        if [node.symbol for node in below] != body:
            page.faults.append(f"tree: {steps}")
        row[count:] = [Node(rule, step, below[0].start if below else leaves, leaves, below)]
    if len(row) != 1 or row[0].production is None:
        page.faults.append(f"trees: {steps}")
        return Node(None, None, 0, 0, [])
    return row[0].below[-2] if row[0].symbol == 1 else row[0]


def leaves_of(tree):
    return [node.symbol for node in tree.nodes() if node.production is None]


def differing(tree, other):
    """The nodes of a tree that the other doesn't have: by rule and span, or, where both have all of these, by production too."""
    for key in (lambda node: (node.symbol, node.start, node.end), lambda node: (node.production, node.start, node.end)):
        keys = [Counter(key(node) for node in it.nodes() if node.production is not None) for it in (tree, other)]
        if keys[0] != keys[1]:
            more, found = keys[1], set()
            for node in tree.nodes():
                if node.production is not None and more[key(node)] == 0:
                    found.add(node)
                more[key(node)] -= more[key(node)] > 0
            return found
    return set()


def brackets(page, tree, differ):
    """A tree in brackets, with what differs in angle brackets."""
    name = page.name(tree.symbol)
    if tree.production is None:
        return name
    left, right = "<>" if tree in differ else "()"
    return name + left + " ".join(brackets(page, node, differ) for node in tree.below) + right


def check(page):
    """Looks for what the page speaks of and doesn't have."""
    for name, count in page.ids.items():
        if count > 1:
            page.faults.append(f"twice: {name}")
    made = {f"t{token}" for token, (_, *level) in enumerate(page.rows["tokens"]) if level != ["-"]}
    made |= {f"r{rule}" for rule in range(len(page.rows["rules"]))} | {f"s{state}" for state in range(len(page.states))}
    if made & set(page.ids):
        page.faults.append(f"twice: {made & set(page.ids)}")
    wanted = {link.removeprefix("#") for link in page.links} | {f"s{state}" for state, *_ in page.cards}
    page.faults += [f"not there: {name}" for name in sorted(wanted - set(page.ids) - made)]
    symbols = [symbol for symbols, *_ in page.productions for symbol in symbols]
    symbols += [symbol for _, edges in page.states for symbol, _ in edges]
    if any(symbol // 2 >= len(page.rows["rules" if symbol % 2 else "tokens"]) for symbol in symbols):
        page.faults.append("a symbol is not there")
    for items, edges in page.states:
        if any(target >= len(page.states) for _, target in edges):
            page.faults.append(f"no such states: {edges}")
        for production, dot in items:
            if production > len(page.productions) or dot > len((page.productions + [([0, 0],)])[production][0]) - 1:
                page.faults.append(f"no such items: {items}")
    for name in ("html", "head", "title", "style", "body", "main", "script"):
        if page.elements[name] != 1:
            page.faults.append(f"{page.elements[name]} elements: {name}")


def print_text(page):
    for line in page.lines:
        if isinstance(line, str):
            print(line)
            continue
        if isinstance(line, list):
            for words in {"productions": page.grammar, "graph": page.graph}.get(line[0], list)():
                print(words)
            continue
        before, steps = page.trees[line[0]]
        if len(steps) == 1:
            print("tree:", brackets(page, tree_of(page, before + steps[0]), ()))
            continue
        one, other = (tree_of(page, before + steps[place]) for place in (line[1], 1 - line[1]))
        if leaves_of(one) != leaves_of(other) or one.shape() == other.shape():
            page.faults.append(f"no two trees of the same leaves: {before} {steps}")
        else:
            print("tree:", brackets(page, one, differing(one, other)))


def main():
    with open(sys.argv[1], encoding="utf-8", newline="") as file:
        text = file.read()
    page = Page(text)
    page.take_data()
    check(page)
    if not page.faults:
        print_text(page)
    for fault in page.faults:
        print(f"{sys.argv[1]}:{fault}", file=sys.stderr)
    sys.exit(bool(page.faults))


if __name__ == "__main__":
    main()
