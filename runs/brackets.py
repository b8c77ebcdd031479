"""Reads what `lrcheck --plain --all` prints of conflicts: texts, and trees in brackets, with marks where nodes are left out."""

import re
from dataclasses import dataclass
from itertools import takewhile

BLOCK = re.compile(r"^(conflict: .*)\n +--> (.*):\d+:\d+\n((?: .*\n|\n)*)", re.MULTILINE)
TEXT = re.compile(r" two trees\n +(.*)\n")
TREE = re.compile(r"^ +(shift|reduce|first|second|as \w+): +(.*)$", re.MULTILINE)
WORD = re.compile(r"'[^'\n]+'|\w+\(?|\.{3}|[.)]")
MARK = "..."
MOST = 2  # So many nodes of a chain are never left out.


@dataclass
class Block:
    """What is printed of a conflict: its first line, the text with a dot, and of each tree the label, the tree and how many
    leaves stand before the dot; first that of the reduction."""

    head: str
    text: str
    trees: list


def blocks(printed):
    """What is printed of the conflicts of each file, in the order of the lines."""
    found = {}
    for head, file, lines in BLOCK.findall(printed):
        text = TEXT.search(lines)
        trees = [(label, *tree(WORD.findall(words))) for label, words in TREE.findall(lines)]
        shift_last = sorted(trees, key=lambda it: it[0] == "shift")
        found.setdefault(file, []).append(Block(head, text and text[1], shift_last))
    return found


def tree(words):
    """A tree in brackets: a leaf is a word, and a node a pair of its rule and its children. A mark is a node, over the one that it
    stands before. Then how many leaves stand before the dot."""
    rows, names, leaves, dot = [[]], [], 0, None

    def close():
        children = rows.pop()
        rows[-1].append((names.pop(), children))

    for word in words:
        if word == ".":
            dot = leaves
        elif word == ")":
            close()
            if names[-1:] == [MARK]:
                close()
        elif word == MARK or word.endswith("("):
            names.append(word.removesuffix("("))
            rows.append([])
        else:
            rows[-1].append(word)
            leaves += 1
    ((whole,),) = rows
    return whole, dot


def nodes_of(tree):
    """The leaves and nodes of a tree, each node behind those below it: a step each."""
    below = [] if isinstance(tree, str) else [it for child in tree[1] for it in nodes_of(child)]
    return [*below, tree]


def steps_left_out(tree, place):
    """The places of the steps that are left out where the steps before a place and those from it on are shown by themselves: of
    nodes in a row behind a node, each over the one before it, all but the last, if there are more than two."""
    nodes, found = nodes_of(tree), []
    for first, end in ((0, place), (place, len(nodes))):
        step = first
        while step < end:
            units = 0
            if not isinstance(nodes[step], str):
                units = len([*takewhile(lambda it: not isinstance(it, str) and len(it[1]) == 1, nodes[step + 1 : end])])
            if units > MOST:
                found += range(step + 1, step + units)
                step += units
            else:
                step += 1
    return found


def shortened(tree, place):
    """A tree with marks in place of the nodes that are left out."""
    gone, rows = steps_left_out(tree, place), []
    for step, node in enumerate(nodes_of(tree)):
        below = [] if isinstance(node, str) else [rows.pop() for _ in node[1]][::-1]
        if step in gone:
            rows.append(below[0] if below[0][0] == MARK else (MARK, below))
        else:
            rows.append(node if isinstance(node, str) else (node[0], below))
    return rows[0]


def unmarked(tree):
    """A tree without marks, above what stands below them."""
    if isinstance(tree, str):
        return tree
    rule, children = tree
    return unmarked(children[0]) if rule == MARK else (rule, [unmarked(child) for child in children])


def shown(one, other, place):
    """Two trees as they are shown that part at this step: with marks, or whole, where these would look alike."""
    marked = shortened(one, place), shortened(other, place)
    return (one, other) if unmarked(marked[0]) == unmarked(marked[1]) else marked
