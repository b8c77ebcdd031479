"""Grammars of Yacc and Bison: what lrcheck tells of them, and their LR tables. docs/LIBRARY.md says what the numbers mean.

    print(lrc.report(text))
    table = lrc.Table(text)

The calls are those of liblrc.so, which lies beside this file, or where the variable LRC_LIBRARY says.
"""

import ctypes
import os
from pathlib import Path

KINDS = ("report", "summary", "json", "page")
TOO_LARGE = ctypes.c_size_t(-1).value
ROOM = 1 << 16

_library = ctypes.CDLL(os.environ.get("LRC_LIBRARY") or str(Path(__file__).resolve().with_name("liblrc.so")))


class GrammarError(ValueError):
    """The text is no grammar, or its grammar has no table. The message is the report on it."""


def _call(name, unit, text, *kind):
    """What a call tells of a text, as an array of such numbers."""
    call = getattr(_library, name)
    call.restype = ctypes.c_size_t
    room = ROOM
    while True:
        out = (unit * room)()
        size = call(text, ctypes.c_size_t(len(text)), *map(ctypes.c_uint32, kind), out, ctypes.c_size_t(room))
        if size == TOO_LARGE:
            raise MemoryError("out of memory, or the table is too large")
        if size <= room:
            return out[:size]
        room = size


def _bytes(text):
    return text.encode() if isinstance(text, str) else bytes(text)


def report(text, kind="report"):
    """A report of lrcheck on a grammar text, of one of the KINDS. GrammarError: the text is no grammar, so that it has no page."""
    text = _bytes(text)
    told = bytes(_call("lrc_report", ctypes.c_uint8, text, KINDS.index(kind))).decode()
    if not told:
        raise GrammarError(report(text))
    return told


class Table:
    """The LR table of the grammar of a text. GrammarError: there is none.

    states: how many states there are; state 0 is the start state
    tokens: the name of each token; token 0 is the end of the text, and the last one, "", ends the machine's input
    rules: the name of each rule
    productions: the rule of each production, and how many symbols its body has
    """

    def __init__(self, text):
        text = _bytes(text)
        self._numbers = _call("lrc_table", ctypes.c_uint32, text)
        if not self._numbers:
            raise GrammarError(report(text))
        self.states, tokens, rules, _ = self._numbers[:4]
        names = bytes(_call("lrc_names", ctypes.c_uint8, text)).decode().split("\n")
        self.tokens, self.rules = names[:tokens], names[tokens : tokens + rules]
        self._gotos = 4 + self.states * tokens
        pairs = self._numbers[self._gotos + self.states * rules :]
        self.productions = list(zip(pairs[::2], pairs[1::2]))

    def action(self, state, token):
        """What a state does on a token: ("error", None), ("accept", None), ("shift", state) or ("reduce", production)."""
        number = self._numbers[4 + state * len(self.tokens) + token]
        if number < 2:
            return ("error", "accept")[number], None
        return ("shift", "reduce")[number % 2], number // 2 - 1

    def goto(self, state, rule):
        """Where a rule leads from a state; None where it leads nowhere."""
        number = self._numbers[self._gotos + state * len(self.rules) + rule]
        return number - 1 if number else None
