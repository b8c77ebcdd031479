"""Calls the library for C on files, and compares what it tells with what lrcheck tells of them on standard input.

    calling.py FOLDER FILE..              FOLDER has liblrc.so and lrc.py
    calling.py FOLDER --rooms FILE..      reports are put into buffers of all sizes too
"""

import ctypes
import json
import os
import subprocess
import sys
from pathlib import Path

sys.dont_write_bytecode = True
sys.path.insert(0, sys.argv[1])
os.environ["LRC_LIBRARY"] = f"{sys.argv[1]}/liblrc.so"
import lrc

FILL = 165
CALLS = {"report": [], "summary": ["--summary"], "json": ["--json", "--grammar"]}


def checked(words, text):
    """What lrcheck prints of a text on standard input."""
    return subprocess.run(["lrcheck", *words, "-"], input=text, capture_output=True).stdout


def put_in(name, unit, text, kind, room):
    """What a call answers, and the bytes that stand in a buffer with room for so many numbers, behind which no byte may change."""
    call, size = getattr(lrc._library, name), ctypes.sizeof(unit)
    call.restype = ctypes.c_size_t
    buffer = (ctypes.c_uint8 * ((room + 2) * size))(*[FILL] * ((room + 2) * size))
    answer = call(text, ctypes.c_size_t(len(text)), *map(ctypes.c_uint32, kind), buffer, ctypes.c_size_t(room))
    return answer, bytes(buffer)


def check_rooms(name, unit, text, *kind):
    """As much of the answer as there is room for is written, and nothing behind it. Answers the whole, in bytes."""
    size = ctypes.sizeof(unit)
    whole, _ = put_in(name, unit, text, kind, 0)
    answer, told = put_in(name, unit, text, kind, whole)
    told = told[: whole * size]
    for room in (0, 1, whole // 2, max(whole - 1, 0), whole, whole + 3):
        answer, buffer = put_in(name, unit, text, kind, room)
        there = told[: room * size]
        wanted = there + bytes([FILL]) * (len(buffer) - len(there))
        assert answer == whole and buffer == wanted, (name, kind, room)
    return told


def refused(call, *arguments):
    """The report with which a text is refused; None where it is not."""
    try:
        call(*arguments)
    except lrc.GrammarError as error:
        return str(error).encode()
    return None


def check_reports(text, page, has_rooms):
    """All reports are those of lrcheck. Answers the grammar in that of JSON; None where the text is none."""
    for number, kind in enumerate(lrc.KINDS[:3]):
        told = lrc.report(text, kind).encode()
        assert told == checked(CALLS[kind], text), kind
        assert not has_rooms or told == check_rooms("lrc_report", ctypes.c_uint8, text, number), kind
    page.unlink(missing_ok=True)
    checked(["--page", str(page)], text)
    if page.exists():
        assert lrc.report(text, "page").encode() == page.read_bytes()
    else:
        assert refused(lrc.report, text, "page") == checked([], text)
    assert check_rooms("lrc_report", ctypes.c_uint8, text, 4) == b""
    return json.loads(told).get("grammar")


def check_table(text, grammar):
    """The table has the symbols and productions of the grammar, behind $accept, and before what the machine adds."""
    table, names = lrc.Table(text), [it["name"] for it in grammar["tokens"]]
    assert table.tokens[: len(names)] == names and table.tokens[-1] == "" and table.rules == ["^", "$accept", *grammar["rules"]]
    wanted = [(it["rule"], len(it["body"])) for it in grammar["productions"]]
    told = [(table.rules[rule], length) for rule, length in table.productions]
    assert told == [("$accept", 2), *wanted, ("^", 1)], told
    for state in range(table.states):
        for token in range(len(table.tokens)):
            kind, number = table.action(state, token)
            assert kind in ("error", "accept") or number < (table.states if kind == "shift" else len(told))
        assert all(table.goto(state, rule) is None or table.goto(state, rule) < table.states for rule in range(len(table.rules)))


def check(path, has_rooms):
    text = path.read_bytes()
    grammar = check_reports(text, Path("page.html"), has_rooms)
    is_there = [check_rooms("lrc_table", ctypes.c_uint32, text) != b"", check_rooms("lrc_names", ctypes.c_uint8, text) != b""]
    if grammar is None:
        assert not any(is_there) and refused(lrc.Table, text) == checked([], text)
    else:
        assert all(is_there)
        check_table(text, grammar)


has_rooms = sys.argv[2] == "--rooms"
paths = sys.argv[3:] if has_rooms else sys.argv[2:]
for path in paths:
    check(Path(path), has_rooms)
print(f"{len(paths)} files: reports, tables and names as lrcheck tells{', in buffers of all sizes' if has_rooms else ''}")
