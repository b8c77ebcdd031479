#!/usr/bin/env python3
"""Hands `lrcheck` bad, odd and large grammar files: each call must end in time with status 0, 1 or 2, and by no signal.

    hostile_files.py LRCHECK FILE..

Of each FILE, a grammar file as it stands: every beginning up to a lexeme, and up to drawn bytes within lexemes; each of these
with a brace, a quote or a mark of a comment taken away; copies with a few bytes changed; with such a mark or a lexeme taken
away, or a lexeme doubled. Then odd texts, and large ones, each at one length and at half of it; those of large grammars with
conflicts, odd texts and what Bison is shown are asked for in all WAYS, and the others for the verdict alone. With status 2 each
line of the answer is a fault with a place inside the file, or shows a line of it; with status 0 or 1 it is one verdict, or ends
with that. What `lrcheck`
refuses and Bison accepts is listed, and the other way round, by the words of both; of the copies a part is shown to Bison. So
is where both accept and count other conflicts, though Bison makes the IELR automaton. Ends with status 1 where a text was not
answered well.

Needs Bison 3.8.2; what it writes goes to a temporary folder. Two calls are made at a time. A call gets several texts, as files,
in the time that one is allowed; unless all their answers are as they should be, each text gets a call of its own. What is drawn
is the same in each run.
"""

import argparse
import bisect
import collections
import functools
import json
import os
import random
import re
import subprocess
import sys
import tempfile
import threading
import unicodedata
from concurrent.futures import ThreadPoolExecutor
from pathlib import Path

sys.dont_write_bytecode = True
from hostile_conflicts import CONFLICTS

PROCESSES = 2
SECONDS = 2
SECONDS_OF_LARGE = 10
SECONDS_AT_MOST = 60  # After so many, whatever else the machine does, a call is ended.
SUMMARY, REPORT, JSON = "the verdict", "the report", "JSON"
WAYS = {
    SUMMARY: ["--summary"],
    REPORT: ["--plain", "--all", "--settled", "--trees"],
    JSON: ["--json", "--all", "--settled"],
}
TEXTS = 40  # In one call.
DRAWN = 1000  # Places within lexemes up to which a beginning reaches.
COPIES = 300  # Of each kind but changed bytes and beginnings, of each file.
CHANGED = 1000
COMPARED = 50  # Of each kind, of each file, unless another number is asked for.
LEXEME = re.compile(
    rb"/\*.*?\*/|//[^\n]*|%[\w-]+|[\w.]+|'(?:\\.|[^'\\\n])*'|\"(?:\\.|[^\"\\\n])*\"|\s+|.", re.DOTALL
)
MARK = re.compile(rb"%\{|%\}|/\*|\*/|//|[{}'\"<>\[\]]")
BRACE = re.compile(rb"%\{|%\}|[{}]")
QUOTE = re.compile(rb"['\"]")
MARK_OF_COMMENT = re.compile(rb"/\*|\*/|//")
BYTES = b"%'\":;|/*{}<>[]\\$@#\n\r\t \x00\x7f\x80\xc3\xff" + b"azAZ09._-=,&"
TEXT = r"a sentence with two trees for (it|each|\d+ of them)"
VERDICT = re.compile(
    r"(unambiguous \(proved\): no sentence has two trees|no conflicts"
    r"|(as expected: |ambiguous \(proved\): )?\d+ (shift|reduce)/reduce conflicts?(, \d+ reduce/reduce conflicts?)?"
    rf"(, {TEXT}|(; \d+ .+ expected)?(; ambiguous \(proved\): {TEXT}|, (not|none) known to be ambiguous)?))"
    r"(, \d+ with a rejected sentence)?(; \d+( more)? resolved by precedence)?"
    r"(, which (lose no sentence|reject sentences only by %nonassoc) \(proved\))?"
    r"(; the parser (accepts every sentence|rejects sentences only by %nonassoc) \(proved\))?"
    r"(; without precedences ambiguous \(proved\))?"
)


# Faults of Bison in actions, in the types of values, and in what says nothing of the grammar.
OF_NO_GRAMMAR = re.compile(
    r"has no declared type|'\$\.\.'|(ambiguous|invalid|misleading) reference|%(type|destructor|printer) redeclaration"
    r"|%define|%code qualifier|require bison|invalid version|invalid language|in parameter declaration|%dprec must"
)


class Answer:
    """How a call ended, what it printed, and the seconds of processor time that it took."""

    def __init__(self, status, text, seconds):
        self.status = status
        self.text = text
        self.seconds = seconds


def called(words, folder):
    """The answer to a call in a folder."""
    with tempfile.TemporaryFile() as output:
        environment = dict(os.environ, LC_ALL="C")
        child = subprocess.Popen(
            words, stdin=subprocess.DEVNULL, stdout=output, stderr=subprocess.STDOUT, cwd=folder, env=environment
        )
        timer = threading.Timer(SECONDS_AT_MOST, child.kill)
        timer.start()
        _, status, usage = os.wait4(child.pid, 0)
        timer.cancel()
        child.returncode = os.waitstatus_to_exitcode(status)
        output.seek(0)
        return Answer(child.returncode, output.read(), usage.ru_utime + usage.ru_stime)


def width(line):
    """The columns of a line, or more: a tab reaches to the next multiple of 8, and a wide character takes two."""
    columns = 0
    for character in line.decode("utf-8", "replace"):
        wide = unicodedata.east_asian_width(character) in "WF"
        columns = columns // 8 * 8 + 8 if character == "\t" else columns + 1 + wide
    return columns


def wrong_place(lines, line, column):
    """What is wrong with the place of a fault in a file of these lines; None if nothing is."""
    if not 1 <= line <= len(lines):
        return f"line {line} of {len(lines)}"
    if not 1 <= column <= width(lines[line - 1]) + 1:
        return f"column {column} in line {line}, which has {width(lines[line - 1])}"
    return None


def faults_of(answer, name):
    """The faults of an answer, as (line, column, words), and the lines that are neither a fault nor show a line of the file."""
    head = re.compile(re.escape(name.encode()) + rb":(\d+):(\d+): error: (.+)")
    more = re.compile(re.escape(name.encode()) + rb": and \d+ more errors?, which --all shows")
    faults, others = [], []
    for line in answer.text.split(b"\n")[:-1]:
        found = head.fullmatch(line)
        if found:
            faults.append((int(found[1]), int(found[2]), found[3].decode("utf-8", "replace")))
        elif not re.match(rb" *\d* \|", line) and not more.fullmatch(line):
            others.append(line)
    return faults, others


def parts_of(answer, names):
    """What an answer says of each of these files, as answers; None where that is not clear. Each has the time of all."""
    head = re.compile(rb"(\d+\.y):")
    lines = {name: [] for name in names}
    name = None
    for line in answer.text.split(b"\n")[:-1]:
        found = head.match(line)
        name = found[1].decode() if found else name
        if name not in lines:
            return None
        lines[name].append(line + b"\n")
    parts = {name: b"".join(of_file) for name, of_file in lines.items()}
    statuses = {name: status_of(text, name) for name, text in parts.items()}
    if answer.status != max(statuses.values()):
        return None
    return {name: Answer(statuses[name], text, answer.seconds) for name, text in parts.items()}


def status_of(text, name):
    """The status that a call with this answer to one file should end with."""
    if re.match(rb"%s:\d+:\d+: error: " % re.escape(name.encode()), text):
        return 2
    return 0 if re.search(rb": (unambiguous|no conflicts|as expected: )", text) else 1


def has_verdict(answer, name, way):
    """Whether an answer with status 0 or 1 is a verdict, or ends with one."""
    if way == JSON:
        return json.loads(answer.text)["shift_reduce"] is not None
    lines = answer.text.decode("utf-8", "replace").split("\n")
    is_alone = len(lines) == 2 or way == REPORT
    return is_alone and lines[-2].startswith(name + ": ") and VERDICT.fullmatch(lines[-2][len(name) + 2 :]) is not None


def trouble(answer, name, text, seconds, way=SUMMARY):
    """What is wrong with an answer; None if nothing is."""
    if answer.status not in (0, 1, 2):
        return f"status {answer.status} after {answer.seconds:.1f} s"
    if answer.seconds > seconds:
        return f"{answer.seconds:.1f} s"
    if answer.status < 2:
        is_well = has_verdict(answer, name, way)
        return None if is_well else f"status {answer.status}, and no verdict: {answer.text[-200:]!r}"
    if way == JSON:
        return None if json.loads(answer.text)["errors"] else "status 2, and no fault"
    faults, others = faults_of(answer, name)
    if others or not faults:
        return f"{len(faults)} faults, and {others[:1]!r}"
    lines = text.split(b"\n")
    # Faults may stand on one long line by the thousand.
    return next((wrong for line, column, _ in faults[:100] if (wrong := wrong_place(lines, line, column))), None)


def generalized(words):
    """The words of a fault without the names in it; what an action names is told apart."""
    return re.sub(r"\d+", "N", re.sub(r"'[^$@].*'|'.'", "'..'", re.sub(r"'[$@].*'", "'$..'", words)))


def words_of_bison(answer):
    """The words of Bison's first fault; None where it has none but other numbers of conflicts than the file expects."""
    if answer.status == 0:
        return None
    for line in answer.text.decode("utf-8", "replace").split("\n"):
        found = re.search(r": (?:fatal )?error: (.+)", line)
        if found and not re.match(r"(%expect|(shift|reduce)/reduce conflicts)", found[1]):
            return generalized(found[1])
    return None if b"error: " in answer.text else f"status {answer.status}: {answer.text[:80]!r}"


def words_of_lrcheck(answer, name):
    """The words of the first fault; None where there is none."""
    faults, _ = faults_of(answer, name)
    return generalized(faults[0][2]) if faults else None


def numbers_of_bison(answer):
    """The numbers of conflicts that Bison tells."""
    text = answer.text.decode("utf-8", "replace")

    def number(kind):
        found = re.search(rf"warning: (\d+) {kind} conflict|{kind} conflicts: (\d+) found", text)
        return int(found[1] or found[2]) if found else 0

    return number("shift/reduce"), number("reduce/reduce")


def numbers_of_lrcheck(answer):
    """The numbers of conflicts in a verdict; those of one that is as expected count as none, as Bison does not tell them."""
    text = answer.text.decode("utf-8", "replace").split(";")[0]
    if ": as expected: " in text:
        return 0, 0
    found = [re.search(rf"(\d+) {kind}/reduce conflict", text) for kind in ("shift", "reduce")]
    return tuple(int(one[1]) if one else 0 for one in found)


class Judge:
    """Calls `lrcheck` and Bison, and keeps what was wrong and where they differ."""

    def __init__(self, program, folder):
        self.program = program
        self.folder = Path(folder)
        self.troubles = []
        self.texts = 0
        self.compared = 0
        self.differences = collections.defaultdict(list)
        self.numbers = iter(range(sys.maxsize))

    def file(self, text):
        """A new file of that text."""
        path = self.folder / f"{next(self.numbers)}.y"
        path.write_bytes(text)
        return path

    def ask(self, title, path, text, way, seconds=SECONDS):
        """The answer about a text in one of the ways, which is looked at."""
        answer = called([self.program, *WAYS[way], path.name], self.folder)
        wrong = trouble(answer, path.name, text, seconds, way)
        if wrong:
            self.troubles.append((title, wrong))
            print(f"WRONG: {title}, {way}: {wrong}", flush=True)
        return answer

    def check(self, title, text, is_compared, seconds=SECONDS):
        """Checks a text, and answers the seconds that `lrcheck` took."""
        path = self.file(text)
        answer = self.ask(title, path, text, SUMMARY, seconds)
        if is_compared:
            self.compare(title, path, text, answer)
        self.texts += 1
        path.unlink()
        return answer.seconds

    def check_in_all_ways(self, title, text, seconds):
        """Checks a text, and answers the seconds that `lrcheck` took for each of the ways."""
        path = self.file(text)
        times = [self.ask(title, path, text, way, seconds).seconds for way in WAYS]
        self.texts += 1
        path.unlink()
        return times

    def bison(self, path, *options):
        """The answer of Bison, whose files are removed."""
        words = ["bison", "-Wnone", "-Wconflicts-sr", "-Wconflicts-rr", *options, "-o", path.stem + ".c", path.name]
        answer = called(words, self.folder)
        for written in self.folder.glob(path.stem + ".*"):
            if written != path:
                written.unlink()
        return answer

    def check_together(self, copies):
        """Checks titled texts, told whether Bison gets them, in one call, and answers the seconds that `lrcheck` took."""
        texts = {self.file(text): (title, text, is_compared) for title, text, is_compared in copies}
        names = [path.name for path in texts]
        answer = called([self.program, "--summary", *names], self.folder)
        parts = parts_of(answer, names)
        is_well = parts and not any(trouble(parts[path.name], path.name, text, SECONDS) for path, (_, text, _) in texts.items())
        seconds = answer.seconds if is_well else max(self.check(*copy) for copy in copies)
        for path, (title, text, is_compared) in texts.items():
            if is_well and is_compared:
                self.compare(title, path, text, parts[path.name])
            path.unlink()
        self.texts += len(texts) if is_well else 0
        return seconds

    def compare(self, title, path, text, answer):
        """Compares an answer with that of Bison, and asks in the other ways."""
        for way in (REPORT, JSON):
            self.ask(title, path, text, way)
        bison = self.bison(path)
        ours, theirs = words_of_lrcheck(answer, path.name), words_of_bison(bison)
        self.compared += 1
        if (ours is None) != (theirs is None):
            self.differences[(ours, theirs)].append(title)
        elif ours is None and answer.status in (0, 1) and numbers_of_lrcheck(answer) != numbers_of_bison(bison):
            numbers = numbers_of_bison(self.bison(path, "-Flr.type=ielr"))
            if numbers_of_lrcheck(answer) != numbers:
                self.differences[("other numbers of conflicts", "other numbers of conflicts")].append(
                    f"{title}: {numbers_of_lrcheck(answer)} and {numbers}"
                )

    def check_all(self, kind, copies, compared):
        """Checks titled texts, of which each comes in pieces, and shows so many of them to Bison."""
        copies = list(copies)
        step = max(1, len(copies) // compared)

        def check_from(start):
            numbered = enumerate(copies[start : start + TEXTS], start)
            return self.check_together([(title, b"".join(pieces), at % step == 0) for at, (title, pieces) in numbered])

        with ThreadPoolExecutor(PROCESSES) as pool:
            slowest = max(pool.map(check_from, range(0, len(copies), TEXTS)), default=0)
        print(f"{kind}: {len(copies)} texts, the slowest {min(TEXTS, len(copies))} in {slowest:.2f} s", flush=True)


def sample(places, most):
    """So many of the places at the most, evenly drawn."""
    places = list(places)
    step = max(1, -(-len(places) // most))
    return places[::step]


def place(text, at):
    """A place in a text, as it is told."""
    line = text.count(b"\n", 0, at) + 1
    return f"line {line} byte {at}"


def ends(name, text):
    """The places up to which beginnings reach: each at which a lexeme begins, and drawn ones within lexemes."""
    starts = {found.start() for found in LEXEME.finditer(text)}
    others = [at for at in range(len(text)) if at not in starts]
    return sorted(starts.union(random.Random(name).sample(others, min(DRAWN, len(others)))))


def beginnings(name, text):
    view = memoryview(text)
    for end in ends(name, text):
        yield f"{name} up to {place(text, end)}", (view[:end],)


def beginnings_without(mark, name, text):
    """Beginnings, from each of which a drawn one of these marks is taken away; those that have none are left out."""
    view, draw = memoryview(text), random.Random(name)
    marks = [found.span() for found in mark.finditer(text)]
    for end in ends(name, text):
        within = bisect.bisect_right(marks, end, key=lambda span: span[1])
        if within:
            at, behind = marks[draw.randrange(within)]
            title = f"{name} up to {place(text, end)} without {text[at:behind]!r} at {place(text, at)}"
            yield title, (view[:at], view[behind:end])


def changed(name, text):
    draw = random.Random(name)
    for _ in range(CHANGED):
        copy, told = bytearray(text), []
        for _ in range(draw.choice((1, 1, 1, 2, 5))):
            at = draw.randrange(len(text))
            copy[at] = draw.choice(BYTES)
            told.append(f"{place(text, at)} {bytes([copy[at]])!r}")
        yield f"{name} with {', '.join(told)}", (bytes(copy),)


def without_marks(name, text):
    for found in sample(MARK.finditer(text), COPIES):
        yield f"{name} without {found[0]!r} at {place(text, found.start())}", (text[: found.start()], text[found.end() :])


def lexemes_but_blanks(text):
    """The lexemes of a file, of its code too, without blanks."""
    return [found for found in LEXEME.finditer(text) if not found[0].isspace()]


def without_lexemes(name, text):
    for found in sample(lexemes_but_blanks(text), COPIES):
        yield f"{name} without {found[0][:20]!r} at {place(text, found.start())}", (text[: found.start()], text[found.end() :])


def with_doubled_lexemes(name, text):
    for found in sample(lexemes_but_blanks(text), COPIES):
        yield (
            f"{name} with {found[0][:20]!r} twice at {place(text, found.start())}",
            (text[: found.end()], b" ", text[found.start() :]),
        )


COPIES_OF_FILES = {
    "beginnings": beginnings,
    "beginnings without a brace": functools.partial(beginnings_without, BRACE),
    "beginnings without a quote": functools.partial(beginnings_without, QUOTE),
    "beginnings without a mark of a comment": functools.partial(beginnings_without, MARK_OF_COMMENT),
    "changed bytes": changed,
    "marks taken away": without_marks,
    "lexemes taken away": without_lexemes,
    "lexemes doubled": with_doubled_lexemes,
}

ODD = [
    b"",
    b"\n",
    b"%",
    b"%%",
    b"%%\n",
    b"%%%%",
    b"%% %% don't",
    b"%% s: ; %% don't",
    b"%% s: ; %% {",
    b"%% s: ; %% /*",
    b"%% s:",
    b"%% s",
    b"%% s :: 'a'",
    b"%% s:'a'",
    b"%% s:.x; .x:",
    b"%% s: 'a' t: 'b'",
    b"%% s: 'a'; | 'b'",
    b"%% | 'a'",
    b"%% ; s: 'a'",
    b"%% s: ;;; ;",
    b"%%\r\ns:\r\n'a'\r\n{ x }\r\n;\r\n",
    b"%%\rs:\r'a'\r;\r",
    b"// a\r%% s: ;",
    b"\xef\xbb\xbf%% s: ;",
    b"%% s: '\xe9';",
    "%% s: 'é';".encode(),
    "%% s: \"это\";".encode(),
    "%% é: ;".encode(),
    "%% s: { é }; // é".encode(),
    b"%% s: \"\xff\xfe\";",
    b"%% s: \"\xff\" | \"\xfe\";",
    b"%% s: '\xff' | '\xfe';",
    b"%token YY_PARSE_s %start s t %% s: YY_PARSE_s; t: 'a';",
    b"%% s: { %> };",
    b"%% s: 'a' {: };",
    b"%% s: {<<<% } };",
    b"%left A %left T %% s: a T | b T | 'x' T 'y'; a: 'x' %prec A; b: 'x' %prec A;",
    b"%left T %left A %% s: a T | b T | 'x' T 'y'; a: 'x'; b: 'x' %prec A;",
    b"%nonassoc A %% s: a A | b A | 'x' A 'y'; a: 'x' %prec A; b: 'x' %prec A;",
    b"%nonassoc A %% s: a A | b A | 'x' A 'y'; a: 'x'; b: 'x' %prec A;",
    b"%precedence A %% s: a A | b A | 'x' A 'y'; a: 'x' %prec A; b: 'x' %prec A;",
    b"%precedence A %% s: a A | b A | 'x' A 'y'; a: 'x'; b: 'x' %prec A;",
    b"%precedence A %% s: a A | b A | 'x' A 'y'; a: 'x' %prec A; b: 'x';",
    b"%precedence A %% s: s A s | 'x';",
    b"%precedence A B %% s: s A s | s B s | 'x';",
    b"%no-default-prec %left '+' %% s: s '+' s | 'x';",
    b"%no-default-prec %left '+' %% s: s '+' s %prec '+' | 'x';",
    b"%left '+' %% s: s '+' s | s 'b' s | 'x';",
    b"%left '+' %% s: s '+' {} s | 'x';",
    b"%% s: 'i' s 'e' s | 'i' s | 'x'; t: s; %expect 1;",
    b"%expect 1 %% s: 'i' s 'e' s | 'i' s | 'x';",
    b"%expect 2 %% s: 'i' s 'e' s | 'i' s | 'x';",
    b"%expect 0 %% s: 'i' s 'e' s | 'i' s | 'x';",
    b"%expect-rr 1 %% s: a | b; a: 'x'; b: 'x';",
    b"%expect 0 %% s: a | b; a: 'x'; b: 'x';",
    b"%glr-parser %expect-rr 1 %% s: a | b; a: 'x'; b: 'x';",
    b"%glr-parser %expect 0 %% s: a | b; a: 'x'; b: 'x';",
    b"%% s: 'i' s 'e' s | 'i' s %expect 1 | 'x';",
    b"%% s: 'i' s 'e' s | 'i' s %expect 0 | 'x';",
    b"%% s: { \xff\xfe };",
    b"%% s: ; // \xff\xfe\n",
    b"%% s: ;\x00",
    b"\x00%% s: ;",
    b"%% s: {\x00};",
    b"%% s: /*\x00*/;",
    b"%% s: //\x00\n;",
    b"%% s: '\x00';",
    b"%% s: \"a\x00b\";",
    b"%% s\x00t: ;",
    b"%token <a\x00b> A %% s: A;",
    b"%{\x00%} %% s: ;",
    b"%% s: ; %% \x00",
    b"%token '\\0' %% s: ;",
    b"%token '\\400' %% s: ;",
    b"%token '\\x100' %% s: ;",
    b"%token '\\x' %% s: ;",
    b"%token '\\x41' 'A' %% s: ;",
    b"%token '\\u41' %% s: ;",
    b"%token '\\u0041' %% s: ;",
    b"%token '\\U0041' %% s: ;",
    b"%token '\\U00000041' %% s: ;",
    b"%token '\\u00e9' %% s: ;",
    b"%token A \"\\u00e9\" %% s: A;",
    b"%token A \"\\xe9\\400\" %% s: A;",
    b"%token A \"\" %% s: A;",
    b"%token A '\\q' %% s: A;",
    b"%token A \"a\\\nb\" %% s: A;",
    b"%% s: { '\\\n' \"\\ \t\n\" };",
    b"%% s: { '\\\\\n' };",
    b"%% s: { // \\\n }\n };",
    b"%% s: { // \\ \n }\n };",
    b"%% s: { /\\\n/ }\n };",
    b"%% s: { /\\\n* } *\\\n/ };",
    b"%% s: { <\\\n% } %\\\n> };",
    b"%% s: { <% } %> };",
    b"%% s: { <<% } };",
    b"%% s: { a <<% b };",
    b"%% s: { <: :> ??< };",
    b"%% s: { 'ab' \"'\" '\"' };",
    b"%% s: { ' };",
    b"%% s: { \" };",
    b"%% s: { /* };",
    b"%% s: { // };",
    b"%% s: { $ };",
    b"%% s: { @ };",
    b"%% s: { $$ = $1 };",
    b"%% s: 'a' { $$ = $1; @$ = @1; };",
    b"%% s: { $<a> };",
    b"%% s: { $<a>$ = 1 };",
    b"%% s: 'a' { $x };",
    b"%% s: 'a'[x] { $x; $[x]; @x };",
    b"%% s[r]: 'a' { $r };",
    b"%% s [ r ] : 'a' [ x ] ;",
    b"%% s[r] [q]: 'a';",
    b"%% s: 'a'[x][y];",
    b"%% s: [x];",
    b"%% s: 'a'[];",
    b"%% s: 'a'[ ];",
    b"%% s: 'a'[1];",
    b"%% s: 'a'[x y];",
    b"%% s: 'a'[/* c */x];",
    b"%% s: 'a'[x",
    b"%% s: 'a'['b'];",
    b"%% s: %prec;",
    b"%% s: %prec 'a';",
    b"%% s: %prec A;",
    b"%% s: %prec s;",
    b"%% s: 'a' %prec 'b' 'c' %prec 'd';",
    b"%% s: %empty;",
    b"%% s: %empty %empty;",
    b"%% s: %empty 'a';",
    b"%% s: 'a' %empty;",
    b"%% s: %empty {};",
    b"%% s: {} %empty;",
    b"%% s: %empty {} {};",
    b"%% s: {} %empty {};",
    b"%% s: {} {} %empty;",
    b"%% s: %?{} %empty;",
    b"%% s: %?{1};",
    b"%% s: %? {1} 'a';",
    b"%% s: %?/* c */{1} 'a';",
    b"%% s: %?'a';",
    b"%glr-parser %% s: %?{1} 'a';",
    b"%% s: 'a' <t> {};",
    b"%% s: 'a' <t>;",
    b"%% s: 'a' <t> 'b';",
    b"%% s: <t> {} [x] 'a';",
    b"%% s: 'a' <*> {};",
    b"%% s: 'a' <> {};",
    b"%% s: 'a' %dprec 1;",
    b"%% s: 'a' %dprec 0;",
    b"%% s: 'a' %dprec 1 %dprec 2;",
    b"%glr-parser %% s: 'a' %dprec 1 %dprec 2;",
    b"%glr-parser %% s: 'a' %merge <m> %merge <n>;",
    b"%glr-parser %% s: 'a' %merge <m>;",
    b"%% s: 'a' %merge <m>;",
    b"%% s: 'a' %merge m;",
    b"%% s: 'a' %expect 0;",
    b"%% s: 'a' %expect 1;",
    b"%% s: 'a' %expect-rr 0;",
    b"%% s: 'a' %expect_rr 0;",
    b"%glr-parser %% s: 'a' %expect-rr 0;",
    b"%glr-parser %% s: 'a' %expect_rr 0;",
    b"%expect 0 %% s: 'a';",
    b"%expect 0x0 %% s: 'a';",
    b"%expect 1 %% s: 'a';",
    b"%expect 2147483648 %% s: 'a';",
    b"%expect 99999999999999999999 %% s: 'a';",
    b"%expect-rr 0 %% s: 'a';",
    b"%glr-parser %expect-rr 1 %% s: 'a';",
    b"%expect %% s: 'a';",
    b"%expect x %% s: 'a';",
    b"%token A 2147483647 %% s: A;",
    b"%token A 2147483648 %% s: A;",
    b"%token A 4294967296 %% s: A;",
    b"%token A 99999999999999999999 %% s: A;",
    b"%token A 0x7fffffff %% s: A;",
    b"%token A 0xffffffff %% s: A;",
    b"%token A 0x %% s: A;",
    b"%token A 0X41 %% s: A;",
    b"%token A 1x %% s: A;",
    b"%token A 007 B 7 %% s: A;",
    b"%token A 0 B 0 %% s: A;",
    b"%token A 0 YYEOF %% s: A;",
    b"%token YYEOF 3 %% s: YYEOF;",
    b"%token YYEOF 0 \"end\" %% s: 'a' YYEOF;",
    b"%token YYEOF \"end\" %% s: 'a' YYEOF;",
    b"%% s: 'a' YYEOF;",
    b"%token E 0 %% s: 'a' YYEOF;",
    b"%token E 0 %% s: 'a' | 'a' YYEOF;",
    b"%token E 0 YYEOF 0 %% s: 'a';",
    b"%% s: 'a'; %start s; ;",
    b"%% s: 'a'; ; %start s; t: 'b'; ;",
    b"%% s: 'a' YYerror;",
    b"%% s: 'a' error;",
    b"%% s: 'a' YYUNDEF;",
    b"%% s: 'a' $end;",
    b"%% s: 'a' \"end of file\";",
    b"%% error: 'a';",
    b"%% YYEOF: 'a';",
    b"%% YYUNDEF: 'a';",
    b"%% s: $accept;",
    b"%nterm error %% s: 'a';",
    b"%token error 256 %% s: error;",
    b"%token error 300 %% s: error;",
    b"%token YYerror 300 %% s: error;",
    b"%token error \"e\" %% s: \"e\";",
    b"%token A 256 %% s: A error;",
    b"%left error %% s: error;",
    b"%token A 97 %% s: A 'a';",
    b"%token 'a' 97 %% s: 'a';",
    b"%token 'a' 98 %% s: 'a';",
    b"%token 'a' 98 'b' %% s: 'a';",
    b"%token 'a' \"x\" %% s: \"x\";",
    b"%token A A A %% s: A;",
    b"%token A 300 A 300 %% s: A;",
    b"%token A 300 A 301 %% s: A;",
    b"%token A B 300 C 300 %% s: A;",
    b"%token A \"x\" B \"x\" %% s: A;",
    b"%token A \"x\" A \"y\" %% s: A;",
    b"%token A \"x\" 300 %% s: A;",
    b"%token \"x\" A %% s: A;",
    b"%token \"x\" %% s: \"x\";",
    b"%token _(\"x\") %% s: 'a';",
    b"%token A _(\"x\") %% s: \"x\" _(\"x\");",
    b"%token A _( \"x\") %% s: \"x\";",
    b"%token A _(\"x\" ) %% s: \"x\";",
    b"%left _(\"x\") %% s: \"x\";",
    b"%left \"x\" 300 %% s: \"x\";",
    b"%left A 300 \"x\" %% s: \"x\" A;",
    b"%left A 300 B 300 %% s: \"x\" A;",
    b"%left %% s: 'a';",
    b"%left <t> %% s: 'a';",
    b"%left <t> A <u> B %% s: A B;",
    b"%left <t> <u> A %% s: A;",
    b"%left A <t> %% s: A;",
    b"%left A A %% s: A;",
    b"%left A %left A %% s: A;",
    b"%left A %right A %% s: A;",
    b"%left A %left \"x\" %token A \"x\" %% s: A;",
    b"%left s %% s: 'a';",
    b"%token s %% s: 'a';",
    b"%nterm s %token s %% s: 'a';",
    b"%nterm s %left s %% s: 'a';",
    b"%nterm s s %% s: 'a';",
    b"%nterm s 3 %% s: 'a';",
    b"%nterm s \"x\" %% s: 'a';",
    b"%nterm s \"x\" %% \"x\": 'a';",
    b"%nterm s \"x\" %% s: 'a' | \"x\" 'b';",
    b"%nterm 'x' %% s: 'a';",
    b"%nterm \"x\" %% s: 'a';",
    b"%nterm t %% s: 'a';",
    b"%nterm t %% s: t;",
    b"%type <t> s %% s: 'a';",
    b"%type s %% s: 'a';",
    b"%type <t> %% s: 'a';",
    b"%type <t> s <u> s %% s: 'a';",
    b"%type <t> s %type <t> s %% s: 'a';",
    b"%type <t> x %% s: 'a';",
    b"%type <t> 'a' \"x\" %% s: 'a';",
    b"%type <t> s 3 %% s: 'a';",
    b"%token <t> <u> A %% s: A;",
    b"%token <t> A <u> %% s: A;",
    b"%token A <t> %% s: A;",
    b"%token <t> %% s: 'a';",
    b"%token %% s: 'a';",
    b"%token <*> A %% s: A;",
    b"%token <> A %% s: A;",
    b"%token <a<b>> A %% s: A;",
    b"%token <a->b> A %% s: A;",
    b"%token <a\nb> A %% s: A;",
    b"%token <a A %% s: A;",
    b"%token < > A %% s: A;",
    b"%token <\"> A <\"> %% s: A;",
    b"%start %% s: 'a';",
    b"%start s %% s: 'a';",
    b"%start s s %% s: 'a';",
    b"%start s %start s %% s: 'a';",
    b"%start s t %% s: 'a'; t: 'b';",
    b"%start s %start t %% s: 'a'; t: 'b';",
    b"%start t %% s: 'a';",
    b"%start A %token A %% s: A;",
    b"%start 'a' %% s: 'a';",
    b"%start \"a\" %% s: 'a';",
    b"%start YYEOF %% s: 'a';",
    b"%start error %% s: 'a';",
    b"%% s: s;",
    b"%% s: s 'a';",
    b"%% s: t; t: t 'a';",
    b"%% s: 'a' | t; t: t 'a';",
    b"%% s: 'a'; t: 'b'; t: u;",
    b"%start s t %% s: 'a'; t: t;",
    b"%start s t %% s: 'a';",
    b"%define x %% s: 'a';",
    b"%define api.pure %% s: 'a';",
    b"%define api.pure full %% s: 'a';",
    b"%define api.pure \"full\" %% s: 'a';",
    b"%define api.value.type {int} %% s: 'a';",
    b"%define api.value.type int %% s: 'a';",
    b"%define lr.type lalr %% s: 'a';",
    b"%define lr.type ielr %% s: 'a';",
    b"%define lr.type what %% s: 'a';",
    b"%define \"x\" %% s: 'a';",
    b"%define x.y-z {a}{b} %% s: 'a';",
    b"%define %% s: 'a';",
    b"%union {int i;} %% s: 'a';",
    b"%union u {int i;} %% s: 'a';",
    b"%union {int i;}; %% s: 'a';",
    b"%union {int i;} %union {int j;} %% s: 'a';",
    b"%union %% s: 'a';",
    b"%code {} %code top {} %code x {} %% s: 'a';",
    b"%code requires {} %code provides {} %% s: 'a';",
    b"%code %{ %} %% s: 'a';",
    b"%code %% s: 'a';",
    b"%destructor {} s %% s: 'a';",
    b"%destructor {} <*> <> <t> %% s: 'a';",
    b"%destructor {} %% s: 'a';",
    b"%destructor {} s %destructor {} s %% s: 'a';",
    b"%printer {} <*> %printer {} <*> %% s: 'a';",
    b"%printer {} x %% s: 'a';",
    b"%initial-action {} %% s: 'a';",
    b"%initial-action {} %initial-action {} %% s: 'a';",
    b"%initial-action %% s: 'a';",
    b"%parse-param {int a} {int b} %lex-param {int a} %param {int c} %% s: 'a';",
    b"%parse-param {} %% s: 'a';",
    b"%parse-param {1} %% s: 'a';",
    b"%parse-param {int a[3]} %% s: 'a';",
    b"%parse-param %% s: 'a';",
    b"%require \"3.0\" %% s: 'a';",
    b"%require \"9.0\" %% s: 'a';",
    b"%require \"x\" %% s: 'a';",
    b"%require 3.0 %% s: 'a';",
    b"%language \"c++\" %% s: 'a';",
    b"%language \"x\" %% s: 'a';",
    b"%skeleton \"lalr1.cc\" %% s: 'a';",
    b"%skeleton \"x\" %% s: 'a';",
    b"%name-prefix \"a\" %% s: 'a';",
    b"%name-prefix = \"a\" %% s: 'a';",
    b"%name-prefix=\"a\" %% s: 'a';",
    b"%name_prefix \"a\" %% s: 'a';",
    b"%file-prefix \"a\" %output \"b\" %% s: 'a';",
    b"%file_prefix \"a\" %% s: 'a';",
    b"%output=\"a\" %% s: 'a';",
    b"%defines %% s: 'a';",
    b"%header %% s: 'a';",
    b"%defines = \"a.h\" %% s: 'a';",
    b"%debug %locations %error-verbose %no-lines %pure-parser %token-table %verbose %yacc %% s: 'a';",
    b"%error_verbose %no_lines %pure_parser %token_table %fixed-output-files %fixed_output_files %% s: 'a';",
    b"%default-prec %no-default-prec %default_prec %no_default_prec %% s: 'a';",
    b"%glr-parser %nondeterministic-parser %% s: 'a';",
    b"%glr_parser %% s: 'a';",
    b"%initial_action {} %% s: 'a';",
    b"%parse_param {int a} %% s: 'a';",
    b"%Token A %% s: A;",
    b"%TOKEN A %% s: A;",
    b"%term A %binary B %% s: A;",
    b"%token-A %% s: 'a';",
    b"%foo %% s: 'a';",
    b"%2 %% s: 'a';",
    b"% token A %% s: A;",
    b"%1 A %% s: 'a';",
    b"%<t> %% s: 'a';",
    b"\\token A %% s: 'a';",
    b"%token A; %token B;; %% s: A;",
    b"%token A, B, C %% s: A, B;",
    b"%token A B %% s: A | B,;",
    b"token A %% s: A;",
    b"A %% s: A;",
    b"s: 'a';",
    b"s: 'a'; %%",
    b"%{ %} %{ %} %% s: 'a';",
    b"%{ '%}' %} %% s: 'a';",
    b"%{ /* %} */ %} %% s: 'a';",
    b"%{ // %}\n %} %% s: 'a';",
    b"%{ don't %} %% s: 'a';",
    b"%{ { %} %% s: 'a';",
    b"%{ } %} %% s: 'a';",
    b"%{ %% %} %% s: 'a';",
    b"%{ %%} %% s: 'a';",
    b"%{ <% %} %% s: 'a';",
    b"%{",
    b"%{ %",
    b"%% %{ %} s: 'a';",
    b"%% s: 'a'; %{ %}",
    b"%% s: 'a' %{ %};",
    b"%% s: 'a'; %token B",
    b"%% s: 'a'; %token B;",
    b"%% %token B; s: B;",
    b"%% s: B; %token B;",
    b"%% s: B %token B;",
    b"%% s: 'a'; %left 'a'",
    b"%% s: 'a'; %define x {}",
    b"%% s: 'a'; %define x {};",
    b"%% s: 'a'; %union {};",
    b"%% s: 'a'; %code {};",
    b"%% s: 'a'; %start s;",
    b"%% s: 'a'; %expect 0;",
    b"%% s: 'a'; %debug;",
    b"%% s: 'a'; %parse-param {int a};",
    b"%% s: 'a'; %printer {} s;",
    b"%% s: 'a'; %default-prec;",
    b"%% s: 'a'; %initial-action {};",
    b"%% %token A;",
    b"%% %token A; %%",
    b"%% %% s: 'a';",
    b"%% s: 'a'; %% %% }",
    b"%% s: 'a' = {};",
    b"%% s = 'a';",
    b"%% s: 'a' {} = {};",
    b"%% s: {}{}{};",
    b"%% s: 'a' {} 'b' {} | {} 'c' | {} {};",
    b"%% s: {}: 'b';",
    b"%% s: 'a' 'b': 'c';",
    b"%% 'a': 'b';",
    b"%% \"a\": 'b';",
    b"%% s t: 'b';",
    b"%% s: t u: 'a'; t: 'b';",
    b"%% s/**/:'a';",
    b"%% s//\n:'a';",
    b"%% s/* : */: 'a';",
    b"%% s: 'a' /* /* */ */;",
    b"%% s: 'a' / 'b';",
    b"%% s: 'a' /",
    b"%% s: 'a' /*/;",
    b"%% s: 'a' //",
    b"%% s: '",
    b"%% s: 'a",
    b"%% s: '';",
    b"%% s: ''';",
    b"%% s: '''';",
    b"%% s: 'ab';",
    b"%% s: '\\'';",
    b"%% s: '\\",
    b"%% s: \"",
    b"%% s: \"\";",
    b"%% s: \"a\nb\";",
    b"%% s: a-b; a-b: ;",
    b"%% s: a.b; a.b: ;",
    b"%% s: .; .: ;",
    b"%% s: -a;",
    b"%% s: _; _: ;",
    b"%% s: 1;",
    b"%% s: 1a;",
    b"%% s: a$b; a$b: ;",
    b"%% s: a@b;",
    b"%% s: #;",
    b"#\n%% s: 'a';",
    b"#line\n%% s: 'a';",
    b"#line \n%% s: 'a';",
    b"#line 5\n%% s: 'a';",
    b"#line 5 \"x\"\n%% s: 'a';",
    b"#line 5 \"x\" \n%% s: 'a';",
    b"#line 5 x\n%% s: 'a';",
    b"#line 5x\n%% s: 'a';",
    b"#line x\n%% s: 'a';",
    b"#line  5\n%% s: 'a';",
    b"#line\t5\n%% s: 'a';",
    b" #line 5\n%% s: 'a';",
    b"#line 5\r\n%% s: 'a';",
    b"#line 99999999999999999999\n%% s: 'a';",
    b"#line 0\n%% s: 'a';",
    b"%token A\n#line 7\nB %% s: 'a';",
    b"%% s: 'a'\n#line 7",
    b"%% s: 'a'\n#line 7\n;",
    b"%% s: 'a' /*\n#line x\n*/;",
    b"%% s: 'a' {\n#line x\n};",
    b"%% s: 'a' (;",
    b"%% s: 'a' );",
    b"%% s: 'a'?;",
    b"%% s: 'a' ~ 'b';",
    b"%% s: 'a' };",
    b"%% s: 'a' %} ;",
    b"%% s: 'a' ];",
    b"%% s: 'a' >;",
    b"%% s: 'a'; > t: ;",
    b"%% s: 'a' : 'b';",
    b"%% s: 'a' ;: 'b';",
    b"%% s: :",
    b"%% s: |",
    b"%% s: ||;",
    b"%% s:=;",
    b"%% s:, 'a';",
    b"%% s:( 'a';",
    b"%% s:$ 'a';",
    b"%% s:\x00 'a';",
    b"%% s:\xff 'a';",
    b"%% s:-a;",
    b"%% s:/**/'a';",
]


LARGE = {
    "braces deep": (100_000, lambda n: b"%% s: " + b"{" * n + b"}" * n + b";"),
    "braces deep, never closed": (100_000, lambda n: b"%% s: " + b"{" * n),
    "closing braces": (300_000, lambda n: b"%% s: ;\n" + b"}\n" * n),
    "digraphs deep": (100_000, lambda n: b"%% s: {" + b"<%" * n + b"%>" * n + b"};"),
    "tags deep": (1_000_000, lambda n: b"%token " + b"<" * n + b">" * n + b" A %% s: A;"),
    "tags never closed": (1_000_000, lambda n: b"%token " + b"<" * n + b" A %% s: A;"),
    "bytes in an action": (10_000_000, lambda n: b"%% s: {" + b"x" * n + b"};"),
    "places in an action": (3_000_000, lambda n: b"%% s: 'a' {" + b"$1 " * n + b"};"),
    "bytes in a comment": (10_000_000, lambda n: b"/*" + b"x" * n + b"*/%% s: ;"),
    "stars in a comment": (10_000_000, lambda n: b"/*" + b"*" * n + b"/%% s: ;"),
    "bytes in a line's comment": (10_000_000, lambda n: b"//" + b"x" * n + b"\n%% s: ;"),
    "bytes in a comment never closed": (10_000_000, lambda n: b"/*" + b"x" * n),
    "bytes in a text": (10_000_000, lambda n: b'%token A "' + b"x" * n + b'" %% s: A;'),
    "bytes in a text never closed": (10_000_000, lambda n: b'%token A "' + b"x" * n),
    "bytes in a character": (10_000_000, lambda n: b"%token '" + b"x" * n + b"' %% s: ;"),
    "digits of an escape": (10_000_000, lambda n: b"%token '\\x" + b"4" * n + b"' %% s: ;"),
    "escapes in a text": (2_000_000, lambda n: b'%token A "' + b"\\x41 " * n + b'" %% s: A;'),
    "bytes in the name of a token": (10_000_000, lambda n: b"%token " + b"x" * n + b" %% s: " + b"x" * n + b";"),
    "bytes in the name of a rule": (10_000_000, lambda n: b"%% " + b"x" * n + b": ;"),
    "bytes in an unknown name": (10_000_000, lambda n: b"%% s: " + b"x" * n + b";"),
    "bytes in a tag": (10_000_000, lambda n: b"%token <" + b"x" * n + b"> A %% s: A;"),
    "bytes in a prologue": (10_000_000, lambda n: b"%{" + b"x" * n + b"%} %% s: ;"),
    "bytes in an epilogue": (10_000_000, lambda n: b"%% s: ; %%" + b"x" * n),
    "bytes of two in a text": (3_000_000, lambda n: b'%token A "' + b"\xc3\xa9" * n + b'" %% s: A;'),
    "bytes that are no UTF-8": (10_000_000, lambda n: b"%% s: {" + b"\xff" * n + b"} $;"),
    "NUL bytes in an action": (10_000_000, lambda n: b"%% s: {" + b"\x00" * n + b"};"),
    "digits": (10_000_000, lambda n: b"%token A " + b"9" * n + b" %% s: A;"),
    "zeros": (10_000_000, lambda n: b"%token A " + b"0" * n + b"7 %% s: A;"),
    "blanks": (10_000_000, lambda n: b"%% s: " + b" " * n + b";"),
    "tabs before a fault": (3_000_000, lambda n: b"%% s: " + b"\t" * n + b"$;"),
    "empty lines": (10_000_000, lambda n: b"%% s: " + b"\n" * n + b";"),
    "commas": (10_000_000, lambda n: b"%% s: " + b"," * n + b";"),
    "semicolons": (3_000_000, lambda n: b"%% s: " + b";" * n),
    "comments": (2_000_000, lambda n: b"%% s: " + b"/**/" * n + b";"),
    "#line": (1_000_000, lambda n: b"%% s:\n" + b"#line 1\n" * n + b";"),
    "tokens in a line": (1_000_000, lambda n: b"%token " + b" ".join(b"T%d" % k for k in range(n)) + b"\n%% s: T0;"),
    "tokens in lines": (1_000_000, lambda n: b"".join(b"%%token T%d\n" % k for k in range(n)) + b"%% s: T0;"),
    "tokens with codes and texts": (
        300_000,
        lambda n: b"%token " + b" ".join(b'T%d %d "t%d"' % (k, k + 300, k) for k in range(n)) + b"\n%% s: T0;",
    ),
    "tokens declared twice": (300_000, lambda n: b"%token " + b"A " * n + b"%% s: A;"),
    "texts for one token": (300_000, lambda n: b"".join(b'%%token A "t%d"\n' % k for k in range(n)) + b"%% s: A;"),
    "texts, undeclared": (5_000, lambda n: b"%% s: " + b" ".join(b'"t%d"' % k for k in range(n)) + b";"),
    "tokens of a level": (1_000_000, lambda n: b"%left " + b" ".join(b"T%d" % k for k in range(n)) + b"\n%% s: T0;"),
    "levels": (300_000, lambda n: b"".join(b"%%left T%d\n" % k for k in range(n)) + b"%% s: T0;"),
    "levels of %precedence": (300_000, lambda n: b"".join(b"%%precedence T%d\n" % k for k in range(n)) + b"%% s: T0;"),
    "levels of one token": (300_000, lambda n: b"%left A\n" * n + b"%% s: A;"),
    "%type": (1_000_000, lambda n: b"%type <t> s\n" * n + b"%% s: ;"),
    "%start": (100_000, lambda n: b"%start s\n" * n + b"%% s: ;"),
    "start rules": (
        10_000,
        lambda n: b"%start "
        + b" ".join(b"r%d" % k for k in range(n))
        + b"\n%%\n"
        + b"".join(b"r%d: 'a';\n" % k for k in range(n)),
    ),
    "%expect": (1_000_000, lambda n: b"%expect 0\n" * n + b"%% s: ;"),
    "%code": (1_000_000, lambda n: b"%code {}\n" * n + b"%% s: ;"),
    "%parse-param": (1_000_000, lambda n: b"%parse-param " + b"{int a}" * n + b"\n%% s: ;"),
    "%%": (3_000_000, lambda n: b"%% s: ;" + b"%%" * n),
    "faults on one line": (300_000, lambda n: b"%% s: " + b"$ " * n + b";"),
    "faults on lines": (300_000, lambda n: b"%% s:\n" + b"$\n" * n + b";"),
    "unknown symbols": (300_000, lambda n: b"%% s:\n" + b"\n".join(b"x%d" % k for k in range(n)) + b";"),
    "unknown directives": (300_000, lambda n: b"%foo\n" * n + b"%% s: ;"),
    "quotes never closed": (300_000, lambda n: b'"\n' * n + b"%% s: ;"),
    "brackets never closed": (300_000, lambda n: b"%% s: 'a'\n" + b"[\n" * n + b";"),
    "symbols in a body": (1_000_000, lambda n: b"%% s: " + b"'a' " * n + b";"),
    "names in brackets": (1_000_000, lambda n: b"%% s: " + b"'a'[x] " * n + b";"),
    "rules in a body": (100_000, lambda n: b"%% s: " + b"t " * n + b"; t: 'a';"),
    "actions within a body": (1_000_000, lambda n: b"%% s: " + b"{} " * n + b";"),
    "actions and symbols of a body": (50_000, lambda n: b"%% s: " + b"{} 'a' " * n + b";"),
    "alternatives of one token": (100_000, lambda n: b"%% s: 'a'" + b" | 'a'" * n + b";"),
    "alternatives": (
        10_000,
        lambda n: b"%token "
        + b" ".join(b"T%d" % k for k in range(n))
        + b"\n%% s: T0\n"
        + b"".join(b"| T%d\n" % k for k in range(n))
        + b";",
    ),
    "empty alternatives": (100_000, lambda n: b"%% s: " + b"|" * n + b";"),
    "%prec in bodies": (100_000, lambda n: b"%left A\n%% s: 'a'" + b" | 'a' 'b' %prec A" * n + b";"),
    "unknown tokens behind %prec": (
        100_000,
        lambda n: b"%% s: 'b'\n" + b"".join(b"| 'a' %%prec T%d\n" % k for k in range(n)) + b";",
    ),
    "rules, one below another": (
        100_000,
        lambda n: b"%%\n" + b"".join(b"r%d: r%d;\n" % (k, k + 1) for k in range(n)) + b"r%d: 'a';\n" % n,
    ),
    "rules, each unreached": (100_000, lambda n: b"%% s: 'a';\n" + b"".join(b"r%d: 'a';\n" % k for k in range(n))),
    "rules that derive no text": (
        100_000,
        lambda n: b"%% s: 'a';\n" + b"".join(b"r%d: r%d;\n" % (k, (k + 1) % n) for k in range(n)),
    ),
    "rules of a list": (
        5_000,
        lambda n: b"%% s:\n"
        + b"".join(b"| r%d s\n" % k for k in range(n))
        + b";"
        + b"".join(b"r%d: 'a' 'b';\n" % k for k in range(n)),
    ),
    "%nterm": (300_000, lambda n: b"%nterm " + b" ".join(b"r%d" % k for k in range(n)) + b"\n%% s: 'a';"),
}


def main():
    parser = argparse.ArgumentParser()
    parser.add_argument("program")
    parser.add_argument("files", nargs="*", type=Path)
    parser.add_argument("--compared", type=int, default=COMPARED, help="how many copies of a kind and file Bison gets")
    parser.add_argument("--copies", action="store_true", help="copies and odd texts alone")
    parser.add_argument("--large", nargs="?", const="", metavar="WORD", help="large texts alone, of a name that has the word")
    parser.add_argument("--conflicts", nargs="?", const="", metavar="WORD", help="grammars with conflicts alone, likewise")
    arguments = parser.parse_args()
    is_all = not arguments.copies and arguments.large is None and arguments.conflicts is None
    with tempfile.TemporaryDirectory() as folder:
        judge = Judge(os.path.abspath(arguments.program), folder)
        if is_all or arguments.copies:
            check_copies(judge, arguments.files, arguments.compared)
        if is_all or arguments.large is not None:
            check_large(judge, arguments.large or "")
        if is_all or arguments.conflicts is not None:
            check_conflicts(judge, arguments.conflicts or "")
        sys.exit(tell(judge))


def check_copies(judge, files, compared):
    """Checks odd texts, and copies of files, of which Bison gets so many of each kind."""
    judge.check_all("odd texts", ((repr(text), (text,)) for text in ODD), len(ODD))
    for path in files:
        text = path.read_bytes()
        for kind, copies in COPIES_OF_FILES.items():
            judge.check_all(f"{path}, {kind}", copies(path.name, text), compared)


def note(half, whole):
    """What is said of seconds for a length and for half of it."""
    return "" if whole <= 3 * half + 0.05 else " grows faster than the length"


def check_large(judge, word):
    """Checks large texts of a name that has the word, each at half its length and at its length."""
    print("\n| Large text | Number | Half of it, s | All, s |\n|---|---|---|---|")
    for name, (number, text) in LARGE.items():
        if word not in name:
            continue
        times = [judge.check(f"{n} {name}", text(n), False, SECONDS_OF_LARGE) for n in (number // 2, number)]
        print(f"| {name} | {number} | {times[0]:.2f} | {times[1]:.2f}{note(*times)} |", flush=True)


def check_conflicts(judge, word):
    """Checks large grammars with conflicts of a name that has the word, each at half its length and at its length."""
    heads = [f"{way}, s" for way in WAYS]
    print(f"\n| Large grammar with conflicts | Number | {' | '.join(heads)} |\n|{'---|' * (2 + len(heads))}")
    for name, (number, text) in CONFLICTS.items():
        if word not in name:
            continue
        halves, wholes = (judge.check_in_all_ways(f"{n} {name}", text(n), SECONDS_OF_LARGE) for n in (number // 2, number))
        cells = [f"{whole:.2f}{note(half, whole)}" for half, whole in zip(halves, wholes)]
        print(f"| {name} | {number} | {' | '.join(cells)} |", flush=True)


def tell(judge):
    """Tells of all calls, and answers the status to end with."""
    print(f"\n{judge.texts} texts, {len(judge.troubles)} of which did not end well; {judge.compared} were shown to Bison")
    passed_over = 0
    for (ours, theirs), titles in sorted(judge.differences.items(), key=lambda item: -len(item[1])):
        if ours is None and OF_NO_GRAMMAR.search(theirs):
            passed_over += len(titles)
            continue
        print(f"{len(titles)} differ. lrcheck: {ours or 'accepts'}. Bison: {theirs or 'accepts'}")
        for title in titles[:8]:
            print(f"    {title}")
    print(f"{passed_over} are accepted by lrcheck, and have a fault for Bison that is none of the grammar")
    return 1 if judge.troubles else 0


if __name__ == "__main__":
    main()
