"""The cases of lrcheck: with what it is called. Each has a name of its own, that begins with `check-`."""

import json
from collections import namedtuple

# `words` are the arguments, and of these `names`, at the end, the names of files, which lie in the folder of the call by
# `files`. `given` is standard input: where it is not to be read, another grammar. `status` is how the call ends where nothing
# fails, and `told` with what standard error then begins; where it is empty, nothing is there. `pages` are files of the folder
# that are written, of which older ones lie there, and `unread` what is answered in place of a file that can't be read.
FIELDS = "name words names files given status told pages unread"


class CheckCase(namedtuple("CheckCase", FIELDS, defaults=(b"%% other: 'other';", 0, b"", (), b""))):
    program = "lrcheck"

    @property
    def answers_lines(self):
        return "--parse" in self.words

    @property
    def lone_words(self):
        """The arguments of a call for each file alone."""
        options = self.words[: len(self.words) - len(self.names)]
        return [[*options, name] for name in self.names]


# Grammars: no conflict; three of them, of both kinds, for which there are some 12,000 requests for memory; one, for which there are
# some 900; one, which a precedence settles; one, without a text that has two trees; none, and precedences and tokens without use; a
# file that is none.
UNAMBIGUOUS = b"%% s: 'a' | ;"
AMBIGUOUS = b"%% s: 'a' | s s | t; t: 'a';"
ALIKE = b"%% s: 'a' | t; t: 'a';"
SETTLED = b"%left 'a' %% s: s 'a' s | 'b';"
NOT_AMBIGUOUS = b"%% s: x 'c' | y 'c' 'd'; x: 'a'; y: 'a';"
IDLE = b"%token t u\n%left 'a' t\n%% s: 'b' %prec u | 'a';"
FAULTY = b"%token a a\n%%\ns: t 'x;\n"

# Lines: sentences, one that is none, and an unknown word.
LINES = b"a a\n\nb\na"

# A log of SARIF without results, and the rules that it names.
RULES = {
    "shift-reduce": "A state can both shift and reduce at a token.",
    "reduce-reduce": "A state can reduce by two productions at a token.",
    "error": "The file is no grammar.",
    "warning": "A part of the grammar has no use, or not the one that it seems to have.",
    "useless-precedence": "A precedence resolves nothing.",
    "unused-token": "A token is in no rule, or in useless ones alone.",
    "never-reduced": "A production is never reduced, because of conflicts.",
}
RULE_HELP = "Without --sarif lrcheck shows the lines, all that is known of them, and what helps."


def text(words):
    """A message of SARIF."""
    return {"text": words}


LOG = {
    "$schema": "https://json.schemastore.org/sarif-2.1.0.json",
    "version": "2.1.0",
    "runs": [
        {
            "tool": {
                "driver": {
                    "name": "lrcheck",
                    "version": "0.2.0",
                    "rules": [
                        {"id": name, "shortDescription": text(words), "fullDescription": text(words), "help": text(RULE_HELP)}
                        for name, words in RULES.items()
                    ],
                }
            },
            "columnKind": "utf16CodeUnits",
            "results": [],
        }
    ],
}
NO_RESULTS = json.dumps(LOG, separators=(",", ":")).encode() + b"\n"

FILES = {
    "none.y": None,
    "a.y": AMBIGUOUS,
    "b.y": ALIKE,
    "f.y": FAULTY,
    "i.y": IDLE,
    "n.y": NOT_AMBIGUOUS,
    "p.y": SETTLED,
    "u.y": UNAMBIGUOUS,
}


def case(name, options, names, **more):
    files = {it: FILES[it] for it in names if FILES.get(it)}
    return CheckCase(f"check-{name}", [*options, *names], names, files, **more)


def cases():
    yield case("conflicts", [], ["a.y"], status=1)
    yield case("all-settled", ["--all", "--settled"], ["p.y"])
    yield case("no-text", [], ["n.y"], status=1)
    yield case("no-text-json", ["--json"], ["n.y"], status=1)
    yield case("trees", ["--trees"], ["b.y"], status=1)
    yield case("without-precedences", ["--without-precedences", "--expect", "1"], ["p.y"])
    yield case("warnings", [], ["i.y"])
    yield case("faults", [], ["f.y"], status=2)
    yield case("two-files", ["--summary"], ["b.y", "u.y"], status=1)
    yield case("standard-input", [], ["-"], given=UNAMBIGUOUS)
    yield case("standard-input-between", ["--summary"], ["u.y", "-", "b.y"], given=SETTLED, status=1)
    yield case("no-file-between", ["--summary"], ["u.y", "none.y", "b.y"], status=2, told=b"lrcheck: cannot read none.y: ")
    yield case("json", ["--json"], ["a.y"], status=1)
    yield case("json-warnings", ["--json"], ["i.y"])
    yield case("grammar", ["--grammar"], ["a.y"])
    yield case("page", ["--page", "out.html"], ["u.y"], pages=("out.html",))
    yield case("states", ["--states"], ["b.y"], status=1)
    yield case("json-states", ["--json", "--states"], ["b.y"], status=1)
    yield case("sarif", ["--sarif"], ["a.y"], status=1, unread=NO_RESULTS)
    yield case("sarif-warnings", ["--sarif"], ["i.y"], unread=NO_RESULTS)
    yield case("sarif-faults", ["--sarif"], ["f.y"], status=2, unread=NO_RESULTS)
    yield case("parse", ["--parse"], ["a.y"], given=LINES, status=1)
    yield case("parse-trees", ["--parse", "--trees"], ["a.y"], given=LINES, status=1)
    yield case("parse-faults", ["--parse"], ["f.y"], status=2)
    yield case("help", ["--help"], [])
    yield case("usage", ["--wrong", "a.y"], [], status=2, told=b"error: ")
    yield case("usage-input-twice", ["-", "-"], [], status=2, told=b"error: ")
    yield case("usage-argument-not-utf8", [b"\xff"], [], status=2, told=b"lrcheck: ")


CASES = {it.name: it for it in cases()}
