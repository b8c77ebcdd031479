"""The cases of lrt: with what it is called. Each has a name of its own, and its grammar text lies in the file FILE of the
folder of the call."""

from collections import namedtuple

FILE = "a.y"

# `words` are the arguments. `text` is what the file holds, and None where there is no file. `given` is standard input:
# where it is not to be read, another grammar text. `status` is how the call ends where nothing fails.
class Case(namedtuple("Case", "name words text given status", defaults=(b"%% Other: 'other';", 0))):
    program = "lrt"
    lone_words = ()
    pages = ()

    @property
    def files(self):
        return {} if self.text is None else {FILE: self.text}



PRINTING = ("start", "core", "closed", "conflicts")
ANSWERING = ("run", "tree")
STEPS = "100"

# Grammar texts, and lines for them: accepted, rejected, one with an unknown word, and the empty one.
GRAMMARS = {
    "lr1-and-not-lalr1": (
        b"%% S: 'a' A 'd' | 'b' B 'd' | 'a' B 'e' | 'b' A 'e'; A: 'c'; B: 'c';",
        b"a c d\nb c d\na c\na x\n\nb c e\n",
    ),
    "a-collected-state": (
        b"%% S: 'a' A 'd' | 'a' B 'e' | 'b' K 'e' | 'f' 'g' K 'd'; K: 'k' A | 'k' B 'd'; A: 'c' 'u'; B: 'c' 'v';",
        b"a c u d\nf g k c v d d\na c v d\nk w\n\n",
    ),
    "shift-against-two-reductions": (
        b"%% A: 'a' 'b' | B 'b'; B: 'a' | C; C: 'a';",
        b"a b\na\nb c\n\n",
    ),
    "four-precedences": (
        b"%right '=' %left '+' %left '*' %nonassoc '~' "
        b"%% Expr : Expr '+' Expr | Expr '*' Expr | Expr '=' Expr | Expr '~' Expr | 'id' ;",
        b"id + id * id\nid = id = id\nid ~ id ~ id\nid - id\n\n",
    ),
    "closure-through-nullables": (
        b"%token a b c d f %% S: S 'b' | 'b' A 'a' | 'a'; A: 'a' S 'c' | 'a' | 'a' S 'b'; B: A S; C: D A; D: 'd' | ; F: C D 'f';",
        b"b a a b\nb a b a a c a\nb a\ng\n\n",
    ),
    "prec": (
        b"%left '+' '-' %left '*' %left U %% E: E '+' E | E '-' E | E '*' E | '-' E %prec U | 'n';",
        b"- n * n - n\nn - - n\nn U n\nm\n\n",
    ),
}

REFUSED = {
    "one-lexeme-too-many": b"%% S 'a';",
    "ends-too-early": b"%% S: 'a' // on\n",
    "second-start": b"%start S %start S %% S: ;",
    "word-with-a-digit": b"%start1 S %% S: ;",
    "unknown-word": b"%% S: 'a' %precedence 'b';",
    "third-percent-sign": b"%%%",
    "other-byte": b"%% S: a=b;",
    "empty-quote": b"%% S: '';",
    "open-quote": b"%% S: 'a\n';",
    "open-comment": b"%% S: ; /*/ on",
    "nested-comment": b"/* /* */ */ %% S: ;",
    "prec-without-a-name": b"%% S: %prec;",
    "prec-before-a-name": b"%% S: 'a' %prec 'b' 'c';",
    "ends-behind-prec": b"%% S: 'a' %prec",
    "unknown-start": b"%start T %% S: 'a';",
    "unknown-symbol": b"%token y %% S: y x;",
    "two-precedences": b"%left a b %left b a %% S: ;",
    "two-precedences-in-a-line": b"%left '+' '+' %% S: '+';",
    "no-rule": b"%token a %%",
    "not-utf8": b"%% S: '\xff';",
}

ONE_OR_MORE = b"%% S: S 'a' | 'a';"

# Lines for that grammar. One read takes 4,096 bytes of them.
LINES = {
    "no-lines": b"",
    "accepted": b"a a\n",
    "rejected": b"\na\n",
    "unknown-word": b"a b a\n",
    "empty-line": b"\n",
    "carriage-return": b"a\r\na \r\r\n",
    "rest-without-a-line-feed": b"a\na a",
    "forty-words": b"a " * 40 + b"\n",
    "line-longer-than-a-read": b"a\n" + b" " * 4200 + b"a a\na\n",
    "carriage-return-at-the-end-of-a-read": b"a\n" + b" " * 4092 + b"a\r\na\n",
    "unknown-word-longer-than-a-read": b"b" * 4200 + b"\na\n",
}

# A token with a name that is longer than a read, and so a tree with a longer text.
LONG_NAME = b"a" * 4200

# A grammar whose only sentence is the empty one.
EMPTY_BODY = b"%% S: ;"

# Rules with empty bodies, and one that begins with itself behind such a body.
HIDDEN_LEFT_RECURSION = b"%% S: A S 'x' | B 'y'; A: ; B: ;"

ACCEPT_REDUCE = b"%% S: S | 'a';"


def words_of(command):
    return [command, FILE, STEPS] if command in ANSWERING else [command, FILE]


def of_grammars():
    for grammar, (text, lines) in GRAMMARS.items():
        for command in PRINTING:
            yield Case(f"{command}-{grammar}", words_of(command), text)
        for command in ANSWERING:
            yield Case(f"{command}-{grammar}", words_of(command), text, lines)
        yield Case(f"no-arguments-{grammar}", [], None, text)


def of_lines():
    for command in ANSWERING:
        for name, lines in LINES.items():
            yield Case(f"{command}-{name}", words_of(command), ONE_OR_MORE, lines)
        yield Case(f"{command}-long-name", words_of(command), b"%% S: '" + LONG_NAME + b"';", LONG_NAME + b"\n\n")
        yield Case(f"{command}-no-steps", [command, FILE, "0"], ONE_OR_MORE, b"a\n\n")
        yield Case(f"{command}-empty-body-no-lines", words_of(command), EMPTY_BODY, b"")
        yield Case(f"{command}-empty-bodies", words_of(command), HIDDEN_LEFT_RECURSION, b"y\ny x\n")


def of_faults():
    for name, text in REFUSED.items():
        yield Case(f"start-refused-{name}", words_of("start"), text, status=1)
    for command in ("core", "tree"):
        yield Case(f"{command}-refused-no-rule", words_of(command), REFUSED["no-rule"], b"a\n", status=1)
    yield Case("no-arguments-refused-unknown-symbol", [], None, REFUSED["unknown-symbol"], status=1)
    for command in ("core", "closed", "conflicts", "run", "tree"):
        yield Case(f"{command}-accept-reduce", words_of(command), ACCEPT_REDUCE, b"a\n", status=1)
    for command in ("start", "run"):
        yield Case(f"{command}-no-file", words_of(command), None, b"a\n", status=1)
    yield Case("usage", ["starting", FILE], ONE_OR_MORE, status=2)
    yield Case("usage-argument-not-utf8", ["start", b"\xff"], ONE_OR_MORE, status=2)
    yield Case("usage-steps", ["run", FILE, "+1"], ONE_OR_MORE, b"a\n", status=2)


CASES = {case.name: case for case in (*of_grammars(), *of_lines(), *of_faults())}
