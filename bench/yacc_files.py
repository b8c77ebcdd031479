#!/usr/bin/env python3
"""Compares what `lrcheck` reads of grammar files with what Bison makes of them.

    yacc_files.py LRCHECK FOLDER..

Takes the files `.y`, `.yy` and `.ypp` that are named or in the folders. For each it prints a row: rules, productions, tokens,
tokens with a level, `%prec`, useless rules and productions, and numbers of conflicts, with precedences and without. A number on
which both agree stands once; else Bison's stands before `/`. A line for each difference
follows: where the first fault is, if either refuses the file; tokens with other levels or kinds; productions. Ends with status 1
where there is a difference.

Bison is asked for its LALR automaton, by `--xml`, with `%expect` blanked out. Where the numbers of conflicts differ, the line has
those of IELR too, since LALR's merging makes conflicts of its own. Needs Bison 3.8.2.
"""

import argparse
import json
import os
import re
import subprocess
import sys
import tempfile
import xml.etree.ElementTree as ElementTree
from concurrent.futures import ThreadPoolExecutor
from dataclasses import dataclass, field
from pathlib import Path

sys.dont_write_bytecode = True
from processes import grammar_files

PROCESSES = 2
ACTION = re.compile(r"\$?@\d+")
FIRST_TOKENS = {"$end", "error", "$undefined", "YYEOF", "YYerror", "YYUNDEF"}


@dataclass
class Reading:
    """What a program reads of a file. None is what it does not tell."""

    fault: tuple = None  # The first one: line, column, words.
    rules: list = None
    productions: list = None  # (rule, body, token behind %prec)
    tokens: dict = None  # By name: (level, kind).
    counts: dict = field(default_factory=dict)  # Numbers that are told without the lists.
    useless_rules: int = None
    useless_productions: int = None
    conflicts: tuple = None  # shift/reduce, reduce/reduce


# Grammar files as texts.

QUOTED = r"'(?:\\.|[^'\\\n])*'|\"(?:\\.|[^\"\\\n])*\""
COMMENT = r"/\*.*?\*/|//[^\n]*"
LEXEME = re.compile(
    rf"(?P<comment>{COMMENT})|(?P<prologue>%{{)|(?P<code>{{|%\?\s*{{)|(?P<separator>%%)|(?P<directive>%[A-Za-z][\w-]*)"
    rf"|(?P<text>\"(?:\\.|[^\"\\\n])*\"|_\(\"(?:\\.|[^\"\\\n])*\"\))|(?P<character>'(?:\\.|[^'\\\n])*')"
    rf"|(?P<tag><(?:->|[^<>]|<[^<>]*>)*>)"
    rf"|(?P<name>[A-Za-z_.][\w.-]*)|(?P<number>\d\w*)|(?P<blank>[\s,]+)|(?P<mark>.)",
    re.DOTALL,
)
IN_CODE = re.compile(rf"{QUOTED}|{COMMENT}|<<|<%|%>|%}}|[{{}}]", re.DOTALL)
LEVELS = {"%left", "%right", "%nonassoc", "%binary", "%precedence"}
EXPECTED = {"%expect", "%expect-rr", "%expect_rr"}


def code_end(text, start, is_prologue):
    """The place behind code that begins behind a mark."""
    depth = 0
    for found in IN_CODE.finditer(text, start):
        mark = found[0]
        if is_prologue and mark == "%}":
            return found.end()
        if not is_prologue and mark in ("{", "<%"):
            depth += 1
        elif not is_prologue and (mark in ("}", "%>") or mark == "%}"):
            depth -= 1
            if depth < 0 and mark != "%>":
                return found.end()
    return len(text)


def lexemes(text):
    """The lexemes of a grammar file up to the second `%%`, as (kind, start, end), without blanks and comments."""
    at, separators = 0, 0
    while at < len(text) and separators < 2:
        found = LEXEME.match(text, at)
        kind, end = found.lastgroup, found.end()
        if kind in ("prologue", "code"):
            end = code_end(text, end, kind == "prologue")
        separators += kind == "separator"
        if kind not in ("comment", "blank"):
            yield kind, at, end
        at = end


def blanks(text):
    """As many blanks and line ends."""
    return re.sub(r"[^\n]", " ", text)


def without(text, with_precedences):
    """A grammar file without `%expect`, and if so asked without precedences: tokens of a level are declared as such."""
    made, copied = [], 0
    directive, tag, mark, is_in_level = None, "", "", False
    for kind, start, end in lexemes(text):
        lexeme, put = text[start:end], None
        if directive in EXPECTED or directive == "%prec" and not with_precedences:
            put, directive = blanks(lexeme), None
        elif kind == "directive":
            directive, tag, mark = lexeme, "", ""
            is_in_level = lexeme in LEVELS and not with_precedences
            if is_in_level or lexeme in EXPECTED or lexeme == "%prec" and not with_precedences:
                put = blanks(lexeme)
        elif is_in_level and kind == "tag":
            put, tag = "", lexeme
        elif is_in_level and kind in ("name", "character", "text"):
            # Behind `%token` a text would be another name of the token before it.
            put = f"{mark} {'%type' if kind == 'text' else '%token'} {tag} {lexeme}"
            mark = ";"
        elif kind != "number":
            is_in_level = False
        if put is not None:
            made += [text[copied:start], put]
            copied = end
    return "".join(made) + text[copied:]


# Bison.


def called_bison(text, kind, folder):
    """The root of Bison's report and what it prints; the root is None where it finds a fault."""
    source, report = folder / "grammar.y", folder / "report.xml"
    source.write_text(text, encoding="latin-1")
    report.unlink(missing_ok=True)
    (folder / "skeleton.m4").touch()
    words = ["bison", "-Wnone", "-Wconflicts-sr", "-Wconflicts-rr", f"-Flr.type={kind}", "-S", "skeleton.m4"]
    environment = dict(os.environ, LC_ALL="C")
    run = subprocess.run(
        [*words, f"--xml={report.name}", "-o", "grammar.out", source.name],
        cwd=folder,
        env=environment,
        stdout=subprocess.PIPE,
        stderr=subprocess.STDOUT,
    )
    printed = run.stdout.decode("utf-8", "replace")
    return (ElementTree.parse(report).getroot() if report.exists() else None), printed


def conflicts_of(root, printed):
    """The numbers of conflicts that Bison warns of; None where it finds a fault."""
    if root is None:
        return None

    def number(kind):
        found = re.search(rf"warning: (\d+) {kind} conflict", printed)
        return int(found[1]) if found else 0

    return number("shift/reduce"), number("reduce/reduce")


def fault_of_bison(printed):
    """Bison's first fault."""
    found = re.search(r"^[^\n:]*:(\d+)\.(\d+)\S*: (?:fatal )?error: ([^\n]*)", printed, re.MULTILINE)
    if found:
        return int(found[1]), int(found[2]), found[3]
    found = re.search(r"error: ([^\n]*)", printed)
    return 0, 0, found[1] if found else printed[:80]


def is_useful(element):
    return element.get("usefulness") != "useless-in-grammar"


def read_by_bison(text, folder):
    """What Bison makes of a file."""
    root, printed = called_bison(without(text, True), "lalr", folder)
    if root is None:
        return Reading(fault=fault_of_bison(printed))
    grammar = root.find("grammar")
    rules = [rule for rule in grammar.find("nonterminals") if rule.get("name") != "$accept"]
    useful = {rule.get("name") for rule in rules if is_useful(rule)}
    productions = [prod for prod in grammar.find("rules") if prod.find("lhs").text != "$accept"]
    return Reading(
        rules=[rule.get("name") for rule in rules if is_useful(rule)],
        productions=[
            (
                prod.find("lhs").text,
                tuple(symbol.text for symbol in prod.find("rhs").iter("symbol")),
                prod.get("percent_prec"),
            )
            for prod in productions
            if is_useful(prod)
        ],
        tokens={
            token.get("name"): (int(token.get("prec", 0)) or None, token.get("assoc"))
            for token in grammar.find("terminals")
        },
        useless_rules=sum(not is_useful(rule) for rule in rules),
        useless_productions=sum(not is_useful(prod) and prod.find("lhs").text in useful for prod in productions),
        conflicts=conflicts_of(root, printed),
    )


# lrcheck.


def told_by_lrcheck(program, text, folder, *words):
    """What `lrcheck` tells of a file, as JSON."""
    (folder / "grammar.y").write_text(text, encoding="latin-1")
    run = subprocess.run([program, "--json", *words, "grammar.y"], cwd=folder, capture_output=True)
    return json.loads(run.stdout)


def numbers_of_conflicts(told):
    return told["shift_reduce"], told["reduce_reduce"]


def read_by_lrcheck(program, text, folder):
    """What `lrcheck` reads of a file."""
    told = told_by_lrcheck(program, text, folder, "--grammar")
    if told["errors"]:
        first = told["errors"][0]
        return Reading(fault=(first["line"] or 0, first["column"] or 0, first["message"]))
    reading = Reading(conflicts=numbers_of_conflicts(told))
    warnings = [warning["message"] for warning in told["warnings"]]
    reading.useless_rules = sum(it.startswith("this rule is never reached") for it in warnings)
    reading.useless_productions = sum(it.startswith("this derives no sentence") for it in warnings)
    reading.counts = {name: told[name] for name in ("rules", "productions", "tokens")}
    grammar = told["grammar"]
    reading.rules = grammar["rules"]
    reading.tokens = {token["name"]: (token["level"], token["kind"]) for token in grammar["tokens"]}
    reading.productions = [(it["rule"], tuple(it["body"]), it["prec"]) for it in grammar["productions"]]
    return reading


def conflicts_without_precedences(program, text, folder):
    """The numbers of conflicts that `lrcheck` counts without precedences."""
    return numbers_of_conflicts(told_by_lrcheck(program, text, folder, "--without-precedences"))


# Both.


def ranked(tokens):
    """Tokens with their levels counted from 1, whatever numbers these have."""
    levels = sorted({level for level, _ in tokens.values() if level is not None})
    return {
        name: (levels.index(level) + 1, kind) if level is not None else (None, None) for name, (level, kind) in tokens.items()
    }


def plain_action(name):
    """The name of a symbol; that of an action within a body does not say whether it has a value."""
    return name.lstrip("$") if ACTION.fullmatch(name) else name


def plain_production(production):
    rule, body, precedence = production
    return plain_action(rule), tuple(plain_action(name) for name in body), precedence


def shown(production):
    rule, body, precedence = production
    return f"{rule}: {' '.join(body)}" + (f" %prec {precedence}" if precedence else "")


def own(tokens):
    """The tokens that not every grammar has."""
    return {name: told for name, told in tokens.items() if name not in FIRST_TOKENS}


def differing_tokens(theirs, ours):
    """A line for each token that is not the same."""
    theirs, ours = ranked(own(theirs)), ranked(own(ours))
    for name in sorted(theirs.keys() | ours.keys()):
        one, other = theirs.get(name), ours.get(name)
        if one != other:
            yield f"token {name}: Bison {one}, lrcheck {other}"


def differing_productions(theirs, ours):
    """A line for each production that is not the same, the first few."""
    theirs, ours = [[plain_production(production) for production in list_] for list_ in (theirs, ours)]
    if len(theirs) != len(ours):
        yield f"{len(theirs)} productions in Bison, {len(ours)} in lrcheck"
    places = [at for at, (one, other) in enumerate(zip(theirs, ours)) if one != other]
    for at in places[:5]:
        yield f"production {at + 1}: Bison {shown(theirs[at])}, lrcheck {shown(ours[at])}"
    if len(places) > 5:
        yield f"and {len(places) - 5} more productions"


def cell(theirs, ours):
    """A number of both."""
    if ours is None:
        return f"{theirs}/?"
    return str(theirs) if theirs == ours else f"{theirs}/{ours}"


def pair(conflicts):
    return "?" if conflicts is None else f"{conflicts[0]}+{conflicts[1]}"


def number(reading, name):
    """How many of these a reading has; None where it is not told."""
    listed = getattr(reading, name)
    if listed is None:
        return reading.counts.get(name)
    return len(own(listed)) if name == "tokens" else len(listed)


def numbers(reading):
    """The numbers of a row."""
    tokens, productions = reading.tokens, reading.productions
    return {
        "rules": number(reading, "rules"),
        "productions": number(reading, "productions"),
        "tokens": number(reading, "tokens"),
        "with a level": None if tokens is None else sum(level is not None for level, _ in tokens.values()),
        "%prec": None if productions is None else sum(precedence is not None for _, _, precedence in productions),
        "useless rules": reading.useless_rules,
        "useless productions": reading.useless_productions,
    }


def conflict_line(which, theirs, ours, ielr):
    return f"conflicts {which}: Bison's LALR {pair(theirs)}, its IELR {pair(ielr)}, lrcheck {pair(ours)}"


def compared_conflicts(text, theirs, ours, which, folder):
    """The cell of numbers of conflicts, and a line where they differ."""
    if theirs == ours:
        return pair(theirs), []
    ielr = conflicts_of(*called_bison(without(text, which == "with precedences"), "ielr", folder))
    return f"{pair(theirs)}/{pair(ours)}", [conflict_line(which, theirs, ours, ielr)]


def compared_faults(theirs, ours):
    """The row and the lines of a file that is refused."""
    if theirs.fault and ours.fault and theirs.fault[:2] == ours.fault[:2]:
        return ["refused by both"], []
    told = [
        f"{name}: {'accepts' if reading.fault is None else '{}:{} {}'.format(*reading.fault)}"
        for name, reading in (("Bison", theirs), ("lrcheck", ours))
    ]
    return ["refused"], [", ".join(told)]


def compared(program, path):
    """The cells of the row of a file, and a line for each difference."""
    text = path.read_bytes().decode("latin-1")
    with tempfile.TemporaryDirectory() as name:
        folder = Path(name)
        theirs = read_by_bison(text, folder)
        ours = read_by_lrcheck(program, text, folder)
        if theirs.fault or ours.fault:
            return compared_faults(theirs, ours)
        told = list(zip(numbers(theirs).items(), numbers(ours).values()))
        cells = [cell(one, other) for (_, one), other in told]
        lines = [f"{kind}: Bison {one}, lrcheck {other}" for (kind, one), other in told if other not in (None, one)]
        if ours.tokens is not None:
            lines += differing_tokens(theirs.tokens, ours.tokens)
        if ours.productions is not None:
            lines += differing_productions(theirs.productions, ours.productions)
        without_levels = conflicts_of(*called_bison(without(text, False), "lalr", folder))
        plain = conflicts_without_precedences(program, text, folder)
        for which, of_bison, of_lrcheck in (
            ("with precedences", theirs.conflicts, ours.conflicts),
            ("without precedences", without_levels, plain),
        ):
            made, differing = compared_conflicts(text, of_bison, of_lrcheck, which, folder)
            cells.append(made)
            lines += differing
        return cells, lines


def main():
    parser = argparse.ArgumentParser()
    parser.add_argument("program")
    parser.add_argument("folders", nargs="+", type=Path)
    arguments = parser.parse_args()
    program = os.path.abspath(arguments.program)
    paths = list(grammar_files(arguments.folders))
    heads = ["File", *numbers(Reading()), "conflicts", "without precedences"]
    print(f"| {' | '.join(heads)} |\n|{'---|' * len(heads)}")
    all_lines, refused = [], 0
    with ThreadPoolExecutor(PROCESSES) as pool:
        for path, (cells, lines) in zip(paths, pool.map(lambda path: compared(program, path), paths)):
            print(f"| {' | '.join([f'`{path}`', *cells])} |", flush=True)
            all_lines += [f"{path}: {line}" for line in lines]
            refused += cells == ["refused by both"]
    print(f"\n{len(paths)} files, {refused} of which both refuse at one place; {len(all_lines)} differences")
    print("\n".join(all_lines))
    sys.exit(1 if all_lines else 0)


if __name__ == "__main__":
    main()
