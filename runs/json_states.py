"""Reads what `lrcheck --json --states` tells, and prints what is wrong with it: each state is told once, in order; what leads on
leads to a state whose items have the symbol right before the dot; an item with a symbol behind its dot leads on by it, unless
precedences reduce there or make an error of it; each reduction is by an item whose dot stands behind its body, or by an empty
production; at no token two things are done; and the productions that are told to be never reduced are those by which no state
reduces that is reached, unless several meet a shift that precedences take away: then Bison's table does something else."""

import json
import sys


def wrong(line):
    states = line["automaton"]["states"]
    if [state["state"] for state in states] != [*range(line["states"])]:
        yield "other numbers of states"
    for state in states:
        number, leads = state["state"], {}
        for lead in state["shifts"] + state["gotos"]:
            symbol, target = lead.get("token", lead.get("rule")), states[lead["state"]]
            leads[symbol] = target
            if symbol != "$accept" and any(item["dot"] == 0 or item["body"][item["dot"] - 1] != symbol for item in target["items"]):
                yield f"{number} leads by {symbol} to {lead['state']}"
        reduced = [token for it in state["reductions"] for token in it["tokens"]]
        for item in state["items"]:
            if {*item["body"][item["dot"] : item["dot"] + 1]} - {*leads, *reduced, *state["errors"]}:
                yield f"{number} does not lead on by {item['body'][item['dot']]}"
        for reduction in state["reductions"]:
            ended = [it for it in state["items"] if it["dot"] == len(it["body"])]
            if reduction["body"] and not any((it["rule"], it["body"]) == (reduction["rule"], reduction["body"]) for it in ended):
                yield f"{number} reduces by {reduction['rule']}"
        done = [it["token"] for it in state["shifts"]] + reduced
        if len({*done, *state["errors"]}) != len(done) + len(state["errors"]):
            yield f"{number} does two things at a token"


def cells(entries):
    return {(entry["state"], token) for entry in entries for token in entry["tokens"]}


def place(it):
    return it["rule"], *it["body"], it["line"], it["column"]


def wrong_of_reduced(line):
    states = line["automaton"]["states"]
    reached, waiting = {0}, [0]
    while waiting:
        state = states[waiting.pop()]
        for target in {lead["state"] for lead in state["shifts"] + state["gotos"]} - reached:
            reached.add(target)
            waiting.append(target)
    reduced = {place(it) for number in reached for it in states[number]["reductions"]}
    whole = {place(it) for state in states for it in state["items"] if it["dot"] == len(it["body"]) and it["rule"] != "$accept"}
    told = {place(it) for it in line["never_reduced"]}
    if not cells(line["conflicts"]) & cells(line["settled"]) and (told & reduced or whole - reduced - told):
        yield f"other productions are never reduced than {line['never_reduced']}"


for text in sys.stdin:
    it = json.loads(text)
    found = [*wrong(it), *wrong_of_reduced(it)] if it["automaton"] else ["not read"]
    print(*found or ["right"], sep="\n")
