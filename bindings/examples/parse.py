"""Parses a sentence by the table of a grammar, and prints its tree."""

import lrc

TABLE = lrc.Table("""
%token id
%%
Expr: Expr '+' Term | Term;
Term: Term '*' Factor | Factor;
Factor: '(' Expr ')' | id;
""")


def parse(words):
    states, trees = [0], []
    for token in [TABLE.tokens.index(word) for word in [*words, "$end", ""]]:
        while (step := TABLE.action(states[-1], token))[0] == "reduce":
            rule, length = TABLE.productions[step[1]]
            first = len(trees) - length
            states[first + 1 :] = []
            states.append(TABLE.goto(states[-1], rule))
            trees[first:] = [f"{TABLE.rules[rule]}({' '.join(trees[first:])})"]
        if step[0] == "error":
            raise SyntaxError(f"unexpected {TABLE.tokens[token]}")
        states.append(step[1])
        trees.append(TABLE.tokens[token])
    return trees[0]


print(parse(["id", "'*'", "id"]))
