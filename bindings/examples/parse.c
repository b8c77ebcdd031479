/* Parses id * id by the table of a grammar, and prints by what it reduces. */
#include <stdio.h>
#include <string.h>
#include "lrc.h"

static const char grammar[] = "%token id\n%%\nExpr: Expr '+' Term | Term;\n"
    "Term: Term '*' Factor | Factor;\nFactor: '(' Expr ')' | id;\n";
static uint32_t table[1 << 12], states[100], *top = states;
static char names[1 << 12], *name[100];

int main(void)
{
    const char *words[] = {"id", "'*'", "id", "$end", ""};
    size_t size = lrc_table(grammar, strlen(grammar), table, 1 << 12), count = 0, word = 0;
    uint32_t tokens = table[1], rules = table[2], *gotos = table + 4 + table[0] * tokens, *productions = gotos + table[0] * rules;

    if (size == 0 || size > 1 << 12 || lrc_names(grammar, strlen(grammar), names, 1 << 12) > 1 << 12)
        return 1;
    for (char *it = names; count < tokens + rules; it = strchr(it, '\0') + 1)
        name[count++] = it, *strchr(it, '\n') = '\0';
    for (uint32_t action = 0, token; action != 1;) {
        for (token = 0; strcmp(name[token], words[word]) != 0; token++) {}
        action = table[4 + *top * tokens + token];
        if (action == 0)
            return puts("error"), 1;
        if (action % 2 == 0)
            *++top = action / 2 - 1, word++;
        else if (action > 1) {
            uint32_t *production = productions + 2 * (action / 2 - 1);
            top -= production[1];
            printf("%s, from %u\n", name[tokens + production[0]], production[1]);
            top[1] = gotos[*top * rules + production[0]] - 1, top++;
        }
    }
    return 0;
}
