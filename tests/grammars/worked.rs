//! What the grammars of texts say: tokens in their order, productions and precedences, FIRST sets and nullable rules, and
//! what else is asked.

use crate::fixtures::{ASSIGNMENTS, HIDDEN_LEFT_RECURSION, RULE_WITHOUT_A_TREE};
use crate::grammars::told::{push_rules, tells};
use lrgrammar::grammar::YaccGrammar;
use std::alloc::Global;
use std::test::Fail;

/// The rule `A` in two places, a token of the same name, and a precedence.
const IN_TWO_PLACES: &str =
    "%left c %% S: A 'c' 'd' | B 'c' 'e'; A: 'a'; B: 'a' | 'b'; A: 'b' 'A';";

/// Texts, each with a line that is told of it and of its grammar.
static TEXTS: [(&str, &str); 29] = [
    // Tokens in their order, productions and precedences.
    (
        "%token a %% S: a \"b\" | 'a'; %% '",
        "a b $ ; S: \"a\" \"b\"; S: \"a\"; ^: \"S\"",
    ),
    (
        "%left '+' %left '*' %% E: E '+' E | E '*' E | i; i: 'x';",
        "!++0L *+1L x $ ; E: \"E\" \"+\" \"E\"+0L; E: \"E\" \"*\" \"E\"+1L; E: \"i\"; i: \"x\"; ^: \"E\"",
    ),
    (
        "%nonassoc x %% S: x; x: 'a';",
        "!a x+0N $ ; S: \"x\"; x: \"a\"; ^: \"S\"",
    ),
    (
        "%% S: '\u{44d}\u{442}\u{43e}' \"\u{65e5}\u{672c}\";",
        "\u{44d}\u{442}\u{43e} \u{65e5}\u{672c} $ ; S: \"\u{44d}\u{442}\u{43e}\" \"\u{65e5}\u{672c}\"; ^: \"S\"",
    ),
    (
        "%% S: ':' ';' '|' '%%' '%start';",
        ": ; | %% %start $ ; S: \":\" \";\" \"|\" \"%%\" \"%start\"; ^: \"S\"",
    ),
    ("%%\r\nS:\r\n 'a';\r\n", "a $ ; S: \"a\"; ^: \"S\""),
    (
        "%% S: A 'c'; A: 'a'; S: ; A: 'b'; // end",
        "c a b $ ; S: \"A\" \"c\"; A: \"a\"; S:; A: \"b\"; ^: \"S\"",
    ),
    (
        "%left '+' '-' %left '*' %left U %% \
        E: E '+' E | E '-' E | E '*' E | '-' E %prec U | 'n';",
        "!++0L -+0L *+1L n U+2L $ ; E: \"E\" \"+\" \"E\"+0L; E: \"E\" \"-\" \"E\"+0L; \
        E: \"E\" \"*\" \"E\"+1L; E: \"-\" \"E\"+2L; E: \"n\"; ^: \"E\"",
    ),
    (
        "%left '+' '-' %left '*' %left U %% \
        E: E '+' E | E '-' E | E '*' E | '-' E | 'n';",
        "!++0L -+0L *+1L n U+2L $ ; E: \"E\" \"+\" \"E\"+0L; E: \"E\" \"-\" \"E\"+0L; \
        E: \"E\" \"*\" \"E\"+1L; E: \"-\" \"E\"+0L; E: \"n\"; ^: \"E\"",
    ),
    // Names behind `%prec` are tokens, the new ones behind all others.
    ("%% S: 'a' %prec 'b';", "a b $ ; S: \"a\"; ^: \"S\""),
    (
        "%left c %% S: 'a' %prec d | %prec b | 'b' %prec c;",
        "!a b c+0L d $ ; S: \"a\"; S:; S: \"b\"+0L; ^: \"S\"",
    ),
    (
        "%left '-' %% S: '-' %prec d | '-' %prec 'c';",
        "!-+0L d c $ ; S: \"-\"; S: \"-\"; ^: \"S\"",
    ),
    (
        "%right A %% S: A 'b' %prec A; A: %prec A;",
        "!b A+0R $ ; S: \"A\" \"b\"+0R; A:+0R; ^: \"S\"",
    ),
    (
        "%% S: 'a'%prec/* b */c|%prec// d\n'e';",
        "a c e $ ; S: \"a\"; S:; ^: \"S\"",
    ),
    (
        "%token a b c %left a %right b %% S: | a;",
        "!a+0L b+1R c $ ; S:; S: \"a\"+0L; ^: \"S\"",
    ),
    (
        "%token a b c %left a %right b %% S: | a %prec a;",
        "!a+0L b+1R c $ ; S:; S: \"a\"+0L; ^: \"S\"",
    ),
    (
        "%token a b c %left a %right b %% S: | a %prec b;",
        "!a+0L b+1R c $ ; S:; S: \"a\"+1R; ^: \"S\"",
    ),
    (
        "%token a b c %left a %right b %% S: | a %prec c;",
        "!a+0L b+1R c $ ; S:; S: \"a\"; ^: \"S\"",
    ),
    // FIRST sets, nullable rules and the productions of rules; and all that is asked of one grammar.
    ("%% S: ;", "^?: 1;S?: 0;"),
    (ASSIGNMENTS, "^ * id: 5;S * id: 0 1;L * id: 2 3;R * id: 4;"),
    (RULE_WITHOUT_A_TREE, "^ c a: 5;S c a: 0 1;A a: 2 3;B: 4;"),
    (HIDDEN_LEFT_RECURSION, "^ y: 4;S y: 0 1;A?: 2;B?: 3;"),
    ("%% S: S 'a';", "^: 1;S: 0;"),
    (IN_TWO_PLACES, "^ a b: 6;S a b: 0 1;A a b: 2 5;B a b: 3 4;"),
    (IN_TWO_PLACES, "1 3 3;1 3 3;2 1 1;3 1 1;3 1 1;2 2 2;0 1 1;"),
    (IN_TWO_PLACES, "[4, 7, 7, 6, 6] 0 1 2 3 4 5 6"),
    (
        IN_TWO_PLACES,
        "^ Some(0) None;S Some(1) None;A Some(2) Some(5);c None Some(0);C None None;",
    ),
    // Parts.
    (
        "%nonassoc x %% S: x; x: 'a';",
        "GrammarParts { rules: [\"S\", \"x\"], tokens: [\
        PartToken { name: \"a\", precedence: None }, PartToken { name: \"x\", \
        precedence: Some(Precedence { level: 0, kind: Nonassoc }) }], prods: [\
        PartProd { rule: 0, symbols: [Rule(1)], precedence: None }, \
        PartProd { rule: 1, symbols: [Token(0)], precedence: None }], start: 0 }",
    ),
    (
        "%% S: 'a' %prec 'b';",
        "GrammarParts { rules: [\"S\"], tokens: [PartToken { name: \"a\", precedence: None }, \
        PartToken { name: \"b\", precedence: None }], prods: [\
        PartProd { rule: 0, symbols: [Token(0)], precedence: Some(1) }], start: 0 }",
    ),
];

#[test]
fn what_texts_mean(rt: HostRuntime) -> Result<(), Fail> {
    for (text, line) in &TEXTS {
        tells::<u8>(&rt, rt.alloc(), text, line)?;
        tells::<u32>(&rt, rt.alloc(), text, line)?;
    }
    Ok(())
}

/// A grammar of so many tokens, `t0 t1 t2`; the bodies of `S` begin with the first one and with the last one.
fn many_tokens(alloc: Global, count: usize) -> Result<YaccGrammar<u32>, Fail> {
    let mut text = String::from_str(alloc, "%token")?;
    for number in 0..count {
        write!(text, " t{number}")?;
    }
    let last = count.saturating_sub(1);
    write!(text, " %% S: t0 | t{last};")?;
    Ok(YaccGrammar::from_text(alloc, text.as_str())?)
}

/// A set of all tokens has more than 65,536 bits.
#[test]
fn firsts_among_many_tokens(rt: HostRuntime) -> Result<(), Fail> {
    let grm = many_tokens(rt.alloc(), 65537)?;
    let mut told = String::new(rt.alloc());
    push_rules(&mut told, &grm)?;
    assert_eq!(rt; told.as_str(), "^ t0 t65536: 2;S t0 t65536: 0 1;\n");
    Ok(())
}
