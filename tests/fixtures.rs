//! Grammar texts that tests read, and what tests look them up by.

use lrgrammar::grammar::YaccGrammar;
use lrgrammar::idx::{IndexStorage, TIdx};
use lrtable::machine::line_tokens;
use lrtable::{Minimiser, StateGraph, StateTable, from_yacc};
use std::alloc::{AllocError, Global};
use std::process::Abort;
use std::test::Fail;

/// One sentence, the empty one.
pub const EMPTY_RULE: &str = "%% S: ;";

/// `B` has no tree, so `S: A B` looks on at nothing.
pub const RULE_WITHOUT_A_TREE: &str = "%% S: A B | 'c'; A: 'a' | 'a'; B: B 'b';";

/// `S` has no tree.
pub const NO_SENTENCE: &str = "%% S: S 'a';";

/// Pager's nested states.
pub const NESTED_STATES: &str = "%% S: S 'b' | 'b' A 'a'; A: 'a' S 'c' | 'a' | 'a' S 'b';";

/// The same with a token more, which comes in no body.
pub const NESTED_STATES_AND_A_TOKEN: &str =
    "%start S %token a b c d %% S: S 'b' | 'b' A 'a'; A: 'a' S 'c' | 'a' | 'a' S 'b';";

/// Closures of `F: C D 'f'` go through the nullable `D`.
pub const THROUGH_NULLABLES: &str = "%token a b c d f %% S: S 'b' | 'b' A 'a' | 'a'; \
    A: 'a' S 'c' | 'a' | 'a' S 'b'; B: A S; C: D A; D: 'd' | ; F: C D 'f';";

/// Lookaheads go round through all three rules, each below the one in whose body it comes first.
pub const ROUND: &str = "%% S: C 'd'; A: 'a' | S 'x'; B: A 'b'; C: B 'c' | ;";

/// The states behind `a c` and `b c` have the same items, and may not be merged.
pub const LR1_AND_NOT_LALR1: &str =
    "%% S: 'a' A 'd' | 'b' B 'd' | 'a' B 'e' | 'b' A 'e'; A: 'c'; B: 'c';";

/// Behind `a c` both rules look at `x`, so that state takes in the one behind `b c`.
pub const CONTESTED_ON_X_ALONE: &str =
    "%% S: 'a' A 'd' | 'a' A 'x' | 'a' B 'e' | 'a' B 'x' | 'b' B 'd' | 'b' A 'e'; A: 'c'; B: 'c';";

/// Differences and products, both from the right.
pub const TERMS_AND_FACTORS: &str =
    "%% Expr: Term '-' Expr | Term; Term: Factor '*' Term | Factor; Factor: 'id';";

/// `S: A S 'x'` begins with itself, behind the nullable `A`.
pub const HIDDEN_LEFT_RECURSION: &str = "%% S: A S 'x' | B 'y'; A: ; B: ;";

/// `id ~ id ~ id` is no sentence.
pub const NONASSOC: &str = "%nonassoc '~' %% E: E '~' E | 'id';";

/// Behind `a` both a shift and two reductions go on at `b`.
pub const SHIFT_AND_TWO_REDUCTIONS: &str = "%% A: 'a' 'b' | B 'b'; B: 'a' | C; C: 'a';";

/// Operators of four levels, each of a kind.
pub const FOUR_LEVELS: &str = "%right '=' %left '+' %left '*' %nonassoc '~' %% \
    Expr : Expr '+' Expr | Expr '*' Expr | Expr '=' Expr | Expr '~' Expr | 'id' ;";

/// Assignments to the left sides of C.
pub const ASSIGNMENTS: &str = "%% S: L '=' R | R; L: '*' R | 'id'; R: L;";

/// Sums and products without precedences.
pub const SUMS_AND_PRODUCTS: &str = "%% Expr : Expr '+' Expr | Expr '*' Expr | 'id' ;";

/// Sums and products, both from the left, products first.
pub const SUMS_AND_PRODUCTS_WITH_LEVELS: &str =
    "%left '+' %left '*' %% Expr : Expr '+' Expr | Expr '*' Expr | 'id' ;";

/// Sums and products, of which sums alone have a level.
pub const SUMS_WITH_A_LEVEL: &str = "%left '+' %% Expr : Expr '+' Expr | Expr '*' Expr | 'id' ;";

/// A minus in front goes before all else.
pub const UNARY_MINUS: &str = "%left '+' '-' %left '*' %left U %% \
    E: E '+' E | E '-' E | E '*' E | '-' E %prec U | 'n';";

/// A minus in front goes with the others.
pub const UNARY_MINUS_WITHOUT_PREC: &str = "%left '+' '-' %left '*' %left U %% \
    E: E '+' E | E '-' E | E '*' E | '-' E | 'n';";

/// The minus in front has no level, though the token `-` has one.
pub const PREC_WITHOUT_A_LEVEL: &str = "%token U %left '-' %% E: E '-' E | '-' E %prec U | 'n';";

/// Behind `a` three reductions go on at each of two tokens.
pub const THREE_REDUCTIONS: &str =
    "%% S: A 'x' | A 'y' | B 'x' | B 'y' | C 'x' | C 'y'; A: 'a'; B: 'a'; C: 'a';";

/// `A` has a body before those of `B` and one behind them.
pub const A_RULE_GONE_ON_WITH: &str = "%% S: A 'c' 'd' | B 'c' 'e'; A: 'a'; B: 'a' | 'b'; A: 'b';";

/// No sentence needs `C`.
pub const AN_UNREACHED_RULE: &str =
    "%% S: A X | B X | A Y; A: '0' ; B: '0' ; C: '0' ; X: '1' ; Y: '2' ;";

/// What tells `B` from `C` stands two tokens behind it.
pub const TOLD_APART_LATE: &str = "%start A %% A : B 'x' | C 'x' 'x'; B : 'a'; C : 'a';";

/// One sentence, by two productions.
pub const ONE_BODY_TWICE: &str = "%% S: 'a' | 'a';";

/// The state that is first made behind `k c` is left again: the grown goto joins the state behind `a c`.
pub const A_COLLECTED_STATE: &str =
    "%% S: 'a' A 'd' | 'a' B 'e' | 'b' K 'e' | 'f' 'g' K 'd'; K: 'k' A | 'k' B 'd'; \
    A: 'c' 'u'; B: 'c' 'v';";

/// Pager's example, in which lookaheads go round through `X`.
pub const PAGERS_EXAMPLE: &str =
    "%start X %% X : 'a' Y 'd' | 'a' Z 'c' | 'a' T | 'b' Y 'e' | 'b' Z 'd' | 'b' T; \
    Y : 't' W | 'u' X; Z : 't' 'u'; T : 'u' X 'a'; W : 'u' V; V : ;";

/// Rules that lead to each other without a token; only `A` has an empty body.
pub const ROUND_WITHOUT_TOKENS: &str = "%% S: A; A: B | ; B: A;";

/// `B` has no tree, though it begins with a token.
pub const NEVER_ENDING: &str = "%% S: B; B: 'b' B;";

/// One `a` or more, by a tree that goes down on the left.
pub const MANY: &str = "%% S: S 'a' | 'a';";

/// One sentence, of one token.
pub const ONE_TOKEN: &str = "%start S %% S: 'a';";

/// A state that leads to itself.
pub const BRACKETS: &str = "%start A %% A: 'OPEN_BRACKET' A 'CLOSE_BRACKET' | 'a' | 'b';";

/// The state behind `k` is closed after that behind `a`, and then grows twice, by those behind `b b` and `c c`, before
/// it is closed again.
pub const GROWN_TWICE_AT_ONCE: &str = "%% S: 'a' A 'x' | 'b' 'b' A 'y' | 'c' 'c' A 'z'; A: 'k';";

/// The state behind the first `A` leads on `a` to the state behind `a`, which grows each time that one is closed:
/// first by the token `a`, and then by `b`, since the state behind `a` leads back to it on `A`.
pub const MERGED_TWICE_BY_ONE_GOTO: &str = "%% S: A A | ; A: 'a' S 'b';";

/// The front, so many times the piece, and the back.
pub fn repeated(
    alloc: Global,
    front: &str,
    piece: &str,
    count: usize,
    back: &str,
) -> Result<String, AllocError> {
    let mut text = String::from_str(alloc, front)?;
    for _ in 0..count {
        text.push_str(piece)?;
    }
    text.push_str(back)?;
    Ok(text)
}

/// So many tokens, of which the first is the only sentence.
pub fn many_tokens(alloc: Global, count: usize) -> Result<String, AllocError> {
    let mut text = String::from_str(alloc, "%token")?;
    for number in 0..count {
        write!(text, " t{number}")?;
    }
    text.push_str(" %% S: t0;")?;
    Ok(text)
}

/// `S` with one body of so many times `'a'`, and so many copies of the grammar of the collected state, each with rules
/// and first tokens of its own. Made are the start state and that behind `S`, one state for each `'a'`, and 20 for
/// each copy, one of which no state leads to in the end.
pub fn collected_states(alloc: Global, copies: usize, length: usize) -> Result<String, AllocError> {
    let mut text = one_long_body(alloc, length)?;
    for n in 0..copies {
        push_collected_state(&mut text, n)?;
    }
    Ok(text)
}

/// Adds the copy of that number.
fn push_collected_state(text: &mut String, n: usize) -> Result<(), AllocError> {
    write!(
        text,
        " S: 'a{n}' A{n} 'd' | 'a{n}' B{n} 'e' | 'b{n}' K{n} 'e'"
    )?;
    write!(
        text,
        " | 'f{n}' 'g' K{n} 'd'; K{n}: 'k' A{n} | 'k' B{n} 'd';"
    )?;
    write!(text, " A{n}: 'c' 'u'; B{n}: 'c' 'v';")
}

/// `S` with one body of so many times `'a'`.
pub fn one_long_body(alloc: Global, length: usize) -> Result<String, AllocError> {
    let mut text = String::from_str(alloc, "%% S:")?;
    for _ in 0..length {
        text.push_str(" 'a'")?;
    }
    text.push(';')?;
    Ok(text)
}

/// The grammar of the text, its graph and its table.
pub fn grammar_and_graph<T: IndexStorage>(
    alloc: Global,
    text: &str,
) -> Result<(YaccGrammar<T>, StateGraph<T>, StateTable<T>), Fail> {
    let grm = YaccGrammar::<T>::from_text(alloc, text)?;
    match from_yacc(alloc, &grm, Minimiser::Pager) {
        Ok((graph, table)) => Ok((grm, graph, table)),
        Err(_) => Err(Fail::from("a table")),
    }
}

/// The grammar of the text, and its table.
pub fn grammar_and_table<T: IndexStorage>(
    alloc: Global,
    text: &str,
) -> Result<(YaccGrammar<T>, StateTable<T>), Fail> {
    let (grm, _graph, table) = grammar_and_graph(alloc, text)?;
    Ok((grm, table))
}

/// The tokens that the words of the text name.
pub fn tokens<T: IndexStorage>(grm: &YaccGrammar<T>, text: &str) -> Result<Vec<TIdx<T>>, Fail> {
    match line_tokens(grm, text.as_bytes())? {
        Ok(tokens) => Ok(tokens),
        Err(_) => Err(Fail::from("tokens")),
    }
}

/// What is told is what is wanted.
pub fn is_told(rt: &impl Abort, of: &str, told: &str, wanted: &str) {
    assert_eq!(rt; told, wanted, "{of}");
}
