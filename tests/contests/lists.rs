//! Shortest lists after which the conflicts of worked grammars are real.

use crate::fixtures::{ONE_BODY_TWICE, SUMS_AND_PRODUCTS, THREE_REDUCTIONS, is_told};
use lrcontests::Contests;
use lrgrammar::grammar::YaccGrammar;
use lrgrammar::idx::{IndexStorage, Symbol, TIdx};
use lrtable::{Minimiser, from_yacc};
use std::alloc::{AllocError, Global};
use std::process::Abort;
use std::test::Fail;

/// An `else` may belong to either `if`.
const DANGLING_ELSE: &str =
    "%% S: 'if' 'e' 'then' S | 'if' 'e' 'then' S 'else' S | 'x';";

/// Sums alone.
const SUMS: &str = "%% E: E '+' E | 'id';";

/// The complete item of `D: 'd'` in the state of the conflict looks at `a` by a goto that was merged into it and went to
/// another state in the end: no list that leads to that state will do.
const MERGED_AND_GONE: &str = "%% S: 'b' C 'c' | 'a' D | 'a' B 'a' | 'a' B 'c'; A:; \
    B: 'd' B 'd' | 'd' D; C: B; D: 'd' | S;";

/// Both rules look at `x` alone behind `a c`, though `d` and `e` are listed too.
const ANOTHER_TOKEN: &str =
    "%% S: 'a' A 'd' | 'a' A 'x' | 'a' B 'e' | 'a' B 'x' | 'b' B 'd' | 'b' A 'e'; A: 'c'; B: 'c';";

/// Adds the name of a token; `$` for the end token.
fn push_token<T: IndexStorage>(
    told: &mut String,
    grm: &YaccGrammar<T>,
    token: TIdx<T>,
) -> Result<(), AllocError> {
    told.push_str(grm.token_name(token).unwrap_or("$"))
}

/// Adds the list, with a point behind it, and the token.
fn push_list<T: IndexStorage>(
    told: &mut String,
    grm: &YaccGrammar<T>,
    list: &[Symbol<T>],
    token: TIdx<T>,
) -> Result<(), AllocError> {
    for symbol in list {
        match symbol {
            Symbol::Rule(ridx) => told.push_str(grm.rule_name_str(*ridx))?,
            Symbol::Token(tidx) => push_token(told, grm, *tidx)?,
        }
        told.push_str(" ")?;
    }
    told.push_str(". ")?;
    push_token(told, grm, token)?;
    told.push_str("; ")
}

/// The lists of the conflicts of the text's table, those with shifts first.
fn told<T: IndexStorage>(alloc: Global, text: &str) -> Result<String, Fail> {
    let grm = YaccGrammar::<T>::from_text(alloc, text)?;
    let Ok((graph, table)) = from_yacc(alloc, &grm, Minimiser::Pager) else {
        return Err(Fail::from("a table"));
    };
    let contests = Contests::new(&grm, &graph)?;
    let mut told = String::new(alloc);
    if let Some(conflicts) = table.conflicts() {
        for (token, pidx, stidx) in conflicts.sr_conflicts() {
            let list = contests.of_shift(*token, *pidx, *stidx)?;
            push_list(&mut told, &grm, list.as_slice(), *token)?;
        }
        for (token, pidx, other, stidx) in conflicts.rr_conflicts() {
            let (list, token) = contests.of_reductions(*token, *pidx, *other, *stidx)?;
            push_list(&mut told, &grm, list.as_slice(), token)?;
        }
    }
    Ok(told)
}

/// The lists of the text's conflicts are these.
fn has_lists(rt: &impl Abort, alloc: Global, text: &str, wanted: &str) -> Result<(), Fail> {
    let lists = told::<u32>(alloc, text)?;
    is_told(rt, text, lists.as_str(), wanted);
    Ok(())
}

#[test]
fn shifts(rt: HostRuntime) -> Result<(), Fail> {
    for (text, wanted) in [
        (DANGLING_ELSE, "if e then if e then S . else; "),
        (SUMS, "E + E . +; "),
        (
            SUMS_AND_PRODUCTS,
            "Expr + Expr . +; Expr + Expr . *; Expr * Expr . +; Expr * Expr . *; ",
        ),
        (MERGED_AND_GONE, "a d d . a; a d d d . d; a d d . a; "),
    ] {
        has_lists(&rt, rt.alloc(), text, wanted)?;
    }
    Ok(())
}

#[test]
fn reductions(rt: HostRuntime) -> Result<(), Fail> {
    for (text, wanted) in [
        (ONE_BODY_TWICE, "a . $; "),
        (THREE_REDUCTIONS, "a . x; a . y; a . x; a . y; "),
        (ANOTHER_TOKEN, "a c . x; a c . x; a c . x; "),
    ] {
        has_lists(&rt, rt.alloc(), text, wanted)?;
    }
    Ok(())
}
