//! Texts derived from the start rule by the productions of a run.

use lrgrammar::grammar::YaccGrammar;
use lrgrammar::idx::{IndexStorage, PIdx, RIdx, Symbol, TIdx};
use std::alloc::Global;
use std::test::Fail;

/// The rule and the body of the production, if there is one.
pub fn production<T: IndexStorage>(
    grm: &YaccGrammar<T>,
    pidx: PIdx<T>,
) -> Option<(RIdx<T>, &[Symbol<T>])> {
    if usize::from(pidx) < usize::from(grm.prods_len()) {
        Some((grm.prod_to_rule(pidx), grm.prod(pidx)))
    } else {
        None
    }
}

/// The symbols with the body in place of the one at that place.
fn replaced<T: IndexStorage>(
    alloc: Global,
    symbols: &[Symbol<T>],
    at: usize,
    body: &[Symbol<T>],
) -> Result<Vec<Symbol<T>>, Fail> {
    let mut list = symbols[..at].to_vec(alloc)?;
    list.extend_from_slice(body)?;
    list.extend_from_slice(&symbols[at + 1..])?;
    Ok(list)
}

/// The symbols with the body of the production in place of the last rule; None if that is not the production's.
fn expanded<T: IndexStorage>(
    alloc: Global,
    grm: &YaccGrammar<T>,
    symbols: &[Symbol<T>],
    by: PIdx<T>,
) -> Result<Option<Vec<Symbol<T>>>, Fail> {
    let (rule, body) = production(grm, by).ok_or("a production")?;
    let last = symbols
        .iter()
        .rposition(|symbol| matches!(symbol, Symbol::Rule(_)));
    match last {
        Some(at) if symbols[at] == Symbol::Rule(rule) => {
            Ok(Some(replaced(alloc, symbols, at, body)?))
        }
        _ => Ok(None),
    }
}

/// The leaves of the tree of the start rule that the reductions make: from the last one back each is of the last rule
/// that is left. None if they make no tree.
fn leaves<T: IndexStorage>(
    alloc: Global,
    grm: &YaccGrammar<T>,
    reductions: &[PIdx<T>],
) -> Result<Option<Vec<Symbol<T>>>, Fail> {
    let (_, start) = production(grm, grm.start_prod()).ok_or("a start production")?;
    let mut symbols = start.to_vec(alloc)?;
    for by in reductions.iter().rev() {
        match expanded(alloc, grm, &symbols, *by)? {
            Some(list) => symbols = list,
            None => return Ok(None),
        }
    }
    Ok(Some(symbols))
}

/// Whether the symbols are the tokens of the text.
fn are_tokens<T: IndexStorage>(symbols: &[Symbol<T>], text: &[TIdx<T>]) -> bool {
    let same = symbols
        .iter()
        .zip(text)
        .all(|(symbol, token)| *symbol == Symbol::Token(*token));
    symbols.len() == text.len() && same
}

/// Whether the reductions are those of one tree of the start rule, whose leaves are the text.
pub fn derives<T: IndexStorage>(
    alloc: Global,
    grm: &YaccGrammar<T>,
    reductions: &[PIdx<T>],
    text: &[TIdx<T>],
) -> Result<bool, Fail> {
    match leaves(alloc, grm, reductions)? {
        Some(symbols) => Ok(are_tokens(&symbols, text)),
        None => Ok(false),
    }
}
