//! What searches find, as text.

use crate::fixtures::grammar_and_graph;
use crate::forms::replays::is_replayed;
use lrconflicts::Conflict;
use lrforms::{Ambiguous, Forms, Search};
use lrgrammar::grammar::YaccGrammar;
use lrgrammar::idx::Symbol;
use lrtable::StateTable;
use std::alloc::{AllocError, Global};
use std::process::Abort;
use std::test::Fail;

/// The conflicts of a table: those with a shift, and then those of two reductions.
pub fn conflicts_of(
    alloc: Global,
    table: &StateTable<u32>,
) -> Result<Vec<Conflict<u32>>, AllocError> {
    let mut conflicts = Vec::new(alloc);
    let Some(lists) = table.conflicts() else {
        return Ok(conflicts);
    };
    for (token, production, state) in lists.sr_conflicts() {
        conflicts.push(Conflict {
            state: *state,
            token: *token,
            production: *production,
            other: None,
        })?;
    }
    for (token, production, other, state) in lists.rr_conflicts() {
        conflicts.push(Conflict {
            state: *state,
            token: *token,
            production: *production,
            other: Some(*other),
        })?;
    }
    Ok(conflicts)
}

/// The name of the symbol.
fn name(grm: &YaccGrammar<u32>, symbol: Symbol<u32>) -> &str {
    match symbol {
        Symbol::Rule(rule) => grm.rule_name_str(rule),
        Symbol::Token(token) => grm.token_name(token).unwrap_or(""),
    }
}

/// The names of the symbols, with the dot.
fn push_symbols(
    text: &mut String,
    grm: &YaccGrammar<u32>,
    symbols: impl Iterator<Item = Symbol<u32>>,
    dot: usize,
) -> Result<(), AllocError> {
    let mut places = 0;
    for symbol in symbols {
        text.push_str(if places == dot { " . " } else { " " })?;
        text.push_str(name(grm, symbol))?;
        places += 1;
    }
    if dot == places {
        text.push_str(" .")?;
    }
    Ok(())
}

/// The form and the sentence.
fn push_found(
    text: &mut String,
    grm: &YaccGrammar<u32>,
    found: &Ambiguous,
) -> Result<(), AllocError> {
    let (form, sentence) = (&found.form, &found.sentence);
    push_symbols(text, grm, form.symbols.iter().copied(), form.dot)?;
    text.push_str(" /")?;
    let tokens = sentence.tokens.iter().map(|token| Symbol::Token(*token));
    push_symbols(text, grm, tokens, sentence.dot)
}

/// What is found at each conflict of the grammar, a line each. What is found is replayed.
pub fn told(
    rt: &impl Abort,
    alloc: Global,
    text: &str,
    steps: usize,
) -> Result<String, Fail> {
    let (grm, graph, table) = grammar_and_graph::<u32>(alloc, text)?;
    let forms = Forms::new(alloc, &grm, &graph)?;
    let mut lines = String::new(alloc);
    for conflict in &conflicts_of(alloc, &table)? {
        match forms.search(*conflict, steps)? {
            Search::Found(found) => {
                is_replayed(rt, &grm, &graph, conflict, &found)?;
                push_found(&mut lines, &grm, &found)?;
            }
            Search::OutOfSteps => lines.push_str("out of steps")?,
            Search::Emptied => lines.push_str("emptied")?,
        }
        lines.push('\n')?;
    }
    Ok(lines)
}
