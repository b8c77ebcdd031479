//! Graphs of large grammars, whose sizes are counted by hand.

use crate::fixtures::is_told;
use crate::graphs::lookups::{closed_text, grammar_and_graph, sizes_of};
use lrgrammar::idx::IndexStorage;
use std::alloc::{AllocError, Global};
use std::process::Abort;
use std::test::Fail;

/// How many tokens words are made of.
const LETTERS: usize = 16;

/// How many layers of operators there are.
const LAYERS: usize = 300;

/// How many tokens are named where there are many.
const TOKENS: usize = 65537;

/// All words of three letters, each a body: 4,096 productions.
fn words(alloc: Global) -> Result<String, AllocError> {
    let mut text = String::from_str(alloc, "%% Word: 'a0' 'a0' 'a0'")?;
    for word in 1..LETTERS * LETTERS * LETTERS {
        let first = word / LETTERS / LETTERS;
        let second = word / LETTERS % LETTERS;
        let third = word % LETTERS;
        write!(text, " | 'a{first}' 'a{second}' 'a{third}'")?;
    }
    text.push(';')?;
    Ok(text)
}

/// Layers of operators from the left, each stronger than the one before, and brackets in the last.
fn layers(alloc: Global) -> Result<String, AllocError> {
    let mut text = String::from_str(alloc, "%%")?;
    for layer in 0..LAYERS {
        let next = layer + 1;
        write!(text, " E{layer}: E{layer} 'o{layer}' E{next} | E{next};")?;
    }
    write!(text, " E{LAYERS}: 'id' | '(' E0 ')';")?;
    Ok(text)
}

/// A state for each beginning of a word, the empty one among them, and one behind `Word`. Each but the start state has one
/// edge that leads to it.
fn beginnings_of_words<T: IndexStorage>(rt: &impl Abort, alloc: Global) -> Result<(), Fail> {
    let found = sizes_of::<T>(alloc, words(alloc)?.as_str())?;
    let states = 1 + LETTERS + LETTERS * LETTERS + LETTERS * LETTERS * LETTERS + 1;
    assert_eq!(rt; found, [states, states - 1]);
    Ok(())
}

#[test]
fn beginnings_of_words_by_both_indices(rt: HostRuntime) -> Result<(), Fail> {
    beginnings_of_words::<u16>(&rt, rt.alloc())?;
    beginnings_of_words::<u32>(&rt, rt.alloc())
}

/// For each operator the states behind it and behind its right side; for each layer that behind its rule at the start; and
/// six more: the start state, those behind `(`, behind the rule in brackets, behind `)`, behind `id`, and behind the last
/// rule. An edge for each symbol with which what is looked for in a state can begin.
fn states_of_layers<T: IndexStorage>(rt: &impl Abort, alloc: Global) -> Result<(), Fail> {
    let found = sizes_of::<T>(alloc, layers(alloc)?.as_str())?;
    let edges = LAYERS * (LAYERS + 1) / 2 + 6 * LAYERS + 7;
    assert_eq!(rt; found, [3 * LAYERS + 6, edges]);
    Ok(())
}

#[test]
fn states_of_layers_by_both_indices(rt: HostRuntime) -> Result<(), Fail> {
    states_of_layers::<u16>(&rt, rt.alloc())?;
    states_of_layers::<u32>(&rt, rt.alloc())
}

/// So many tokens, of which the last two alone come in bodies.
fn many_tokens(alloc: Global) -> Result<String, AllocError> {
    let mut text = String::from_str(alloc, "%token")?;
    for token in 0..TOKENS {
        write!(text, " t{token}")?;
    }
    text.push_str(" %% S: S t65536 | t65535;")?;
    Ok(text)
}

/// The text of the closed start state of the graph of the text.
fn start_text<T: IndexStorage>(alloc: Global, text: &str) -> Result<String, Fail> {
    let (grm, graph) = grammar_and_graph::<T>(alloc, text)?;
    closed_text(&grm, &graph, 0)
}

/// Both bodies look at the last token that has a name, and at the end token behind it.
#[test]
fn item_sets_among_many_tokens(rt: HostRuntime) -> Result<(), Fail> {
    let text = many_tokens(rt.alloc())?;
    let told = start_text::<u32>(rt.alloc(), text.as_str())?;
    let wanted =
        "[S -> . S 't65536', {'t65536', '$'}]\n[S -> . 't65535', {'t65536', '$'}]\n[^ -> . S, {'$'}]";
    is_told(&rt, "the start state", told.as_str(), wanted);
    Ok(())
}
