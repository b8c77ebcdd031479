//! The printed texts of small graphs.

use crate::fixtures::{EMPTY_RULE, NO_SENTENCE, ONE_TOKEN, is_told};
use crate::graphs::lookups::grammar_and_graph;
use lrgrammar::grammar::YaccGrammar;
use lrgrammar::idx::IndexStorage;
use lrgraphs::StateGraph;
use std::alloc::Global;
use std::process::Abort;
use std::test::Fail;

/// The printed cores of the graph.
fn prints_cores<T: IndexStorage>(
    rt: &impl Abort,
    grm: &YaccGrammar<T>,
    graph: &StateGraph<T>,
    cores: &str,
) -> Result<(), Fail> {
    is_told(rt, "cores", graph.pp_core_states(grm)?.as_str(), cores);
    is_told(rt, "a graph", graph.pp(grm, true)?.as_str(), cores);
    Ok(())
}

/// The printed closed states of the graph.
fn prints_closed<T: IndexStorage>(
    rt: &impl Abort,
    grm: &YaccGrammar<T>,
    graph: &StateGraph<T>,
    closed: &str,
) -> Result<(), Fail> {
    is_told(
        rt,
        "closed states",
        graph.pp_closed_states(grm)?.as_str(),
        closed,
    );
    is_told(rt, "a graph", graph.pp(grm, false)?.as_str(), closed);
    Ok(())
}

/// The printed cores and the printed closed states of the graph of the text.
fn prints<T: IndexStorage>(
    rt: &impl Abort,
    alloc: Global,
    text: &str,
    cores: &str,
    closed: &str,
) -> Result<(), Fail> {
    let (grm, graph) = grammar_and_graph::<T>(alloc, text)?;
    prints_cores(rt, &grm, &graph, cores)?;
    prints_closed(rt, &grm, &graph, closed)
}

/// Whole texts.
fn small_graphs<T: IndexStorage>(rt: &impl Abort, alloc: Global) -> Result<(), Fail> {
    let cores = "0: [^ -> . S, {'$'}]\n   S -> 1\n1: [^ -> S ., {'$'}]";
    let closed = "0: [S -> ., {'$'}]\n   [^ -> . S, {'$'}]\n   S -> 1\n1: [^ -> S ., {'$'}]";
    prints::<T>(rt, alloc, EMPTY_RULE, cores, closed)?;
    let cores = "0: [^ -> . S, {'$'}]\n   'a' -> 1\n   S -> 2\n1: [S -> 'a' ., {'$'}]\n\
        2: [^ -> S ., {'$'}]";
    let closed = "0: [S -> . 'a', {'$'}]\n   [^ -> . S, {'$'}]\n   'a' -> 1\n   S -> 2\n\
        1: [S -> 'a' ., {'$'}]\n2: [^ -> S ., {'$'}]";
    prints::<T>(rt, alloc, ONE_TOKEN, cores, closed)?;
    let cores = "0: [^ -> . S, {'$'}]\n   S -> 1\n\
        1: [S -> S . 'a', {'a', '$'}]\n   [^ -> S ., {'$'}]\n   'a' -> 2\n\
        2: [S -> S 'a' ., {'a', '$'}]";
    let closed = "0: [S -> . S 'a', {'a', '$'}]\n   [^ -> . S, {'$'}]\n   S -> 1\n\
        1: [S -> S . 'a', {'a', '$'}]\n   [^ -> S ., {'$'}]\n   'a' -> 2\n\
        2: [S -> S 'a' ., {'a', '$'}]";
    prints::<T>(rt, alloc, NO_SENTENCE, cores, closed)
}

#[test]
fn small_graphs_by_all_indices(rt: HostRuntime) -> Result<(), Fail> {
    small_graphs::<u8>(&rt, rt.alloc())?;
    small_graphs::<u16>(&rt, rt.alloc())?;
    small_graphs::<u32>(&rt, rt.alloc())
}
