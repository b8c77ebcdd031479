//! What a graph answers of states that aren't there, and the number of a state.

use crate::fixtures::TERMS_AND_FACTORS;
use crate::graphs::lookups::{grammar_and_graph, target};
use lrgrammar::grammar::YaccGrammar;
use lrgrammar::idx::IndexStorage;
use lrgraphs::StateGraph;
use std::alloc::Global;
use std::process::Abort;
use std::test::Fail;

/// Whether an edge leads from that state on the symbol of that name.
fn has_edge<T: IndexStorage>(
    grm: &YaccGrammar<T>,
    graph: &StateGraph<T>,
    from: usize,
    name: &str,
) -> Result<bool, Fail> {
    Ok(target(grm, graph, from, name)?.is_some())
}

/// No edge leads from a state that isn't there, or on a symbol before which no item of the state stands.
fn edges_that_are_not_there<T: IndexStorage>(rt: &impl Abort, alloc: Global) -> Result<(), Fail> {
    let (grm, graph) = grammar_and_graph::<T>(alloc, TERMS_AND_FACTORS)?;
    for name in ["Expr", "Term", "Factor", "^", "-", "*", "id"] {
        for missing in [4, 9, 10, T::MAX] {
            let there = has_edge(&grm, &graph, missing, name)?;
            assert!(rt; !there, "{missing} {name}");
        }
    }
    let there = has_edge(&grm, &graph, 0, "Expr")?;
    assert!(rt; there);
    Ok(())
}

#[test]
fn edges_that_are_not_there_by_all_indices(rt: HostRuntime) -> Result<(), Fail> {
    edges_that_are_not_there::<u8>(&rt, rt.alloc())?;
    edges_that_are_not_there::<u16>(&rt, rt.alloc())?;
    edges_that_are_not_there::<u32>(&rt, rt.alloc())
}
