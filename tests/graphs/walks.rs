//! Walks over the states of a graph, and over the edges of a state.

use crate::fixtures::{HIDDEN_LEFT_RECURSION, NESTED_STATES_AND_A_TOKEN, ONE_TOKEN};
use crate::graphs::lookups::{grammar_and_graph, state, symbol};
use lrgrammar::grammar::YaccGrammar;
use lrgrammar::idx::{IndexStorage, StIdx, Symbol};
use lrgraphs::StateGraph;
use std::alloc::Global;
use std::collections::BTreeSet;
use std::process::Abort;
use std::test::Fail;

/// The numbers of three states, and then none for good.
fn numbers<T: IndexStorage>(rt: &impl Abort, alloc: Global) -> Result<(), Fail> {
    let (_grm, graph) = grammar_and_graph::<T>(alloc, ONE_TOKEN)?;
    let mut stidxs = graph.iter_stidxs();
    for number in [0, 1, 2] {
        assert_eq!(rt; stidxs.next().map(usize::from), Some(number));
    }
    assert!(rt; stidxs.next().is_none());
    assert!(rt; stidxs.next().is_none());
    Ok(())
}

#[test]
fn numbers_by_all_indices(rt: HostRuntime) -> Result<(), Fail> {
    numbers::<u8>(&rt, rt.alloc())?;
    numbers::<u16>(&rt, rt.alloc())?;
    numbers::<u32>(&rt, rt.alloc())
}

/// No edge leads from the number behind those of three states.
fn edges_behind<T: IndexStorage>(rt: &impl Abort, alloc: Global) -> Result<(), Fail> {
    let (grm, graph) = grammar_and_graph::<T>(alloc, ONE_TOKEN)?;
    let missing = state(3)?;
    for name in ["^", "S", "a"] {
        let on = symbol(&grm, name)?;
        assert!(rt; graph.edge(missing, on).is_none(), "{name}");
    }
    let end = Symbol::Token(grm.eof_token_idx());
    assert!(rt; graph.edge(missing, end).is_none());
    Ok(())
}

#[test]
fn edges_behind_by_all_indices(rt: HostRuntime) -> Result<(), Fail> {
    edges_behind::<u8>(&rt, rt.alloc())?;
    edges_behind::<u16>(&rt, rt.alloc())?;
    edges_behind::<u32>(&rt, rt.alloc())
}

/// The cores are those of the states upwards, and then there are none for good.
fn cores<T: IndexStorage>(rt: &impl Abort, alloc: Global) -> Result<(), Fail> {
    let (_grm, graph) = grammar_and_graph::<T>(alloc, NESTED_STATES_AND_A_TOKEN)?;
    let mut cores = graph.iter_core_states();
    for number in 0..usize::from(graph.all_states_len()) {
        let core = cores.next().ok_or("a core")?;
        assert!(rt; *core == *graph.core_state(state(number)?), "{number}");
    }
    for _ in 0..2 {
        assert!(rt; cores.next().is_none());
    }
    Ok(())
}

#[test]
fn cores_by_all_indices(rt: HostRuntime) -> Result<(), Fail> {
    cores::<u8>(&rt, rt.alloc())?;
    cores::<u16>(&rt, rt.alloc())?;
    cores::<u32>(&rt, rt.alloc())
}

/// The closed states are those of the states upwards, and then there are none for good.
fn closed_states<T: IndexStorage>(rt: &impl Abort, alloc: Global) -> Result<(), Fail> {
    let (_grm, graph) = grammar_and_graph::<T>(alloc, NESTED_STATES_AND_A_TOKEN)?;
    let mut closed_states = graph.iter_closed_states();
    for number in 0..usize::from(graph.all_states_len()) {
        let closed = closed_states.next().ok_or("a closed state")?;
        assert!(rt; *closed == *graph.closed_state(state(number)?), "{number}");
    }
    for _ in 0..2 {
        assert!(rt; closed_states.next().is_none());
    }
    Ok(())
}

#[test]
fn closed_states_by_all_indices(rt: HostRuntime) -> Result<(), Fail> {
    closed_states::<u8>(&rt, rt.alloc())?;
    closed_states::<u16>(&rt, rt.alloc())?;
    closed_states::<u32>(&rt, rt.alloc())
}

/// The edges of the state on symbols of these names are those that `edge` answers.
fn edges_on<T: IndexStorage>(
    rt: &impl Abort,
    grm: &YaccGrammar<T>,
    graph: &StateGraph<T>,
    stidx: StIdx<T>,
    names: &str,
) -> Result<(), Fail> {
    let edges = graph.edges(stidx);
    for name in names.split_whitespace() {
        let on = symbol(grm, name)?;
        let same = edges.get(&on).copied() == graph.edge(stidx, on);
        assert!(rt; same, "{name}");
    }
    Ok(())
}

/// `edge` answers the edges of the state, no two of which lead to one state.
fn targets_of<T: IndexStorage>(
    rt: &impl Abort,
    alloc: Global,
    graph: &StateGraph<T>,
    stidx: StIdx<T>,
) -> Result<(), Fail> {
    let mut targets = BTreeSet::new(alloc);
    for (on, target) in graph.edges(stidx) {
        assert!(rt; graph.edge(stidx, *on) == Some(*target));
        assert!(rt; targets.insert(*target)?);
    }
    Ok(())
}

/// The edges of each state are those that `edge` answers, no two of which lead to one state.
fn edges_of_states<T: IndexStorage>(rt: &impl Abort, alloc: Global) -> Result<(), Fail> {
    for (text, names) in [
        (NESTED_STATES_AND_A_TOKEN, "^ S A a b c"),
        (HIDDEN_LEFT_RECURSION, "^ S A B x y"),
    ] {
        let (grm, graph) = grammar_and_graph::<T>(alloc, text)?;
        for number in 0..usize::from(graph.all_states_len()) {
            let stidx = state(number)?;
            edges_on(rt, &grm, &graph, stidx, names)?;
            targets_of(rt, alloc, &graph, stidx)?;
        }
    }
    Ok(())
}

#[test]
fn edges_by_all_indices(rt: HostRuntime) -> Result<(), Fail> {
    edges_of_states::<u8>(&rt, rt.alloc())?;
    edges_of_states::<u16>(&rt, rt.alloc())?;
    edges_of_states::<u32>(&rt, rt.alloc())
}
