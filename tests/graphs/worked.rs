//! The graphs of the worked grammars.

use crate::fixtures::{
    A_COLLECTED_STATE, BRACKETS, CONTESTED_ON_X_ALONE, HIDDEN_LEFT_RECURSION, LR1_AND_NOT_LALR1,
    NESTED_STATES_AND_A_TOKEN, NO_SENTENCE, PAGERS_EXAMPLE, RULE_WITHOUT_A_TREE, TERMS_AND_FACTORS,
    is_told,
};
use crate::graphs::lookups::{
    closed_text, core_text, grammar_and_graph, sizes_of, state, target, walk,
};
use lrgrammar::grammar::YaccGrammar;
use lrgrammar::idx::IndexStorage;
use lrgraphs::StateGraph;
use std::alloc::Global;
use std::process::Abort;
use std::test::Fail;

/// Each edge, from the first number by the symbol of that name, leads to the second number.
fn leads<T: IndexStorage>(
    rt: &impl Abort,
    grm: &YaccGrammar<T>,
    graph: &StateGraph<T>,
    edges: &[(usize, &str, usize)],
) -> Result<(), Fail> {
    for (from, name, to) in edges {
        assert_eq!(rt;
            target(grm, graph, *from, name)?,
            Some(*to),
            "{from} {name}"
        );
    }
    Ok(())
}

/// The core of each state has that text.
fn has_cores<T: IndexStorage>(
    rt: &impl Abort,
    grm: &YaccGrammar<T>,
    graph: &StateGraph<T>,
    cores: &[(usize, &str)],
) -> Result<(), Fail> {
    for (state, text) in cores {
        let told = core_text(grm, graph, *state)?;
        is_told(rt, "a core", told.as_str(), text);
    }
    Ok(())
}

/// The closed state of each state has that text.
fn has_closed_states<T: IndexStorage>(
    rt: &impl Abort,
    grm: &YaccGrammar<T>,
    graph: &StateGraph<T>,
    closed: &[(usize, &str)],
) -> Result<(), Fail> {
    for (state, text) in closed {
        let told = closed_text(grm, graph, *state)?;
        is_told(rt, "a closed state", told.as_str(), text);
    }
    Ok(())
}

/// The number of the start state of the graph of the text.
fn start_of<T: IndexStorage>(alloc: Global, text: &str) -> Result<usize, Fail> {
    let (_grm, graph) = grammar_and_graph::<T>(alloc, text)?;
    Ok(usize::from(graph.start_state()))
}

/// The graph of the text has so many states and edges, and begins with state 0.
fn has_sizes<T: IndexStorage>(
    rt: &impl Abort,
    alloc: Global,
    text: &str,
    states: usize,
    edges: usize,
) -> Result<(), Fail> {
    let found = sizes_of::<T>(alloc, text)?;
    assert_eq!(rt; found, [states, edges], "{text}");
    let start = start_of::<T>(alloc, text)?;
    assert_eq!(rt; start, 0);
    Ok(())
}

/// The numbers of states and edges.
fn sizes<T: IndexStorage>(rt: &impl Abort, alloc: Global) -> Result<(), Fail> {
    for (text, states, edges) in [
        (PAGERS_EXAMPLE, 23, 27),
        (LR1_AND_NOT_LALR1, 14, 13),
        (CONTESTED_ON_X_ALONE, 15, 15),
        (A_COLLECTED_STATE, 21, 22),
        (TERMS_AND_FACTORS, 9, 13),
        (RULE_WITHOUT_A_TREE, 7, 6),
        (HIDDEN_LEFT_RECURSION, 7, 8),
        (NO_SENTENCE, 3, 2),
        (BRACKETS, 7, 9),
        (NESTED_STATES_AND_A_TOKEN, 10, 10),
    ] {
        has_sizes::<T>(rt, alloc, text, states, edges)?;
    }
    Ok(())
}

#[test]
fn sizes_by_all_indices(rt: HostRuntime) -> Result<(), Fail> {
    sizes::<u8>(&rt, rt.alloc())?;
    sizes::<u16>(&rt, rt.alloc())?;
    sizes::<u32>(&rt, rt.alloc())
}

/// The graph of the text has these edges and cores.
fn edges_and_cores<T: IndexStorage>(
    rt: &impl Abort,
    alloc: Global,
    text: &str,
    edges: &[(usize, &str, usize)],
    cores: &[(usize, &str)],
) -> Result<(), Fail> {
    let (grm, graph) = grammar_and_graph::<T>(alloc, text)?;
    leads(rt, &grm, &graph, edges)?;
    has_cores(rt, &grm, &graph, cores)
}

/// The graph of the text has these edges and closed states.
fn edges_and_closed_states<T: IndexStorage>(
    rt: &impl Abort,
    alloc: Global,
    text: &str,
    edges: &[(usize, &str, usize)],
    closed: &[(usize, &str)],
) -> Result<(), Fail> {
    let (grm, graph) = grammar_and_graph::<T>(alloc, text)?;
    leads(rt, &grm, &graph, edges)?;
    has_closed_states(rt, &grm, &graph, closed)
}

/// The state to which the symbols of these names lead from the start state of the graph of the text.
fn walk_of<T: IndexStorage>(alloc: Global, text: &str, names: &[&str]) -> Result<usize, Fail> {
    let (grm, graph) = grammar_and_graph::<T>(alloc, text)?;
    walk(&grm, &graph, names)
}

#[test]
fn pagers_example(rt: HostRuntime) -> Result<(), Fail> {
    let edges = [
        (0, "a", 1),
        (0, "b", 2),
        (1, "u", 8),
        (2, "u", 8),
        (1, "t", 7),
        (2, "t", 12),
    ];
    let cores = [
        (7, "[Y -> 't' . W, {'d'}]\n[Z -> 't' . 'u', {'c'}]"),
        (12, "[Y -> 't' . W, {'e'}]\n[Z -> 't' . 'u', {'d'}]"),
    ];
    edges_and_cores::<u32>(&rt, rt.alloc(), PAGERS_EXAMPLE, &edges, &cores)
}

#[test]
fn lr1_and_not_lalr1(rt: HostRuntime) -> Result<(), Fail> {
    let behind_a = walk_of::<u32>(rt.alloc(), LR1_AND_NOT_LALR1, &["a", "c"])?;
    assert_eq!(rt; behind_a, 6);
    let behind_b = walk_of::<u32>(rt.alloc(), LR1_AND_NOT_LALR1, &["b", "c"])?;
    assert_eq!(rt; behind_b, 9);
    let cores = [
        (6, "[A -> 'c' ., {'d'}]\n[B -> 'c' ., {'e'}]"),
        (9, "[A -> 'c' ., {'e'}]\n[B -> 'c' ., {'d'}]"),
    ];
    edges_and_cores::<u32>(&rt, rt.alloc(), LR1_AND_NOT_LALR1, &[], &cores)
}

#[test]
fn contested_on_x_alone(rt: HostRuntime) -> Result<(), Fail> {
    let behind_a = walk_of::<u32>(rt.alloc(), CONTESTED_ON_X_ALONE, &["a", "c"])?;
    assert_eq!(rt; behind_a, 6);
    let behind_b = walk_of::<u32>(rt.alloc(), CONTESTED_ON_X_ALONE, &["b", "c"])?;
    assert_eq!(rt; behind_b, 6);
    let core = "[A -> 'c' ., {'d', 'x', 'e'}]\n[B -> 'c' ., {'d', 'x', 'e'}]";
    edges_and_cores::<u32>(&rt, rt.alloc(), CONTESTED_ON_X_ALONE, &[], &[(6, core)])
}

/// The state that was made as number 18 is gone, and those behind it have the number before theirs.
#[test]
fn a_collected_state(rt: HostRuntime) -> Result<(), Fail> {
    let edges = [
        (1, "c", 7),
        (9, "c", 7),
        (17, "d", 19),
        (10, "K", 18),
        (18, "d", 20),
    ];
    let cores = [
        (
            7,
            "[A -> 'c' . 'u', {'d', 'e'}]\n[B -> 'c' . 'v', {'d', 'e'}]",
        ),
        (18, "[S -> 'f' 'g' K . 'd', {'$'}]"),
        (20, "[S -> 'f' 'g' K 'd' ., {'$'}]"),
    ];
    edges_and_cores::<u32>(&rt, rt.alloc(), A_COLLECTED_STATE, &edges, &cores)
}

/// Where the edge of the state of the graph of the text leads on the symbol of that name.
fn target_of<T: IndexStorage>(
    alloc: Global,
    text: &str,
    from: usize,
    name: &str,
) -> Result<Option<usize>, Fail> {
    let (grm, graph) = grammar_and_graph::<T>(alloc, text)?;
    target(&grm, &graph, from, name)
}

#[test]
fn terms_and_factors(rt: HostRuntime) -> Result<(), Fail> {
    let edges = [
        (0, "Term", 1),
        (0, "Factor", 2),
        (0, "id", 3),
        (0, "Expr", 4),
        (1, "-", 5),
        (2, "*", 6),
    ];
    let cores = [
        (
            1,
            "[Expr -> Term . '-' Expr, {'$'}]\n[Expr -> Term ., {'$'}]",
        ),
        (3, "[Factor -> 'id' ., {'-', '*', '$'}]"),
        (4, "[^ -> Expr ., {'$'}]"),
    ];
    edges_and_cores::<u32>(&rt, rt.alloc(), TERMS_AND_FACTORS, &edges, &cores)?;
    let missing = target_of::<u32>(rt.alloc(), TERMS_AND_FACTORS, 9, "Expr")?;
    assert_eq!(rt; missing, None);
    Ok(())
}

#[test]
fn a_rule_without_a_tree(rt: HostRuntime) -> Result<(), Fail> {
    let states = [(3, "[A -> 'a' ., {}]\n[A -> 'a' ., {}]")];
    edges_and_cores::<u32>(
        &rt,
        rt.alloc(),
        RULE_WITHOUT_A_TREE,
        &[(0, "a", 3)],
        &states,
    )?;
    edges_and_closed_states::<u32>(&rt, rt.alloc(), RULE_WITHOUT_A_TREE, &[], &states)
}

#[test]
fn hidden_left_recursion(rt: HostRuntime) -> Result<(), Fail> {
    let edges = [(0, "A", 1), (1, "A", 1)];
    let closed = [
        (
            0,
            "[S -> . A S 'x', {'$'}]\n[S -> . B 'y', {'$'}]\n[A -> ., {'y'}]\n[B -> ., {'y'}]\n[^ -> . S, {'$'}]",
        ),
        (
            1,
            "[S -> . A S 'x', {'x'}]\n[S -> A . S 'x', {'x', '$'}]\n[S -> . B 'y', {'x'}]\n[A -> ., {'y'}]\n[B -> ., {'y'}]",
        ),
    ];
    edges_and_closed_states::<u32>(&rt, rt.alloc(), HIDDEN_LEFT_RECURSION, &edges, &closed)
}

#[test]
fn no_sentence(rt: HostRuntime) -> Result<(), Fail> {
    let edges = [(0, "S", 1), (1, "a", 2)];
    let cores = [
        (0, "[^ -> . S, {'$'}]"),
        (1, "[S -> S . 'a', {'a', '$'}]\n[^ -> S ., {'$'}]"),
        (2, "[S -> S 'a' ., {'a', '$'}]"),
    ];
    edges_and_cores::<u32>(&rt, rt.alloc(), NO_SENTENCE, &edges, &cores)
}

/// The core of each state has so many items.
fn has_core_items<T: IndexStorage>(
    rt: &impl Abort,
    graph: &StateGraph<T>,
    items: usize,
) -> Result<(), Fail> {
    for number in 0..usize::from(graph.all_states_len()) {
        let found = graph.core_state(state(number)?).items.len();
        assert_eq!(rt; found, items, "{number}");
    }
    Ok(())
}

#[test]
fn brackets(rt: HostRuntime) -> Result<(), Fail> {
    let (grm, graph) = grammar_and_graph::<u32>(rt.alloc(), BRACKETS)?;
    has_core_items(&rt, &graph, 1)?;
    let edges = [(0, "OPEN_BRACKET", 1), (1, "OPEN_BRACKET", 1)];
    leads(&rt, &grm, &graph, &edges)
}

#[test]
fn nested_states(rt: HostRuntime) -> Result<(), Fail> {
    let edges = [
        (0, "S", 1),
        (0, "b", 2),
        (1, "b", 3),
        (2, "a", 5),
        (5, "b", 2),
        (5, "S", 7),
    ];
    let cores = [
        (0, "[^ -> . S, {'$'}]"),
        (1, "[S -> S . 'b', {'b', '$'}]\n[^ -> S ., {'$'}]"),
        (2, "[S -> 'b' . A 'a', {'b', 'c', '$'}]"),
    ];
    edges_and_cores::<u32>(&rt, rt.alloc(), NESTED_STATES_AND_A_TOKEN, &edges, &cores)
}
