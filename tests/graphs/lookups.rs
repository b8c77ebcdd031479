//! What graphs are looked up by in tests: names of symbols and plain numbers.

use lrgrammar::grammar::YaccGrammar;
use lrgrammar::idx::{IndexStorage, StIdx, Symbol};
use lrgraphs::StateGraph;
use lrgraphs::itemset::Itemset;
use lrpager::pager::build;
use std::alloc::Global;
use std::test::Fail;

/// The grammar of the text with its graph.
pub fn grammar_and_graph<T: IndexStorage>(
    alloc: Global,
    text: &str,
) -> Result<(YaccGrammar<T>, StateGraph<T>), Fail> {
    let grm = YaccGrammar::<T>::from_text(alloc, text)?;
    match build(&grm) {
        Ok((graph, _counts)) => Ok((grm, graph)),
        Err(_) => Err(Fail::from("a graph")),
    }
}

/// How many states and edges the graph of the text has.
pub fn sizes_of<T: IndexStorage>(alloc: Global, text: &str) -> Result<[usize; 2], Fail> {
    let (_grm, graph) = grammar_and_graph::<T>(alloc, text)?;
    Ok([usize::from(graph.all_states_len()), graph.all_edges_len()])
}

/// The state of that number.
pub fn state<T: IndexStorage>(number: usize) -> Result<StIdx<T>, Fail> {
    Ok(StIdx(T::from_usize(number).ok_or("a state")?))
}

/// The rule or token of that name.
pub fn symbol<T: IndexStorage>(grm: &YaccGrammar<T>, name: &str) -> Result<Symbol<T>, Fail> {
    if let Some(ridx) = grm.rule_idx(name) {
        return Ok(Symbol::Rule(ridx));
    }
    Ok(Symbol::Token(grm.token_idx(name).ok_or("a symbol")?))
}

/// Where the edge of the state on the symbol of that name leads.
pub fn target<T: IndexStorage>(
    grm: &YaccGrammar<T>,
    graph: &StateGraph<T>,
    from: usize,
    name: &str,
) -> Result<Option<usize>, Fail> {
    let to = graph.edge(state(from)?, symbol(grm, name)?);
    Ok(to.map(usize::from))
}

/// The state to which the symbols of these names lead from the start state.
pub fn walk<T: IndexStorage>(
    grm: &YaccGrammar<T>,
    graph: &StateGraph<T>,
    names: &[&str],
) -> Result<usize, Fail> {
    let mut at = usize::from(graph.start_state());
    for name in names {
        at = target(grm, graph, at, name)?.ok_or("an edge")?;
    }
    Ok(at)
}

/// The text of the item set.
fn text_of<T: IndexStorage>(grm: &YaccGrammar<T>, set: &Itemset<T>) -> Result<String, Fail> {
    if !set.fits(grm) {
        return Err(Fail::from("items of the grammar"));
    }
    Ok(set.pp(grm)?)
}

/// The text of the core of the state.
pub fn core_text<T: IndexStorage>(
    grm: &YaccGrammar<T>,
    graph: &StateGraph<T>,
    number: usize,
) -> Result<String, Fail> {
    if number >= usize::from(graph.all_states_len()) {
        return Err(Fail::from("a state of the graph"));
    }
    text_of(grm, graph.core_state(state(number)?))
}

/// The text of the closed state of the state.
pub fn closed_text<T: IndexStorage>(
    grm: &YaccGrammar<T>,
    graph: &StateGraph<T>,
    number: usize,
) -> Result<String, Fail> {
    if number >= usize::from(graph.all_states_len()) {
        return Err(Fail::from("a state of the graph"));
    }
    text_of(grm, graph.closed_state(state(number)?))
}
