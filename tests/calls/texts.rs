//! What values tell, as texts that cases compare. Each has all that the public calls tell of its value, and takes no memory
//! where there is room in the text.

use crate::subjects::Subject;
use lrgrammar::firsts::YaccFirsts;
use lrgrammar::grammar::YaccGrammar;
use lrgrammar::idx::{PIdx, RIdx, StIdx, TIdx};
use lrtable::{StateGraph, StateTable};
use std::alloc::AllocError;
use std::fmt;

/// Adds the items one after another.
pub fn push_each<A: fmt::Debug + Drop, I: Iterator<Item = A> + Drop>(
    text: &mut String,
    items: I,
) -> Result<(), AllocError> {
    for item in items {
        write!(text, " {item:?}")?;
    }
    Ok(())
}

/// Adds what the arguments tell.
pub fn push_subject(text: &mut String, subject: &Subject<'_>) -> Result<(), AllocError> {
    push_grammar(text, subject.grm)?;
    push_firsts(text, subject.grm, subject.firsts)?;
    push_graph(text, subject.graph)?;
    push_table(text, subject.grm, subject.graph, subject.table)?;
    write!(text, "{:?} {:?}", subject.tokens, subject.tree)?;
    write!(text, " {:?}", subject.told)
}

/// Adds all that the calls of the grammar tell.
pub fn push_grammar(text: &mut String, grm: &YaccGrammar<u32>) -> Result<(), AllocError> {
    let (start, end) = (grm.start_prod(), grm.eof_token_idx());
    write!(text, "{start:?} {end:?} {}", grm.has_precedences())?;
    push_rules(text, grm)?;
    push_productions(text, grm)?;
    push_tokens(text, grm)
}

/// Adds the rules: of each its name, what is found by that, and its productions.
fn push_rules(text: &mut String, grm: &YaccGrammar<u32>) -> Result<(), AllocError> {
    for rule in 0..usize::from(grm.rules_len()) {
        let ridx = RIdx(rule as u32);
        let name = grm.rule_name_str(ridx);
        let (by_rule, by_token) = (grm.rule_idx(name), grm.token_idx(name));
        write!(
            text,
            "\n{name} {by_rule:?} {by_token:?} {:?}",
            grm.rule_to_prods(ridx)
        )?;
    }
    Ok(())
}

/// Adds the productions: of each its rule, its body and its precedence.
fn push_productions(text: &mut String, grm: &YaccGrammar<u32>) -> Result<(), AllocError> {
    for prod in 0..usize::from(grm.prods_len()) {
        let pidx = PIdx(prod as u32);
        let (rule, len, symbols) = (grm.prod_to_rule(pidx), grm.prod_len(pidx), grm.prod(pidx));
        let precedence = grm.prod_precedence(pidx);
        write!(text, "\n{rule:?} {len:?} {symbols:?} {precedence:?}")?;
    }
    Ok(())
}

/// Adds the tokens: of each its name and its precedence.
fn push_tokens(text: &mut String, grm: &YaccGrammar<u32>) -> Result<(), AllocError> {
    for token in 0..usize::from(grm.tokens_len()) {
        let tidx = TIdx(token as u32);
        let (name, precedence) = (grm.token_name(tidx), grm.token_precedence(tidx));
        write!(text, "\n{name:?} {precedence:?}")?;
    }
    push_each(text, grm.iter_tidxs())
}

/// Adds for each rule whether it is nullable, and which tokens begin its bodies.
pub fn push_firsts(
    text: &mut String,
    grm: &YaccGrammar<u32>,
    firsts: &YaccFirsts<u32>,
) -> Result<(), AllocError> {
    for rule in 0..usize::from(grm.rules_len()) {
        let ridx = RIdx(rule as u32);
        write!(
            text,
            "\n{} {:?}",
            firsts.is_epsilon_set(ridx),
            firsts.firsts(ridx)
        )?;
    }
    Ok(())
}

/// Adds all that the calls of the graph tell.
pub fn push_graph(text: &mut String, graph: &StateGraph<u32>) -> Result<(), AllocError> {
    write!(
        text,
        "\n{:?} {}",
        graph.start_state(),
        graph.all_edges_len()
    )?;
    for state in 0..usize::from(graph.all_states_len()) {
        push_state(text, graph, StIdx(state as u32))?;
    }
    push_each(text, graph.iter_stidxs())?;
    push_each(text, graph.iter_core_states())?;
    push_each(text, graph.iter_closed_states())
}

/// Adds the state: its core, its closed state and its edges, each with where it leads by the look-up too.
fn push_state(
    text: &mut String,
    graph: &StateGraph<u32>,
    stidx: StIdx<u32>,
) -> Result<(), AllocError> {
    write!(
        text,
        "\n{:?} {:?}",
        graph.core_state(stidx),
        graph.closed_state(stidx)
    )?;
    for (on, target) in graph.edges(stidx) {
        write!(text, "\n{on:?} {target:?} {:?}", graph.edge(stidx, *on))?;
    }
    Ok(())
}

/// Adds all that the calls of the table of the graph tell.
pub fn push_table(
    text: &mut String,
    grm: &YaccGrammar<u32>,
    graph: &StateGraph<u32>,
    table: &StateTable<u32>,
) -> Result<(), AllocError> {
    write!(text, "\n{:?}", table.start_state())?;
    for stidx in graph.iter_stidxs() {
        push_row(text, grm, table, stidx)?;
    }
    push_conflicts(text, table)
}

/// Adds the row of the state.
fn push_row(
    text: &mut String,
    grm: &YaccGrammar<u32>,
    table: &StateTable<u32>,
    stidx: StIdx<u32>,
) -> Result<(), AllocError> {
    write!(text, "\n{}", table.reduce_only_state(stidx))?;
    for tidx in grm.iter_tidxs() {
        write!(text, " {:?}", table.action(stidx, tidx))?;
    }
    push_gotos(text, grm, table, stidx)?;
    push_each(text, table.state_actions(stidx))?;
    push_each(text, table.state_shifts(stidx))?;
    push_each(text, table.core_reduces(stidx))
}

/// Adds where each rule leads from the state.
fn push_gotos(
    text: &mut String,
    grm: &YaccGrammar<u32>,
    table: &StateTable<u32>,
    stidx: StIdx<u32>,
) -> Result<(), AllocError> {
    for rule in 0..usize::from(grm.rules_len()) {
        write!(text, " {:?}", table.goto(stidx, RIdx(rule as u32)))?;
    }
    Ok(())
}

/// Adds the conflicts.
fn push_conflicts(text: &mut String, table: &StateTable<u32>) -> Result<(), AllocError> {
    let Some(conflicts) = table.conflicts() else {
        return text.push_str(" no conflicts");
    };
    write!(text, " {} {}", conflicts.rr_len(), conflicts.sr_len())?;
    push_each(text, conflicts.rr_conflicts())?;
    push_each(text, conflicts.sr_conflicts())
}
