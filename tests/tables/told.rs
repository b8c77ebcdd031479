//! What tables say, as short texts that tests compare.

use crate::fixtures::grammar_and_table;
use lrgrammar::grammar::YaccGrammar;
use lrgrammar::idx::{IndexStorage, TIdx};
use lrtable::statetable::Conflicts;
use lrtable::{Action, StIdx, StateTable};
use std::alloc::{AllocError, Global};
use std::test::Fail;

/// The state of that number.
fn state<T: IndexStorage>(number: usize) -> Result<StIdx<T>, Fail> {
    Ok(StIdx(T::from_usize(number).ok_or("a state")?))
}

/// Adds an action: `s` and the state for a shift, `r` and the production for a reduction.
fn push_action<T: IndexStorage>(told: &mut String, action: Action<T>) -> Result<(), AllocError> {
    match action {
        Action::Shift(to) => {
            let to = usize::from(to);
            write!(told, " s{to}")
        }
        Action::Reduce(by) => {
            let by = usize::from(by);
            write!(told, " r{by}")
        }
        Action::Accept => told.push_str(" accept"),
        Action::Error => told.push_str(" error"),
    }
}

/// What the state does on the tokens of these names; `$` is the end token.
pub fn actions<T: IndexStorage>(
    alloc: Global,
    grm: &YaccGrammar<T>,
    table: &StateTable<T>,
    from: usize,
    names: &str,
) -> Result<String, Fail> {
    let from = state(from)?;
    let mut told = String::new(alloc);
    for name in names.split_whitespace() {
        let token = grm.token_idx(name).unwrap_or(grm.eof_token_idx());
        push_action(&mut told, table.action(from, token))?;
    }
    Ok(told)
}

/// What the state does on the token, both by their numbers.
pub fn action_at<T: IndexStorage>(
    alloc: Global,
    table: &StateTable<T>,
    from: usize,
    token: usize,
) -> Result<String, Fail> {
    let token = TIdx(T::from_usize(token).ok_or("a token")?);
    let mut told = String::new(alloc);
    push_action(&mut told, table.action(state(from)?, token))?;
    Ok(told)
}

/// Adds the state; `-` where there is none.
fn push_goto<T: IndexStorage>(told: &mut String, to: Option<StIdx<T>>) -> Result<(), AllocError> {
    match to {
        Some(to) => {
            let to = usize::from(to);
            write!(told, " {to}")
        }
        None => told.push_str(" -"),
    }
}

/// Where the rules of these names lead from the state; `-` where one leads nowhere.
pub fn gotos<T: IndexStorage>(
    alloc: Global,
    grm: &YaccGrammar<T>,
    table: &StateTable<T>,
    from: usize,
    names: &str,
) -> Result<String, Fail> {
    let from = state(from)?;
    let mut told = String::new(alloc);
    for name in names.split_whitespace() {
        let rule = grm.rule_idx(name).ok_or("a rule")?;
        push_goto(&mut told, table.goto(from, rule))?;
    }
    Ok(told)
}

/// Adds the numbers, each behind a space.
fn push_spaced(
    told: &mut String,
    numbers: impl Iterator<Item = usize> + Drop,
) -> Result<(), AllocError> {
    for number in numbers {
        write!(told, " {number}")?;
    }
    Ok(())
}

/// Adds the tokens on which the state acts and those that it shifts, the productions by which it reduces, and whether it reduces
/// by one and does nothing else.
fn push_row<T: IndexStorage>(
    told: &mut String,
    table: &StateTable<T>,
    from: StIdx<T>,
) -> Result<(), AllocError> {
    told.push_str("acts")?;
    push_spaced(told, table.state_actions(from).map(usize::from))?;
    told.push_str(", shifts")?;
    push_spaced(told, table.state_shifts(from).map(usize::from))?;
    told.push_str(", reduces")?;
    push_spaced(told, table.core_reduces(from).map(usize::from))?;
    if table.reduce_only_state(from) {
        told.push_str(" only")?;
    }
    Ok(())
}

/// What is told of the state of that number.
pub fn row<T: IndexStorage>(
    alloc: Global,
    table: &StateTable<T>,
    from: usize,
) -> Result<String, Fail> {
    let from = state(from)?;
    let mut told = String::new(alloc);
    push_row(&mut told, table, from)?;
    Ok(told)
}

/// Adds the numbers of the productions of the rule of that name.
fn push_prods_of<T: IndexStorage>(
    told: &mut String,
    grm: &YaccGrammar<T>,
    name: &str,
) -> Result<(), Fail> {
    let rule = grm.rule_idx(name).ok_or("a rule")?;
    let prods = grm.rule_to_prods(rule);
    push_spaced(told, prods.iter().map(|prod| usize::from(*prod)))?;
    Ok(())
}

/// The numbers of the productions of the rule of that name.
pub fn prods_of_rule(alloc: Global, text: &str, name: &str) -> Result<String, Fail> {
    let grm = YaccGrammar::<u32>::from_text(alloc, text)?;
    let mut told = String::new(alloc);
    push_prods_of(&mut told, &grm, name)?;
    Ok(told)
}

/// Adds the numbers in brackets, behind a space and parted by commas.
fn push_numbers(told: &mut String, numbers: &[usize]) -> Result<(), AllocError> {
    let mut before = " (";
    for number in numbers {
        write!(told, "{before}{number}")?;
        before = ",";
    }
    told.push(')')
}

/// Adds the reduce/reduce conflicts, by numbers.
fn push_reduce_reduce<T: IndexStorage>(
    told: &mut String,
    conflicts: &Conflicts<T>,
) -> Result<(), AllocError> {
    for (token, prod, other, state) in conflicts.rr_conflicts() {
        let (token, prod) = (usize::from(*token), usize::from(*prod));
        let (other, state) = (usize::from(*other), usize::from(*state));
        push_numbers(told, &[token, prod, other, state])?;
    }
    Ok(())
}

/// Adds the shift/reduce conflicts, by numbers.
fn push_shift_reduce<T: IndexStorage>(
    told: &mut String,
    conflicts: &Conflicts<T>,
) -> Result<(), AllocError> {
    for (token, prod, state) in conflicts.sr_conflicts() {
        let (token, prod) = (usize::from(*token), usize::from(*prod));
        let state = usize::from(*state);
        push_numbers(told, &[token, prod, state])?;
    }
    Ok(())
}

/// Adds how many conflicts there are between reductions, and which, and the same of shifts.
fn push_conflicts<T: IndexStorage>(
    told: &mut String,
    conflicts: &Conflicts<T>,
) -> Result<(), AllocError> {
    let (rr, sr) = (conflicts.rr_len(), conflicts.sr_len());
    write!(told, "{rr}")?;
    push_reduce_reduce(told, conflicts)?;
    write!(told, ", {sr}")?;
    push_shift_reduce(told, conflicts)
}

/// The conflicts of the table.
fn conflicts_of<T: IndexStorage>(alloc: Global, table: &StateTable<T>) -> Result<String, Fail> {
    let mut told = String::new(alloc);
    match table.conflicts() {
        Some(conflicts) => push_conflicts(&mut told, conflicts)?,
        None => told.push_str("none")?,
    }
    Ok(told)
}

/// The conflicts of the table of the text.
pub fn conflicts<T: IndexStorage>(alloc: Global, text: &str) -> Result<String, Fail> {
    let (_grm, table) = grammar_and_table::<T>(alloc, text)?;
    conflicts_of(alloc, &table)
}
