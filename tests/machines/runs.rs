//! Runs, some as long as the least index type allows, and what little steps they take.

use crate::fixtures::{
    CONTESTED_ON_X_ALONE, NEVER_ENDING, ONE_BODY_TWICE, ROUND_WITHOUT_TOKENS, RULE_WITHOUT_A_TREE,
    TERMS_AND_FACTORS, UNARY_MINUS, UNARY_MINUS_WITHOUT_PREC, grammar_and_table, repeated, tokens,
};
use lrgrammar::grammar::YaccGrammar;
use lrgrammar::idx::IndexStorage;
use lrtable::StateTable;
use lrtable::machine::{Run, run};
use std::alloc::{AllocError, Global};
use std::test::Fail;

/// The verdict, the number of steps, and the numbers of the productions.
fn told<T: IndexStorage>(alloc: Global, run: &Run<T>) -> Result<String, AllocError> {
    let verdict = run.verdict;
    let steps = run.steps;
    let mut text = format!(in alloc; "{verdict:?} {steps}:")?;
    for prod in &run.reductions {
        let number = usize::from(*prod);
        text.push_str(format!(in alloc; " {number}")?.as_str())?;
    }
    Ok(text)
}

/// How a run by the table of at most so many steps on the text comes out.
fn outcome_by<T: IndexStorage>(
    alloc: Global,
    grm: &YaccGrammar<T>,
    table: &StateTable<T>,
    text: &str,
    steps: usize,
) -> Result<String, Fail> {
    let tokens = tokens(grm, text)?;
    let run = run(alloc, grm, table, &tokens, steps)?;
    Ok(told(alloc, &run)?)
}

/// How a run of at most so many steps on the text comes out.
fn outcome<T: IndexStorage>(
    alloc: Global,
    grammar: &str,
    text: &str,
    steps: usize,
) -> Result<String, Fail> {
    let (grm, table) = grammar_and_table::<T>(alloc, grammar)?;
    outcome_by(alloc, &grm, &table, text, steps)
}

#[test]
fn by_bytes(rt: HostRuntime) -> Result<(), Fail> {
    let alloc = rt.alloc();
    let grammar = repeated(alloc, "%% S:", " 'a'", 251, ";")?;
    let text = repeated(alloc, "", "a ", 251, "")?;
    for (grammar, text, steps, wanted) in [
        (grammar.as_str(), text.as_str(), 1000, "Accepted 253: 0"),
        (TERMS_AND_FACTORS, "id - id", 10, "Accepted 10: 4 3 4 3 1 0"),
        (TERMS_AND_FACTORS, "id - id", 9, "Unfinished 9: 4 3 4 3 1 0"),
    ] {
        let come_out = outcome::<u8>(alloc, grammar, text, steps)?;
        assert_eq!(rt; come_out.as_str(), wanted);
    }
    Ok(())
}

#[test]
fn by_four_bytes(rt: HostRuntime) -> Result<(), Fail> {
    for (grammar, text, steps, wanted) in [
        (ROUND_WITHOUT_TOKENS, "", 100, "Accepted 3: 2 0"),
        (NEVER_ENDING, "", 100, "Rejected 1:"),
        (NEVER_ENDING, "b b", 100, "Rejected 3:"),
        (NEVER_ENDING, "b", 1, "Unfinished 1:"),
        (ONE_BODY_TWICE, "a", 100, "Accepted 3: 0"),
        (CONTESTED_ON_X_ALONE, "b c d", 100, "Rejected 4: 6"),
        (RULE_WITHOUT_A_TREE, "a", 100, "Rejected 2:"),
        (UNARY_MINUS, "- n * n", 100, "Accepted 9: 4 3 4 2"),
        (
            UNARY_MINUS_WITHOUT_PREC,
            "- n * n",
            100,
            "Accepted 9: 4 4 2 3",
        ),
    ] {
        let come_out = outcome::<u32>(rt.alloc(), grammar, text, steps)?;
        assert_eq!(rt; come_out.as_str(), wanted);
    }
    Ok(())
}
