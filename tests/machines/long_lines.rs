//! A line of a hundred thousand words.

use crate::fixtures::{MANY, grammar_and_table, repeated};
use lrgrammar::grammar::YaccGrammar;
use lrtable::StateTable;
use lrtable::machine::{Counted, run_lines};
use std::alloc::Global;
use std::test::Fail;

/// How many words the line has.
const WORDS: usize = 100_000;

/// What is written for the line by the table after at most so many steps.
fn answer_by(
    alloc: Global,
    grm: &YaccGrammar<u32>,
    table: &StateTable<u32>,
    line: &str,
    steps: usize,
) -> Result<Vec<u8>, Fail> {
    let mut reader = Counted::new(line.as_bytes());
    let mut writer = Counted::new(Vec::new(alloc));
    run_lines(alloc, &mut reader, &mut writer, grm, table, steps)?;
    Ok(writer.into_inner())
}

/// What is written for so many words after at most so many steps.
fn answer(alloc: Global, steps: usize) -> Result<Vec<u8>, Fail> {
    let line = repeated(alloc, "", "a ", WORDS, "\n")?;
    let (grm, table) = grammar_and_table::<u32>(alloc, MANY)?;
    answer_by(alloc, &grm, &table, line.as_str(), steps)
}

#[test]
fn as_many_steps_as_it_takes(rt: HostRuntime) -> Result<(), Fail> {
    let wanted = repeated(rt.alloc(), "accept 200001: S.1", " S.0", WORDS - 1, "\n")?;
    let is_answer = answer(rt.alloc(), 200_001)?.as_slice() == wanted.as_bytes();
    assert!(rt; is_answer);
    Ok(())
}

#[test]
fn one_step_too_few(rt: HostRuntime) -> Result<(), Fail> {
    let answer = answer(rt.alloc(), 200_000)?;
    assert_eq!(rt; answer.as_slice(), b"unfinished 200000\n".as_slice());
    Ok(())
}
