//! Lines between devices that fail, or that take little at once.

use crate::fixtures::{TERMS_AND_FACTORS, grammar_and_table};
use crate::machines::devices::{FailingReader, FailingWriter};
use lrtable::machine::{LineError, run_lines};
use std::alloc::Global;
use std::process::Abort;
use std::test::Fail;

/// Four lines, of which one is empty, one has no answer by the machine, and the last one has no line feed.
const INPUT: &str = "id - id\n\nid +\nid";

/// How each of them is answered.
const ANSWERS: [&str; 4] = [
    "accept 10: Factor.0 Term.1 Factor.0 Term.1 Expr.1 Expr.0\n",
    "reject 1\n",
    "unknown +\n",
    "accept 5: Factor.0 Term.1 Expr.1\n",
];

/// More than all bytes, or all calls.
const ALL: usize = 1000;

/// Answers the lines by the table of the terms and factors.
fn answer(
    alloc: Global,
    reader: &mut FailingReader<'_>,
    writer: &mut FailingWriter,
) -> Result<Result<(), LineError>, Fail> {
    let (grm, table) = grammar_and_table::<u32>(alloc, TERMS_AND_FACTORS)?;
    Ok(run_lines(alloc, reader, writer, &grm, &table, 100))
}

/// What is written for the lines, and behind it the text of the fault if there is one.
fn answers(
    alloc: Global,
    mut reader: FailingReader<'_>,
    mut writer: FailingWriter,
) -> Result<String, Fail> {
    let outcome = answer(alloc, &mut reader, &mut writer)?;
    let mut text = String::from_utf8(writer.bytes).ok().ok_or("a text")?;
    if let Err(fault) = outcome {
        write!(text, "{fault}")?;
    }
    Ok(text)
}

/// The answers to the first lines, and then the text.
fn first_answers(alloc: Global, lines: usize, behind: &str) -> Result<String, Fail> {
    let mut text = String::new(alloc);
    for answer in ANSWERS.iter().take(lines) {
        text.push_str(answer)?;
    }
    text.push_str(behind)?;
    Ok(text)
}

/// Between a reader that gives so many bytes at once and fails behind so many, and a writer that takes
/// so many at once and fails behind so many calls, the first lines are answered, and then that is said.
fn are_answered(
    rt: &impl Abort,
    alloc: Global,
    (given, bytes): (usize, usize),
    (taken, calls): (usize, usize),
    (lines, behind): (usize, &str),
) -> Result<(), Fail> {
    let reader = FailingReader::new(INPUT.as_bytes(), given, bytes);
    let text = answers(alloc, reader, FailingWriter::new(alloc, taken, calls))?;
    let wanted = first_answers(alloc, lines, behind)?;
    assert_eq!(rt;
        text.as_str(),
        wanted.as_str(),
        "{given} {bytes} {taken} {calls}"
    );
    Ok(())
}

/// What the reader has given before it fails decides which lines are answered.
#[test]
fn readers_that_fail(rt: HostRuntime) -> Result<(), Fail> {
    for (good, lines) in [(7, 0), (8, 1), (9, 2)] {
        let told = (lines, "cannot read standard input");
        are_answered(&rt, rt.alloc(), (ALL, good), (ALL, ALL), told)?;
    }
    Ok(())
}

/// However few bytes a call gives, and wherever it fails, the lines that are whole by then are answered.
#[test]
fn readers_that_fail_anywhere(rt: HostRuntime) -> Result<(), Fail> {
    for at_once in [1, 3, ALL] {
        for good in 0..=INPUT.len() {
            let lines = INPUT.bytes().take(good).filter(|b| *b == b'\n').count();
            let told = (lines, "cannot read standard input");
            are_answered(&rt, rt.alloc(), (at_once, good), (ALL, ALL), told)?;
        }
    }
    Ok(())
}

/// However few bytes a call gives or takes, all lines are answered.
#[test]
fn devices_that_move_little(rt: HostRuntime) -> Result<(), Fail> {
    for (given, taken) in [(1, ALL), (3, 1), (ALL, 1), (ALL, 5)] {
        let told = (ANSWERS.len(), "");
        are_answered(&rt, rt.alloc(), (given, ALL), (taken, ALL), told)?;
    }
    Ok(())
}

/// Whether what the writer has taken begins the text of all answers, where it fails at this call.
fn begins_answers(alloc: Global, at_once: usize, good: usize) -> Result<bool, Fail> {
    let reader = FailingReader::new(INPUT.as_bytes(), ALL, ALL);
    let text = answers(alloc, reader, FailingWriter::new(alloc, at_once, good))?;
    let all = first_answers(alloc, ANSWERS.len(), "")?;
    match text.strip_suffix("cannot write standard output") {
        Some(written) => Ok(all.starts_with(written)),
        None => Ok(false),
    }
}

/// Wherever the writer fails, what it has taken begins the text of all answers.
#[test]
fn writers_that_fail_anywhere(rt: HostRuntime) -> Result<(), Fail> {
    for (at_once, calls) in [(1, 109), (5, 23), (ALL, 4)] {
        for good in 0..calls {
            assert!(rt;
                begins_answers(rt.alloc(), at_once, good)?,
                "{at_once} {good}"
            );
        }
    }
    Ok(())
}

/// A writer that fails behind the first line, and one that takes nothing, which is to fail too.
#[test]
fn writers_that_fail(rt: HostRuntime) -> Result<(), Fail> {
    for (at_once, good, lines) in [(1, 57, 1), (ALL, 1, 1), (0, ALL, 0)] {
        let told = (lines, "cannot write standard output");
        are_answered(&rt, rt.alloc(), (ALL, ALL), (at_once, good), told)?;
    }
    Ok(())
}
