//! What a run has shifted begins a sentence, however few steps it makes.

use crate::fixtures::{TERMS_AND_FACTORS, grammar_and_table, tokens};
use lrgrammar::grammar::YaccGrammar;
use lrgrammar::idx::{IndexStorage, TIdx};
use lrtable::StateTable;
use lrtable::machine::{Run, Verdict, run};
use std::alloc::{AllocError, Global};
use std::process::Abort;
use std::test::Fail;

/// The most tokens that a text has.
const LONGEST: usize = 4;

/// How many steps a run makes at most. All the texts come to their end in that many.
const STEPS: usize = 12;

/// Each of the texts with each of the pieces behind it.
fn continued(alloc: Global, texts: &[String], pieces: &[&str]) -> Result<Vec<String>, AllocError> {
    let mut longer = Vec::new(alloc);
    for text in texts {
        for piece in pieces {
            longer.push(format!(in alloc; "{text}{piece}")?)?;
        }
    }
    Ok(longer)
}

/// All texts that begin so and go on by up to so many of the pieces.
fn all_texts(
    alloc: Global,
    beginning: &str,
    pieces: &[&str],
    most: usize,
) -> Result<Vec<String>, AllocError> {
    let mut all = Vec::new(alloc);
    let mut last = vec![in alloc; String::from_str(alloc, beginning)?]?;
    for _ in 0..most {
        let longer = continued(alloc, &last, pieces)?;
        all.append(&mut last)?;
        last = longer;
    }
    all.append(&mut last)?;
    Ok(all)
}

/// The sentences of at most nine tokens: factors with a sign between each two.
fn all_sentences<T: IndexStorage>(
    alloc: Global,
    grm: &YaccGrammar<T>,
) -> Result<Vec<Vec<TIdx<T>>>, Fail> {
    let mut sentences = Vec::new(alloc);
    let texts = all_texts(alloc, "id", &[" - id", " * id"], 4)?;
    for text in &texts {
        sentences.push(tokens(grm, text.as_str())?)?;
    }
    Ok(sentences)
}

/// Whether the tokens begin one of the sentences.
fn begin<T: IndexStorage>(tokens: &[TIdx<T>], sentences: &[Vec<TIdx<T>>]) -> bool {
    sentences
        .iter()
        .any(|sentence| sentence.as_slice().starts_with(tokens))
}

/// Whether one of the sentences has that token behind those, or ends there where it is None.
fn go_on<T: IndexStorage>(
    tokens: &[TIdx<T>],
    next: Option<&TIdx<T>>,
    sentences: &[Vec<TIdx<T>>],
) -> bool {
    sentences.iter().any(|sentence| {
        sentence.as_slice().starts_with(tokens) && sentence.get(tokens.len()) == next
    })
}

/// How many tokens the run has shifted: its steps less its reductions, less the one that ended it.
fn shifted<T: IndexStorage>(run: &Run<T>) -> Option<usize> {
    let last = match run.verdict {
        Verdict::Accepted | Verdict::Rejected => 1,
        Verdict::Unfinished => 0,
    };
    run.steps
        .checked_sub(run.reductions.len())?
        .checked_sub(last)
}

/// What the run has shifted of the text, and what it has left; None where the text is too short.
fn parts<'a, T: IndexStorage>(
    run: &Run<T>,
    text: &'a [TIdx<T>],
) -> Option<(&'a [TIdx<T>], &'a [TIdx<T>])> {
    text.split_at_checked(shifted(run)?)
}

/// Whether what the run has shifted of the text begins a sentence, and the run ended where no sentence goes on.
fn is_right<T: IndexStorage>(run: &Run<T>, text: &[TIdx<T>], sentences: &[Vec<TIdx<T>>]) -> bool {
    let Some((front, behind)) = parts(run, text) else {
        return false;
    };
    let next = behind.first();
    match run.verdict {
        Verdict::Accepted => next.is_none() && go_on(front, next, sentences),
        Verdict::Rejected => begin(front, sentences) && !go_on(front, next, sentences),
        Verdict::Unfinished => begin(front, sentences) && run.steps < STEPS,
    }
}

/// The runs on the text are right, whatever number of steps they make at most.
fn are_right<T: IndexStorage>(
    rt: &impl Abort,
    grm: &YaccGrammar<T>,
    table: &StateTable<T>,
    words: &str,
    sentences: &[Vec<TIdx<T>>],
) -> Result<(), Fail> {
    let text = tokens(grm, words)?;
    for steps in 0..=STEPS {
        let run = run(grm.allocator(), grm, table, &text, steps)?;
        assert!(rt; is_right(&run, &text, sentences), "{words}, {steps}");
    }
    Ok(())
}

/// The runs on all texts are right.
fn all_are_right<T: IndexStorage>(
    rt: &impl Abort,
    alloc: Global,
    grm: &YaccGrammar<T>,
    table: &StateTable<T>,
) -> Result<(), Fail> {
    let sentences = all_sentences(alloc, grm)?;
    let texts = all_texts(alloc, "", &[" id", " -", " *"], LONGEST)?;
    for text in &texts {
        are_right(rt, grm, table, text.as_str(), &sentences)?;
    }
    Ok(())
}

#[test]
fn by_bytes(rt: HostRuntime) -> Result<(), Fail> {
    let (grm, table) = grammar_and_table::<u8>(rt.alloc(), TERMS_AND_FACTORS)?;
    all_are_right(&rt, rt.alloc(), &grm, &table)
}

#[test]
fn by_four_bytes(rt: HostRuntime) -> Result<(), Fail> {
    let (grm, table) = grammar_and_table::<u32>(rt.alloc(), TERMS_AND_FACTORS)?;
    all_are_right(&rt, rt.alloc(), &grm, &table)
}
