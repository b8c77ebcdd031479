//! What the callers of `lrexamples` answer.

use crate::fixtures::{
    ASSIGNMENTS, CONTESTED_ON_X_ALONE, NONASSOC, SUMS_AND_PRODUCTS, SUMS_AND_PRODUCTS_WITH_LEVELS,
    TERMS_AND_FACTORS, TOLD_APART_LATE, grammar_and_table, tokens,
};
use lrexamples::depths::text_depth;
use lrexamples::explanations::explain;
use lrexamples::sentences::is_sentence;
use lrexamples::start_states::start_state;
use lrgrammar::grammar::YaccGrammar;
use std::alloc::Global;
use std::test::Fail;

/// How deep the words nest by the table of the grammar.
fn words_depth(alloc: Global, grammar: &str, words: &str) -> Result<Option<usize>, Fail> {
    let (grm, table) = grammar_and_table::<u32>(alloc, grammar)?;
    let text = tokens(&grm, words)?;
    Ok(text_depth(alloc, &grm, &table, &text, 100)?)
}

#[test]
fn depths(rt: HostRuntime) -> Result<(), Fail> {
    for (grammar, words, depth) in [
        (TERMS_AND_FACTORS, "id", Some(3)),
        (TERMS_AND_FACTORS, "- id", None),
        (SUMS_AND_PRODUCTS_WITH_LEVELS, "id", Some(1)),
        (SUMS_AND_PRODUCTS_WITH_LEVELS, "id + id * id", Some(3)),
        (SUMS_AND_PRODUCTS_WITH_LEVELS, "id * id + id * id", Some(3)),
        (SUMS_AND_PRODUCTS_WITH_LEVELS, "id + id + id + id", Some(4)),
    ] {
        let found = words_depth(rt.alloc(), grammar, words)?;
        assert_eq!(rt; found, depth, "{words}");
    }
    Ok(())
}

/// Whether the text is seen to be a sentence.
fn is_seen(alloc: Global, grammar: &str, text: &str, steps: usize) -> Result<bool, Fail> {
    let grm = YaccGrammar::<u32>::from_text(alloc, grammar)?;
    let text = tokens(&grm, text)?;
    match is_sentence(alloc, &grm, &text, steps) {
        Ok(seen) => Ok(seen),
        Err(_) => Err(Fail::from("a table")),
    }
}

#[test]
fn sentences_are_seen(rt: HostRuntime) -> Result<(), Fail> {
    for (grammar, text, steps, seen) in [
        (TERMS_AND_FACTORS, "id - id", 10, true),
        (TERMS_AND_FACTORS, "id - id", 9, false),
        (TERMS_AND_FACTORS, "id -", 100, false),
        (NONASSOC, "id", 100, false),
        (CONTESTED_ON_X_ALONE, "a c d", 100, false),
    ] {
        let found = is_seen(rt.alloc(), grammar, text, steps)?;
        assert_eq!(rt; found, seen, "{text} {steps}");
    }
    Ok(())
}

/// How many items the closed start state of the grammar of the text has.
fn items_of_start(alloc: Global, text: &str) -> Result<usize, Fail> {
    let grm = YaccGrammar::<u32>::from_text(alloc, text)?;
    let start = start_state(alloc, &grm)?;
    Ok(start.items.len())
}

#[test]
fn start_state_of_assignments(rt: HostRuntime) -> Result<(), Fail> {
    assert!(rt; items_of_start(rt.alloc(), ASSIGNMENTS)? == 6);
    Ok(())
}

/// An `else` goes with either `if`.
const DANGLING_ELSE: &str = "%% S: 'if' 'e' 'then' S | 'if' 'e' 'then' S 'else' S | 'x';";

/// What is explained of it.
const EXPLAINED: &str = r#"   State 6: Shift("else") / Reduce(S: "if" "e" "then" "S")
      AMBIGUOUS S: 'if' 'e' 'then' 'if' 'e' 'then' S . 'else' S
         reduce: S('if' 'e' 'then' S('if' 'e' 'then' S) . 'else' S)
         shift: S('if' 'e' 'then' S('if' 'e' 'then' S . 'else' S))
         sentence: 'if' 'e' 'then' 'if' 'e' 'then' 'x' . 'else' 'x'
"#;

/// Why the grammar has conflicts, and whether that shows it to be ambiguous.
fn explained(alloc: Global, grammar: &str) -> Result<(String, bool), Fail> {
    let grm = YaccGrammar::<u32>::from_text(alloc, grammar)?;
    match explain(alloc, &grm) {
        Ok(explained) => Ok(explained),
        Err(_) => Err(Fail::from("a table")),
    }
}

#[test]
fn dangling_else_is_explained(rt: HostRuntime) -> Result<(), Fail> {
    let (text, is_ambiguous) = explained(rt.alloc(), DANGLING_ELSE)?;
    assert_eq!(rt; text.as_str(), EXPLAINED);
    assert!(rt; is_ambiguous);
    Ok(())
}

#[test]
fn conflicts_are_explained(rt: HostRuntime) -> Result<(), Fail> {
    for (grammar, wanted) in [
        (SUMS_AND_PRODUCTS, (true, true)),
        (TOLD_APART_LATE, (true, false)),
        (TERMS_AND_FACTORS, (false, false)),
    ] {
        let (text, is_ambiguous) = explained(rt.alloc(), grammar)?;
        assert_eq!(rt; (!text.is_empty(), is_ambiguous), wanted, "{grammar}");
    }
    Ok(())
}
