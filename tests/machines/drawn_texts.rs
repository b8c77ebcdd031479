//! Texts drawn at random, on which the machine does what a plain one does, and which have the tree that this puts together.

use crate::fixtures;
use crate::fixtures::grammar_and_table;
use crate::machines::derivations::derives;
use crate::machines::draws::Draws;
use crate::machines::plain_machine::run_plainly;
use lrgrammar::grammar::YaccGrammar;
use lrgrammar::idx::TIdx;
use lrtable::StateTable;
use lrtable::machine::{Run, Verdict, run};
use lrtree::{Parsed, Tree, parse};
use std::alloc::{AllocError, Global};
use std::test::Fail;

/// How many texts are drawn for each of the sixteen grammars: ten thousand in all.
const TEXTS: usize = 625;

/// The most tokens that a text has.
const LONGEST: usize = 12;

/// How many steps a run makes at most.
const STEPS: usize = 200;

/// A named token, if there is one.
fn draw_token(grm: &YaccGrammar<u32>, draws: &mut Draws) -> Result<TIdx<u32>, Fail> {
    let named = usize::from(grm.eof_token_idx());
    if named == 0 {
        return Err(Fail::from("a named token"));
    }
    Ok(TIdx(u32::try_from(draws.below(named))?))
}

/// A text of named tokens, which is more often a short one. Without a named token it is empty.
fn draw_text(
    alloc: Global,
    grm: &YaccGrammar<u32>,
    draws: &mut Draws,
) -> Result<Vec<TIdx<u32>>, Fail> {
    let mut text = Vec::new(alloc);
    if usize::from(grm.eof_token_idx()) == 0 {
        return Ok(text);
    }
    let most = draws.below(LONGEST + 1);
    for _ in 0..draws.below(most + 1) {
        let token = draw_token(grm, draws)?;
        text.push(token)?;
    }
    Ok(text)
}

/// Whether the tree is the only one of those, with the text for its leaves and the reductions for its productions.
fn is_tree(
    alloc: Global,
    tree: &Tree<u32>,
    trees: &[Tree<u32>],
    text: &[TIdx<u32>],
    run: &Run<u32>,
) -> Result<bool, AllocError> {
    let leaves = tree.leaves(alloc)?;
    let productions = tree.productions(alloc)?;
    let is_only = trees.len() == 1 && trees.first() == Some(tree);
    Ok(is_only && leaves.as_slice() == text && productions == run.reductions)
}

/// Whether what was parsed is as the run came out, which has put those trees together.
fn is_parsed(
    alloc: Global,
    parsed: &Parsed<u32>,
    trees: &[Tree<u32>],
    text: &[TIdx<u32>],
    run: &Run<u32>,
) -> Result<bool, AllocError> {
    match parsed {
        Parsed::Tree(tree) if run.verdict == Verdict::Accepted => {
            is_tree(alloc, tree, trees, text, run)
        }
        Parsed::Tree(_) => Ok(false),
        Parsed::Rejected => Ok(run.verdict == Verdict::Rejected),
        Parsed::Unfinished => Ok(run.verdict == Verdict::Unfinished),
    }
}

/// Whether the plain machine does the same with the text, and puts the tree together that is parsed.
fn is_plain(
    alloc: Global,
    grm: &YaccGrammar<u32>,
    table: &StateTable<u32>,
    text: &[TIdx<u32>],
    run: &Run<u32>,
) -> Result<bool, Fail> {
    let (plain, trees) = run_plainly(alloc, grm, table, text, STEPS)?;
    let parsed = parse(alloc, grm, table, text, STEPS)?;
    Ok(*run == plain && is_parsed(alloc, &parsed, &trees, text, run)?)
}

/// Whether the text is accepted; None where the machines or the trees differ, or where the reductions do not derive the text.
fn accepted(
    alloc: Global,
    grm: &YaccGrammar<u32>,
    table: &StateTable<u32>,
    text: &[TIdx<u32>],
) -> Result<Option<bool>, Fail> {
    let run = run(alloc, grm, table, text, STEPS)?;
    if !is_plain(alloc, grm, table, text, &run)? {
        return Ok(None);
    }
    if run.verdict != Verdict::Accepted {
        return Ok(Some(false));
    }
    let derived = derives(alloc, grm, &run.reductions, text)?;
    Ok(derived.then_some(true))
}

/// Whether a text that is drawn is accepted; None where it is not run as it should be.
fn drawn_accepted(
    alloc: Global,
    grm: &YaccGrammar<u32>,
    table: &StateTable<u32>,
    draws: &mut Draws,
) -> Result<Option<bool>, Fail> {
    let text = draw_text(alloc, grm, draws)?;
    accepted(alloc, grm, table, &text)
}

/// Whether any of the texts is accepted; None where one is not run as it should be.
fn any_accepted(
    alloc: Global,
    grm: &YaccGrammar<u32>,
    table: &StateTable<u32>,
    draws: &mut Draws,
) -> Result<Option<bool>, Fail> {
    let mut any = false;
    for _ in 0..TEXTS {
        match drawn_accepted(alloc, grm, table, draws)? {
            Some(is_accepted) => any |= is_accepted,
            None => return Ok(None),
        }
    }
    Ok(Some(any))
}

/// The same of the texts of a grammar.
fn any_of_grammar(alloc: Global, grammar: &str, draws: &mut Draws) -> Result<Option<bool>, Fail> {
    let (grm, table) = grammar_and_table::<u32>(alloc, grammar)?;
    any_accepted(alloc, &grm, &table, draws)
}

/// Beside each grammar stands whether the machine accepts any text at all.
#[test]
fn as_the_plain_machine(rt: HostRuntime) -> Result<(), Fail> {
    let mut draws = Draws::new(9);
    for (grammar, any) in [
        (fixtures::LR1_AND_NOT_LALR1, true),
        (fixtures::CONTESTED_ON_X_ALONE, true),
        (fixtures::TERMS_AND_FACTORS, true),
        (fixtures::RULE_WITHOUT_A_TREE, true),
        (fixtures::HIDDEN_LEFT_RECURSION, false),
        (fixtures::NONASSOC, true),
        (fixtures::SHIFT_AND_TWO_REDUCTIONS, true),
        (fixtures::NO_SENTENCE, false),
        (fixtures::FOUR_LEVELS, true),
        (fixtures::SUMS_AND_PRODUCTS, true),
        (fixtures::SUMS_AND_PRODUCTS_WITH_LEVELS, true),
        (fixtures::UNARY_MINUS, true),
        (fixtures::UNARY_MINUS_WITHOUT_PREC, true),
        (fixtures::ROUND_WITHOUT_TOKENS, true),
        (fixtures::NEVER_ENDING, false),
        (fixtures::ONE_BODY_TWICE, true),
    ] {
        let found = any_of_grammar(rt.alloc(), grammar, &mut draws)?;
        assert_eq!(rt; found, Some(any), "{grammar}");
    }
    Ok(())
}
