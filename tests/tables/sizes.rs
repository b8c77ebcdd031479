//! How many states the worked grammars have, and what their construction takes.

use crate::fixtures::{
    A_COLLECTED_STATE, CONTESTED_ON_X_ALONE, FOUR_LEVELS, HIDDEN_LEFT_RECURSION, LR1_AND_NOT_LALR1,
    NEVER_ENDING, NO_SENTENCE, NONASSOC, PAGERS_EXAMPLE, ROUND_WITHOUT_TOKENS, RULE_WITHOUT_A_TREE,
    TERMS_AND_FACTORS, TOLD_APART_LATE, many_tokens,
};
use lrgrammar::grammar::YaccGrammar;
use lrgrammar::idx::IndexStorage;
use lrtable::{Minimiser, from_yacc, from_yacc_counted};
use std::alloc::Global;
use std::process::Abort;
use std::test::Fail;

/// The numbers are those that are wanted.
fn are_told(rt: &impl Abort, of: &str, told: &[usize], wanted: &[usize]) {
    assert_eq!(rt; told, wanted, "{of}");
}

/// How many states and edges the graph of the grammar has.
fn sizes_of<T: IndexStorage>(alloc: Global, grm: &YaccGrammar<T>) -> Result<[usize; 2], Fail> {
    match from_yacc(alloc, grm, Minimiser::Pager) {
        Ok((graph, _table)) => {
            let states = usize::from(graph.all_states_len());
            Ok([states, graph.all_edges_len()])
        }
        Err(_) => Err(Fail::from("a graph")),
    }
}

/// How many states and edges the graph of the text has.
pub fn sizes<T: IndexStorage>(alloc: Global, text: &str) -> Result<[usize; 2], Fail> {
    let grm = YaccGrammar::<T>::from_text(alloc, text)?;
    sizes_of(alloc, &grm)
}

/// How many states and edges the graph of the text has, how many states were made, and how often one was closed.
fn counted(alloc: Global, text: &str) -> Result<([usize; 3], u128), Fail> {
    let grm = YaccGrammar::<u32>::from_text(alloc, text)?;
    match from_yacc_counted(alloc, &grm, Minimiser::Pager) {
        Ok((graph, _table, counts)) => {
            let states = usize::from(graph.all_states_len());
            let built = [states, graph.all_edges_len(), counts.made];
            Ok((built, counts.closings))
        }
        Err(_) => Err(Fail::from("a graph")),
    }
}

#[test]
fn states(rt: HostRuntime) -> Result<(), Fail> {
    for (text, states) in [
        (CONTESTED_ON_X_ALONE, 15),
        (HIDDEN_LEFT_RECURSION, 7),
        (NONASSOC, 5),
        (FOUR_LEVELS, 11),
    ] {
        let [found, _edges] = sizes::<u32>(rt.alloc(), text)?;
        are_told(&rt, text, &[found], &[states]);
    }
    Ok(())
}

#[test]
fn states_and_edges(rt: HostRuntime) -> Result<(), Fail> {
    for (text, states, edges) in [
        (TERMS_AND_FACTORS, 9, 13),
        (RULE_WITHOUT_A_TREE, 7, 6),
        (NO_SENTENCE, 3, 2),
        (TOLD_APART_LATE, 8, 7),
        (ROUND_WITHOUT_TOKENS, 4, 3),
        (NEVER_ENDING, 5, 5),
    ] {
        let found = sizes::<u32>(rt.alloc(), text)?;
        are_told(&rt, text, &found, &[states, edges]);
    }
    Ok(())
}

#[test]
fn states_edges_and_closings(rt: HostRuntime) -> Result<(), Fail> {
    for (text, states, edges, made, closings) in [
        (LR1_AND_NOT_LALR1, 14, 13, 14, 14),
        (A_COLLECTED_STATE, 21, 22, 22, 29),
        (PAGERS_EXAMPLE, 23, 27, 23, 38),
    ] {
        let (built, closed) = counted(rt.alloc(), text)?;
        are_told(&rt, text, &built, &[states, edges, made]);
        assert!(rt; closed == closings, "{text}");
    }
    Ok(())
}

/// How many tokens there are, and how many states the graph has, where the text names so many.
fn tokens_and_states(alloc: Global, count: usize) -> Result<[usize; 2], Fail> {
    let text = many_tokens(alloc, count)?;
    let grm = YaccGrammar::<u8>::from_text(alloc, text.as_str())?;
    let [states, _edges] = sizes_of(alloc, &grm)?;
    Ok([usize::from(grm.tokens_len()), states])
}

#[test]
fn the_most_tokens(rt: HostRuntime) -> Result<(), Fail> {
    let found = tokens_and_states(rt.alloc(), 254)?;
    are_told(&rt, "tokens", &found, &[255, 3]);
    Ok(())
}

#[test]
fn closings_of_hidden_left_recursion(rt: HostRuntime) -> Result<(), Fail> {
    let (_built, closings) = counted(rt.alloc(), HIDDEN_LEFT_RECURSION)?;
    assert!(rt; closings == 10);
    Ok(())
}
