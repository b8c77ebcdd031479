//! Tables that are made without a graph, beside those that come with one.

use crate::fixtures::{
    ASSIGNMENTS, A_COLLECTED_STATE, BRACKETS, CONTESTED_ON_X_ALONE, EMPTY_RULE, FOUR_LEVELS, GROWN_TWICE_AT_ONCE,
    HIDDEN_LEFT_RECURSION, LR1_AND_NOT_LALR1, MERGED_TWICE_BY_ONE_GOTO, NEVER_ENDING, NO_SENTENCE,
    ONE_BODY_TWICE, PAGERS_EXAMPLE, RULE_WITHOUT_A_TREE, SHIFT_AND_TWO_REDUCTIONS,
    SUMS_AND_PRODUCTS, THREE_REDUCTIONS, TOLD_APART_LATE, UNARY_MINUS, collected_states,
    one_long_body,
};
use lrgrammar::grammar::YaccGrammar;
use lrgrammar::idx::{IndexStorage, RIdx};
use lrtable::{
    Minimiser, StIdx, StateTable, from_yacc_counted, from_yacc_if_contested, state_table,
};
use std::alloc::Global;
use std::process::Abort;
use std::test::Fail;

/// Whether both tables say the same of the state.
fn are_same_at<T: IndexStorage>(
    grm: &YaccGrammar<T>,
    one: &StateTable<T>,
    other: &StateTable<T>,
    state: StIdx<T>,
) -> bool {
    grm.iter_tidxs()
        .all(|tidx| one.action(state, tidx) == other.action(state, tidx))
        && (0..usize::from(grm.rules_len())).all(|rule| {
            let ridx = RIdx(T::from_usize(rule).unwrap());
            one.goto(state, ridx) == other.goto(state, ridx)
        })
        && one.core_reduces(state).eq(other.core_reduces(state))
        && one.reduce_only_state(state) == other.reduce_only_state(state)
}

/// The conflicts of the table as text.
fn conflicts<T: IndexStorage>(
    alloc: Global,
    grm: &YaccGrammar<T>,
    table: &StateTable<T>,
) -> Result<String, Fail> {
    match table.conflicts() {
        Some(conflicts) => Ok(conflicts.pp(grm)?),
        None => Ok(String::new(alloc)),
    }
}

/// The table without a graph is that which comes with one, and took as much; one of them is answered where the other is.
fn is_the_same<T: IndexStorage>(rt: &impl Abort, alloc: Global, text: &str) -> Result<(), Fail> {
    let grm = YaccGrammar::<T>::from_text(alloc, text)?;
    let alone = state_table(alloc, &grm, Minimiser::Pager);
    match (from_yacc_counted(alloc, &grm, Minimiser::Pager), alone) {
        (Ok((graph, table, counts)), Ok((alone, taken))) => {
            assert_eq!(rt; taken, counts, "{text}");
            for state in graph.iter_stidxs() {
                assert!(rt; are_same_at(&grm, &table, &alone, state), "{text}");
            }
            let wanted = conflicts(alloc, &grm, &table)?;
            let found = conflicts(alloc, &grm, &alone)?;
            assert_eq!(rt; found, wanted, "{text}");
        }
        (Err(wanted), Err(found)) => assert!(rt; found == wanted, "{text}"),
        _ => return Err(Fail::from("one answer")),
    }
    Ok(())
}

#[test]
fn of_worked_grammars(rt: HostRuntime) -> Result<(), Fail> {
    for text in [
        EMPTY_RULE,
        RULE_WITHOUT_A_TREE,
        NO_SENTENCE,
        LR1_AND_NOT_LALR1,
        CONTESTED_ON_X_ALONE,
        HIDDEN_LEFT_RECURSION,
        SHIFT_AND_TWO_REDUCTIONS,
        FOUR_LEVELS,
        SUMS_AND_PRODUCTS,
        UNARY_MINUS,
        THREE_REDUCTIONS,
        TOLD_APART_LATE,
        ONE_BODY_TWICE,
        A_COLLECTED_STATE,
        PAGERS_EXAMPLE,
        NEVER_ENDING,
        BRACKETS,
        GROWN_TWICE_AT_ONCE,
        MERGED_TWICE_BY_ONE_GOTO,
    ] {
        is_the_same::<u32>(&rt, rt.alloc(), text)?;
    }
    Ok(())
}

#[test]
fn of_grammars_without_a_table(rt: HostRuntime) -> Result<(), Fail> {
    for text in ["%% S: T | ; T: S | ;", "%% D: D;", "%% S: S | ;"] {
        is_the_same::<u32>(&rt, rt.alloc(), text)?;
    }
    Ok(())
}

/// 253 states may be left and 255 made for `u8` indices.
#[test]
fn of_as_many_states_as_there_may_be(rt: HostRuntime) -> Result<(), Fail> {
    for length in 250..255 {
        let text = one_long_body(rt.alloc(), length)?;
        is_the_same::<u8>(&rt, rt.alloc(), text.as_str())?;
    }
    for (copies, length) in [(3, 193), (2, 214), (3, 194)] {
        let text = collected_states(rt.alloc(), copies, length)?;
        is_the_same::<u8>(&rt, rt.alloc(), text.as_str())?;
    }
    Ok(())
}

/// There is a graph beside a table just where entries meet in a cell, whether or not precedences settle what is done.
#[test]
fn with_a_graph_where_entries_meet(rt: HostRuntime) -> Result<(), Fail> {
    for (text, meet) in [
        (EMPTY_RULE, false),
        (BRACKETS, false),
        (ASSIGNMENTS, false),
        (LR1_AND_NOT_LALR1, false),
        (A_COLLECTED_STATE, false),
        (GROWN_TWICE_AT_ONCE, false),
        (CONTESTED_ON_X_ALONE, true),
        (SHIFT_AND_TWO_REDUCTIONS, true),
        (ONE_BODY_TWICE, true),
        (SUMS_AND_PRODUCTS, true),
        (FOUR_LEVELS, true),
    ] {
        let grm = YaccGrammar::<u32>::from_text(rt.alloc(), text)?;
        let (graph, table, states) =
            from_yacc_if_contested(rt.alloc(), &grm, Minimiser::Pager)?;
        assert_eq!(&rt; graph.is_some(), meet, "{text}");
        let (whole, wanted, _) = from_yacc_counted(rt.alloc(), &grm, Minimiser::Pager)?;
        assert_eq!(&rt; states, usize::from(whole.all_states_len()), "{text}");
        for state in whole.iter_stidxs() {
            assert!(&rt; are_same_at(&grm, &wanted, &table, state), "{text}");
        }
    }
    Ok(())
}
