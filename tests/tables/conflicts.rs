//! The conflicts of the tables of the worked grammars.

use crate::fixtures::{
    A_COLLECTED_STATE, A_RULE_GONE_ON_WITH, AN_UNREACHED_RULE, CONTESTED_ON_X_ALONE, FOUR_LEVELS,
    HIDDEN_LEFT_RECURSION, LR1_AND_NOT_LALR1, NEVER_ENDING, NO_SENTENCE, NONASSOC, ONE_BODY_TWICE,
    PREC_WITHOUT_A_LEVEL, ROUND_WITHOUT_TOKENS, RULE_WITHOUT_A_TREE, SHIFT_AND_TWO_REDUCTIONS,
    SUMS_AND_PRODUCTS, SUMS_AND_PRODUCTS_WITH_LEVELS, SUMS_WITH_A_LEVEL, TERMS_AND_FACTORS,
    THREE_REDUCTIONS, TOLD_APART_LATE, UNARY_MINUS, UNARY_MINUS_WITHOUT_PREC, is_told,
};
use crate::tables::told::conflicts;
use lrgrammar::idx::IndexStorage;
use std::alloc::Global;
use std::process::Abort;
use std::test::Fail;

/// The table of the text has these conflicts.
fn has_conflicts<T: IndexStorage>(
    rt: &impl Abort,
    alloc: Global,
    text: &str,
    wanted: &str,
) -> Result<(), Fail> {
    let told = conflicts::<T>(alloc, text)?;
    is_told(rt, text, told.as_str(), wanted);
    Ok(())
}

#[test]
fn no_conflicts(rt: HostRuntime) -> Result<(), Fail> {
    for text in [
        LR1_AND_NOT_LALR1,
        TERMS_AND_FACTORS,
        RULE_WITHOUT_A_TREE,
        NONASSOC,
        NO_SENTENCE,
        FOUR_LEVELS,
        SUMS_AND_PRODUCTS_WITH_LEVELS,
        A_COLLECTED_STATE,
        NEVER_ENDING,
        UNARY_MINUS,
        UNARY_MINUS_WITHOUT_PREC,
    ] {
        has_conflicts::<u32>(&rt, rt.alloc(), text, "none")?;
    }
    Ok(())
}

/// Reduce/reduce conflicts by token, the production that the table takes, the other and the state; shift/reduce conflicts by token,
/// production and state.
#[test]
fn listed_conflicts(rt: HostRuntime) -> Result<(), Fail> {
    for (text, wanted) in [
        (CONTESTED_ON_X_ALONE, "3 (1,6,7,6) (2,6,7,6) (3,6,7,6), 0"),
        (HIDDEN_LEFT_RECURSION, "2 (1,2,3,0) (1,2,3,1), 0"),
        (A_RULE_GONE_ON_WITH, "2 (0,2,3,3) (0,4,5,4), 0"),
        (AN_UNREACHED_RULE, "1 (1,3,4,3), 0"),
        (TOLD_APART_LATE, "1 (0,2,3,3), 0"),
        (ONE_BODY_TWICE, "1 (1,0,1,1), 0"),
        (ROUND_WITHOUT_TOKENS, "1 (0,0,3,1), 0"),
        (
            THREE_REDUCTIONS,
            "4 (0,6,7,4) (1,6,7,4) (0,6,8,4) (1,6,8,4), 0",
        ),
        (SUMS_AND_PRODUCTS, "0, 4 (0,0,5) (1,0,5) (0,1,6) (1,1,6)"),
        (SUMS_WITH_A_LEVEL, "0, 3 (1,0,5) (0,1,6) (1,1,6)"),
        (PREC_WITHOUT_A_LEVEL, "0, 1 (1,1,5)"),
    ] {
        has_conflicts::<u32>(&rt, rt.alloc(), text, wanted)?;
    }
    Ok(())
}

#[test]
fn conflicts_of_both_kinds(rt: HostRuntime) -> Result<(), Fail> {
    let wanted = "1 (1,2,4,1), 1 (1,2,1)";
    has_conflicts::<u8>(&rt, rt.alloc(), SHIFT_AND_TWO_REDUCTIONS, wanted)?;
    has_conflicts::<u32>(&rt, rt.alloc(), SHIFT_AND_TWO_REDUCTIONS, wanted)
}
