//! What is found at the conflicts of small grammars.

use crate::fixtures::{
    A_RULE_GONE_ON_WITH, HIDDEN_LEFT_RECURSION, ONE_BODY_TWICE, ROUND_WITHOUT_TOKENS,
    SHIFT_AND_TWO_REDUCTIONS, SUMS_AND_PRODUCTS, THREE_REDUCTIONS, TOLD_APART_LATE, is_told,
};
use crate::forms::told::told;
use std::test::Fail;

/// An `else` goes with either `if`.
const DANGLING_ELSE: &str = "%% S: 'if' 'e' S | 'if' 'e' S 'else' S | 'x';";

/// A minus in front of a sum.
const MINUS_IN_FRONT: &str = "%% E: E '+' E | '-' E | 'n';";

/// Two empty rules at the end of the text.
const EMPTY_AT_THE_END: &str = "%% S: A | B; A: 'a' C; B: 'a' D; C: ; D: ;";

/// The conflict's token begins a rule, behind a nullable one.
const BEHIND_A_NULLABLE: &str = "%% S: A B | 'a' 'b'; A: 'a' | 'a' C; B: C 'b'; C: ;";

#[test]
fn forms_of_small_grammars(rt: HostRuntime) -> Result<(), Fail> {
    for (text, wanted) in [
        (
            DANGLING_ELSE,
            " if e if e S . else S / if e if e x . else x\n",
        ),
        (
            MINUS_IN_FRONT,
            " - E . + E / - n . + n\n E + E . + E / n + n . + n\n",
        ),
        (ONE_BODY_TWICE, " a . / a .\n"),
        (EMPTY_AT_THE_END, " a . / a .\n"),
        (TOLD_APART_LATE, "emptied\n"),
    ] {
        let lines = told(&rt, rt.alloc(), text, 1000)?;
        is_told(&rt, text, lines.as_str(), wanted);
    }
    Ok(())
}

#[test]
fn forms_are_replayed(rt: HostRuntime) -> Result<(), Fail> {
    for (text, count) in [
        (SUMS_AND_PRODUCTS, 4),
        (HIDDEN_LEFT_RECURSION, 0),
        (SHIFT_AND_TWO_REDUCTIONS, 2),
        (A_RULE_GONE_ON_WITH, 0),
        (THREE_REDUCTIONS, 4),
        (ROUND_WITHOUT_TOKENS, 1),
        (BEHIND_A_NULLABLE, 2),
    ] {
        let lines = told(&rt, rt.alloc(), text, 1000)?;
        let found = lines
            .as_str()
            .lines()
            .filter(|line| line.contains('/'))
            .count();
        assert_eq!(rt; found, count, "{text}: {lines}");
    }
    Ok(())
}
