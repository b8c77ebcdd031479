//! What the construction of the worked grammars takes.

use crate::fixtures::{
    A_COLLECTED_STATE, BRACKETS, GROWN_TWICE_AT_ONCE, HIDDEN_LEFT_RECURSION, LR1_AND_NOT_LALR1,
    MERGED_TWICE_BY_ONE_GOTO, NESTED_STATES_AND_A_TOKEN, PAGERS_EXAMPLE,
};
use lrgrammar::grammar::YaccGrammar;
use lrpager::pager::{BuildCounts, build};
use std::test::Fail;

#[test]
fn states_made_and_closed(rt: HostRuntime) -> Result<(), Fail> {
    for (text, states, made, closings) in [
        (PAGERS_EXAMPLE, 23, 23, 38),
        (LR1_AND_NOT_LALR1, 14, 14, 14),
        (A_COLLECTED_STATE, 21, 22, 29),
        (HIDDEN_LEFT_RECURSION, 7, 7, 10),
        (NESTED_STATES_AND_A_TOKEN, 10, 10, 13),
        // Once more that behind the bracket, which grows itself, and then those behind `A` and the other bracket.
        (BRACKETS, 7, 7, 10),
        // Once more that behind `k`.
        (GROWN_TWICE_AT_ONCE, 14, 14, 15),
        // Once more all but the start state and that behind `S` alone. That behind `a` grows twice, at first before it
        // is closed.
        (MERGED_TWICE_BY_ONE_GOTO, 7, 7, 12),
    ] {
        let grm = YaccGrammar::<u32>::from_text(rt.alloc(), text)?;
        let (graph, counts) = build(&grm)?;
        assert_eq!(rt; usize::from(graph.all_states_len()), states, "{text}");
        assert_eq!(rt; counts, BuildCounts { made, closings }, "{text}");
    }
    Ok(())
}
