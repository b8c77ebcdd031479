//! How many states may be made for a table by `u8` indices, and how many may be left of them.

use crate::fixtures::collected_states;
use lrgrammar::grammar::YaccGrammar;
use lrgrammar::idx::IndexStorage;
use lrtable::{BuildCounts, BuildError, Minimiser, from_yacc, from_yacc_counted};
use std::alloc::Global;
use std::test::Fail;

/// The grammar of so many copies of the collected state and a body of that length.
fn copies_and_body(alloc: Global, copies: usize, length: usize) -> Result<YaccGrammar<u8>, Fail> {
    let text = collected_states(alloc, copies, length)?;
    Ok(YaccGrammar::from_text(alloc, text.as_str())?)
}

/// How many states the graph has, and what its construction took.
fn taken<T: IndexStorage>(
    alloc: Global,
    grm: &YaccGrammar<T>,
) -> Result<(usize, BuildCounts), BuildError<T>> {
    let (graph, _table, counts) = from_yacc_counted(alloc, grm, Minimiser::Pager)?;
    Ok((usize::from(graph.all_states_len()), counts))
}

/// Why there is no table, if there is none.
fn refusal<T: IndexStorage>(alloc: Global, grm: &YaccGrammar<T>) -> Option<BuildError<T>> {
    from_yacc(alloc, grm, Minimiser::Pager).err()
}

/// Up to 255 states may be made, and up to 253 be left. A copy makes 20 and leaves 19, and 7 of them are closed twice.
#[test]
fn the_most_states_made_and_left(rt: HostRuntime) -> Result<(), Fail> {
    for (copies, length, states, made, closings) in [
        (0, 251, 253, 253, 253),
        (1, 232, 253, 254, 261),
        (2, 213, 253, 255, 269),
        (3, 193, 252, 255, 276),
    ] {
        let grm = copies_and_body(rt.alloc(), copies, length)?;
        let found = taken(rt.alloc(), &grm)?;
        let wanted = (states, BuildCounts { made, closings });
        assert!(rt; found == wanted, "{copies} {length}: {found:?}");
    }
    Ok(())
}

/// 254 are left where no more, 255 or 256 are made, 255 are left and made, and 256 are made where 253 would be left.
#[test]
fn one_state_too_many(rt: HostRuntime) -> Result<(), Fail> {
    for (copies, length) in [(0, 252), (1, 233), (2, 214), (0, 253), (3, 194)] {
        let grm = copies_and_body(rt.alloc(), copies, length)?;
        let told = refusal(rt.alloc(), &grm);
        assert!(rt;
            told == Some(BuildError::TooLarge),
            "{copies} {length}: {told:?}"
        );
    }
    Ok(())
}
