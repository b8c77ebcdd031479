//! The most states that an index type can number: how many may be made, and how many may be left of them.

use crate::fixtures::{collected_states, one_long_body};
use crate::graphs::lookups::sizes_of;
use lrgrammar::grammar::YaccGrammar;
use lrgrammar::idx::IndexStorage;
use lrgraphs::BuildError;
use lrpager::pager::{BuildCounts, build};
use std::alloc::Global;
use std::process::Abort;
use std::test::Fail;

/// Each length gives so many states, all of which but the start state have an edge that leads to them.
fn has_states<T: IndexStorage>(
    rt: &impl Abort,
    alloc: Global,
    lengths: &[(usize, usize)],
) -> Result<(), Fail> {
    for (length, states) in lengths {
        let text = one_long_body(alloc, *length)?;
        let [found, edges] = sizes_of::<T>(alloc, text.as_str())?;
        assert_eq!(rt; found, *states, "{length}");
        assert_eq!(rt; Some(edges), states.checked_sub(1), "{length}");
    }
    Ok(())
}

/// Each length gives too many states.
fn is_too_large<T: IndexStorage>(
    rt: &impl Abort,
    alloc: Global,
    lengths: &[usize],
) -> Result<(), Fail> {
    for length in lengths {
        let text = one_long_body(alloc, *length)?;
        let grm = YaccGrammar::<T>::from_text(alloc, text.as_str())?;
        let refused = matches!(build(&grm), Err(BuildError::TooLarge));
        assert!(rt; refused, "{length}");
    }
    Ok(())
}

#[test]
fn one_long_body_by_bytes(rt: HostRuntime) -> Result<(), Fail> {
    has_states::<u8>(&rt, rt.alloc(), &[(0, 2), (251, 253), (252, 254)])?;
    is_too_large::<u8>(&rt, rt.alloc(), &[253, 254])
}

#[test]
fn one_long_body_by_words(rt: HostRuntime) -> Result<(), Fail> {
    has_states::<u16>(&rt, rt.alloc(), &[(254, 256), (65532, 65534)])?;
    is_too_large::<u16>(&rt, rt.alloc(), &[65533, 65534])?;
    has_states::<u32>(&rt, rt.alloc(), &[(65534, 65536)])
}

/// The grammar of so many copies of the collected state and a body of that length.
fn copies_and_body(alloc: Global, copies: usize, length: usize) -> Result<YaccGrammar<u8>, Fail> {
    let text = collected_states(alloc, copies, length)?;
    Ok(YaccGrammar::from_text(alloc, text.as_str())?)
}

/// How many states the graph has, and what its construction took.
fn taken(alloc: Global, copies: usize, length: usize) -> Result<(usize, BuildCounts), Fail> {
    let grm = copies_and_body(alloc, copies, length)?;
    let (graph, counts) = build(&grm)?;
    Ok((usize::from(graph.all_states_len()), counts))
}

/// Why there is no graph, if there is none.
fn refusal(alloc: Global, copies: usize, length: usize) -> Result<Option<BuildError<u8>>, Fail> {
    let grm = copies_and_body(alloc, copies, length)?;
    Ok(build(&grm).err())
}

/// Up to 255 states may be made, and up to 254 be left. A copy makes 20 and leaves 19, and 7 of them are closed twice.
#[test]
fn the_most_states_made_and_left(rt: HostRuntime) -> Result<(), Fail> {
    for (copies, length, states, made, closings) in [
        (0, 252, 254, 254, 254),
        (1, 232, 253, 254, 261),
        (1, 233, 254, 255, 262),
        (2, 213, 253, 255, 269),
        (3, 193, 252, 255, 276),
    ] {
        let found = taken(rt.alloc(), copies, length)?;
        let wanted = (states, BuildCounts { made, closings });
        assert!(rt; found == wanted, "{copies} {length}: {found:?}");
    }
    Ok(())
}

/// One too many is left where none too many is made, and one too many is made where 255, 254, or 253 would be left.
#[test]
fn one_state_too_many(rt: HostRuntime) -> Result<(), Fail> {
    for (copies, length) in [(0, 253), (1, 234), (2, 214), (3, 194)] {
        let told = refusal(rt.alloc(), copies, length)?;
        assert!(rt;
            told == Some(BuildError::TooLarge),
            "{copies} {length}: {told:?}"
        );
    }
    Ok(())
}
