//! Grammars that have no table.

use crate::fixtures::one_long_body;
use crate::tables::sizes::sizes;
use lrgrammar::grammar::YaccGrammar;
use lrgrammar::idx::PIdx;
use lrtable::{BuildError, Minimiser, StateTableError, StateTableErrorKind, from_yacc};
use std::alloc::Global;
use std::test::Fail;

#[test]
fn the_most_states(rt: HostRuntime) -> Result<(), Fail> {
    let text = one_long_body(rt.alloc(), 251)?;
    let [states, _edges] = sizes::<u8>(rt.alloc(), text.as_str())?;
    assert!(rt; states == 253);
    Ok(())
}

/// Why the grammar of the text has no table, if it has none.
fn refusal(alloc: Global, text: &str) -> Result<Option<BuildError<u32>>, Fail> {
    let grm = YaccGrammar::<u32>::from_text(alloc, text)?;
    Ok(from_yacc(alloc, &grm, Minimiser::Pager).err())
}

/// Whether a body of that length has too many states for `u8` indices.
fn is_too_large(alloc: Global, length: usize) -> Result<bool, Fail> {
    let text = one_long_body(alloc, length)?;
    let grm = YaccGrammar::<u8>::from_text(alloc, text.as_str())?;
    let built = from_yacc(alloc, &grm, Minimiser::Pager);
    Ok(matches!(built, Err(BuildError::TooLarge)))
}

#[test]
fn too_many_states(rt: HostRuntime) -> Result<(), Fail> {
    for length in [252, 253, 254, 255] {
        assert!(rt; is_too_large(rt.alloc(), length)?, "{length}");
    }
    Ok(())
}

/// The least production by which a state reduces at the end of the text where one accepts, and the start production.
#[test]
fn accept_and_reduce(rt: HostRuntime) -> Result<(), Fail> {
    for (text, least, start) in [
        ("%% S: T | ; T: S | ;", 2, 4),
        ("%% D: D;", 0, 1),
        ("%% S: S | ;", 0, 2),
        ("%% S: S | S | ;", 0, 3),
    ] {
        let conflict = BuildError::Table(StateTableError {
            kind: StateTableErrorKind::AcceptReduceConflict(Some(PIdx(least))),
            pidx: PIdx(start),
        });
        assert!(rt; refusal(rt.alloc(), text)? == Some(conflict), "{text}");
    }
    Ok(())
}
