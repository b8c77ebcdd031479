//! The texts of refusals.

use lrgrammar::idx::PIdx;
use lrgraphs::{BuildError, StateTableError, StateTableErrorKind};
use std::alloc::Global;
use std::process::Abort;
use std::test::Fail;

/// The refusal is told so.
fn tells(rt: &impl Abort, alloc: Global, error: BuildError<u8>, text: &str) -> Result<(), Fail> {
    let told = format!(in alloc; "{error}")?;
    assert_eq!(rt; told.as_str(), text);
    Ok(())
}

#[test]
fn texts_of_refused_graphs_and_tables(rt: HostRuntime) -> Result<(), Fail> {
    let conflict = StateTableError {
        kind: StateTableErrorKind::AcceptReduceConflict(Some(PIdx(2))),
        pidx: PIdx(4),
    };
    let told = format!(in rt.alloc(); "{conflict}")?;
    assert_eq!(rt; told.as_str(), "Accept/reduce conflict");
    tells(
        &rt,
        rt.alloc(),
        BuildError::Table(conflict),
        "Accept/reduce conflict",
    )?;
    tells(
        &rt,
        rt.alloc(),
        BuildError::TooLarge,
        "state graph too large for the index type",
    )?;
    tells(&rt, rt.alloc(), BuildError::Memory, "out of memory")
}
