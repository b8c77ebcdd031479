//! Numbers of states.

use lrgrammar::idx::IndexStorage;
use lrtable::StIdx;
use std::process::Abort;
use std::test::Fail;

/// Each conversion of the greatest state.
fn greatest<T: IndexStorage>(rt: &impl Abort, most: usize) -> Result<(), Fail> {
    let index = T::from_usize(most).ok_or("the greatest index")?;
    let state = StIdx(index);
    assert_eq!(rt; usize::from(state), most);
    assert_eq!(rt; u32::from(state) as usize, most);
    assert!(rt; state.as_storaget() == index);
    Ok(())
}

#[test]
fn greatest_states(rt: HostRuntime) -> Result<(), Fail> {
    greatest::<u8>(&rt, 255)?;
    greatest::<u16>(&rt, 65535)?;
    greatest::<u32>(&rt, 4294967295)
}
