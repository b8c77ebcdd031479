//! Index types.

use lrgrammar::idx::{IndexStorage, PIdx, RIdx, SIdx, Symbol, TIdx};
use std::process::Abort;
use std::test::Fail;

/// The greatest index: each conversion of it, and how each index stores it.
fn greatest<T: IndexStorage>(rt: &impl Abort, most: usize) -> Result<(), Fail> {
    let index = T::from_usize(most).ok_or("the greatest index")?;
    let (rule, prod, place, token) = (RIdx(index), PIdx(index), SIdx(index), TIdx(index));
    assert!(rt; T::from_usize(most + 1).is_none(), "{most}");
    let numbers = [
        T::MAX,
        index.to_usize(),
        usize::from(rule),
        usize::from(prod),
        usize::from(place),
        usize::from(token),
        u32::from(rule) as usize,
        u32::from(prod) as usize,
        u32::from(place) as usize,
        u32::from(token) as usize,
    ];
    assert_eq!(rt; numbers, [most; 10]);
    assert!(rt; rule.as_storaget() == index && prod.as_storaget() == index);
    assert!(rt; place.as_storaget() == index && token.as_storaget() == index);
    Ok(())
}

#[test]
fn greatest_indices(rt: HostRuntime) -> Result<(), Fail> {
    greatest::<u8>(&rt, 255)?;
    greatest::<u16>(&rt, 65535)?;
    greatest::<u32>(&rt, 4294967295)
}

#[test]
fn order_of_symbols(rt: HostRuntime) {
    for (less, more) in [
        (Symbol::Rule(RIdx(1u8)), Symbol::Rule(RIdx(2))),
        (Symbol::Rule(RIdx(2)), Symbol::Token(TIdx(1))),
        (Symbol::Token(TIdx(1)), Symbol::Token(TIdx(2))),
    ] {
        assert!(rt; less < more);
    }
}
