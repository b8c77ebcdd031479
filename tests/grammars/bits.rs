//! Bit vectors.

use lrgrammar::vob::Vob;
use std::alloc::{AllocError, Global};
use std::process::Abort;
use std::test::Fail;

/// Two vectors of one length, and what is found of them.
struct Pair<'a> {
    len: usize,
    /// The places that are set in one of them, and a place that is not.
    one: &'a [usize],
    unset: usize,
    /// The places that are set in the other one.
    other: &'a [usize],
    /// Whether they are equal, and whether they meet; whether `one` is changed when `other` is joined to it, and when that
    /// is done again; and then whether they are equal, and whether they meet.
    relations: [bool; 6],
    /// Ranges by their bounds, and the places in each that are set in `one` in the end.
    ranges: &'a [((usize, usize), &'a [usize])],
}

/// Sets these places, which are not set yet.
fn set_places(rt: &impl Abort, bits: &mut Vob, places: &[usize]) {
    for place in places {
        assert!(rt; *place < bits.len(), "{place}");
        assert!(rt;
            bits.set(*place, true) && !bits.set(*place, true) && bits.get(*place),
            "{place}"
        );
    }
}

/// Joins the other to the one, and the relations of the two are these.
fn relate(rt: &impl Abort, one: &mut Vob, other: &Vob, wanted: [bool; 6]) {
    assert!(rt; one.len() == other.len());
    let found = [
        *one == *other,
        one.intersects(other),
        one.or(other),
        one.or(other),
        *one == *other,
        one.intersects(other),
    ];
    assert_eq!(rt; found, wanted, "{} bits", other.len());
}

/// The places that are set in the range are these.
fn are_set(
    rt: &impl Abort,
    alloc: Global,
    bits: &Vob,
    range: (usize, usize),
    places: &[usize],
) -> Result<(), AllocError> {
    assert!(rt; range.0 <= range.1 && range.1 <= bits.len());
    let found: Vec<usize> = bits.iter_set_bits(range.0..range.1).collect(alloc)?;
    assert!(rt; found.as_slice() == places, "{range:?}");
    Ok(())
}

/// The pair is as its row says.
fn is_found(rt: &impl Abort, alloc: Global, pair: &Pair<'_>) -> Result<(), AllocError> {
    let mut one = Vob::from_elem(alloc, false, pair.len)?;
    let mut other = one.clone()?;
    set_places(rt, &mut one, pair.one);
    set_places(rt, &mut other, pair.other);
    assert!(rt; one.len() == pair.len && pair.unset < one.len() && !one.get(pair.unset));
    relate(rt, &mut one, &other, pair.relations);
    for (range, places) in pair.ranges {
        are_set(rt, alloc, &one, *range, places)?;
    }
    Ok(())
}

/// The last two are of more bits than 16 bits count.
static PAIRS: [Pair<'static>; 6] = [
    Pair {
        len: 128,
        one: &[],
        unset: 64,
        other: &[],
        relations: [true, false, false, false, true, false],
        ranges: &[((0, 128), &[])],
    },
    Pair {
        len: 128,
        one: &[64],
        unset: 63,
        other: &[],
        relations: [false, false, false, false, false, false],
        ranges: &[((0, 128), &[64])],
    },
    Pair {
        len: 128,
        one: &[64],
        unset: 63,
        other: &[64],
        relations: [true, true, false, false, true, true],
        ranges: &[((0, 128), &[64])],
    },
    Pair {
        len: 128,
        one: &[59, 60, 63, 64, 69, 70],
        unset: 71,
        other: &[],
        relations: [false, false, false, false, false, false],
        ranges: &[((60, 70), &[60, 63, 64, 69])],
    },
    Pair {
        len: 65537,
        one: &[0, 65536],
        unset: 65535,
        other: &[64, 65535],
        relations: [false, false, true, false, false, true],
        ranges: &[
            ((0, 65537), &[0, 64, 65535, 65536]),
            ((65535, 65537), &[65535, 65536]),
        ],
    },
    Pair {
        len: 70000,
        one: &[0, 69999],
        unset: 69998,
        other: &[64, 69998],
        relations: [false, false, true, false, false, true],
        ranges: &[
            ((0, 70000), &[0, 64, 69998, 69999]),
            ((65535, 70000), &[69998, 69999]),
        ],
    },
];

#[test]
fn pairs_of_vectors(rt: HostRuntime) -> Result<(), Fail> {
    for pair in &PAIRS {
        is_found(&rt, rt.alloc(), pair)?;
    }
    Ok(())
}

/// Both ways to set all bits: at once, and by joining such as are all set, of which there are some or none.
fn set_all(rt: &impl Abort, bits: &mut Vob, ones: &Vob) {
    let some = ones.len() > 0;
    bits.set_all(true);
    relate(rt, bits, ones, [true, some, false, false, true, some]);
    bits.set_all(false);
    relate(rt, bits, ones, [!some, false, some, false, true, some]);
}

/// So many bits are set in both ways.
fn fill(rt: &impl Abort, alloc: Global, len: usize) -> Result<(), AllocError> {
    let ones = Vob::from_elem(alloc, true, len)?;
    let mut filled = Vob::from_elem(alloc, false, len)?;
    set_all(rt, &mut filled, &ones);
    let places: Vec<usize> = (0..len).collect(alloc)?;
    are_set(rt, alloc, &filled, (0, len), places.as_slice())
}

#[test]
fn vectors_of_each_length(rt: HostRuntime) -> Result<(), Fail> {
    for len in [0, 1, 63, 64, 65, 127, 128, 129, 65536, 65537, 70000] {
        fill(&rt, rt.alloc(), len)?;
    }
    Ok(())
}
