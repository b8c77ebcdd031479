//! Searches that end.

use crate::fixtures::{SUMS_AND_PRODUCTS, is_told};
use crate::forms::continued::continued;
use crate::forms::told::told;
use std::alloc::{AllocError, Global};
use std::test::Fail;

/// Sums of a rule whose shortest text is twice as long for each of so many rules.
fn long_texts(alloc: Global, rules: usize) -> Result<String, AllocError> {
    let mut text = String::from_str(alloc, "%% E: E '+' E | R0;")?;
    for number in 0..rules {
        let next = number.saturating_add(1);
        write!(text, " R{number}: R{next} R{next};")?;
    }
    write!(text, " R{rules}: 'x';")?;
    Ok(text)
}

#[test]
fn steps_run_out(rt: HostRuntime) -> Result<(), Fail> {
    let lines = told(&rt, rt.alloc(), SUMS_AND_PRODUCTS, 1)?;
    let wanted = "out of steps\nout of steps\nout of steps\nout of steps\n";
    is_told(&rt, "sums", lines.as_str(), wanted);
    Ok(())
}

/// A text that is too long counts as none.
#[test]
fn long_texts_are_left_out(rt: HostRuntime) -> Result<(), Fail> {
    let text = long_texts(rt.alloc(), 10)?;
    let lines = told(&rt, rt.alloc(), text.as_str(), 1000)?;
    assert!(rt; lines.as_str().starts_with(" E + E . + E"));
    let text = long_texts(rt.alloc(), 100)?;
    let lines = told(&rt, rt.alloc(), text.as_str(), 1000)?;
    assert!(rt; !lines.as_str().contains('/'), "{lines}");
    Ok(())
}

/// Nor is there a rest, but the items in which the candidate stands are told.
#[test]
fn long_rests_are_left_out(rt: HostRuntime) -> Result<(), Fail> {
    let text = long_texts(rt.alloc(), 100)?;
    let told = continued(&rt, rt.alloc(), text.as_str())?;
    let wanted = "after none\n  \
        ^: . E, E: . E + E, E: E + E ., then none\n  \
        ^: . E, E: E + . E, E: E . + E, then none\n";
    is_told(&rt, "long texts", told.as_str(), wanted);
    Ok(())
}
