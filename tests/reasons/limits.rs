//! Searches of no steps, of one, and of as many as can be told; and grammars without conflicts.

use crate::fixtures::{MANY, is_told};
use crate::reasons::printed::{each, together};
use std::test::Fail;

/// An `else` goes with either `if`.
const DANGLING_ELSE: &str = "%% S: 'if' 'e' 'then' S | 'if' 'e' 'then' S 'else' S | 'x';";

/// Sums alone.
const SUMS: &str = "%% E: E '+' E | 'id';";

/// What is told of the dangling `else` where no text with two trees is found.
const NOT_FOUND: &str = r#"   State 6: Shift("else") / Reduce(S: "if" "e" "then" "S")
      not known to be ambiguous
      reason: 'if' 'e' 'then' 'if' 'e' 'then' S . 'else'
      input: 'if' 'e' 'then' 'if' 'e' 'then' 'x' . 'else'
      reduce:
         ^: . S
         S: 'if' 'e' 'then' . S 'else' S
         S: 'if' 'e' 'then' S .
         then: 'else' 'x'
      shift:
         ^: . S
         S: 'if' 'e' 'then' . S
         S: 'if' 'e' 'then' S . 'else' S
         then: 'else' 'x'
"#;

/// What is told of sums.
const FOUND: &str = r#"   State 4: Shift("+") / Reduce(E: "E" "+" "E")
      AMBIGUOUS E: E '+' E . '+' E
         reduce: E(E(E '+' E) . '+' E)
         shift: E(E '+' E(E . '+' E))
         sentence: 'id' '+' 'id' . '+' 'id'
"#;

#[test]
fn no_steps(rt: HostRuntime) -> Result<(), Fail> {
    for steps in [0, 1] {
        let printed = together(rt.alloc(), DANGLING_ELSE, steps)?;
        is_told(&rt, DANGLING_ELSE, printed.as_str(), NOT_FOUND);
        let printed = each(rt.alloc(), DANGLING_ELSE, steps)?;
        is_told(&rt, DANGLING_ELSE, printed.as_str(), NOT_FOUND);
    }
    Ok(())
}

#[test]
fn most_steps(rt: HostRuntime) -> Result<(), Fail> {
    let printed = together(rt.alloc(), SUMS, usize::MAX)?;
    is_told(&rt, SUMS, printed.as_str(), FOUND);
    Ok(())
}

#[test]
fn no_conflicts(rt: HostRuntime) -> Result<(), Fail> {
    let printed = each(rt.alloc(), MANY, 10)?;
    is_told(&rt, MANY, printed.as_str(), "");
    let printed = together(rt.alloc(), MANY, 10)?;
    is_told(&rt, MANY, printed.as_str(), "");
    Ok(())
}
