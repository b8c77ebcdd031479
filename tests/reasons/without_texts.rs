//! Reasons for conflicts beside rules without texts.

use crate::fixtures::is_told;
use crate::reasons::printed::each;
use std::test::Fail;

/// `S` has no text, and so there is no input and no rest.
const NO_SENTENCE: (&str, &str) = (
    "%% S: S S | S 'c';",
    r#"   State 2: Shift("c") / Reduce(S: "S" "S")
      not known to be ambiguous
      reason: S S . 'c'
      input: none is found
      reduce:
         ^: . S
         S: . S 'c'
         S: S S .
      shift:
         ^: . S
         S: S . S
         S: S . 'c'
"#,
);

/// The same, where two reductions meet.
const NO_SENTENCE_BY_TWO_REDUCTIONS: (&str, &str) = (
    "%% S: S S | S S;",
    r#"   State 2 (lookahead $): Reduce(S: "S" "S") / Reduce(S: "S" "S")
      not known to be ambiguous
      reason: S S . '$'
      input: none is found
      reduce S:
         ^: . S
         S: S S .
      reduce S:
         ^: . S
         S: S S .
"#,
);

/// `N` comes before the conflict, and has no text.
const RULE_BEFORE: (&str, &str) = (
    "%% S: N E | 'x'; N: 'n' N; E: E '+' E | 'id';",
    r#"   State 9: Shift("+") / Reduce(E: "E" "+" "E")
      not known to be ambiguous
      reason: N E '+' E . '+'
      input: none is found
      reduce:
         ^: . S
         S: N . E
         E: . E '+' E
         E: E '+' E .
      shift:
         ^: . S
         S: N . E
         E: E '+' . E
         E: E . '+' E
"#,
);

/// `N` comes behind the token where that is shifted, so there is no rest then.
const RULE_BEHIND_A_SHIFT: (&str, &str) = (
    "%% S: A 'u' | 'a' 'u' N; A: 'a'; N: 'n' N;",
    r#"   State 2: Shift("u") / Reduce(A: "a")
      not known to be ambiguous
      reason: 'a' . 'u'
      reduce:
         ^: . S
         S: . A 'u'
         A: 'a' .
         then: 'u'
      shift:
         ^: . S
         S: 'a' . 'u' N
"#,
);

/// It comes behind the token where there is a reduction.
const RULE_BEHIND_A_REDUCTION: (&str, &str) = (
    "%% S: A 'u' N | 'a' 'u' 'v'; A: 'a'; N: 'n' N;",
    r#"   State 2: Shift("u") / Reduce(A: "a")
      not known to be ambiguous
      reason: 'a' . 'u'
      reduce:
         ^: . S
         S: . A 'u' N
         A: 'a' .
      shift:
         ^: . S
         S: 'a' . 'u' 'v'
         then: 'u' 'v'
"#,
);

/// It comes so behind one of two reductions.
const RULE_BEHIND_ONE_OF_TWO_REDUCTIONS: (&str, &str) = (
    "%% S: A 'u' | 'a' 'u' 'v' | B 'u' N; A: 'a'; B: 'a'; N: 'n' N;",
    r#"   State 2: Shift("u") / Reduce(A: "a")
      not known to be ambiguous
      reason: 'a' . 'u'
      reduce:
         ^: . S
         S: . A 'u'
         A: 'a' .
         then: 'u'
      shift:
         ^: . S
         S: 'a' . 'u' 'v'
         then: 'u' 'v'
   State 2 (lookahead u): Reduce(A: "a") / Reduce(B: "a")
      not known to be ambiguous
      reason: 'a' . 'u'
      reduce A:
         ^: . S
         S: . A 'u'
         A: 'a' .
         then: 'u'
      reduce B:
         ^: . S
         S: . B 'u' N
         B: 'a' .
"#,
);

/// It comes behind both reductions, and the token is its first.
const RULE_BEHIND_BOTH_REDUCTIONS: (&str, &str) = (
    "%% S: A N | B N; A: 'a'; B: 'a'; N: 'n' N;",
    r#"   State 3 (lookahead n): Reduce(A: "a") / Reduce(B: "a")
      not known to be ambiguous
      reason: 'a' . 'n'
      reduce A:
         ^: . S
         S: . A N
         A: 'a' .
      reduce B:
         ^: . S
         S: . B N
         B: 'a' .
"#,
);

/// `S` comes behind both candidates, and has no text.
const RULE_AROUND: (&str, &str) = (
    "%% S: 'b' B S; B: 'b' | 'b' B 'b';",
    r#"   State 4: Shift("b") / Reduce(B: "b")
      not known to be ambiguous
      reason: 'b' 'b' . 'b'
      reduce:
         ^: . S
         S: 'b' . B S
         B: 'b' .
      shift:
         ^: . S
         S: 'b' . B S
         B: 'b' . B 'b'
         B: . 'b'
"#,
);

/// `n` is listed too, but after no list do both reductions look at it.
const RULE_BEFORE_ANOTHER_TOKEN: (&str, &str) = (
    "%% S: 'a' A N | 'b' B N | 'b' A 'c' | 'a' B 'c' | 'a' A 'c'; A: N; B: N; N: 'n' N;",
    r#"   State 6 (lookahead c): Reduce(A: "N") / Reduce(B: "N")
      not known to be ambiguous
      reason: 'a' N . 'c'
      input: none is found
      reduce A:
         ^: . S
         S: 'a' . A 'c'
         A: N .
      reduce B:
         ^: . S
         S: 'a' . B 'c'
         B: N .
   State 6 (lookahead n): Reduce(A: "N") / Reduce(B: "N")
      not known to be ambiguous
      not real on 'n'
      reason: 'a' N . 'c'
      input: none is found
      reduce A:
         ^: . S
         S: 'a' . A 'c'
         A: N .
      reduce B:
         ^: . S
         S: 'a' . B 'c'
         B: N .
"#,
);

#[test]
fn rules_without_texts(rt: HostRuntime) -> Result<(), Fail> {
    for (grammar, wanted) in [
        NO_SENTENCE,
        NO_SENTENCE_BY_TWO_REDUCTIONS,
        RULE_BEFORE,
        RULE_BEHIND_A_SHIFT,
        RULE_BEHIND_A_REDUCTION,
        RULE_BEHIND_ONE_OF_TWO_REDUCTIONS,
        RULE_BEHIND_BOTH_REDUCTIONS,
        RULE_AROUND,
        RULE_BEFORE_ANOTHER_TOKEN,
    ] {
        let printed = each(rt.alloc(), grammar, 10_000)?;
        is_told(&rt, grammar, printed.as_str(), wanted);
    }
    Ok(())
}
