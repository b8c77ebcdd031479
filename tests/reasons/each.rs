//! Reasons each by itself, with after what their conflicts are real.

use crate::fixtures::is_told;
use crate::reasons::printed::each;
use std::test::Fail;

/// An `else` goes with either `if`.
const DANGLING_ELSE: (&str, &str) = (
    "%% S: 'if' 'e' 'then' S | 'if' 'e' 'then' S 'else' S | 'x';",
    r#"   State 6: Shift("else") / Reduce(S: "if" "e" "then" "S")
      AMBIGUOUS S: 'if' 'e' 'then' 'if' 'e' 'then' S . 'else' S
         reduce: S('if' 'e' 'then' S('if' 'e' 'then' S) . 'else' S)
         shift: S('if' 'e' 'then' S('if' 'e' 'then' S . 'else' S))
         sentence: 'if' 'e' 'then' 'if' 'e' 'then' 'x' . 'else' 'x'
      reason: 'if' 'e' 'then' 'if' 'e' 'then' S . 'else'
      input: 'if' 'e' 'then' 'if' 'e' 'then' 'x' . 'else'
      reduce:
         ^: . S
         S: 'if' 'e' 'then' . S 'else' S
         S: 'if' 'e' 'then' S .
         then: 'else' 'x'
      shift:
         ^: . S
         S: 'if' 'e' 'then' . S
         S: 'if' 'e' 'then' S . 'else' S
         then: 'else' 'x'
"#,
);

/// One text, by either rule.
const TWO_REDUCTIONS: (&str, &str) = (
    "%% S: A 'c' | B 'c'; A: 'a'; B: 'a';",
    r#"   State 3 (lookahead c): Reduce(A: "a") / Reduce(B: "a")
      AMBIGUOUS S: 'a' . 'c'
         reduce A: S(A('a') . 'c')
         reduce B: S(B('a') . 'c')
         sentence: 'a' . 'c'
      reason: 'a' . 'c'
      reduce A:
         ^: . S
         S: . A 'c'
         A: 'a' .
         then: 'c'
      reduce B:
         ^: . S
         S: . B 'c'
         B: 'a' .
         then: 'c'
"#,
);

/// The same at the end of the text.
const AT_THE_END: (&str, &str) = (
    "%% S: A | B; A: 'a'; B: 'a';",
    r#"   State 3 (lookahead $): Reduce(A: "a") / Reduce(B: "a")
      AMBIGUOUS S: 'a' .
         reduce A: S(A('a')) .
         reduce B: S(B('a')) .
         sentence: 'a' .
      reason: 'a' . '$'
      reduce A:
         ^: . S
         S: . A
         A: 'a' .
         then:
      reduce B:
         ^: . S
         S: . B
         B: 'a' .
         then:
"#,
);

/// Behind `a` both look at `a`, but `B` never at `b`; behind `b` `A` never does. The states of both
/// are merged.
const ANOTHER_TOKEN: (&str, &str) = (
    "%% S: 'a' A 'a' | 'a' B 'a' | 'a' A 'b' | 'b' A 'a' | 'b' B 'a' | 'b' B 'b'; A: 'c'; B: 'c';",
    r#"   State 6 (lookahead a): Reduce(A: "c") / Reduce(B: "c")
      AMBIGUOUS S: 'a' 'c' . 'a'
         reduce A: S('a' A('c') . 'a')
         reduce B: S('a' B('c') . 'a')
         sentence: 'a' 'c' . 'a'
      reason: 'a' 'c' . 'a'
      reduce A:
         ^: . S
         S: 'a' . A 'a'
         A: 'c' .
         then: 'a'
      reduce B:
         ^: . S
         S: 'a' . B 'a'
         B: 'c' .
         then: 'a'
   State 6 (lookahead b): Reduce(A: "c") / Reduce(B: "c")
      not known to be ambiguous
      not real on 'b'
      reason: 'a' 'c' . 'a'
      reduce A:
         ^: . S
         S: 'a' . A 'a'
         A: 'c' .
         then: 'a'
      reduce B:
         ^: . S
         S: 'a' . B 'a'
         B: 'c' .
         then: 'a'
"#,
);

/// The first candidate contends with the others in no text, but they do with each other.
const THREE_CANDIDATES: (&str, &str) = (
    "%% S: A 'x' 'y' | B 'x' 'z' | C 'x' 'z'; A: 'a'; B: 'a'; C: 'a';",
    r#"   State 4 (lookahead x): Reduce(A: "a") / Reduce(B: "a")
      AMBIGUOUS S: 'a' . 'x' 'z'
         between: B: 'a' / C: 'a'
         reduce B: S(B('a') . 'x' 'z')
         reduce C: S(C('a') . 'x' 'z')
         sentence: 'a' . 'x' 'z'
      reason: 'a' . 'x'
      reduce A:
         ^: . S
         S: . A 'x' 'y'
         A: 'a' .
         then: 'x' 'y'
      reduce B:
         ^: . S
         S: . B 'x' 'z'
         B: 'a' .
         then: 'x' 'z'
   State 4 (lookahead x): Reduce(A: "a") / Reduce(C: "a")
      AMBIGUOUS S: 'a' . 'x' 'z'
         between: B: 'a' / C: 'a'
         reduce B: S(B('a') . 'x' 'z')
         reduce C: S(C('a') . 'x' 'z')
         sentence: 'a' . 'x' 'z'
      reason: 'a' . 'x'
      reduce A:
         ^: . S
         S: . A 'x' 'y'
         A: 'a' .
         then: 'x' 'y'
      reduce C:
         ^: . S
         S: . C 'x' 'z'
         C: 'a' .
         then: 'x' 'z'
"#,
);

/// State 12 is not reached by the list told for it, which leads to state 9: that has the same core.
const OWN_STATE_IS_NOT_ENOUGH: (&str, &str) = (
    "%% S: 'b' C 'c' | 'a' D | 'a' B 'a' | 'a' B 'c'; A:; B: 'd' B 'd' | 'd' D; C: B; D: 'd' | S;",
    r#"   State 9: Shift("a") / Reduce(D: "d")
      not known to be ambiguous
      reason: 'a' 'd' 'd' . 'a'
      reduce:
         ^: . S
         S: 'a' . B 'a'
         B: 'd' . D
         D: 'd' .
         then: 'a'
      shift:
         ^: . S
         S: 'a' . B 'a'
         B: 'd' . B 'd'
         B: 'd' . D
         D: . S
         S: . 'a' D
         then: 'a' 'd' 'd' 'a'
   State 9: Shift("d") / Reduce(D: "d")
      not known to be ambiguous
      reason: 'a' 'd' 'd' 'd' . 'd'
      reduce:
         ^: . S
         S: 'a' . B 'a'
         B: 'd' . B 'd'
         B: 'd' . D
         D: 'd' .
         then: 'd' 'a'
      shift:
         ^: . S
         S: 'a' . B 'a'
         B: 'd' . B 'd'
         B: 'd' . B 'd'
         B: 'd' . D
         D: . 'd'
         then: 'd' 'd' 'd' 'a'
   State 12: Shift("a") / Reduce(D: "d")
      not known to be ambiguous
      reason: 'a' 'd' 'd' . 'a'
      reduce:
         ^: . S
         S: 'a' . B 'a'
         B: 'd' . D
         D: 'd' .
         then: 'a'
      shift:
         ^: . S
         S: 'a' . B 'a'
         B: 'd' . B 'd'
         B: 'd' . D
         D: . S
         S: . 'a' D
         then: 'a' 'd' 'd' 'a'
"#,
);

/// A list is shown with 24 symbols on either side of a dot at the most.
const LONG_LISTS: (&str, &str) = (
    "%% S: 'a01' 'a02' 'a03' 'a04' 'a05' 'a06' 'a07' 'a08' 'a09' 'a10' 'a11' 'a12' 'a13' 'a14' \
        'a15' 'a16' 'a17' 'a18' 'a19' 'a20' 'a21' 'a22' 'a23' 'a24' 'a25' 'a26' 'a27' 'a28' 'a29' \
        'a30' I 'b01' 'b02' 'b03' 'b04' 'b05' 'b06' 'b07' 'b08' 'b09' 'b10' 'b11' 'b12' 'b13' \
        'b14' 'b15' 'b16' 'b17' 'b18' 'b19' 'b20' 'b21' 'b22' 'b23' 'b24' 'b25' 'b26' 'b27' 'b28' \
        'b29' 'b30'; I: 'if' I | 'if' I 'else' I | 'x';",
    r#"   State 36: Shift("else") / Reduce(I: "if" "I")
      AMBIGUOUS I: 'if' 'if' I . 'else' I
         reduce: I('if' I('if' I) . 'else' I)
         shift: I('if' I('if' I . 'else' I))
         sentence: ... 'a10' 'a11' 'a12' 'a13' 'a14' 'a15' 'a16' 'a17' 'a18'
                   'a19' 'a20' 'a21' 'a22' 'a23' 'a24' 'a25' 'a26' 'a27' 'a28'
                   'a29' 'a30' 'if' 'if' 'x' . 'else' 'x' 'b01' 'b02' 'b03'
                   'b04' 'b05' 'b06' 'b07' 'b08' 'b09' 'b10' 'b11' 'b12' 'b13'
                   'b14' 'b15' 'b16' 'b17' 'b18' 'b19' 'b20' 'b21' 'b22' ...
      reason: ... 'a10' 'a11' 'a12' 'a13' 'a14' 'a15' 'a16' 'a17' 'a18' 'a19'
              'a20' 'a21' 'a22' 'a23' 'a24' 'a25' 'a26' 'a27' 'a28' 'a29' 'a30'
              'if' 'if' I . 'else'
      input: ... 'a10' 'a11' 'a12' 'a13' 'a14' 'a15' 'a16' 'a17' 'a18' 'a19'
             'a20' 'a21' 'a22' 'a23' 'a24' 'a25' 'a26' 'a27' 'a28' 'a29' 'a30'
             'if' 'if' 'x' . 'else'
      reduce:
         ^: . S
         S: ... 'a07' 'a08' 'a09' 'a10' 'a11' 'a12' 'a13' 'a14' 'a15' 'a16'
            'a17' 'a18' 'a19' 'a20' 'a21' 'a22' 'a23' 'a24' 'a25' 'a26' 'a27'
            'a28' 'a29' 'a30' . I 'b01' 'b02' 'b03' 'b04' 'b05' 'b06' 'b07'
            'b08' 'b09' 'b10' 'b11' 'b12' 'b13' 'b14' 'b15' 'b16' 'b17' 'b18'
            'b19' 'b20' 'b21' 'b22' 'b23' ...
         I: 'if' . I 'else' I
         I: 'if' I .
         then: 'else' 'x' 'b01' 'b02' 'b03' 'b04' 'b05' 'b06' 'b07' 'b08' 'b09'
               'b10' 'b11' 'b12' 'b13' 'b14' 'b15' 'b16' 'b17' 'b18' 'b19' 'b20'
               'b21' 'b22' ...
      shift:
         ^: . S
         S: ... 'a07' 'a08' 'a09' 'a10' 'a11' 'a12' 'a13' 'a14' 'a15' 'a16'
            'a17' 'a18' 'a19' 'a20' 'a21' 'a22' 'a23' 'a24' 'a25' 'a26' 'a27'
            'a28' 'a29' 'a30' . I 'b01' 'b02' 'b03' 'b04' 'b05' 'b06' 'b07'
            'b08' 'b09' 'b10' 'b11' 'b12' 'b13' 'b14' 'b15' 'b16' 'b17' 'b18'
            'b19' 'b20' 'b21' 'b22' 'b23' ...
         I: 'if' . I
         I: 'if' I . 'else' I
         then: 'else' 'x' 'b01' 'b02' 'b03' 'b04' 'b05' 'b06' 'b07' 'b08' 'b09'
               'b10' 'b11' 'b12' 'b13' 'b14' 'b15' 'b16' 'b17' 'b18' 'b19' 'b20'
               'b21' 'b22' ...
"#,
);

#[test]
fn each_by_itself(rt: HostRuntime) -> Result<(), Fail> {
    for (grammar, wanted) in [
        DANGLING_ELSE,
        TWO_REDUCTIONS,
        AT_THE_END,
        ANOTHER_TOKEN,
        THREE_CANDIDATES,
        OWN_STATE_IS_NOT_ENOUGH,
        LONG_LISTS,
    ] {
        let printed = each(rt.alloc(), grammar, 10_000)?;
        is_told(&rt, grammar, printed.as_str(), wanted);
    }
    Ok(())
}
