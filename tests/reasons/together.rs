//! Reasons as an author reads them: what is alike is told once.

use crate::fixtures::is_told;
use crate::reasons::printed::together;
use std::test::Fail;

/// At two tokens the same meets in one state.
const OPERATORS: (&str, &str) = (
    "%% E: E '+' E | E '*' E | '-' E | 'id';",
    r#"   State 6: Shift("+") / Reduce(E: "-" "E")
      AMBIGUOUS E: '-' E . '+' E
         reduce: E(E('-' E) . '+' E)
         shift: E('-' E(E . '+' E))
         sentence: '-' 'id' . '+' 'id'
      likewise on '*'
   State 7: Shift("+") / Reduce(E: "E" "+" "E")
      AMBIGUOUS E: E '+' E . '+' E
         reduce: E(E(E '+' E) . '+' E)
         shift: E(E '+' E(E . '+' E))
         sentence: 'id' '+' 'id' . '+' 'id'
      likewise on '*'
   State 8: Shift("+") / Reduce(E: "E" "*" "E")
      AMBIGUOUS E: E '*' E . '+' E
         reduce: E(E(E '*' E) . '+' E)
         shift: E(E '*' E(E . '+' E))
         sentence: 'id' '*' 'id' . '+' 'id'
      likewise on '*'
"#,
);

/// What a precedence settles is no conflict.
const PRECEDENCES: (&str, &str) = (
    "%left '+' %% E: E '+' E | E '*' E | '-' E | 'id';",
    r#"   State 6: Shift("+") / Reduce(E: "-" "E")
      AMBIGUOUS E: '-' E . '+' E
         reduce: E(E('-' E) . '+' E)
         shift: E('-' E(E . '+' E))
         sentence: '-' 'id' . '+' 'id'
      likewise on '*'
   State 7: Shift("*") / Reduce(E: "E" "+" "E")
      AMBIGUOUS E: E '+' E . '*' E
         reduce: E(E(E '+' E) . '*' E)
         shift: E(E '+' E(E . '*' E))
         sentence: 'id' '+' 'id' . '*' 'id'
   State 8: Shift("+") / Reduce(E: "E" "*" "E")
      AMBIGUOUS E: E '*' E . '+' E
         reduce: E(E(E '*' E) . '+' E)
         shift: E(E '*' E(E . '+' E))
         sentence: 'id' '*' 'id' . '+' 'id'
      likewise on '*'
"#,
);

/// The part of jq's grammar that has `try`.
const TRY: (&str, &str) = (
    "%% TopLevel: 'module' Exp ';'; Exp: 'try' Exp | Exp '=' Exp | Exp '|' Exp | '.';",
    r#"   State 9: Shift("=") / Reduce(Exp: "try" "Exp")
      AMBIGUOUS Exp: 'try' Exp . '=' Exp
         reduce: Exp(Exp('try' Exp) . '=' Exp)
         shift: Exp('try' Exp(Exp . '=' Exp))
         sentence: 'module' 'try' '.' . '=' '.' ';'
      likewise on '|'
   State 10: Shift("=") / Reduce(Exp: "Exp" "=" "Exp")
      AMBIGUOUS Exp: Exp '=' Exp . '=' Exp
         reduce: Exp(Exp(Exp '=' Exp) . '=' Exp)
         shift: Exp(Exp '=' Exp(Exp . '=' Exp))
         sentence: 'module' '.' '=' '.' . '=' '.' ';'
      likewise on '|'
   State 11: Shift("=") / Reduce(Exp: "Exp" "|" "Exp")
      AMBIGUOUS Exp: Exp '|' Exp . '=' Exp
         reduce: Exp(Exp(Exp '|' Exp) . '=' Exp)
         shift: Exp(Exp '|' Exp(Exp . '=' Exp))
         sentence: 'module' '.' '|' '.' . '=' '.' ';'
      likewise on '|'
"#,
);

/// Lines are no longer than 80 characters.
const LONG_LINES: (&str, &str) = (
    "%% simple_list: simple_list1 'CH_NL'; simple_list1: simple_list1 'AND_AND' newline_list \
        simple_list1 | simple_list1 '&' simple_list1 | 'WORD'; newline_list: | newline_list \
        'CH_NL';",
    r#"   State 8: Shift("AND_AND") / Reduce(simple_list1: "simple_list1" "&" "simple_list1")
      AMBIGUOUS simple_list1: simple_list1 '&' simple_list1 . 'AND_AND'
                              newline_list simple_list1
         reduce: simple_list1(simple_list1(simple_list1 '&' simple_list1) .
                 'AND_AND' newline_list simple_list1)
         shift: simple_list1(simple_list1 '&' simple_list1(simple_list1 .
                'AND_AND' newline_list simple_list1))
         sentence: 'WORD' '&' 'WORD' . 'AND_AND' 'WORD' 'CH_NL'
      likewise on '&'
   State 9: Shift("AND_AND") / Reduce(simple_list1: "simple_list1" "AND_AND" "newline_list" "simple_list1")
      AMBIGUOUS simple_list1: simple_list1 'AND_AND' newline_list simple_list1 .
                              'AND_AND' newline_list simple_list1
         reduce: simple_list1(simple_list1(simple_list1 'AND_AND' newline_list
                 simple_list1) . 'AND_AND' newline_list simple_list1)
         shift: simple_list1(simple_list1 'AND_AND' newline_list
                simple_list1(simple_list1 . 'AND_AND' newline_list
                simple_list1))
         sentence: 'WORD' 'AND_AND' 'WORD' . 'AND_AND' 'WORD' 'CH_NL'
      likewise on '&'
"#,
);

/// Of the three tokens at which the same meets, two have a text.
const SOME_TOKENS: (&str, &str) = (
    "%% S: A | C 'a'; A: 'a' A B | 'b' 'c' B | 'b' 'c'; B: 'c' | S; C: 'a' C A;",
    r#"   State 9: Shift("a") / Reduce(A: "b" "c")
      AMBIGUOUS A: 'a' 'b' 'c' . 'a' 'b' 'c' B B
         reduce: A('a' A('b' 'c') B(S(A(. 'a' A('b' 'c' B) B))))
         shift: A('a' A('b' 'c' B(S(A(. 'a' A('b' 'c') B)))) B)
         sentence: 'a' 'b' 'c' . 'a' 'b' 'c' 'c' 'c'
      likewise on 'b'
   State 9: Shift("c") / Reduce(A: "b" "c")
      not known to be ambiguous
      reason: 'a' 'b' 'c' . 'c'
      reduce:
         ^: . S
         S: . A
         A: 'a' . A B
         A: 'b' 'c' .
         then: 'c'
      shift:
         ^: . S
         S: . A
         A: 'a' . A B
         A: 'b' 'c' . B
         B: . 'c'
         then: 'c' 'c'
"#,
);

/// So it is with two reductions; at the third token they are real after no list.
const SOME_TOKENS_OF_TWO_REDUCTIONS: (&str, &str) = (
    "%% S: 'a' B 'c' | 'b' A 'c' | 'b' B 'b' | 'a' B 'a' | 'b' A 'b' | 'a' A 'a'; A: 'c' 'c'; B: \
        'c' 'c';",
    r#"   State 12 (lookahead a): Reduce(A: "c" "c") / Reduce(B: "c" "c")
      AMBIGUOUS S: 'a' 'c' 'c' . 'a'
         reduce A: S('a' A('c' 'c') . 'a')
         reduce B: S('a' B('c' 'c') . 'a')
         sentence: 'a' 'c' 'c' . 'a'
      likewise on 'b'
   State 12 (lookahead c): Reduce(A: "c" "c") / Reduce(B: "c" "c")
      not known to be ambiguous
      not real on 'c'
      reason: 'a' 'c' 'c' . 'a'
      reduce A:
         ^: . S
         S: 'a' . A 'a'
         A: 'c' 'c' .
         then: 'a'
      reduce B:
         ^: . S
         S: 'a' . B 'a'
         B: 'c' 'c' .
         then: 'a'
"#,
);

#[test]
fn alike_together(rt: HostRuntime) -> Result<(), Fail> {
    for (grammar, wanted) in [
        OPERATORS,
        PRECEDENCES,
        TRY,
        LONG_LINES,
        SOME_TOKENS,
        SOME_TOKENS_OF_TWO_REDUCTIONS,
    ] {
        let printed = together(rt.alloc(), grammar, 10_000)?;
        is_told(&rt, grammar, printed.as_str(), wanted);
    }
    Ok(())
}
