//! The grammars that calls are tried on.

/// A grammar, and lines of its tokens.
#[derive(Clone, Copy)]
pub struct Sample {
    /// What the arguments call it.
    pub name: &'static str,
    pub text: &'static str,
    /// The first line is a sentence, and the last one has an unknown word.
    pub lines: &'static str,
}

/// A shift and two reductions meet.
const SHIFT_AGAINST_TWO_REDUCTIONS: Sample = Sample {
    name: "shift-against-two-reductions",
    text: "%% A: 'a' 'b' | B 'b'; B: 'a' | C; C: 'a';",
    lines: "a b\na\n\nb c",
};

/// The grammars on which every call is tried, but for those for reasons.
pub const SAMPLES: [Sample; 6] = [
    Sample {
        name: "lr1-and-not-lalr1",
        text: "%% S: 'a' A 'd' | 'b' B 'd' | 'a' B 'e' | 'b' A 'e'; A: 'c'; B: 'c';",
        lines: "a c d\nb c d\na c\n\na x",
    },
    Sample {
        name: "a-collected-state",
        text: "%% S: 'a' A 'd' | 'a' B 'e' | 'b' K 'e' | 'f' 'g' K 'd'; K: 'k' A | 'k' B 'd'; \
            A: 'c' 'u'; B: 'c' 'v';",
        lines: "f g k c v d d\na c u d\na c v d\n\nk w",
    },
    SHIFT_AGAINST_TWO_REDUCTIONS,
    Sample {
        name: "four-precedences",
        text: "%right '=' %left '+' %left '*' %nonassoc '~' %% Expr : Expr '+' Expr \
            | Expr '*' Expr | Expr '=' Expr | Expr '~' Expr | 'id' ;",
        lines: "id + id * id\nid = id = id\nid ~ id ~ id\n\nid - id",
    },
    Sample {
        name: "closure-through-nullables",
        text: "%token a b c d f %% S: S 'b' | 'b' A 'a' | 'a'; A: 'a' S 'c' | 'a' | 'a' S 'b'; \
            B: A S; C: D A; D: 'd' | ; F: C D 'f';",
        lines: "b a a c a b\nb a b a a c a\nb a\n\ng",
    },
    Sample {
        name: "prec",
        text: "%left '+' '-' %left '*' %left U %% E: E '+' E | E '-' E | E '*' E \
            | '-' E %prec U | 'n';",
        lines: "- n * n - n\nn - - n\nn U n\n\nm",
    },
];

/// The grammars on which calls for the reasons of conflicts are tried.
pub const CONTESTED: [Sample; 3] = [
    Sample {
        name: "dangling-else",
        text: "%% S: 'if' S | 'if' S 'else' S | 'x';",
        lines: "if if x else x\nx\n\nthen",
    },
    Sample {
        name: "lr2-and-not-lr1",
        text: "%% S: A 'x' 'y' | B 'x' 'z'; A: 'a'; B: 'a';",
        lines: "a x y\na x z\n\nb",
    },
    SHIFT_AGAINST_TWO_REDUCTIONS,
];

/// The grammar of that name.
pub fn sample_named(name: &str) -> Option<Sample> {
    for samples in [SAMPLES.as_slice(), CONTESTED.as_slice()] {
        for sample in samples {
            if sample.name == name {
                return Some(*sample);
            }
        }
    }
    None
}
