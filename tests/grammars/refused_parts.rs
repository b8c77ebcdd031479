//! Parts that are refused, and parts at the limits, which are not.

use lrgrammar::grammar::{
    AssocKind, GrammarError, GrammarParts, PartProd, PartSymbol, PartToken, Precedence, YaccGrammar,
};
use std::alloc::{AllocError, Global};
use std::process::Abort;
use std::test::Fail;

/// Parts in short.
#[derive(Clone, Copy)]
struct Sketch<'a> {
    /// The names of the rules, each of which has an empty production, but for the last one where that is bare.
    rules: &'a str,
    is_last_bare: bool,
    start: usize,
    /// The names of the tokens, and the precedences of the first ones; the others have none.
    tokens: &'a str,
    precedences: &'a [Precedence],
    /// How many productions of rule 0 there are besides, each with the body of one symbol, so many times, and the token
    /// that it names for its precedence.
    prods: usize,
    symbol: PartSymbol,
    times: usize,
    named: Option<usize>,
}

/// One rule with an empty production.
const ONE_RULE: Sketch<'static> = Sketch {
    rules: "S",
    is_last_bare: false,
    start: 0,
    tokens: "",
    precedences: &[],
    prods: 0,
    symbol: PartSymbol::Rule(0),
    times: 0,
    named: None,
};

/// Adds the rules, each with an empty production.
fn push_rules(alloc: Global, parts: &mut GrammarParts, names: &str) -> Result<(), AllocError> {
    for (rule, name) in names.split_whitespace().enumerate() {
        parts.rules.push(String::from_str(alloc, name)?)?;
        parts.prods.push(PartProd {
            rule,
            symbols: Vec::new(alloc),
            precedence: None,
        })?;
    }
    Ok(())
}

/// Adds the tokens.
fn push_tokens(
    alloc: Global,
    parts: &mut GrammarParts,
    sketch: &Sketch<'_>,
) -> Result<(), AllocError> {
    for (place, name) in sketch.tokens.split_whitespace().enumerate() {
        let name = String::from_str(alloc, name)?;
        let precedence = sketch.precedences.get(place).copied();
        parts.tokens.push(PartToken { name, precedence })?;
    }
    Ok(())
}

/// Adds the productions that rule 0 has besides.
fn push_prods(
    alloc: Global,
    parts: &mut GrammarParts,
    sketch: &Sketch<'_>,
) -> Result<(), AllocError> {
    for _ in 0..sketch.prods {
        parts.prods.push(PartProd {
            rule: 0,
            symbols: vec![in alloc; sketch.symbol; sketch.times]?,
            precedence: sketch.named,
        })?;
    }
    Ok(())
}

/// With `u8` indices the parts are refused with that error, or make a grammar.
fn is_refused(
    rt: &impl Abort,
    alloc: Global,
    sketch: &Sketch<'_>,
    wanted: Option<GrammarError>,
) -> Result<(), AllocError> {
    let mut parts = GrammarParts {
        rules: Vec::new(alloc),
        tokens: Vec::new(alloc),
        prods: Vec::new(alloc),
        start: sketch.start,
    };
    push_rules(alloc, &mut parts, sketch.rules)?;
    if sketch.is_last_bare {
        let _ = parts.prods.pop();
    }
    push_tokens(alloc, &mut parts, sketch)?;
    push_prods(alloc, &mut parts, sketch)?;
    let found = YaccGrammar::<u8>::from_parts(alloc, &parts).err();
    assert_eq!(rt; found, wanted, "{}, {}", sketch.rules, sketch.tokens);
    Ok(())
}

/// Two kinds of one level.
const LEFT_AND_RIGHT: [Precedence; 2] = [
    Precedence {
        level: 0,
        kind: AssocKind::Left,
    },
    Precedence {
        level: 0,
        kind: AssocKind::Right,
    },
];

/// Parts, and why they are refused, or None where they make a grammar.
static PARTS: [(Sketch<'static>, Option<GrammarError>); 16] = [
    (
        Sketch {
            prods: 1,
            symbol: PartSymbol::Rule(0),
            times: 255,
            ..ONE_RULE
        },
        None,
    ),
    (
        Sketch {
            prods: 1,
            symbol: PartSymbol::Rule(0),
            times: 256,
            ..ONE_RULE
        },
        Some(GrammarError::BodyTooLong),
    ),
    (
        Sketch {
            prods: 1,
            symbol: PartSymbol::Rule(1),
            times: 256,
            ..ONE_RULE
        },
        Some(GrammarError::BodyTooLong),
    ),
    (
        Sketch {
            prods: 1,
            symbol: PartSymbol::Rule(1),
            times: 1,
            ..ONE_RULE
        },
        Some(GrammarError::SymbolOutOfRange),
    ),
    (
        Sketch {
            prods: 1,
            symbol: PartSymbol::Token(0),
            times: 1,
            ..ONE_RULE
        },
        Some(GrammarError::SymbolOutOfRange),
    ),
    (
        Sketch {
            tokens: "a b",
            prods: 1,
            times: 1,
            named: Some(1),
            ..ONE_RULE
        },
        None,
    ),
    (
        Sketch {
            tokens: "a b",
            prods: 1,
            times: 1,
            named: Some(2),
            ..ONE_RULE
        },
        Some(GrammarError::SymbolOutOfRange),
    ),
    (
        Sketch {
            tokens: "a b",
            prods: 1,
            times: 1,
            named: Some(255),
            ..ONE_RULE
        },
        Some(GrammarError::SymbolOutOfRange),
    ),
    (
        Sketch {
            tokens: "a b",
            prods: 1,
            times: 1,
            named: Some(usize::MAX),
            ..ONE_RULE
        },
        Some(GrammarError::SymbolOutOfRange),
    ),
    (
        Sketch {
            rules: "S A",
            start: 1,
            tokens: "S A",
            ..ONE_RULE
        },
        None,
    ),
    (
        Sketch {
            rules: "S ^ S",
            start: 0,
            tokens: "",
            ..ONE_RULE
        },
        Some(GrammarError::ReservedName),
    ),
    (
        Sketch {
            rules: "S A S",
            start: 3,
            tokens: "",
            ..ONE_RULE
        },
        Some(GrammarError::DuplicateName),
    ),
    (
        Sketch {
            rules: "S",
            start: 1,
            tokens: "a b a",
            ..ONE_RULE
        },
        Some(GrammarError::DuplicateName),
    ),
    (
        Sketch {
            rules: "S",
            start: 1,
            tokens: "a ^",
            ..ONE_RULE
        },
        Some(GrammarError::NoStart),
    ),
    (
        Sketch {
            rules: "S ^",
            is_last_bare: true,
            ..ONE_RULE
        },
        Some(GrammarError::EmptyRule),
    ),
    (
        Sketch {
            tokens: "a b",
            precedences: &LEFT_AND_RIGHT,
            ..ONE_RULE
        },
        Some(GrammarError::MixedLevel),
    ),
];

#[test]
fn unfit_parts(rt: HostRuntime) -> Result<(), Fail> {
    for (sketch, wanted) in &PARTS {
        is_refused(&rt, rt.alloc(), sketch, *wanted)?;
    }
    Ok(())
}

/// So many names: `n0 n1 n2`.
fn numbered_names(alloc: Global, count: usize) -> Result<String, AllocError> {
    let mut names = String::new(alloc);
    for number in 0..count {
        write!(names, "n{number} ")?;
    }
    Ok(names)
}

/// The greatest numbers of rules, tokens and productions make a grammar, and one more is refused.
#[test]
fn too_many_parts(rt: HostRuntime) -> Result<(), Fail> {
    let most = numbered_names(rt.alloc(), 254)?;
    let more = numbered_names(rt.alloc(), 255)?;
    for (rules, tokens, prods, wanted) in [
        (most.as_str(), "", 0, None),
        (
            more.as_str(),
            more.as_str(),
            0,
            Some(GrammarError::TooManyRules),
        ),
        ("n0", most.as_str(), 0, None),
        ("n0", more.as_str(), 255, Some(GrammarError::TooManyTokens)),
        ("n0", "", 253, None),
        ("n0", "", 254, Some(GrammarError::TooManyProductions)),
    ] {
        let sketch = Sketch {
            rules,
            tokens,
            prods,
            ..ONE_RULE
        };
        is_refused(&rt, rt.alloc(), &sketch, wanted)?;
    }
    Ok(())
}
