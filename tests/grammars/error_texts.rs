//! The texts of errors.

use lrgrammar::grammar::{GrammarError, TextError};
use std::alloc::{AllocError, Global};
use std::test::Fail;

/// Adds a line for each refusal of parts.
fn push_refusals_of_parts(told: &mut String) -> Result<(), AllocError> {
    for error in [
        GrammarError::TooManyRules,
        GrammarError::TooManyTokens,
        GrammarError::TooManyProductions,
        GrammarError::BodyTooLong,
        GrammarError::SymbolOutOfRange,
        GrammarError::EmptyRule,
        GrammarError::ReservedName,
        GrammarError::DuplicateName,
        GrammarError::MixedLevel,
        GrammarError::NoStart,
        GrammarError::Memory,
    ] {
        write!(told, "{error}\n")?;
    }
    Ok(())
}

/// Adds a line for each kind of refusal of a text; those that name a token or a rule name `x`.
fn push_refusals_of_texts(told: &mut String, alloc: Global) -> Result<(), AllocError> {
    let unknown = TextError::UnknownSymbol(String::from_str(alloc, "x")?);
    write!(told, "{unknown}\n")?;
    let twice = TextError::DuplicatePrecedence(String::from_str(alloc, "x")?);
    write!(told, "{twice}\n")?;
    let syntax = TextError::Syntax(17);
    let parts = TextError::Grammar(GrammarError::NoStart);
    let memory = TextError::Memory;
    write!(told, "{syntax}\n{parts}\n{memory}\n")
}

#[test]
fn texts_of_refusals(rt: HostRuntime) -> Result<(), Fail> {
    let mut told = String::new(rt.alloc());
    push_refusals_of_parts(&mut told)?;
    push_refusals_of_texts(&mut told, rt.alloc())?;
    assert_eq!(rt;
        told.as_str(),
        "too many rules\ntoo many tokens\ntoo many productions\nproduction too long\n\
        symbol out of range\nrule without production\nreserved rule name\nduplicate name\n\
        mixed precedence level\nno start rule\nout of memory\n\
        unknown symbol x\ntoken x has two precedences\nsyntax error at byte 17\nno start rule\n\
        out of memory\n"
    );
    Ok(())
}
