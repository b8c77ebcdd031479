//! What a grammar says, told in lines.

use lrgrammar::firsts::YaccFirsts;
use lrgrammar::grammar::{AssocKind, Precedence, YaccGrammar};
use lrgrammar::idx::{IndexStorage, PIdx, RIdx, TIdx};
use lrtext::reader::read_parts;
use std::alloc::{AllocError, Global};
use std::process::Abort;
use std::test::Fail;

/// Adds a precedence, where there is one: its level and the first letter of its kind, as `+0L`.
fn push_precedence(told: &mut String, precedence: Option<Precedence>) -> Result<(), AllocError> {
    let Some(precedence) = precedence else {
        return Ok(());
    };
    let level = precedence.level;
    let kind = match precedence.kind {
        AssocKind::Left => 'L',
        AssocKind::Right => 'R',
        AssocKind::Nonassoc => 'N',
    };
    write!(told, "+{level}{kind}")
}

/// Adds `!` where some token has a precedence, and the names of the tokens with their precedences.
fn push_tokens<T: IndexStorage>(told: &mut String, grm: &YaccGrammar<T>) -> Result<(), AllocError> {
    if grm.has_precedences() {
        told.push('!')?;
    }
    for token in 0..usize::from(grm.tokens_len()) {
        let tidx = TIdx(T::from_usize(token).unwrap());
        told.push_str(grm.token_name(tidx).unwrap_or("$"))?;
        push_precedence(told, grm.token_precedence(tidx))?;
        told.push(' ')?;
    }
    Ok(())
}

/// Adds the texts of the productions with their precedences.
fn push_prods<T: IndexStorage>(told: &mut String, grm: &YaccGrammar<T>) -> Result<(), AllocError> {
    for prod in 0..usize::from(grm.prods_len()) {
        let pidx = PIdx(T::from_usize(prod).unwrap());
        told.push_str("; ")?;
        told.push_str(grm.pp_prod(pidx)?.as_str())?;
        push_precedence(told, grm.prod_precedence(pidx))?;
    }
    told.push('\n')
}

/// Adds the names of the tokens that begin the bodies of the rule, each behind a space.
fn push_firsts<T: IndexStorage>(
    told: &mut String,
    grm: &YaccGrammar<T>,
    firsts: &YaccFirsts<T>,
    ridx: RIdx<T>,
) -> Result<(), AllocError> {
    let bits = firsts.firsts(ridx);
    for token in 0..usize::from(grm.tokens_len()) {
        if bits.get(token) {
            let tidx = TIdx(T::from_usize(token).unwrap());
            told.push(' ')?;
            told.push_str(grm.token_name(tidx).unwrap_or("$"))?;
        }
    }
    Ok(())
}

/// Adds the numbers of the productions, each behind a space.
fn push_prods_of_rule<T: IndexStorage>(
    told: &mut String,
    prods: &[PIdx<T>],
) -> Result<(), AllocError> {
    for pidx in prods {
        let number = usize::from(*pidx);
        write!(told, " {number}")?;
    }
    Ok(())
}

/// Adds each rule: its name, `?` where it is nullable, the names of the tokens that begin its bodies, and behind a colon
/// the numbers of its productions.
fn push_rules_with<T: IndexStorage>(
    told: &mut String,
    grm: &YaccGrammar<T>,
    firsts: &YaccFirsts<T>,
) -> Result<(), AllocError> {
    for rule in 0..usize::from(grm.rules_len()) {
        let ridx = RIdx(T::from_usize(rule).unwrap());
        told.push_str(grm.rule_name_str(ridx))?;
        if firsts.is_epsilon_set(ridx) {
            told.push('?')?;
        }
        push_firsts(told, grm, firsts, ridx)?;
        told.push(':')?;
        push_prods_of_rule(told, grm.rule_to_prods(ridx))?;
        told.push(';')?;
    }
    told.push('\n')
}

/// Adds each rule, with the FIRST sets of the grammar.
pub fn push_rules<T: IndexStorage>(
    told: &mut String,
    grm: &YaccGrammar<T>,
) -> Result<(), AllocError> {
    let firsts = grm.firsts()?;
    push_rules_with(told, grm, &firsts)
}

/// Adds the rule of each production, how many symbols its body has, and how many of them there are.
fn push_bodies<T: IndexStorage>(told: &mut String, grm: &YaccGrammar<T>) -> Result<(), AllocError> {
    for prod in 0..usize::from(grm.prods_len()) {
        let pidx = PIdx(T::from_usize(prod).unwrap());
        let rule = usize::from(grm.prod_to_rule(pidx));
        let len = usize::from(grm.prod_len(pidx));
        let symbols = grm.prod(pidx).len();
        write!(told, "{rule} {len} {symbols};")?;
    }
    told.push('\n')
}

/// Adds how many rules, tokens and productions there are, the start production, the end token, and all tokens.
fn push_numbers<T: IndexStorage>(
    told: &mut String,
    grm: &YaccGrammar<T>,
) -> Result<(), AllocError> {
    let counts = [
        usize::from(grm.rules_len()),
        usize::from(grm.tokens_len()),
        usize::from(grm.prods_len()),
        usize::from(grm.start_prod()),
        usize::from(grm.eof_token_idx()),
    ];
    write!(told, "{counts:?}")?;
    for tidx in grm.iter_tidxs() {
        let number = usize::from(tidx);
        write!(told, " {number}")?;
    }
    told.push('\n')
}

/// Adds the rule and the token of each of these names.
fn push_look_ups<T: IndexStorage>(
    told: &mut String,
    grm: &YaccGrammar<T>,
    names: &str,
) -> Result<(), AllocError> {
    for name in names.split_whitespace() {
        let rule = grm.rule_idx(name).map(|r| usize::from(r));
        let token = grm.token_idx(name).map(|t| usize::from(t));
        write!(told, "{name} {rule:?} {token:?};")?;
    }
    told.push('\n')
}

/// Adds a line of the parts of the text.
fn push_parts(told: &mut String, alloc: Global, text: &str) -> Result<(), Fail> {
    let parts = read_parts(alloc, text).ok().ok_or("parts")?;
    write!(told, "{parts:?}\n")?;
    Ok(())
}

/// Adds all lines of the text and of its grammar.
fn push_lines<T: IndexStorage>(
    told: &mut String,
    alloc: Global,
    text: &str,
    grm: &YaccGrammar<T>,
) -> Result<(), Fail> {
    push_parts(told, alloc, text)?;
    push_tokens(told, grm)?;
    push_prods(told, grm)?;
    push_rules(told, grm)?;
    push_bodies(told, grm)?;
    push_numbers(told, grm)?;
    push_look_ups(told, grm, "^ S A c C")?;
    Ok(())
}

/// What is told of the text and of its grammar has that line.
pub fn tells<T: IndexStorage>(
    rt: &impl Abort,
    alloc: Global,
    text: &str,
    line: &str,
) -> Result<(), Fail> {
    let grm = YaccGrammar::<T>::from_text(alloc, text)?;
    let mut told = String::new(alloc);
    push_lines(&mut told, alloc, text, &grm)?;
    assert!(rt; told.lines().any(|it| it == line), "{line}\nin\n{told}");
    Ok(())
}
