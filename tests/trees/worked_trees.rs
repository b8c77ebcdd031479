//! Texts, and the texts of their trees.

use crate::fixtures::{
    EMPTY_RULE, HIDDEN_LEFT_RECURSION, RULE_WITHOUT_A_TREE, SUMS_AND_PRODUCTS_WITH_LEVELS,
    TERMS_AND_FACTORS, grammar_and_table, tokens,
};
use lrgrammar::grammar::YaccGrammar;
use lrgrammar::idx::IndexStorage;
use lrtable::StateTable;
use lrtree::{Parsed, parse};
use std::alloc::Global;
use std::test::Fail;

/// The text of the tree that the table gives the words in at most so many steps, or why there is none.
fn told_by<T: IndexStorage>(
    alloc: Global,
    grm: &YaccGrammar<T>,
    table: &StateTable<T>,
    words: &str,
    steps: usize,
) -> Result<String, Fail> {
    let text = tokens(grm, words)?;
    match parse(alloc, grm, table, &text, steps)? {
        Parsed::Tree(tree) => Ok(tree.pp(grm)?),
        Parsed::Rejected => Ok(String::from_str(alloc, "rejected")?),
        Parsed::Unfinished => Ok(String::from_str(alloc, "unfinished")?),
    }
}

/// The same by the table of the grammar.
fn told<T: IndexStorage>(
    alloc: Global,
    grammar: &str,
    words: &str,
    steps: usize,
) -> Result<String, Fail> {
    let (grm, table) = grammar_and_table::<T>(alloc, grammar)?;
    told_by(alloc, &grm, &table, words, steps)
}

#[test]
fn by_bytes(rt: HostRuntime) -> Result<(), Fail> {
    for (grammar, words, steps, wanted) in [
        (TERMS_AND_FACTORS, "id", 5, "Expr.1(Term.1(Factor.0('id')))"),
        (TERMS_AND_FACTORS, "id", 4, "unfinished"),
        (TERMS_AND_FACTORS, "- id", 100, "rejected"),
        (EMPTY_RULE, "", 100, "S.0()"),
        (RULE_WITHOUT_A_TREE, "c", 100, "S.1('c')"),
    ] {
        let found = told::<u8>(rt.alloc(), grammar, words, steps)?;
        assert_eq!(rt; found.as_str(), wanted, "{words}");
    }
    Ok(())
}

#[test]
fn by_four_bytes(rt: HostRuntime) -> Result<(), Fail> {
    for (grammar, words, wanted) in [
        (
            SUMS_AND_PRODUCTS_WITH_LEVELS,
            "id + id * id",
            "Expr.0(Expr.2('id') '+' Expr.1(Expr.2('id') '*' Expr.2('id')))",
        ),
        (TERMS_AND_FACTORS, "- id", "rejected"),
        (HIDDEN_LEFT_RECURSION, "y", "unfinished"),
    ] {
        let found = told::<u32>(rt.alloc(), grammar, words, 100)?;
        assert_eq!(rt; found.as_str(), wanted, "{words}");
    }
    Ok(())
}
