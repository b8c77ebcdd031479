//! Lines that are answered by trees.

use crate::fixtures::{
    EMPTY_RULE, HIDDEN_LEFT_RECURSION, RULE_WITHOUT_A_TREE, SUMS_AND_PRODUCTS_WITH_LEVELS,
    TERMS_AND_FACTORS, grammar_and_table,
};
use lrgrammar::grammar::YaccGrammar;
use lrgrammar::idx::IndexStorage;
use lrtable::StateTable;
use lrtable::machine::Counted;
use lrtree::tree_lines;
use std::alloc::Global;
use std::test::Fail;

/// What is written for the lines by the table, by runs of at most so many steps.
fn answers_by<T: IndexStorage>(
    alloc: Global,
    grm: &YaccGrammar<T>,
    table: &StateTable<T>,
    lines: &str,
    steps: usize,
) -> Result<String, Fail> {
    let mut reader = Counted::new(lines.as_bytes());
    let mut writer = Counted::new(Vec::new(alloc));
    tree_lines(alloc, &mut reader, &mut writer, grm, table, steps)?;
    Ok(String::from_utf8(writer.into_inner()).ok().ok_or("a text")?)
}

/// The same by the table of the grammar.
fn answers<T: IndexStorage>(
    alloc: Global,
    grammar: &str,
    lines: &str,
    steps: usize,
) -> Result<String, Fail> {
    let (grm, table) = grammar_and_table::<T>(alloc, grammar)?;
    answers_by(alloc, &grm, &table, lines, steps)
}

#[test]
fn by_bytes(rt: HostRuntime) -> Result<(), Fail> {
    for (steps, wanted) in [
        (
            5,
            "tree Expr.1(Term.1(Factor.0('id')))\nreject\nunknown +\n",
        ),
        (1, "unfinished\nreject\nunknown +\n"),
    ] {
        let lines = "id\n- id\r\n\tid  +";
        let found = answers::<u8>(rt.alloc(), TERMS_AND_FACTORS, lines, steps)?;
        assert_eq!(rt; found.as_str(), wanted, "{steps}");
    }
    Ok(())
}

#[test]
fn by_four_bytes(rt: HostRuntime) -> Result<(), Fail> {
    for (grammar, lines, wanted) in [
        (EMPTY_RULE, "\n\n", "tree S.0()\ntree S.0()\n"),
        (
            SUMS_AND_PRODUCTS_WITH_LEVELS,
            "id + id * id\n",
            "tree Expr.0(Expr.2('id') '+' Expr.1(Expr.2('id') '*' Expr.2('id')))\n",
        ),
        (RULE_WITHOUT_A_TREE, "c\n", "tree S.1('c')\n"),
        (HIDDEN_LEFT_RECURSION, "y\n", "unfinished\n"),
    ] {
        let found = answers::<u32>(rt.alloc(), grammar, lines, 100)?;
        assert_eq!(rt; found.as_str(), wanted);
    }
    Ok(())
}
