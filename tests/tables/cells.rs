//! Cells and gotos of the tables of the worked grammars, and what is told of a state.

use crate::fixtures::{
    A_RULE_GONE_ON_WITH, FOUR_LEVELS, LR1_AND_NOT_LALR1, NONASSOC, ONE_BODY_TWICE,
    RULE_WITHOUT_A_TREE, SUMS_AND_PRODUCTS, SUMS_AND_PRODUCTS_WITH_LEVELS, TERMS_AND_FACTORS,
    TOLD_APART_LATE, UNARY_MINUS, UNARY_MINUS_WITHOUT_PREC, grammar_and_table, is_told,
};
use crate::tables::told::{action_at, actions, gotos, prods_of_rule, row};
use lrgrammar::grammar::YaccGrammar;
use lrgrammar::idx::IndexStorage;
use lrtable::{Minimiser, StateGraph, StateTable, from_yacc};
use std::alloc::Global;
use std::process::Abort;
use std::test::Fail;

/// In each state the cells on the tokens of these names are as told.
fn has_cells<T: IndexStorage>(
    rt: &impl Abort,
    alloc: Global,
    grm: &YaccGrammar<T>,
    table: &StateTable<T>,
    cells: &[(usize, &str, &str)],
) -> Result<(), Fail> {
    for (from, names, wanted) in cells {
        let told = actions(alloc, grm, table, *from, names)?;
        is_told(rt, names, told.as_str(), wanted);
    }
    Ok(())
}

/// The table of the text has these cells.
fn acts<T: IndexStorage>(
    rt: &impl Abort,
    alloc: Global,
    text: &str,
    cells: &[(usize, &str, &str)],
) -> Result<(), Fail> {
    let (grm, table) = grammar_and_table::<T>(alloc, text)?;
    has_cells(rt, alloc, &grm, &table, cells)
}

/// From each state the rules of these names lead where it is told.
fn has_gotos<T: IndexStorage>(
    rt: &impl Abort,
    alloc: Global,
    grm: &YaccGrammar<T>,
    table: &StateTable<T>,
    leads: &[(usize, &str, &str)],
) -> Result<(), Fail> {
    for (from, names, wanted) in leads {
        let told = gotos(alloc, grm, table, *from, names)?;
        is_told(rt, names, told.as_str(), wanted);
    }
    Ok(())
}

/// The table of the text has these gotos.
fn leads<T: IndexStorage>(
    rt: &impl Abort,
    alloc: Global,
    text: &str,
    leads: &[(usize, &str, &str)],
) -> Result<(), Fail> {
    let (grm, table) = grammar_and_table::<T>(alloc, text)?;
    has_gotos(rt, alloc, &grm, &table, leads)
}

/// Of each state that is told.
fn has_rows<T: IndexStorage>(
    rt: &impl Abort,
    alloc: Global,
    table: &StateTable<T>,
    rows: &[(usize, &str)],
) -> Result<(), Fail> {
    for (from, wanted) in rows {
        let told = row(alloc, table, *from)?;
        is_told(rt, "a state", told.as_str(), wanted);
    }
    Ok(())
}

/// The table of the text has these states.
fn tells<T: IndexStorage>(
    rt: &impl Abort,
    alloc: Global,
    text: &str,
    rows: &[(usize, &str)],
) -> Result<(), Fail> {
    let (_grm, table) = grammar_and_table::<T>(alloc, text)?;
    has_rows(rt, alloc, &table, rows)
}

/// What cells say, where rules lead, and what is told of whole states.
fn terms_and_factors_by<T: IndexStorage>(rt: &impl Abort, alloc: Global) -> Result<(), Fail> {
    let cells = [
        (0, "id - $", " s3 error error"),
        (1, "- $", " s5 r1"),
        (2, "*", " s6"),
        (4, "$", " accept"),
    ];
    acts::<T>(rt, alloc, TERMS_AND_FACTORS, &cells)?;
    let gotos = [
        (0, "Term Factor Expr", " 1 2 4"),
        (4, "Term Factor Expr", " - - -"),
    ];
    leads::<T>(rt, alloc, TERMS_AND_FACTORS, &gotos)?;
    let rows = [
        (0, "acts 2, shifts 2, reduces"),
        (1, "acts 0 3, shifts 0, reduces 1"),
        (3, "acts 0 1 3, shifts, reduces 4 only"),
        (4, "acts 3, shifts, reduces"),
    ];
    tells::<T>(rt, alloc, TERMS_AND_FACTORS, &rows)
}

#[test]
fn terms_and_factors(rt: HostRuntime) -> Result<(), Fail> {
    terms_and_factors_by::<u8>(&rt, rt.alloc())?;
    terms_and_factors_by::<u16>(&rt, rt.alloc())?;
    terms_and_factors_by::<u32>(&rt, rt.alloc())
}

/// In the first, the complete items of the state look at nothing, so no cell has a reduction; in the second, the cell on `~` is
/// empty, so the end token alone is left.
#[test]
fn rows_that_lack_cells(rt: HostRuntime) -> Result<(), Fail> {
    for (text, from, wanted) in [
        (RULE_WITHOUT_A_TREE, 3, "acts, shifts, reduces"),
        (NONASSOC, 4, "acts 2, shifts, reduces 0 only"),
    ] {
        tells::<u32>(&rt, rt.alloc(), text, &[(from, wanted)])?;
    }
    Ok(())
}

/// Each state stands behind an operator and its two sides.
#[test]
fn four_levels(rt: HostRuntime) -> Result<(), Fail> {
    let cells = [
        (7, "+ * = ~ $", " r0 s4 r0 s6 r0"),
        (8, "+ * = ~ $", " r1 r1 r1 s6 r1"),
        (9, "+ * = ~ $", " s3 s4 s5 s6 r2"),
        (10, "+ * = ~ $", " r3 r3 r3 error r3"),
    ];
    acts::<u32>(&rt, rt.alloc(), FOUR_LEVELS, &cells)
}

/// Single cells; of two productions that contend, the table takes the one of the lesser number.
#[test]
fn single_cells(rt: HostRuntime) -> Result<(), Fail> {
    for (text, from, names, wanted) in [
        (SUMS_AND_PRODUCTS, 6, "+", " s3"),
        (SUMS_AND_PRODUCTS_WITH_LEVELS, 5, "+ *", " r0 s4"),
        (TOLD_APART_LATE, 3, "x", " r2"),
        (ONE_BODY_TWICE, 1, "$", " r0"),
    ] {
        acts::<u32>(&rt, rt.alloc(), text, &[(from, names, wanted)])?;
    }
    Ok(())
}

/// The states behind `a c` and `b c`, 6 and 9, have the same items, and reduce otherwise on `d` and `e`, tokens 1 and 3. There
/// are 14 states and 6 tokens: cells beyond them are empty.
#[test]
fn cells_of_the_same_items(rt: HostRuntime) -> Result<(), Fail> {
    let (_grm, table) = grammar_and_table::<u32>(rt.alloc(), LR1_AND_NOT_LALR1)?;
    for (from, token, wanted) in [
        (6, 1, " r4"),
        (6, 3, " r5"),
        (9, 1, " r5"),
        (9, 3, " r4"),
        (6, 0, " error"),
        (9, 5, " error"),
        (13, 6, " error"),
        (14, 0, " error"),
    ] {
        let told = action_at(rt.alloc(), &table, from, token)?;
        assert_eq!(rt; told.as_str(), wanted, "{from} {token}");
    }
    Ok(())
}

/// State 7 stands behind a minus in front and its side.
#[test]
fn unary_minus(rt: HostRuntime) -> Result<(), Fail> {
    for (text, wanted) in [
        (UNARY_MINUS, " r3 r3 r3 r3"),
        (UNARY_MINUS_WITHOUT_PREC, " r3 r3 s6 r3"),
    ] {
        acts::<u32>(&rt, rt.alloc(), text, &[(7, "+ - * $", wanted)])?;
    }
    Ok(())
}

/// The table of a graph that is already there.
fn table_of_graph(
    alloc: Global,
    grm: &YaccGrammar<u32>,
    graph: &StateGraph<u32>,
) -> Result<StateTable<u32>, Fail> {
    match StateTable::new(alloc, grm, graph) {
        Ok(table) => Ok(table),
        Err(_) => Err(Fail::from("a table")),
    }
}

/// The table of the grammar, made anew of its graph.
fn remade(alloc: Global, grm: &YaccGrammar<u32>) -> Result<StateTable<u32>, Fail> {
    match from_yacc(alloc, grm, Minimiser::Pager) {
        Ok((graph, _table)) => table_of_graph(alloc, grm, &graph),
        Err(_) => Err(Fail::from("a graph")),
    }
}

/// The table that is made anew has these cells.
fn acts_remade(
    rt: &impl Abort,
    alloc: Global,
    grm: &YaccGrammar<u32>,
    cells: &[(usize, &str, &str)],
) -> Result<(), Fail> {
    let table = remade(alloc, grm)?;
    has_cells(rt, alloc, grm, &table, cells)
}

#[test]
fn a_table_made_of_its_graph(rt: HostRuntime) -> Result<(), Fail> {
    let grm = YaccGrammar::<u32>::from_text(rt.alloc(), SUMS_AND_PRODUCTS)?;
    acts_remade(&rt, rt.alloc(), &grm, &[(6, "+", " s3")])
}

#[test]
fn productions_of_a_rule_gone_on_with(rt: HostRuntime) -> Result<(), Fail> {
    let told = prods_of_rule(rt.alloc(), A_RULE_GONE_ON_WITH, "A")?;
    is_told(&rt, "A", told.as_str(), " 2 5");
    Ok(())
}
