//! What is printed of the conflicts of a grammar.

use crate::fixtures::grammar_and_graph;
use lrreasons::{Examples, Reasons, take_apart};
use std::alloc::Global;
use std::test::Fail;

/// Each reason by itself, with after what its conflict is real, by searches of at most so many steps.
pub fn each(alloc: Global, text: &str, steps: usize) -> Result<String, Fail> {
    let (grm, graph, table) = grammar_and_graph::<u32>(alloc, text)?;
    let mut printed = String::new(alloc);
    let Some(conflicts) = table.conflicts() else {
        return Ok(printed);
    };
    let reasons = Reasons::new(&grm, &graph)?;
    let told = reasons.reasons(conflicts, steps, Examples::Everywhere)?;
    for reason in &told {
        printed.push_str(reason.pp(&grm)?.as_str())?;
    }
    take_apart(told);
    Ok(printed)
}

/// The reasons together: what is alike is told once, and after what a conflict is real where no ambiguity is found.
pub fn together(alloc: Global, text: &str, steps: usize) -> Result<String, Fail> {
    let (grm, graph, table) = grammar_and_graph::<u32>(alloc, text)?;
    let Some(conflicts) = table.conflicts() else {
        return Ok(String::new(alloc));
    };
    let reasons = Reasons::new(&grm, &graph)?;
    let told = reasons.reasons(conflicts, steps, Examples::WhereNotAmbiguous)?;
    let printed = reasons.pp(told.as_slice())?;
    take_apart(told);
    Ok(printed)
}
