//! A text whose tree is deeper than a stack has room for calls, parsed in the window.

use crate::problems::Problem;
use crate::subjects::tokens;
use lrgrammar::grammar::YaccGrammar;
use lrgrammar::idx::TIdx;
use lrtable::{Minimiser, StateTable, from_yacc};
use lrtree::{Parsed, parse};
use std::alloc::{AllocError, Global};
use std::io::Write;

/// The tree of `S` is there when the last nodes, which are those of `U`, are put together.
const GRAMMAR: &str = "%% T: U S; S: 'a' | S 'a'; U: 'b' | U 'b';";

/// How deep the tree of `S` is.
const DEPTH: usize = 400_000;

/// The words of the text.
fn words(alloc: Global) -> Result<String, AllocError> {
    let mut text = String::from_str(alloc, "b b b b")?;
    for _ in 0..DEPTH {
        text.push_str(" a")?;
    }
    Ok(text)
}

/// Whether there is a tree, which is let go.
fn lets_go(parsed: Parsed<u32>) -> bool {
    match parsed {
        Parsed::Tree(tree) => {
            tree.take_apart();
            true
        }
        Parsed::Rejected | Parsed::Unfinished => false,
    }
}

/// Parses the text in the window, and once more where memory was refused there. Tells whether it was, and of the tree that
/// there is in the end.
fn parse_in_window(
    rt: &HostRuntime,
    grm: &YaccGrammar<u32>,
    table: &StateTable<u32>,
    text: &[TIdx<u32>],
) -> Result<(), Problem> {
    rt.stdout().write_all(b"begin\n")?;
    let found = parse(rt.alloc(), grm, table, text, usize::MAX).map(|parsed| lets_go(parsed));
    rt.stdout().write_all(b"end\n")?;
    let (call, is_tree) = match found {
        Ok(is_tree) => ("answered", is_tree),
        Err(_) => {
            let parsed = parse(rt.alloc(), grm, table, text, usize::MAX)?;
            ("out of memory", lets_go(parsed))
        }
    };
    let answer = if is_tree { "same" } else { "another" };
    println!(rt; "{call}, arguments as they were, {answer} answer")?;
    Ok(())
}

/// Tries the call.
pub fn try_deep(rt: &HostRuntime) -> Result<(), Problem> {
    let alloc = rt.alloc();
    let grm = YaccGrammar::<u32>::from_text(alloc, GRAMMAR)?;
    let (_graph, table) = from_yacc(alloc, &grm, Minimiser::Pager)?;
    let text = tokens(&grm, words(alloc)?.as_str())?;
    parse_in_window(rt, &grm, &table, text.as_slice())
}
