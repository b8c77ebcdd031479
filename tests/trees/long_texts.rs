//! Trees as deep as their texts are long. They are let go by `take_apart` alone, and gone through by visits.

use crate::fixtures::{MANY, grammar_and_table, repeated, tokens};
use lrexamples::depths::depth;
use lrgrammar::grammar::YaccGrammar;
use lrgrammar::idx::IndexStorage;
use lrtable::StateTable;
use lrtree::{Parsed, Tree, Visit, parse};
use std::alloc::{AllocError, Global};
use std::process::Abort;
use std::test::Fail;

/// How many tokens a text has: its tree is deeper than a stack has room for calls.
const LENGTH: usize = 1_000_000;

/// One `a` or more, by a tree that goes down on the right.
const FROM_THE_RIGHT: &str = "%% S: 'a' S | 'a';";

/// The tree that goes down is all that the root has.
const UNDER_ONE_CHILD: &str = "%% T: S; S: S 'a' | 'a';";

/// Behind the tree that goes down the root has an empty one.
const BEFORE_AN_EMPTY_CHILD: &str = "%% T: S U; S: S 'a' | 'a'; U: ;";

/// How many visits of each kind a tree has, and more of its sizes.
#[derive(Debug, Default, PartialEq, Eq, Drop)]
struct Sizes {
    tokens: usize,
    entered: usize,
    left: usize,
    leaves: usize,
    productions: usize,
    depth: usize,
}

impl Sizes {
    /// Counts one more visit.
    fn count<T: IndexStorage>(&mut self, visit: Visit<T>) {
        match visit {
            Visit::Token(_) => self.tokens += 1,
            Visit::Enter(_) => self.entered += 1,
            Visit::Leave(_) => self.left += 1,
        }
    }
}

/// The sizes of the tree.
fn sizes_of<T: IndexStorage>(alloc: Global, tree: &Tree<T>) -> Result<Sizes, AllocError> {
    let mut sizes = Sizes::default();
    let mut visits = tree.visits(alloc);
    while let Some(visit) = visits.next()? {
        sizes.count(visit);
    }
    sizes.leaves = tree.leaves(alloc)?.len();
    sizes.productions = tree.productions(alloc)?.len();
    sizes.depth = depth(alloc, tree)?;
    Ok(sizes)
}

/// The sizes of the tree that the table gives the text of so many `a`s.
fn sizes_by_table<T: IndexStorage>(
    alloc: Global,
    grm: &YaccGrammar<T>,
    table: &StateTable<T>,
) -> Result<Sizes, Fail> {
    let text = tokens(grm, repeated(alloc, "", "a ", LENGTH, "")?.as_str())?;
    match parse(alloc, grm, table, &text, usize::MAX)? {
        Parsed::Tree(tree) => {
            let sizes = sizes_of(alloc, &tree);
            tree.take_apart();
            Ok(sizes?)
        }
        _ => Err(Fail::from("a tree")),
    }
}

/// The tree has a node for each token, which stand above one another, so many nodes more, and so many of these above them.
fn are_sizes<T: IndexStorage>(
    rt: &impl Abort,
    alloc: Global,
    grammar: &str,
    more: usize,
    above: usize,
) -> Result<(), Fail> {
    let (grm, table) = grammar_and_table::<T>(alloc, grammar)?;
    let wanted = Sizes {
        tokens: LENGTH,
        entered: LENGTH + more,
        left: LENGTH + more,
        leaves: LENGTH,
        productions: LENGTH + more,
        depth: LENGTH + above,
    };
    assert_eq!(rt; sizes_by_table(alloc, &grm, &table)?, wanted, "{grammar}");
    Ok(())
}

#[test]
fn from_the_left(rt: HostRuntime) -> Result<(), Fail> {
    are_sizes::<u8>(&rt, rt.alloc(), MANY, 0, 0)
}

#[test]
fn from_the_right(rt: HostRuntime) -> Result<(), Fail> {
    are_sizes::<u32>(&rt, rt.alloc(), FROM_THE_RIGHT, 0, 0)
}

#[test]
fn under_one_child(rt: HostRuntime) -> Result<(), Fail> {
    are_sizes::<u32>(&rt, rt.alloc(), UNDER_ONE_CHILD, 1, 1)
}

#[test]
fn before_an_empty_child(rt: HostRuntime) -> Result<(), Fail> {
    are_sizes::<u8>(&rt, rt.alloc(), BEFORE_AN_EMPTY_CHILD, 2, 1)
}
