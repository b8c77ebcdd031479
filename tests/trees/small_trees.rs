//! Small trees, put together by hand.

use lrgrammar::idx::{PIdx, TIdx};
use lrtree::{Parsed, Tree, Visit};
use std::alloc::{AllocError, Global};
use std::test::Fail;

/// A production over a token and an empty production.
fn by_bytes(alloc: Global, token: u8) -> Result<Tree<u8>, AllocError> {
    let children = vec![in alloc;
        Tree::Token(TIdx(token)),
        Tree::Node(PIdx(0), Vec::new(alloc)),
    ]?;
    Ok(Tree::Node(PIdx(1), children))
}

/// The same by greater numbers.
fn by_four_bytes(alloc: Global, token: u32) -> Result<Tree<u32>, AllocError> {
    let empty = Tree::Node(PIdx(70_000), Vec::new(alloc));
    let children = vec![in alloc; Tree::Token(TIdx(token)), empty]?;
    Ok(Tree::Node(PIdx(80_000), children))
}

#[test]
fn visits_by_bytes(rt: HostRuntime) -> Result<(), Fail> {
    let tree = by_bytes(rt.alloc(), 2)?;
    let mut visits = tree.visits(rt.alloc());
    for wanted in [
        Some(Visit::Enter(PIdx(1))),
        Some(Visit::Token(TIdx(2))),
        Some(Visit::Enter(PIdx(0))),
        Some(Visit::Leave(PIdx(0))),
        Some(Visit::Leave(PIdx(1))),
        None,
        None,
    ] {
        assert_eq!(rt; visits.next()?, wanted);
    }
    Ok(())
}

#[test]
fn visits_of_a_token(rt: HostRuntime) -> Result<(), Fail> {
    let tree = Tree::<u32>::Token(TIdx(70_000));
    let mut visits = tree.visits(rt.alloc());
    for wanted in [Some(Visit::Token(TIdx(70_000))), None, None] {
        assert_eq!(rt; visits.next()?, wanted);
    }
    Ok(())
}

#[test]
fn lists_of_tokens_and_productions(rt: HostRuntime) -> Result<(), Fail> {
    let alloc = rt.alloc();
    let tree = by_four_bytes(alloc, 90_000)?;
    assert_eq!(rt; tree.leaves(alloc)?.as_slice(), [TIdx(90_000)].as_slice());
    let productions = tree.productions(alloc)?;
    assert_eq!(rt;
        productions.as_slice(),
        [PIdx(70_000), PIdx(80_000)].as_slice()
    );
    tree.take_apart();
    Ok(())
}

/// Trees are the same where their tokens, their productions and their children are.
#[test]
fn same_trees(rt: HostRuntime) -> Result<(), Fail> {
    let alloc = rt.alloc();
    let tree = by_bytes(alloc, 2)?;
    assert!(rt; tree == by_bytes(alloc, 2)?);
    assert!(rt; tree != by_bytes(alloc, 3)?);
    assert!(rt; Parsed::Tree(tree) != Parsed::Rejected);
    assert!(rt; by_four_bytes(alloc, 2)? == by_four_bytes(alloc, 2)?);
    assert!(rt; Tree::<u32>::Token(TIdx(0)) != Tree::Node(PIdx(0), Vec::new(alloc)));
    Ok(())
}

#[test]
fn shown_trees(rt: HostRuntime) -> Result<(), Fail> {
    let alloc = rt.alloc();
    let told = Parsed::Tree(by_bytes(alloc, 2)?);
    assert_eq!(rt;
        format!(in alloc; "{told:?}")?.as_str(),
        "Tree(Node(PIdx(1), [Token(TIdx(2)), Node(PIdx(0), [])]))"
    );
    let visit = Visit::<u32>::Leave(PIdx(3));
    assert_eq!(rt; format!(in alloc; "{visit:?}")?.as_str(), "Leave(PIdx(3))");
    Ok(())
}
