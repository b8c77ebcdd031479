//! Conflicts at which no sentence has two trees that part there.

use lrconflicts::{Move, entries, other_move};
use lrdecided::{Entry, decide};
use lrgrammar::grammar::YaccGrammar;
use lrsearches::Ways;
use lrtable::{Minimiser, from_yacc};
use std::alloc::Global;
use std::test::Fail;

/// How the entry is decided: by how many tokens, `*` where that isn't known, and `-` where it isn't known to be decided.
fn word_of(tokens: Option<Option<usize>>) -> &'static str {
    match tokens {
        None => "-",
        Some(None) => "*",
        Some(Some(2)) => "2",
        Some(Some(3)) => "3",
        Some(Some(_)) => "?",
    }
}

/// How each of the grammar's conflicts is decided, in order.
fn told(alloc: Global, grammar: &str, allowance: usize) -> Result<String, Fail> {
    let grm = YaccGrammar::<u32>::from_text(alloc, grammar)?;
    let Ok((graph, table)) = from_yacc(alloc, &grm, Minimiser::Pager) else {
        return Err(Fail::from("a table"));
    };
    let ways = Ways::new(&grm, &graph)?;
    let mut told = String::new(alloc);
    let conflicts = table.conflicts().ok_or("conflicts")?;
    let list = entries(alloc, conflicts)?;
    for conflict in &list {
        let entry = Entry {
            state: conflict.state,
            token: conflict.token,
            one: Move::Reduce(conflict.production),
            other: other_move(conflict),
        };
        let decided = decide(&grm, &graph, &ways, &entry, allowance)?;
        told.push_str(word_of(decided.map(|found| found.tokens)))?;
    }
    Ok(told)
}

#[test]
fn which_conflicts_are_decided(rt: HostRuntime) -> Result<(), Fail> {
    for (grammar, words) in [
        // two tokens decide
        ("%% l: l r | r; r: 'ID' ':' b; b: b 'ID' | ;", "2"),
        ("%% S: A 'c' | B 'd' | B 'c' 'e'; A: 'a'; B: 'a';", "2"),
        ("%% S: 'x' M 'a' 'b' | 'x' N 'a' 'c'; M: ; N: ;", "2"),
        // three, or more
        ("%% S: A 'c' 'd' 'e' | B 'c' 'd' 'f'; A: 'a'; B: 'a';", "3"),
        ("%% S: A 'c' 'd' 'e' 'g' | B 'c' 'd' 'e' 'f'; A: 'a'; B: 'a';", "*"),
        // no number of tokens does, but all that come
        ("%% S: A L 'x' | B L 'y'; A: 'a'; B: 'a'; L: 'c' L | 'c';", "*"),
        // the same, but too much would have to be remembered
        ("%% S: A L 'x' | B L 'y'; A: 'a'; B: 'a'; L: L 'c' | 'c';", "-"),
        // ambiguous
        ("%% S: A 'c' | B 'c'; A: 'a'; B: 'a';", "-"),
        ("%% E: E '+' E | 'n';", "-"),
        ("%% S: 'i' S 'e' S | 'i' S | 'x';", "-"),
    ] {
        let said = told(rt.alloc(), grammar, 3000)?;
        assert_eq!(rt; said.as_str(), words, "{grammar}");
    }
    Ok(())
}

#[test]
fn too_few_nodes(rt: HostRuntime) -> Result<(), Fail> {
    let grammar = "%% l: l r | r; r: 'ID' ':' b; b: b 'ID' | ;";
    assert_eq!(rt; told(rt.alloc(), grammar, 3000)?.as_str(), "2");
    assert_eq!(rt; told(rt.alloc(), grammar, 3)?.as_str(), "-");
    assert_eq!(rt; told(rt.alloc(), grammar, 0)?.as_str(), "-");
    Ok(())
}
