//! Ambiguities: the dangling else, and moves that tell none; texts, derivations and items that are checked alone.

use crate::fixtures::{ONE_BODY_TWICE, ROUND_WITHOUT_TOKENS, tokens};
use lrambiguity::{
    Ambiguity, Contest, Move, Written, check_ambiguity, derives, goes_on, nests, parts_at,
    read_moves, reads_as,
};
use lrgrammar::grammar::YaccGrammar;
use lrgrammar::idx::{IndexStorage, PIdx, SIdx, StIdx, Symbol, TIdx};
use lrtable::{Minimiser, StateGraph, StateTable, from_yacc};
use std::alloc::{AllocError, Global};
use std::test::Fail;

/// An `else` goes with either `if`.
const DANGLING_ELSE: &str = "%% S: 'if' 'e' 'then' S | 'if' 'e' 'then' S 'else' S | 'x';";

/// A sentence with two trees.
const TWO_IFS: &str = "if e then if e then x else x";

/// The moves up to the first `x`, whose production is the next node.
const UP_TO_X: &str = "s s s s s s s 2";

/// Those behind that put the `else` with the first `if`, and with the second one.
const WITH_FIRST: &str = "0 s s 2 1";

const WITH_SECOND: &str = "s s 2 1 0";

/// The moves that the words tell: `s` is a shift, and a number a reduction by that production.
pub fn moves_told<T: IndexStorage>(alloc: Global, words: &str) -> Result<Vec<Move<T>>, Fail> {
    let mut moves = Vec::new(alloc);
    for word in words.split_ascii_whitespace() {
        moves.push(match word.parse::<usize>() {
            Ok(number) => Move::Reduce(PIdx(T::from_usize(number).ok_or("an index")?)),
            Err(_) => Move::Shift,
        })?;
    }
    Ok(moves)
}

/// The ambiguity that these moves on the words tell.
fn ambiguity_told<T: IndexStorage>(
    alloc: Global,
    grm: &YaccGrammar<T>,
    words: &str,
    [before, one, other]: [&str; 3],
) -> Result<Option<Ambiguity<T>>, Fail> {
    let text = tokens(grm, words)?;
    let before = moves_told(alloc, before)?;
    let one = moves_told(alloc, one)?;
    let other = moves_told(alloc, other)?;
    Ok(check_ambiguity(alloc, grm, text, before, one, other)?)
}

/// The texts of both trees, with a space between; None where there is no ambiguity.
fn trees_told<T: IndexStorage>(
    alloc: Global,
    grammar: &str,
    words: &str,
    moves: [&str; 3],
) -> Result<Option<String>, Fail> {
    let grm = YaccGrammar::<T>::from_text(alloc, grammar)?;
    match ambiguity_told(alloc, &grm, words, moves)? {
        Some(ambiguity) => {
            let mut text = ambiguity.one_tree.pp(&grm)?;
            text.push(' ')?;
            text.push_str(ambiguity.other_tree.pp(&grm)?.as_str())?;
            ambiguity.take_apart();
            Ok(Some(text))
        }
        None => Ok(None),
    }
}

#[test]
fn dangling_else(rt: HostRuntime) -> Result<(), Fail> {
    let moves = [UP_TO_X, WITH_FIRST, WITH_SECOND];
    let found = trees_told::<u8>(rt.alloc(), DANGLING_ELSE, TWO_IFS, moves)?;
    let found = found.ok_or("an ambiguity")?;
    let wanted = "S.1('if' 'e' 'then' S.0('if' 'e' 'then' S.2('x')) 'else' S.2('x')) \
        S.0('if' 'e' 'then' S.1('if' 'e' 'then' S.2('x') 'else' S.2('x')))";
    assert_eq!(rt; found.as_str(), wanted);
    Ok(())
}

#[test]
fn by_four_bytes(rt: HostRuntime) -> Result<(), Fail> {
    let found = trees_told::<u32>(rt.alloc(), ONE_BODY_TWICE, "a", ["s", "0", "1"])?;
    let found = found.ok_or("an ambiguity")?;
    assert_eq!(rt; found.as_str(), "S.0('a') S.1('a')");
    Ok(())
}

#[test]
fn where_the_one_tree_goes_on(rt: HostRuntime) -> Result<(), Fail> {
    // `S: A`, `A: B`, `A:` and `B: A` are 0 to 3; the other tree goes round once more
    let moves = ["2", "0", "3 1 0"];
    let found = trees_told::<u8>(rt.alloc(), ROUND_WITHOUT_TOKENS, "", moves)?;
    let found = found.ok_or("an ambiguity")?;
    assert_eq!(rt; found.as_str(), "S.0(A.1()) S.0(A.0(B.0(A.1())))");
    Ok(())
}

#[test]
fn moves_of_no_ambiguity(rt: HostRuntime) -> Result<(), Fail> {
    let other = WITH_SECOND;
    for (words, before, one) in [
        // equal moves, and equal first moves
        (TWO_IFS, UP_TO_X, WITH_SECOND),
        (TWO_IFS, "s s s s s s s", "2 0 s s 2 1"),
        // reductions whose bodies aren't there
        (TWO_IFS, UP_TO_X, "1 s s 2 1"),
        (TWO_IFS, UP_TO_X, "2 s s 2 1"),
        (TWO_IFS, UP_TO_X, "0 0 s s 2 1"),
        // by the start production, which is 3, and by none of the grammar
        (TWO_IFS, UP_TO_X, "3 s s 2 1"),
        (TWO_IFS, UP_TO_X, "0 s s 2 1 3"),
        (TWO_IFS, UP_TO_X, "4 s s 2 1"),
        (TWO_IFS, UP_TO_X, "255 s s 2 1"),
        // a shift behind the end
        (TWO_IFS, UP_TO_X, "0 s s 2 1 s"),
        (TWO_IFS, UP_TO_X, "0 s s s 2 1"),
        // text that is left, and trees that are
        ("if e then if e then x else x x", UP_TO_X, WITH_FIRST),
        (TWO_IFS, UP_TO_X, "0"),
        (TWO_IFS, UP_TO_X, "0 s s 2"),
        // no moves
        (TWO_IFS, UP_TO_X, ""),
        (TWO_IFS, "", WITH_FIRST),
    ] {
        for moves in [[before, one, other], [before, other, one]] {
            let found = trees_told::<u8>(rt.alloc(), DANGLING_ELSE, words, moves)?;
            assert!(rt; found.is_none(), "{words}: {before}, {one}");
        }
    }
    Ok(())
}

#[test]
fn moves_of_no_tree(rt: HostRuntime) -> Result<(), Fail> {
    let grm = YaccGrammar::<u8>::from_text(rt.alloc(), "%% S: A 'b'; A: 'a';")?;
    for (words, moves, is_tree) in [
        ("a b", "s 1 s 0", true),
        // a tree, but not for the start rule
        ("a", "s 1", false),
        // a token
        ("a", "s", false),
        // nothing of nothing
        ("", "", false),
    ] {
        let text = tokens(&grm, words)?;
        let tree = read_moves(rt.alloc(), &grm, &text, &moves_told(rt.alloc(), moves)?)?;
        assert_eq!(rt; tree.is_some(), is_tree, "{words}: {moves}");
    }
    Ok(())
}

/// The only conflict of the grammar, between a shift and a reduction.
fn only_conflict<T: IndexStorage>(
    table: &StateTable<T>,
) -> Result<(TIdx<T>, PIdx<T>, StIdx<T>), Fail> {
    let conflicts = table.conflicts().ok_or("conflicts")?;
    let first = conflicts.sr_conflicts().next().copied();
    Ok(first.ok_or("a conflict")?)
}

/// The grammar with its graph and its table.
fn built<T: IndexStorage>(
    alloc: Global,
    text: &str,
) -> Result<(YaccGrammar<T>, StateGraph<T>, StateTable<T>), Fail> {
    let grm = YaccGrammar::<T>::from_text(alloc, text)?;
    match from_yacc(alloc, &grm, Minimiser::Pager) {
        Ok((graph, table)) => Ok((grm, graph, table)),
        Err(_) => Err("a table".into()),
    }
}

#[test]
fn trees_part_at_the_conflict(rt: HostRuntime) -> Result<(), Fail> {
    let (grm, graph, table) = built::<u8>(rt.alloc(), DANGLING_ELSE)?;
    let (token, production, state) = only_conflict(&table)?;
    let moves = [UP_TO_X, WITH_FIRST, WITH_SECOND];
    let ambiguity = ambiguity_told(rt.alloc(), &grm, TWO_IFS, moves)?;
    let ambiguity = ambiguity.ok_or("an ambiguity")?;
    let listed = Contest {
        state,
        token,
        one: Move::Reduce(production),
        other: Move::Shift,
    };
    let x = tokens(&grm, "x")?[0];
    let start = graph.start_state();
    for (contest, parts) in [
        (listed, true),
        (Contest { token: x, ..listed }, false),
        (
            Contest {
                state: start,
                ..listed
            },
            false,
        ),
        (
            Contest {
                one: Move::Shift,
                ..listed
            },
            false,
        ),
        (
            Contest {
                one: Move::Reduce(PIdx(1)),
                ..listed
            },
            false,
        ),
        (
            Contest {
                other: Move::Reduce(PIdx(1)),
                ..listed
            },
            false,
        ),
    ] {
        let found = parts_at(rt.alloc(), &grm, &graph, &ambiguity, contest)?;
        assert_eq!(rt; found, parts, "{contest:?}");
    }
    Ok(())
}

/// The symbols that the words name.
fn symbols_told<T: IndexStorage>(
    alloc: Global,
    grm: &YaccGrammar<T>,
    words: &str,
) -> Result<Vec<Symbol<T>>, Fail> {
    let mut symbols = Vec::new(alloc);
    for word in words.split_ascii_whitespace() {
        symbols.push(match grm.rule_idx(word) {
            Some(ridx) => Symbol::Rule(ridx),
            None => Symbol::Token(grm.token_idx(word).ok_or("a symbol")?),
        })?;
    }
    Ok(symbols)
}

/// The text of the words, with the moves that are told.
fn written_told<T: IndexStorage>(
    alloc: Global,
    grm: &YaccGrammar<T>,
    words: &str,
    moves: &str,
) -> Result<Written<T>, Fail> {
    let tokens = tokens(grm, words)?;
    let moves = moves_told(alloc, moves)?;
    Ok(Written { tokens, moves })
}

#[test]
fn lists_read_as_texts(rt: HostRuntime) -> Result<(), Fail> {
    let grm = YaccGrammar::<u8>::from_text(rt.alloc(), DANGLING_ELSE)?;
    for (list, words, moves, reads) in [
        ("", "", "", true),
        ("x", "x", "s", true),
        ("S", "x", "s 2", true),
        ("if e then S", "if e then x", "s s s s 2", true),
        ("S else S", "x else if e then x", "s 2 s s s s s 2 0", true),
        // other roots, and other counts of them
        ("x", "x", "s 2", false),
        ("S", "x", "s", false),
        ("S S", "x", "s 2", false),
        ("", "x", "s 2", false),
        ("S", "", "", false),
        // text that is left, and a shift behind the end
        ("S", "x x", "s 2", false),
        ("", "x", "", false),
        ("S", "x", "s 2 s", false),
        // a body that isn't there, the start production, and none of the grammar
        ("S", "x", "s 1", false),
        ("S", "x", "2", false),
        ("^", "x", "s 2 3", false),
        ("S", "x", "s 4", false),
        ("S", "x", "s 255", false),
    ] {
        let list_told = symbols_told(rt.alloc(), &grm, list)?;
        let text = written_told(rt.alloc(), &grm, words, moves)?;
        let found = reads_as(rt.alloc(), &grm, &list_told, &text)?;
        assert_eq!(rt; found, reads, "{list}: {words}: {moves}");
    }
    Ok(())
}

#[test]
fn texts_go_on(rt: HostRuntime) -> Result<(), Fail> {
    let grm = YaccGrammar::<u8>::from_text(rt.alloc(), DANGLING_ELSE)?;
    let two_ifs = ("if e then if e then x", UP_TO_X);
    let one_if = ("if e then x", "s s s s 2");
    for (token, action, before, after, goes) in [
        ("else", "s", two_ifs, ("else x", WITH_SECOND), true),
        ("else", "0", two_ifs, ("else x", WITH_FIRST), true),
        ("", "0", one_if, ("", "0"), true),
        ("if", "s", ("", ""), ("if e then x", "s s s s 2 0"), true),
        // another token comes next
        ("x", "s", two_ifs, ("else x", WITH_SECOND), false),
        ("", "s", two_ifs, ("else x", WITH_SECOND), false),
        ("else", "0", one_if, ("", "0"), false),
        // another move is made, or none
        ("else", "0", two_ifs, ("else x", WITH_SECOND), false),
        ("else", "s", two_ifs, ("else x", WITH_FIRST), false),
        ("else", "1", two_ifs, ("else x", WITH_FIRST), false),
        ("", "0", one_if, ("", ""), false),
        ("", "0", ("x", "s 2"), ("", ""), false),
        // no tree
        ("else", "s", two_ifs, ("else x", "s s 2 1"), false),
        ("else", "s", two_ifs, ("else x x", WITH_SECOND), false),
        ("else", "s", one_if, ("else x", WITH_SECOND), false),
        ("", "0", one_if, ("", "0 3"), false),
    ] {
        let token = match tokens(&grm, token)?.first() {
            Some(tidx) => *tidx,
            None => grm.eof_token_idx(),
        };
        let moves = moves_told(rt.alloc(), action)?;
        let action = *moves.first().ok_or("a move")?;
        let (words, moves) = after;
        let before = written_told(rt.alloc(), &grm, before.0, before.1)?;
        let after = written_told(rt.alloc(), &grm, words, moves)?;
        let found = goes_on(rt.alloc(), &grm, token, action, &before, &after)?;
        assert_eq!(rt; found, goes, "{words}: {moves}");
    }
    Ok(())
}

#[test]
fn rules_derive(rt: HostRuntime) -> Result<(), Fail> {
    let grm = YaccGrammar::<u8>::from_text(rt.alloc(), DANGLING_ELSE)?;
    for (rule, symbols, moves, is_derived) in [
        ("S", "if e then S", "s s s s 0", true),
        ("S", "if e then S else S", "s s s s s s 1", true),
        ("S", "if e then x", "s s s s 2 0", true),
        ("S", "if e then if e then S", "s s s s s s s 0 0", true),
        ("^", "S", "s 3", true),
        // the rule itself
        ("S", "S", "s", true),
        // nothing, another rule, a token
        ("S", "", "", false),
        ("S", "S", "", false),
        ("^", "S", "s", false),
        ("^", "if e then S", "s s s s 0", false),
        ("S", "x", "s", false),
        // symbols that are left, on the stack or in the list, and a shift behind the end
        ("S", "if e then S", "s s s s", false),
        ("S", "S S", "s s", false),
        ("S", "S S", "s", false),
        ("S", "S", "s s", false),
        ("S", "if e then S", "s s s s 0 s", false),
        // bodies that aren't there, and productions that aren't
        ("S", "if e then S", "s s s s 1", false),
        ("S", "if e then S", "s s s 0 s", false),
        ("S", "S", "s 2", false),
        ("S", "S", "s 4", false),
        ("S", "S", "s 255", false),
    ] {
        let ridx = grm.rule_idx(rule).ok_or("a rule")?;
        let told = symbols_told(rt.alloc(), &grm, symbols)?;
        let moves_made = moves_told(rt.alloc(), moves)?;
        let found = derives(rt.alloc(), &grm, ridx, &told, &moves_made)?;
        assert_eq!(rt; found, is_derived, "{rule}: {symbols}: {moves}");
    }
    Ok(())
}

/// The items that the words tell, each by its production, a point and its dot.
fn items_told<T: IndexStorage>(
    alloc: Global,
    words: &str,
) -> Result<Vec<(PIdx<T>, SIdx<T>)>, Fail> {
    let mut items = Vec::new(alloc);
    for word in words.split_ascii_whitespace() {
        let (production, dot) = word.split_once('.').ok_or("a point")?;
        let production = T::from_usize(production.parse()?).ok_or("an index")?;
        let dot = T::from_usize(dot.parse()?).ok_or("an index")?;
        items.push((PIdx(production), SIdx(dot)))?;
    }
    Ok(items)
}

#[test]
fn items_in_one_another(rt: HostRuntime) -> Result<(), Fail> {
    let grm = YaccGrammar::<u8>::from_text(rt.alloc(), "%% S: S A 'b' | ; A: 'a' S;")?;
    for (list, items, nested) in [
        ("", "3.0", true),
        ("S", "3.1", true),
        ("", "3.0 0.0", true),
        ("", "3.0 1.0", true),
        ("", "3.0 0.0 0.0 0.0", true),
        ("S A b", "3.0 0.3", true),
        ("S a", "3.0 0.1 2.1", true),
        ("S a S a S", "3.0 0.1 2.1 0.1 2.2", true),
        // no items, and the first of another production
        ("", "", false),
        ("", "0.0", false),
        ("S", "0.1", false),
        // of another rule than the one behind the dot, of the start production again
        ("S", "3.0 0.1 0.0", false),
        ("", "3.0 2.0", false),
        ("", "3.0 3.0", false),
        // a token or nothing behind the dot
        ("S A", "3.0 0.2 2.0", false),
        ("S", "3.1 0.0", false),
        ("S A b", "3.0 0.3 0.0", false),
        // other symbols, too few, too many
        ("S b", "3.0 0.1 2.1", false),
        ("S", "3.0 0.1 2.1", false),
        ("S a a", "3.0 0.1 2.1", false),
        ("S", "3.0", false),
        // productions and dots that aren't there
        ("", "4.0", false),
        ("", "3.0 255.0", false),
        ("S", "3.2", false),
        ("S A b", "3.0 0.4", false),
        ("", "3.0 1.255", false),
    ] {
        let list_told = symbols_told(rt.alloc(), &grm, list)?;
        let items_given = items_told(rt.alloc(), items)?;
        let found = nests(&grm, &list_told, &items_given);
        assert_eq!(rt; found, nested, "{list}: {items}");
    }
    Ok(())
}
