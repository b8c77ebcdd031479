//! Sentences that tables with conflicts reject, and moves that show none.

use crate::ambiguities::moves_told;
use crate::fixtures::tokens;
use lrconflicts::{Conflict, Move, entries, other_move};
use lrgrammar::grammar::YaccGrammar;
use lrgrammar::idx::{IndexStorage, Symbol};
use lrlosses::{Candidate, Find, Losses, Place, check_lost};
use lrtable::{Action, Minimiser, StateTable, from_yacc};
use std::alloc::{AllocError, Global};
use std::test::Fail;

/// Where `c` comes behind `a`, the rule `A` is taken; but only `B` goes on with `e`.
const ONE_BODY: &str = "%% S: A 'c' | B 'd' | B 'c' 'e'; A: 'a'; B: 'a';";

/// A list of rules without marks between them: an `ID` may begin the next one.
const RULES: &str = "%% l: l r | r; r: 'ID' ':' b; b: b 'ID' | ;";

/// A place: how many steps were made, how many tokens taken, and the next one.
fn place_told<T: IndexStorage>(
    grm: &YaccGrammar<T>,
    place: Place<T>,
) -> Result<String, AllocError> {
    let token = grm.token_name(place.token).unwrap_or("$");
    let steps = place.steps;
    let used = place.used;
    format!(in grm.allocator(); "{steps} {used} {token}")
}

/// The tree of a loss, and its two places.
fn loss_told<T: IndexStorage>(
    alloc: Global,
    grammar: &str,
    words: &str,
    moves: &str,
    steps: usize,
) -> Result<Option<String>, Fail> {
    let grm = YaccGrammar::<T>::from_text(alloc, grammar)?;
    let Ok((_graph, table)) = from_yacc(alloc, &grm, Minimiser::Pager) else {
        return Err(Fail::from("a table"));
    };
    let text = tokens(&grm, words)?;
    let moves = moves_told(alloc, moves)?;
    let Some(loss) = check_lost(alloc, &grm, &table, &text, &moves, steps)? else {
        return Ok(None);
    };
    let mut told = loss.tree.pp(&grm)?;
    told.push_str(": ")?;
    told.push_str(place_told(&grm, loss.parting)?.as_str())?;
    told.push_str(", ")?;
    told.push_str(place_told(&grm, loss.rejected)?.as_str())?;
    loss.take_apart();
    Ok(Some(told))
}

#[test]
fn a_reduction_is_lost(rt: HostRuntime) -> Result<(), Fail> {
    let told = loss_told::<u8>(rt.alloc(), ONE_BODY, "a c e", "s 4 s s 2", 4)?;
    let told = told.ok_or("a loss")?;
    assert_eq!(rt; told.as_str(), "S.2(B.0('a') 'c' 'e'): 1 1 c, 3 2 e");
    Ok(())
}

#[test]
fn a_reduction_is_lost_to_a_shift(rt: HostRuntime) -> Result<(), Fail> {
    let moves = "s s 4 2 1 s s 4 2 0";
    let told = loss_told::<u32>(rt.alloc(), RULES, "ID : ID :", moves, 100)?;
    let told = told.ok_or("a loss")?;
    let tree = "l.0(l.1(r.0('ID' ':' b.1())) r.0('ID' ':' b.1()))";
    assert_eq!(rt; told.as_str(), format!(in rt.alloc(); "{tree}: 3 2 ID, 4 3 :")?.as_str());
    Ok(())
}

#[test]
fn moves_of_no_loss(rt: HostRuntime) -> Result<(), Fail> {
    for (words, moves, steps) in [
        // a sentence that is accepted
        ("a c", "s 3 s 0", 100),
        // moves that put together no tree, for a sentence that is lost and for a text that is none
        ("a c e", "s 3 s s 2", 100),
        ("a c c", "s 4 s s 2", 100),
        // a step too few
        ("a c e", "s 4 s s 2", 3),
        ("a c e", "s 4 s s 2", 0),
    ] {
        let told = loss_told::<u8>(rt.alloc(), ONE_BODY, words, moves, steps)?;
        assert!(rt; told.is_none(), "{words}: {moves}");
    }
    Ok(())
}

/// Actions in the middle of bodies.
const ACTIONS_WITHIN: &str = "%% S: 'x' M 'a' 'b' | 'x' N 'a' 'c'; M: ; N: ;";

/// Comparisons that don't stand one in another.
const COMPARISONS: &str = "%nonassoc '<' %left '+' %% E: E '<' E | E '+' E | 'n';";

/// The candidate of a conflict that the table doesn't take, of its two.
fn lost_candidate(table: &StateTable<u32>, conflict: &Conflict<u32>) -> Candidate {
    let (state, token) = (conflict.state, conflict.token);
    let action = match table.action(state, token) {
        Action::Reduce(taken) if taken == conflict.production => other_move(conflict),
        _ => Move::Reduce(conflict.production),
    };
    Candidate {
        state,
        token,
        action,
    }
}

/// Tokens by their names, with marks: a dot before the token of the cell, and `«»` around the one at which the machine stops.
fn find_told(grm: &YaccGrammar<u32>, find: &Find) -> Result<String, AllocError> {
    let mut told = String::new(grm.allocator());
    let (dot, stop) = (find.loss.parting.used, find.loss.rejected.used);
    for place in 0..=find.text.tokens.len() {
        let token = find.text.tokens.get(place);
        let name = match token {
            Some(token) => grm.token_name(*token).unwrap_or("$"),
            None if place == dot || place == stop => "$",
            None => break,
        };
        if place > 0 {
            told.push_str(" ")?;
        }
        if place == dot {
            told.push_str(". ")?;
        }
        if place == stop {
            write!(told, "«{name}»")?;
        } else {
            told.push_str(name)?;
        }
    }
    Ok(told)
}

/// Adds what is found at the candidate.
fn push_find(
    told: &mut String,
    grm: &YaccGrammar<u32>,
    losses: &Losses<'_>,
    candidate: Candidate,
    pairs: usize,
) -> Result<(), AllocError> {
    match losses.loss_at(candidate, 0, pairs)? {
        Some(find) => {
            told.push_str(find_told(grm, &find)?.as_str())?;
            find.take_apart();
        }
        None => told.push_str("none")?,
    }
    told.push_str("; ")
}

/// What is found at the candidates that lose the conflicts of the grammar's table, one after another.
fn finds_told(alloc: Global, grammar: &str, pairs: usize) -> Result<String, Fail> {
    let grm = YaccGrammar::<u32>::from_text(alloc, grammar)?;
    let Ok((graph, table)) = from_yacc(alloc, &grm, Minimiser::Pager) else {
        return Err(Fail::from("a table"));
    };
    let losses = Losses::new(&grm, &graph, &table);
    let mut told = String::new(alloc);
    let Some(conflicts) = table.conflicts() else {
        return Ok(told);
    };
    for conflict in &entries(alloc, conflicts)? {
        push_find(&mut told, &grm, &losses, lost_candidate(&table, conflict), pairs)?;
    }
    Ok(told)
}

/// What is found at the candidates of the cells that are errors, state by state and token by token.
fn finds_at_errors_told(alloc: Global, grammar: &str, pairs: usize) -> Result<String, Fail> {
    let grm = YaccGrammar::<u32>::from_text(alloc, grammar)?;
    let Ok((graph, table)) = from_yacc(alloc, &grm, Minimiser::Pager) else {
        return Err(Fail::from("a table"));
    };
    let losses = Losses::new(&grm, &graph, &table);
    let mut told = String::new(alloc);
    for state in graph.iter_stidxs() {
        for token in grm.iter_tidxs() {
            if graph.edge(state, Symbol::Token(token)).is_some()
                && table.action(state, token) == Action::Error
            {
                let action = Move::Shift;
                let candidate = Candidate {
                    state,
                    token,
                    action,
                };
                push_find(&mut told, &grm, &losses, candidate, pairs)?;
            }
        }
    }
    Ok(told)
}

#[test]
fn losses_are_found(rt: HostRuntime) -> Result<(), Fail> {
    for (grammar, wanted) in [
        (RULES, "ID : . ID «:»; "),
        (ONE_BODY, "a . c «e»; "),
        (ACTIONS_WITHIN, "x . a «c»; "),
        // the sentence ends where the machine needs a token more
        ("%% S: A 'c' 'd' | X 'c'; A: 'a'; X: 'a';", "a . c «$»; "),
        // to reduce by the one is as good as by the other
        ("%% S: A 'c' | B 'c'; A: 'a'; B: 'a';", "none; "),
    ] {
        let told = finds_told(rt.alloc(), grammar, 40)?;
        assert_eq!(rt; told.as_str(), wanted, "{grammar}");
    }
    Ok(())
}

#[test]
fn losses_at_errors_are_found(rt: HostRuntime) -> Result<(), Fail> {
    let told = finds_at_errors_told(rt.alloc(), COMPARISONS, 40)?;
    assert_eq!(rt; told.as_str(), "n < n . «<» n; ");
    Ok(())
}

#[test]
fn no_losses_are_found_beyond_what_is_allowed(rt: HostRuntime) -> Result<(), Fail> {
    let alloc = rt.alloc();
    let grm = YaccGrammar::<u32>::from_text(alloc, ONE_BODY)?;
    let Ok((graph, table)) = from_yacc(alloc, &grm, Minimiser::Pager) else {
        return Err(Fail::from("a table"));
    };
    let losses = Losses::new(&grm, &graph, &table);
    assert!(rt; !losses.is_used_up());
    losses.allow(0);
    assert!(rt; losses.is_used_up());
    let mut told = String::new(alloc);
    for conflict in &entries(alloc, table.conflicts().ok_or("conflicts")?)? {
        push_find(&mut told, &grm, &losses, lost_candidate(&table, conflict), 40)?;
    }
    assert_eq!(rt; told.as_str(), "none; ");
    Ok(())
}
