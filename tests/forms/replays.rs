//! Moves on a stack, apart from the crate.

use lrambiguity::Move;
use lrconflicts::Conflict;
use lrforms::{Ambiguous, Ways};
use lrgrammar::grammar::YaccGrammar;
use lrgrammar::idx::{StIdx, Symbol};
use lrtable::StateGraph;
use std::alloc::AllocError;
use std::process::Abort;
use std::test::Fail;

/// Reads a string by moves. `stack` is what was read so far, and `place` how much of the string.
fn replay(
    grm: &YaccGrammar<u32>,
    stack: &mut Vec<Symbol<u32>>,
    place: &mut usize,
    string: &[Symbol<u32>],
    moves: &[Move<u32>],
) -> Result<(), Fail> {
    for step in moves {
        match step {
            Move::Shift => {
                stack.push(*string.get(*place).ok_or("a symbol to shift")?)?;
                *place += 1;
            }
            Move::Reduce(production) => {
                let body = grm.prod(*production);
                let start = stack.len().checked_sub(body.len()).ok_or("a body")?;
                if stack.as_slice().get(start..) != Some(body) {
                    return Err(Fail::from("this body"));
                }
                stack.truncate(start);
                stack.push(Symbol::Rule(grm.prod_to_rule(*production)))?;
            }
        }
    }
    Ok(())
}

/// Both ways read the string to the rule; what was read before the dot.
fn read_both(
    rt: &impl Abort,
    grm: &YaccGrammar<u32>,
    string: &[Symbol<u32>],
    dot: usize,
    ways: &Ways,
    rule: Symbol<u32>,
) -> Result<Vec<Symbol<u32>>, Fail> {
    let mut before = Vec::new(grm.allocator());
    let mut place = 0;
    replay(grm, &mut before, &mut place, string, ways.before.as_slice())?;
    assert_eq!(rt; place, dot);
    for way in [&ways.first, &ways.second] {
        let mut stack = before.clone()?;
        let mut end = place;
        replay(grm, &mut stack, &mut end, string, way.as_slice())?;
        assert_eq!(rt; end, string.len());
        assert!(rt; stack.as_slice() == [rule].as_slice());
    }
    Ok(before)
}

/// The state to which the symbols lead.
fn state_behind(
    graph: &StateGraph<u32>,
    symbols: &[Symbol<u32>],
) -> Result<StIdx<u32>, Fail> {
    let mut state = graph.start_state();
    for symbol in symbols {
        state = graph.edge(state, *symbol).ok_or("an edge")?;
    }
    Ok(state)
}

/// Whether both cores have the same items.
fn are_alike(graph: &StateGraph<u32>, a: StIdx<u32>, b: StIdx<u32>) -> bool {
    let (a, b) = (graph.core_state(a), graph.core_state(b));
    a.items.len() == b.items.len() && a.items.keys().all(|key| b.items.contains_key(key))
}

/// The tokens as symbols.
fn symbols_of(found: &Ambiguous) -> Result<Vec<Symbol<u32>>, AllocError> {
    let mut symbols = Vec::new(*found.sentence.tokens.allocator());
    for token in &found.sentence.tokens {
        symbols.push(Symbol::Token(*token))?;
    }
    Ok(symbols)
}

/// Form and sentence are read both ways, and part at the conflict.
pub fn is_replayed(
    rt: &impl Abort,
    grm: &YaccGrammar<u32>,
    graph: &StateGraph<u32>,
    conflict: &Conflict<u32>,
    found: &Ambiguous,
) -> Result<(), Fail> {
    let (form, sentence) = (&found.form, &found.sentence);
    let rule = Symbol::Rule(form.rule);
    read_both(rt, grm, form.symbols.as_slice(), form.dot, &form.ways, rule)?;
    let symbols = symbols_of(found)?;
    let start = *grm.prod(grm.start_prod()).first().ok_or("a start rule")?;
    let before = read_both(
        rt,
        grm,
        symbols.as_slice(),
        sentence.dot,
        &sentence.ways,
        start,
    )?;
    let state = state_behind(graph, before.as_slice())?;
    assert!(rt; are_alike(graph, state, conflict.state));
    let next = sentence.tokens.get(sentence.dot).copied();
    assert!(rt; next.unwrap_or(grm.eof_token_idx()) == conflict.token);
    let second = match conflict.other {
        Some(other) => Move::Reduce(other),
        None => Move::Shift,
    };
    let first = Move::Reduce(conflict.production);
    for ways in [&form.ways, &sentence.ways] {
        assert!(rt; ways.first.first() == Some(&first));
        assert!(rt; ways.second.first() == Some(&second));
    }
    Ok(())
}
