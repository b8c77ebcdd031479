//! Texts that go on from conflicts, and what they must be, apart from the crate.

use crate::fixtures::grammar_and_graph;
use crate::forms::told::conflicts_of;
use lrambiguity::{Move, Written, read_moves};
use lrconflicts::Conflict;
use lrcontests::Contests;
use lrforms::{Forms, Outlook};
use lrgrammar::grammar::YaccGrammar;
use lrgrammar::idx::{PIdx, SIdx, Symbol, TIdx};
use std::alloc::{AllocError, Global};
use std::process::Abort;
use std::test::Fail;

/// A list of symbols, the token that comes next, and a move that is a candidate there.
#[derive(Clone, Copy)]
struct Spot<'a> {
    grm: &'a YaccGrammar<u32>,
    list: &'a [Symbol<u32>],
    token: TIdx<u32>,
    candidate: Move<u32>,
}

impl Spot<'_> {
    /// An outlook there has the stated form, and its rest goes with the text of the list.
    fn is_sound(
        &self,
        rt: &impl Abort,
        input: Option<&Written<u32>>,
        outlook: &Outlook,
    ) -> Result<(), Fail> {
        self.has_items(rt, outlook.items.as_slice())?;
        if let Some(rest) = &outlook.rest {
            let next = rest.tokens.first().copied();
            assert!(rt; next.unwrap_or(self.grm.eof_token_idx()) == self.token);
            assert!(rt; rest.moves.first() == Some(&self.candidate));
            if let Some(input) = input {
                is_read(rt, self.grm, input, rest)?;
            }
        }
        Ok(())
    }

    /// The first item is that of the start production, each further one is below the one before it, and the symbols before the
    /// dots are the list.
    fn has_items(&self, rt: &impl Abort, items: &[(PIdx<u32>, SIdx<u32>)]) -> Result<(), Fail> {
        let mut before = Vec::new(self.grm.allocator());
        let mut rule = self.grm.prod_to_rule(self.grm.start_prod());
        let last = items.len().checked_sub(1).ok_or("an item")?;
        for (place, (production, dot)) in items.iter().enumerate() {
            assert!(rt; self.grm.prod_to_rule(*production) == rule);
            let (front, back) = self.grm.prod(*production).split_at(usize::from(*dot));
            before.extend_from_slice(front)?;
            match back.first() {
                Some(Symbol::Rule(next)) if place < last => rule = *next,
                next => {
                    assert_eq!(rt; place, last);
                    self.is_candidate(rt, *production, next.copied());
                }
            }
        }
        assert!(rt; before.as_slice() == self.list);
        Ok(())
    }

    /// The candidate is possible at an item of the production with this symbol behind the dot.
    fn is_candidate(&self, rt: &impl Abort, production: PIdx<u32>, next: Option<Symbol<u32>>) {
        match self.candidate {
            Move::Shift => assert!(rt; next == Some(Symbol::Token(self.token))),
            Move::Reduce(reduced) => assert!(rt; reduced == production && next.is_none()),
        }
    }
}

/// The moves of both read both texts, one behind the other.
fn is_read(
    rt: &impl Abort,
    grm: &YaccGrammar<u32>,
    input: &Written<u32>,
    rest: &Written<u32>,
) -> Result<(), Fail> {
    let mut tokens = input.tokens.clone()?;
    let mut moves = input.moves.clone()?;
    tokens.extend_from_slice(rest.tokens.as_slice())?;
    moves.extend_from_slice(rest.moves.as_slice())?;
    let tree = read_moves(grm.allocator(), grm, tokens.as_slice(), moves.as_slice())?;
    assert!(rt; tree.is_some());
    if let Some(tree) = tree {
        tree.take_apart();
    }
    Ok(())
}

/// Adds the symbols, and a dot at the place.
fn push_symbols(
    told: &mut String,
    grm: &YaccGrammar<u32>,
    symbols: &[Symbol<u32>],
    dot: usize,
) -> Result<(), AllocError> {
    for (place, symbol) in symbols.iter().enumerate() {
        told.push_str(if place == dot { " . " } else { " " })?;
        match symbol {
            Symbol::Rule(rule) => told.push_str(grm.rule_name_str(*rule))?,
            Symbol::Token(token) => told.push_str(grm.token_name(*token).unwrap_or("$"))?,
        }
    }
    if dot == symbols.len() {
        told.push_str(" .")?;
    }
    Ok(())
}

/// Adds the text; `none` where there is none.
fn push_text(
    told: &mut String,
    grm: &YaccGrammar<u32>,
    text: Option<&Written<u32>>,
) -> Result<(), AllocError> {
    let Some(text) = text else {
        return told.push_str(" none");
    };
    for token in &text.tokens {
        told.push(' ')?;
        told.push_str(grm.token_name(*token).unwrap_or("$"))?;
    }
    Ok(())
}

/// Adds the items, and then the rest.
fn push_outlook(
    told: &mut String,
    grm: &YaccGrammar<u32>,
    outlook: &Outlook,
) -> Result<(), AllocError> {
    for (production, dot) in &outlook.items {
        told.push_str(grm.rule_name_str(grm.prod_to_rule(*production)))?;
        told.push(':')?;
        push_symbols(told, grm, grm.prod(*production), usize::from(*dot))?;
        told.push_str(", ")?;
    }
    told.push_str("then")?;
    push_text(told, grm, outlook.rest.as_ref())
}

/// A shortest list after which the conflict is real, and the token that comes next there.
fn list_of(
    contests: &Contests<'_, u32>,
    conflict: &Conflict<u32>,
) -> Result<(Vec<Symbol<u32>>, TIdx<u32>), AllocError> {
    let Conflict {
        state,
        token,
        production,
        other,
    } = *conflict;
    match other {
        Some(other) => contests.of_reductions(token, production, other, state),
        None => Ok((contests.of_shift(token, production, state)?, token)),
    }
}

/// How parses go on at each conflict of the grammar: a least text of the list in a line, and each of the candidates in one
/// more. All is held to what it must be.
pub fn continued(
    rt: &impl Abort,
    alloc: Global,
    text: &str,
) -> Result<String, Fail> {
    let (grm, graph, table) = grammar_and_graph::<u32>(alloc, text)?;
    let forms = Forms::new(alloc, &grm, &graph)?;
    let contests = Contests::new(&grm, &graph)?;
    let mut told = String::new(alloc);
    for conflict in &conflicts_of(alloc, &table)? {
        let (list, token) = list_of(&contests, conflict)?;
        let list = list.as_slice();
        let input = forms.text_of(list)?;
        told.push_str("after")?;
        push_text(&mut told, &grm, input.as_ref())?;
        let other = conflict.other.map_or(Move::Shift, Move::Reduce);
        for candidate in [Move::Reduce(conflict.production), other] {
            let outlook = forms.outlook(list, token, candidate)?;
            let outlook = outlook.ok_or("a way to go on")?;
            let spot = Spot {
                grm: &grm,
                list,
                token,
                candidate,
            };
            spot.is_sound(rt, input.as_ref(), &outlook)?;
            told.push_str("\n  ")?;
            push_outlook(&mut told, &grm, &outlook)?;
        }
        told.push('\n')?;
    }
    Ok(told)
}
