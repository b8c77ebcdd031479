//! Calls that take no memory.

use crate::calls::{Room, push_added};
use crate::cases::Plain;
use crate::problems::Problem;
use crate::subjects::{State, Subject};
use crate::texts::{push_firsts, push_grammar, push_graph, push_table};
use lrgrammar::idx::Symbol;
use lrgrammar::vob::Vob;
use lrtable::itemset::Itemset;
use lrtree::Tree;
use std::alloc::AllocError;

/// Makes the calls, and adds a text of what they answer.
pub fn push_plain(call: &Plain, subject: &Subject<'_>, room: &mut Room) -> Result<(), Problem> {
    let text = &mut room.text;
    let added = match call {
        Plain::Grammar => push_grammar(text, subject.grm),
        Plain::Firsts => push_firsts(text, subject.grm, subject.firsts),
        Plain::Graph => push_graph(text, subject.graph),
        Plain::Table => push_table(text, subject.grm, subject.graph, subject.table),
        Plain::Compared => push_compared(text, subject),
        Plain::Bits => push_bits(room),
        Plain::Items => return push_items(text, subject),
        Plain::Add => return push_added_there(room, subject),
    };
    Ok(added?)
}

/// How trees and symbols compare, and the numbers that indices are turned into.
fn push_compared(text: &mut String, subject: &Subject<'_>) -> Result<(), AllocError> {
    let (rules, tokens) = (subject.grm.rules_len(), subject.grm.tokens_len());
    let (prods, states) = (subject.grm.prods_len(), subject.graph.all_states_len());
    let stored = [
        rules.as_storaget(),
        tokens.as_storaget(),
        prods.as_storaget(),
        states.as_storaget(),
    ];
    let numbers = [
        u32::from(rules),
        u32::from(tokens),
        u32::from(prods),
        u32::from(states),
    ];
    let (rule, token) = (Symbol::Rule(rules), Symbol::Token(tokens));
    let symbols = (rule < token, token < rule, rule == token);
    let end = Tree::Token(tokens);
    let trees = (*subject.tree == *subject.tree, *subject.tree == end);
    end.take_apart();
    write!(text, "{stored:?} {numbers:?} {symbols:?} {trees:?}")
}

/// Whether the item set of a state fits the grammar, and is equal to others.
fn push_items(text: &mut String, subject: &Subject<'_>) -> Result<(), Problem> {
    let State { core, closed, .. } = subject.state()?;
    let empty = Itemset::new(subject.grm.allocator(), subject.grm);
    write!(text, "{closed:?} {}", closed.fits(subject.grm))?;
    write!(text, " {} {}", *closed == *core, *closed == empty)?;
    Ok(())
}

/// `Itemset::add` at the first item of all lookaheads, twice, so that the second one adds nothing.
fn push_added_there(room: &mut Room, subject: &Subject<'_>) -> Result<(), Problem> {
    match subject.state()?.closed.items.keys().next() {
        Some(item) => {
            push_added(room, subject, *item)?;
            push_added(room, subject, *item)
        }
        None => Err(Problem::Unfit),
    }
}

/// The calls of bit vectors.
fn push_bits(room: &mut Room) -> Result<(), AllocError> {
    let (text, bits, ones) = (&mut room.text, &mut room.bits, &room.ones);
    bits.set_all(false);
    push_bits_compared(text, bits, ones)?;
    let changed = (bits.or(ones), bits.or(ones));
    push_bits_compared(text, bits, ones)?;
    if bits.len() == 0 {
        return write!(text, " {changed:?}");
    }
    let set = (bits.set(0, false), bits.set(0, false));
    write!(text, " {changed:?} {set:?} {:?} {bits:?}", bits.get(0))
}

/// What calls of the bits answer that change none.
fn push_bits_compared(text: &mut String, bits: &Vob, ones: &Vob) -> Result<(), AllocError> {
    write!(text, " {} {}", bits.intersects(ones), *bits == *ones)?;
    for place in bits.iter_set_bits(0..bits.len()) {
        write!(text, " {place}")?;
    }
    Ok(())
}
