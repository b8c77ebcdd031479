//! Closures and gotos of the worked grammars, and what adding, copying and comparing answer.

use crate::fixtures::{
    EMPTY_RULE, NESTED_STATES, NO_SENTENCE, ROUND, RULE_WITHOUT_A_TREE, THROUGH_NULLABLES, is_told,
};
use lrgrammar::grammar::YaccGrammar;
use lrgrammar::idx::{IndexStorage, PIdx, SIdx, Symbol};
use lrgrammar::vob::Vob;
use lrtable::itemset::Itemset;
use std::alloc::Global;
use std::process::Abort;
use std::test::Fail;

/// The bits of the tokens with these names; `$` is the end token.
fn bits<T: IndexStorage>(
    rt: &impl Abort,
    alloc: Global,
    grm: &YaccGrammar<T>,
    names: &str,
) -> Result<Vob, Fail> {
    let mut bits = Vob::from_elem(alloc, false, usize::from(grm.tokens_len()))?;
    for name in names.split_whitespace() {
        let token = usize::from(grm.token_idx(name).unwrap_or(grm.eof_token_idx()));
        assert!(rt; token < bits.len());
        bits.set(token, true);
    }
    Ok(bits)
}

/// The item set with one item, which looks at the tokens with these names.
fn one_item<T: IndexStorage>(
    rt: &impl Abort,
    alloc: Global,
    grm: &YaccGrammar<T>,
    prod: usize,
    dot: usize,
    looks: &str,
) -> Result<Itemset<T>, Fail> {
    let pidx = PIdx(T::from_usize(prod).ok_or("a production")?);
    let dot = SIdx(T::from_usize(dot).ok_or("a dot")?);
    let looks = bits(rt, alloc, grm, looks)?;
    let mut set = Itemset::new(alloc, grm);
    set.add(pidx, dot, &looks)?;
    Ok(set)
}

/// The closure of an item set of the grammar.
fn closure_of<T: IndexStorage>(
    grm: &YaccGrammar<T>,
    given: &Itemset<T>,
) -> Result<Itemset<T>, Fail> {
    if !given.fits(grm) {
        return Err(Fail::from("an item of the grammar"));
    }
    let firsts = grm.firsts()?;
    Ok(given.close(grm, &firsts)?)
}

/// The closure of one item.
fn closed<T: IndexStorage>(
    rt: &impl Abort,
    alloc: Global,
    grm: &YaccGrammar<T>,
    prod: usize,
    dot: usize,
    looks: &str,
) -> Result<Itemset<T>, Fail> {
    let given = one_item(rt, alloc, grm, prod, dot, looks)?;
    closure_of(grm, &given)
}

/// The text of the closure of one item of the grammar.
fn closed_text<T: IndexStorage>(
    rt: &impl Abort,
    alloc: Global,
    text: &str,
    prod: usize,
    dot: usize,
    looks: &str,
) -> Result<String, Fail> {
    let grm = YaccGrammar::<T>::from_text(alloc, text)?;
    let closed = closed(rt, alloc, &grm, prod, dot, looks)?;
    Ok(closed.pp(&grm)?)
}

/// The closure of the item of the grammar has that text.
fn closes_to<T: IndexStorage>(
    rt: &impl Abort,
    alloc: Global,
    text: &str,
    (prod, dot, looks): (usize, usize, &str),
    wanted: &str,
) -> Result<(), Fail> {
    let told = closed_text::<T>(rt, alloc, text, prod, dot, looks)?;
    is_told(rt, text, told.as_str(), wanted);
    Ok(())
}

/// Closures that add one item.
fn short_closures(rt: &impl Abort, alloc: Global) -> Result<(), Fail> {
    let wanted = "[S -> ., {'$'}]\n[^ -> . S, {'$'}]";
    closes_to::<u32>(rt, alloc, EMPTY_RULE, (1, 0, "$"), wanted)?;
    let wanted = "[S -> . S 'a', {'a', '$'}]\n[^ -> . S, {'$'}]";
    closes_to::<u32>(rt, alloc, NO_SENTENCE, (1, 0, "$"), wanted)
}

/// Closures of two items of the nested states.
fn closures_of_nested_states(rt: &impl Abort, alloc: Global) -> Result<(), Fail> {
    let wanted = "[S -> 'b' . A 'a', {'b', '$'}]\n[A -> . 'a' S 'c', {'a'}]\n\
        [A -> . 'a', {'a'}]\n[A -> . 'a' S 'b', {'a'}]";
    closes_to::<u32>(rt, alloc, NESTED_STATES, (1, 1, "b $"), wanted)?;
    let wanted = "[S -> . S 'b', {'b', 'c'}]\n[S -> . 'b' A 'a', {'b', 'c'}]\n\
        [A -> 'a' . S 'c', {'a'}]";
    closes_to::<u32>(rt, alloc, NESTED_STATES, (2, 1, "a"), wanted)
}

/// Closures of the start items of a grammar in which a rule has no tree, and of one whose rules
/// lead to each other.
fn closures_of_start_items(rt: &impl Abort, alloc: Global) -> Result<(), Fail> {
    let wanted = "[S -> . A B, {'$'}]\n[S -> . 'c', {'$'}]\n[A -> . 'a', {}]\n\
        [A -> . 'a', {}]\n[^ -> . S, {'$'}]";
    closes_to::<u32>(rt, alloc, RULE_WITHOUT_A_TREE, (5, 0, "$"), wanted)?;
    let wanted = "[S -> . C 'd', {'x', '$'}]\n[A -> . 'a', {'b'}]\n[A -> . S 'x', {'b'}]\n\
        [B -> . A 'b', {'c'}]\n[C -> . B 'c', {'d'}]\n[C -> ., {'d'}]\n[^ -> . S, {'$'}]";
    closes_to::<u32>(rt, alloc, ROUND, (6, 0, "$"), wanted)
}

/// Closures through a nullable rule, and of the start item of the same grammar.
fn closures_through_nullables(rt: &impl Abort, alloc: Global) -> Result<(), Fail> {
    let wanted = "[C -> . D A, {'d', 'f'}]\n[D -> . 'd', {'a'}]\n[D -> ., {'a'}]\n\
        [F -> . C D 'f', {'$'}]";
    closes_to::<u32>(rt, alloc, THROUGH_NULLABLES, (10, 0, "$"), wanted)?;
    let wanted = "[S -> . S 'b', {'b', '$'}]\n[S -> . 'b' A 'a', {'b', '$'}]\n\
        [S -> . 'a', {'b', '$'}]\n[^ -> . S, {'$'}]";
    closes_to::<u32>(rt, alloc, THROUGH_NULLABLES, (11, 0, "$"), wanted)
}

#[test]
fn closures(rt: HostRuntime) -> Result<(), Fail> {
    short_closures(&rt, rt.alloc())?;
    closures_of_nested_states(&rt, rt.alloc())?;
    closures_of_start_items(&rt, rt.alloc())?;
    closures_through_nullables(&rt, rt.alloc())
}

#[test]
fn closure_by_bytes(rt: HostRuntime) -> Result<(), Fail> {
    let wanted = "[S -> ., {'$'}]\n[^ -> . S, {'$'}]";
    closes_to::<u8>(&rt, rt.alloc(), EMPTY_RULE, (1, 0, "$"), wanted)
}

/// The rule or else the token of that name.
fn symbol<T: IndexStorage>(grm: &YaccGrammar<T>, name: &str) -> Result<Symbol<T>, Fail> {
    if let Some(rule) = grm.rule_idx(name) {
        return Ok(Symbol::Rule(rule));
    }
    Ok(Symbol::Token(grm.token_idx(name).ok_or("a symbol")?))
}

/// The text of the goto of a closure over the symbol of that name.
fn goto_of<T: IndexStorage>(
    grm: &YaccGrammar<T>,
    closed: &Itemset<T>,
    name: &str,
) -> Result<String, Fail> {
    let symbol = symbol(grm, name)?;
    let moved = closed.goto(grm, &symbol)?;
    Ok(moved.pp(grm)?)
}

/// The text of the goto of the closure of one item of the nested states, over the rule or else the
/// token of that name.
fn goto_text<T: IndexStorage>(
    rt: &impl Abort,
    alloc: Global,
    prod: usize,
    dot: usize,
    looks: &str,
    name: &str,
) -> Result<String, Fail> {
    let grm = YaccGrammar::<T>::from_text(alloc, NESTED_STATES)?;
    let closed = closed(rt, alloc, &grm, prod, dot, looks)?;
    goto_of(&grm, &closed, name)
}

#[test]
fn gotos(rt: HostRuntime) -> Result<(), Fail> {
    let small = goto_text::<u8>(&rt, rt.alloc(), 5, 0, "$", "S")?;
    let wanted = "[S -> S . 'b', {'b', '$'}]\n[^ -> S ., {'$'}]";
    is_told(&rt, "S", small.as_str(), wanted);
    let large = goto_text::<u32>(&rt, rt.alloc(), 1, 1, "b $", "a")?;
    let wanted = "[A -> 'a' . S 'c', {'a'}]\n[A -> 'a' ., {'a'}]\n[A -> 'a' . S 'b', {'a'}]";
    is_told(&rt, "a", large.as_str(), wanted);
    Ok(())
}

/// Whether an item with that production and dot, that looks at nothing, fits the grammar.
fn item_fits<T: IndexStorage>(
    rt: &impl Abort,
    alloc: Global,
    prod: usize,
    dot: usize,
) -> Result<bool, Fail> {
    let grm = YaccGrammar::<T>::from_text(alloc, NO_SENTENCE)?;
    let item = one_item(rt, alloc, &grm, prod, dot, "")?;
    Ok(item.fits(&grm))
}

#[test]
fn fitting_items(rt: HostRuntime) -> Result<(), Fail> {
    for (prod, dot, fits) in [(1, 1, true), (1, 2, false), (2, 0, false)] {
        assert!(rt;
            item_fits::<u8>(&rt, rt.alloc(), prod, dot)? == fits,
            "{prod} {dot}"
        );
    }
    Ok(())
}

/// What adding the start item answers with these lookaheads, and then with those; and how many items there are then.
fn added_twice<T: IndexStorage>(
    alloc: Global,
    grm: &YaccGrammar<T>,
    these: &Vob,
    those: &Vob,
) -> Result<(bool, bool, usize), Fail> {
    let zero = SIdx(T::from_usize(0).ok_or("a dot")?);
    let mut set = Itemset::new(alloc, grm);
    let is_new = set.add(grm.start_prod(), zero, these)?;
    let is_more = set.add(grm.start_prod(), zero, those)?;
    Ok((is_new, is_more, set.items.len()))
}

/// The same where the first lookaheads are all there or all missing, and the second are all there.
fn added_to<T: IndexStorage>(
    alloc: Global,
    grm: &YaccGrammar<T>,
    first: bool,
) -> Result<(bool, bool, usize), Fail> {
    let these = Vob::from_elem(alloc, first, usize::from(grm.tokens_len()))?;
    let those = Vob::from_elem(alloc, true, usize::from(grm.tokens_len()))?;
    added_twice(alloc, grm, &these, &those)
}

/// The same for a grammar without a sentence.
fn added<T: IndexStorage>(alloc: Global, first: bool) -> Result<(bool, bool, usize), Fail> {
    let grm = YaccGrammar::<T>::from_text(alloc, NO_SENTENCE)?;
    added_to(alloc, &grm, first)
}

/// What adding answers for a new item, and for it once more; and what for lookaheads more.
fn adding<T: IndexStorage>(rt: &impl Abort, alloc: Global) -> Result<(), Fail> {
    for (first, changed) in [(true, false), (false, true)] {
        let (is_new, is_more, items) = added::<T>(alloc, first)?;
        assert!(rt; is_new && is_more == changed && items == 1, "{first}");
    }
    Ok(())
}

/// Whether the item set is equal to its copy.
fn is_copied<T: IndexStorage>(set: &Itemset<T>) -> Result<bool, Fail> {
    let copy = set.clone()?;
    Ok(*set == copy)
}

/// Whether the item set of the start item that looks at nothing is equal to its copy, and whether it
/// is equal to the one that looks at `a`.
fn equal_to<T: IndexStorage>(
    rt: &impl Abort,
    alloc: Global,
    grm: &YaccGrammar<T>,
) -> Result<(bool, bool), Fail> {
    let none = one_item(rt, alloc, grm, 1, 0, "")?;
    let some = one_item(rt, alloc, grm, 1, 0, "a")?;
    Ok((is_copied(&none)?, none == some))
}

/// The same for a grammar without a sentence.
fn equal<T: IndexStorage>(rt: &impl Abort, alloc: Global) -> Result<(bool, bool), Fail> {
    let grm = YaccGrammar::<T>::from_text(alloc, NO_SENTENCE)?;
    equal_to(rt, alloc, &grm)
}

/// Which item sets are equal.
fn compared<T: IndexStorage>(rt: &impl Abort, alloc: Global) -> Result<(), Fail> {
    let (to_copy, to_another) = equal::<T>(rt, alloc)?;
    assert!(rt; to_copy && !to_another);
    Ok(())
}

#[test]
fn adding_and_comparing(rt: HostRuntime) -> Result<(), Fail> {
    let alloc = rt.alloc();
    adding::<u8>(&rt, alloc)?;
    adding::<u32>(&rt, alloc)?;
    compared::<u8>(&rt, alloc)?;
    compared::<u32>(&rt, alloc)
}
