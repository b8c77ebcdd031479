//! How many items a closing visits.

use lrclosing::closing::close_counted;
use lrclosing::items::{Ctx, Items, items_fit};
use lrgrammar::grammar::YaccGrammar;
use lrgrammar::idx::{IndexStorage, PIdx, SIdx};
use lrgrammar::vob::Vob;
use std::alloc::Global;
use std::collections::BTreeMap;
use std::fmt::Write;
use std::test::Fail;

/// Adds the item of a production at dot 0 that looks at the end token alone.
fn give<T: IndexStorage>(
    alloc: Global,
    given: &mut Items<T>,
    grm: &YaccGrammar<T>,
    prod: usize,
) -> Result<(), Fail> {
    let mut end = Vob::from_elem(alloc, false, usize::from(grm.tokens_len()))?;
    end.set(usize::from(grm.eof_token_idx()), true);
    let pidx = PIdx(T::from_usize(prod).ok_or("a production")?);
    given.insert((pidx, SIdx(T::from_usize(0).ok_or("a dot")?)), end)?;
    Ok(())
}

/// These items of all the productions.
fn given_items<T: IndexStorage>(
    alloc: Global,
    grm: &YaccGrammar<T>,
    prods: &[usize],
) -> Result<Items<T>, Fail> {
    let mut given = BTreeMap::new(alloc);
    for prod in prods {
        give(alloc, &mut given, grm, *prod)?;
    }
    Ok(given)
}

/// The closure of the items of the productions, and how many items were visited for it.
fn closed_and_visits<T: IndexStorage>(
    alloc: Global,
    grm: &YaccGrammar<T>,
    prods: &[usize],
) -> Result<(Items<T>, usize), Fail> {
    let firsts = grm.firsts()?;
    let given = given_items(alloc, grm, prods)?;
    if !items_fit(&given, grm) {
        return Err(Fail::from("an item of the grammar"));
    }
    Ok(close_counted(&given, grm, &firsts)?)
}

/// Adds the numbers of the tokens at which an item looks.
fn push_looks(text: &mut String, ctx: &Ctx) -> Result<(), Fail> {
    for token in ctx.iter_set_bits(0..ctx.len()) {
        write!(text, " {token}")?;
    }
    Ok(())
}

/// Of each item the numbers of its production, of its dot, and of the tokens at which it looks.
fn text_of<T: IndexStorage>(alloc: Global, items: &Items<T>) -> Result<String, Fail> {
    let mut text = String::new(alloc);
    for (key, ctx) in items {
        write!(text, "[{}.{}:", usize::from(key.0), usize::from(key.1))?;
        push_looks(&mut text, ctx)?;
        text.push(']')?;
    }
    Ok(text)
}

/// The closure's text, and how many items were visited for it.
fn text_and_visits<T: IndexStorage>(
    alloc: Global,
    text: &str,
    prods: &[usize],
) -> Result<(String, usize), Fail> {
    let grm = YaccGrammar::<T>::from_text(alloc, text)?;
    let (closed, visits) = closed_and_visits(alloc, &grm, prods)?;
    Ok((text_of(alloc, &closed)?, visits))
}

#[test]
fn visits(rt: HostRuntime) -> Result<(), Fail> {
    for (text, prod, wanted, wanted_visits) in [
        // The given item, and `S: S 'a'` twice, as it gives itself another token.
        ("%% S: S 'a';", 1, "[0.0: 0 1][1.0: 1]", 3),
        // The item gives nothing.
        ("%% S: 'a';", 0, "[0.0: 1]", 1),
        // The given item, `S: A B`, and `A: 'a'`, which looks at nothing.
        (
            "%% S: A B; A: 'a'; B: B 'b';",
            3,
            "[0.0: 2][1.0:][3.0: 2]",
            3,
        ),
        // The given item, and both bodies. The second gives both another token, so that both come once more.
        (
            "%% S: S 'a' | S 'b';",
            2,
            "[0.0: 0 1 2][1.0: 0 1 2][2.0: 2]",
            5,
        ),
        // The given item, and all four bodies in the order of the text. The third, `B: A`, gives those of `A` another
        // token, so that the two before it come once more.
        (
            "%% A: A 'x' | B 'y'; B: A; A: ;",
            4,
            "[0.0: 0 1 2][1.0: 0 1 2][2.0: 1][3.0: 0 1 2][4.0: 2]",
            7,
        ),
    ] {
        let (closed, visits) = text_and_visits::<u8>(rt.alloc(), text, &[prod])?;
        assert_eq!(rt; closed.as_str(), wanted);
        assert_eq!(rt; visits, wanted_visits, "{text}");
    }
    Ok(())
}

/// Each given item, and `S: S 'a'` once, as it was given all before.
#[test]
fn visits_of_two_given_items(rt: HostRuntime) -> Result<(), Fail> {
    let (closed, visits) = text_and_visits::<u8>(rt.alloc(), "%% S: S 'a';", &[0, 1])?;
    assert_eq!(rt; closed.as_str(), "[0.0: 0 1][1.0: 1]");
    assert_eq!(rt; visits, 3);
    Ok(())
}
