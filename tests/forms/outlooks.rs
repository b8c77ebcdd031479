//! How parses go on from the conflicts of small grammars. The rests are the shortest ones, found by hand.

use crate::fixtures::{SUMS_AND_PRODUCTS, TOLD_APART_LATE, grammar_and_graph, is_told, tokens};
use crate::forms::continued::continued;
use lrambiguity::Move;
use lrforms::Forms;
use lrgrammar::idx::{PIdx, RIdx, Symbol, TIdx};
use std::alloc::Global;
use std::process::Abort;
use std::test::Fail;

/// An `else` goes with either `if`.
const DANGLING_ELSE: &str = "%start S %% S: 'if' 'e' 'then' S | 'if' 'e' 'then' S 'else' S | 'x';";

/// A minus in front of a sum.
const MINUS_IN_FRONT: &str = "%% E: E '+' E | '-' E | 'n';";

/// Two empty rules at the end of the text.
const EMPTY_AT_THE_END: &str = "%% S: A N | B; A: 'a' C; B: 'a' D; C: ; D: ; N: M 'n' | ; M: ;";

/// The token comes behind nullable rules, and not with the shorter text of `U`.
const BEHIND_NULLABLES: &str = "%% S: 'a' X N U | 'a' 'b' 'u' 'z' 'z'; X: 'b'; N: 'n' | ; \
    U: N 'u' 'v' | 'w';";

/// Two ways lead on: by more items with fewer tokens, or by fewer items.
const SHORTER_BY_MORE_ITEMS: &str = "%% S: A 'u' 'x' 'y' | B 'u' 'z' | 'a' 'u'; B: A; A: 'a';";

/// As many tokens come by fewer items.
const AS_SHORT_BY_FEWER_ITEMS: &str =
    "%% S: B 'u' 'z' | A 'u' 'x' | 'a' 'u' 'u' | 'a' 'u' C; B: A; A: 'a'; C: ;";

/// The token comes further out than behind the nullable `N`.
const FURTHER_OUT: &str = "%% S: '(' S ')' | T N; T: T T | 'n'; N: ; S: 'n' ')';";

/// `B` has no text. It comes behind the token, before the conflict, or behind the token where something else can come too.
const BEHIND_NO_TEXT: &str = "%% S: A 'u' B | 'a' 'u'; A: 'a'; B: 'b' B;";

const BEFORE_NO_TEXT: &str = "%% S: B A 'u' | B 'a' 'u'; A: 'a'; B: 'b' B;";

const AROUND_NO_TEXT: &str = "%% S: A 'u' B | A 'u' 'x' 'y' | 'a' 'u'; A: 'a'; B: 'b' B;";

/// `U` begins with the token and has no text.
const BEGUN_BY_NO_TEXT: &str = "%% S: A U | 'a' 'u'; A: 'a'; U: 'u' U;";

/// Expressions after headers, as those of jq: an optional header, and operators round a word in front.
const TRIES: &str =
    "%% T: M I E | M I D; M: | 'module' E ';'; I: | R I; R: 'import' ';'; D: | F D; \
    F: 'def' ':' E ';'; E: 'try' E | E '=' E | '.';";

/// What is told of the grammar is what is wanted.
fn goes_on(rt: &impl Abort, alloc: Global, text: &str, wanted: &str) -> Result<(), Fail> {
    let told = continued(rt, alloc, text)?;
    is_told(rt, text, told.as_str(), wanted);
    Ok(())
}

#[test]
fn shifts(rt: HostRuntime) -> Result<(), Fail> {
    for (text, wanted) in [
        (
            DANGLING_ELSE,
            "after if e then if e then x\n  \
             ^: . S, S: if e then . S else S, S: if e then S ., then else x\n  \
             ^: . S, S: if e then . S, S: if e then S . else S, then else x\n",
        ),
        (
            MINUS_IN_FRONT,
            "after - n\n  \
             ^: . E, E: . E + E, E: - E ., then + n\n  \
             ^: . E, E: - . E, E: E . + E, then + n\n\
             after n + n\n  \
             ^: . E, E: . E + E, E: E + E ., then + n\n  \
             ^: . E, E: E + . E, E: E . + E, then + n\n",
        ),
        (
            BEHIND_NULLABLES,
            "after a b\n  \
             ^: . S, S: a X . N U, N: ., then n u v\n  \
             ^: . S, S: a X . N U, N: . n, then n w\n\
             after a b\n  \
             ^: . S, S: a . X N U, X: b ., then u v\n  \
             ^: . S, S: a b . u z z, then u z z\n",
        ),
    ] {
        goes_on(&rt, rt.alloc(), text, wanted)?;
    }
    Ok(())
}

#[test]
fn reductions(rt: HostRuntime) -> Result<(), Fail> {
    for (text, wanted) in [
        (
            TOLD_APART_LATE,
            "after a\n  \
             ^: . A, A: . B x, B: a ., then x\n  \
             ^: . A, A: . C x x, C: a ., then x x\n",
        ),
        (
            EMPTY_AT_THE_END,
            "after a\n  \
             ^: . S, S: . A N, A: a . C, C: ., then\n  \
             ^: . S, S: . B, B: a . D, D: ., then\n",
        ),
    ] {
        goes_on(&rt, rt.alloc(), text, wanted)?;
    }
    Ok(())
}

#[test]
fn least_of_several(rt: HostRuntime) -> Result<(), Fail> {
    for (text, wanted) in [
        (
            SHORTER_BY_MORE_ITEMS,
            "after a\n  \
             ^: . S, S: . B u z, B: A ., then u z\n  \
             ^: . S, S: A . u x y, then u x y\n\
             after a\n  \
             ^: . S, S: . B u z, B: . A, A: a ., then u z\n  \
             ^: . S, S: a . u, then u\n",
        ),
        (
            AS_SHORT_BY_FEWER_ITEMS,
            "after a\n  \
             ^: . S, S: . B u z, B: A ., then u z\n  \
             ^: . S, S: A . u x, then u x\n\
             after a\n  \
             ^: . S, S: . A u x, A: a ., then u x\n  \
             ^: . S, S: a . u C, then u\n",
        ),
        (
            FURTHER_OUT,
            "after ( n\n  \
             ^: . S, S: ( . S ), S: . T N, T: n ., then )\n  \
             ^: . S, S: ( . S ), S: n . ), then ) )\n\
             after n n\n  \
             ^: . S, S: . T N, T: . T T, T: T T ., then n\n  \
             ^: . S, S: . T N, T: T . T, T: T . T, T: . n, then n\n",
        ),
    ] {
        goes_on(&rt, rt.alloc(), text, wanted)?;
    }
    Ok(())
}

#[test]
fn rules_without_texts(rt: HostRuntime) -> Result<(), Fail> {
    for (text, wanted) in [
        (
            BEHIND_NO_TEXT,
            "after a\n  \
             ^: . S, S: . A u B, A: a ., then none\n  \
             ^: . S, S: a . u, then u\n",
        ),
        (
            BEFORE_NO_TEXT,
            "after none\n  \
             ^: . S, S: B . A u, A: a ., then u\n  \
             ^: . S, S: B a . u, then u\n",
        ),
        (
            AROUND_NO_TEXT,
            "after a\n  \
             ^: . S, S: . A u x y, A: a ., then u x y\n  \
             ^: . S, S: a . u, then u\n",
        ),
        (
            BEGUN_BY_NO_TEXT,
            "after a\n  \
             ^: . S, S: . A U, A: a ., then none\n  \
             ^: . S, S: a . u, then u\n",
        ),
    ] {
        goes_on(&rt, rt.alloc(), text, wanted)?;
    }
    Ok(())
}

#[test]
fn expressions_after_headers(rt: HostRuntime) -> Result<(), Fail> {
    let wanted = "after module try .\n  \
        ^: . T, T: . M I D, M: module . E ;, E: . E = E, E: try E ., then = . ;\n  \
        ^: . T, T: . M I D, M: module . E ;, E: try . E, E: E . = E, then = . ;\n\
        after module . = .\n  \
        ^: . T, T: . M I D, M: module . E ;, E: . E = E, E: E = E ., then = . ;\n  \
        ^: . T, T: . M I D, M: module . E ;, E: E = . E, E: E . = E, then = . ;\n";
    goes_on(&rt, rt.alloc(), TRIES, wanted)
}

/// Where no text goes on, there is no outlook.
#[test]
fn no_way_to_go_on(rt: HostRuntime) -> Result<(), Fail> {
    let (grm, graph, _table) = grammar_and_graph::<u32>(rt.alloc(), SUMS_AND_PRODUCTS)?;
    let forms = Forms::new(rt.alloc(), &grm, &graph)?;
    let tokens = tokens(&grm, "+ id")?;
    let [plus, id] = *tokens.as_slice() else {
        return Err(Fail::from("two tokens"));
    };
    let sum = *grm.prod(PIdx(0)).first().ok_or("a rule")?;
    for (list, token, candidate) in [
        // no text begins so, and there is no such symbol
        (Symbol::Token(plus), id, Move::Shift),
        (Symbol::Token(TIdx(200)), id, Move::Shift),
        // no such item stands there
        (sum, id, Move::Shift),
        (sum, plus, Move::Reduce(PIdx(0))),
        (sum, plus, Move::Reduce(PIdx(200))),
        // the token can't come next
        (Symbol::Token(id), id, Move::Reduce(PIdx(2))),
        (Symbol::Token(id), TIdx(200), Move::Reduce(PIdx(2))),
    ] {
        assert!(rt; forms.outlook(&[list], token, candidate)?.is_none());
    }
    assert!(rt; forms.outlook(&[sum], plus, Move::Shift)?.is_some());
    assert!(rt; forms.outlook(&[], id, Move::Shift)?.is_some());
    Ok(())
}

#[test]
fn texts_of_symbols(rt: HostRuntime) -> Result<(), Fail> {
    let (grm, graph, _table) = grammar_and_graph::<u32>(rt.alloc(), BEHIND_NULLABLES)?;
    let forms = Forms::new(rt.alloc(), &grm, &graph)?;
    // `N U`, of which `N` is the empty text, and `U` is `w`: its production and those of `N`
    let body = grm.prod(PIdx(0)).get(2..).ok_or("symbols")?;
    let text = forms.text_of(body)?.ok_or("a text")?;
    assert!(rt; text.tokens == tokens(&grm, "w")?);
    let moves = [Move::Reduce(PIdx(4)), Move::Shift, Move::Reduce(PIdx(6))];
    assert!(rt; text.moves.as_slice() == moves.as_slice());
    let nothing = forms.text_of(&[])?.ok_or("a text")?;
    assert!(rt; nothing.tokens.is_empty() && nothing.moves.is_empty());
    assert!(rt; forms.text_of(&[Symbol::Rule(RIdx(200))])?.is_none());
    Ok(())
}
