//! A machine of the tests' own, which looks up cells and gotos alone.

use crate::machines::derivations::production;
use lrgrammar::grammar::YaccGrammar;
use lrgrammar::idx::{IndexStorage, PIdx, StIdx, TIdx};
use lrtable::machine::{Run, Verdict};
use lrtable::{Action, StateTable};
use lrtree::Tree;
use std::alloc::Global;
use std::test::Fail;

/// The machine at work.
#[derive(Drop)]
struct Plain<T> {
    stack: Vec<StIdx<T>>,
    /// A tree for each state but the start state.
    trees: Vec<Tree<T>>,
    used: usize,
    reductions: Vec<PIdx<T>>,
}

impl<T: IndexStorage> Plain<T> {
    /// The state on top of the stack.
    fn top(&self) -> Result<StIdx<T>, Fail> {
        match self.stack.as_slice().last() {
            Some(state) => Ok(*state),
            None => Err(Fail::from("a state")),
        }
    }

    /// Drops so many states; the one that is then on top.
    fn pop(&mut self, count: usize) -> Result<StIdx<T>, Fail> {
        let kept = self.stack.len().checked_sub(count).ok_or("states")?;
        self.stack.truncate(kept);
        self.top()
    }

    /// Puts the last trees, so many of them, under a node in their place.
    fn put_together(&mut self, by: PIdx<T>, count: usize) -> Result<(), Fail> {
        let mut children = Vec::new(*self.trees.allocator());
        for _ in 0..count {
            children.push(self.trees.pop().ok_or("a tree")?)?;
        }
        children.as_mut_slice().reverse();
        self.trees.push(Tree::Node(by, children))?;
        Ok(())
    }

    /// Drops a body, and pushes where its rule leads.
    fn reduce(
        &mut self,
        grm: &YaccGrammar<T>,
        table: &StateTable<T>,
        by: PIdx<T>,
    ) -> Result<(), Fail> {
        let (rule, body) = production(grm, by).ok_or("a production")?;
        let behind = self.pop(body.len())?;
        let to = table.goto(behind, rule).ok_or("a goto")?;
        self.stack.push(to)?;
        self.put_together(by, body.len())?;
        self.reductions.push(by)?;
        Ok(())
    }

    /// Pushes the state, and uses up the token.
    fn shift(&mut self, to: StIdx<T>, token: TIdx<T>) -> Result<(), Fail> {
        self.stack.push(to)?;
        self.trees.push(Tree::Token(token))?;
        self.used = self.used.saturating_add(1);
        Ok(())
    }

    /// The next token of the text, which is the end token behind the last one.
    fn next(&self, grm: &YaccGrammar<T>, text: &[TIdx<T>]) -> TIdx<T> {
        text.get(self.used).copied().unwrap_or(grm.eof_token_idx())
    }

    /// Looks at one cell; the verdict where that is the last one.
    fn step(
        &mut self,
        grm: &YaccGrammar<T>,
        table: &StateTable<T>,
        text: &[TIdx<T>],
    ) -> Result<Option<Verdict>, Fail> {
        let token = self.next(grm, text);
        match table.action(self.top()?, token) {
            Action::Shift(to) => self.shift(to, token)?,
            Action::Reduce(by) => self.reduce(grm, table, by)?,
            Action::Accept => return Ok(Some(Verdict::Accepted)),
            Action::Error => return Ok(Some(Verdict::Rejected)),
        }
        Ok(None)
    }

    /// The verdict after at most so many steps, and how many there were.
    fn run(
        &mut self,
        grm: &YaccGrammar<T>,
        table: &StateTable<T>,
        text: &[TIdx<T>],
        steps: usize,
    ) -> Result<(Verdict, usize), Fail> {
        for before in 0..steps {
            if let Some(verdict) = self.step(grm, table, text)? {
                return Ok((verdict, before + 1));
            }
        }
        Ok((Verdict::Unfinished, steps))
    }
}

/// How the text comes out after at most so many steps, and the trees that are put together by then.
pub fn run_plainly<T: IndexStorage>(
    alloc: Global,
    grm: &YaccGrammar<T>,
    table: &StateTable<T>,
    text: &[TIdx<T>],
    most: usize,
) -> Result<(Run<T>, Vec<Tree<T>>), Fail> {
    let mut plain = Plain {
        stack: Vec::new(alloc),
        trees: Vec::new(alloc),
        used: 0,
        reductions: Vec::new(alloc),
    };
    plain.stack.push(table.start_state())?;
    let (verdict, steps) = plain.run(grm, table, text, most)?;
    let run = Run {
        verdict,
        steps,
        reductions: plain.reductions,
    };
    Ok((run, plain.trees))
}
