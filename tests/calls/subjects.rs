//! What calls are made on, made with ample memory.

use crate::cases::{Call, Case, list_cases};
use crate::grammars::Sample;
use crate::problems::Problem;
use crate::windows::try_call;
use lrgrammar::firsts::YaccFirsts;
use lrgrammar::grammar::YaccGrammar;
use lrgrammar::idx::{IndexStorage, PIdx, StIdx, Symbol, TIdx};
use lrreasons::{Examples, Reason, Reasons};
use lrtable::itemset::Itemset;
use lrtable::machine::line_tokens;
use lrtable::{Minimiser, StateGraph, StateTable, from_yacc};
use lrtree::{Parsed, Tree, parse};
use std::alloc::{AllocError, Global};

/// Lengths of bit vectors.
pub const LENGTHS: [usize; 5] = [0, 1, 64, 65, 200];

/// How many steps runs and searches make at most.
pub const STEPS: usize = 100;

/// A state.
#[derive(Drop)]
pub struct State<'a> {
    pub core: &'a Itemset<u32>,
    pub closed: &'a Itemset<u32>,
    /// The first symbol on which it has an edge, or the end token.
    pub symbol: Symbol<u32>,
}

/// A grammar with all that is made of it, and the number of a case.
#[derive(Drop)]
pub struct Subject<'a> {
    pub sample: &'a Sample,
    pub place: usize,
    pub grm: &'a YaccGrammar<u32>,
    pub firsts: &'a YaccFirsts<u32>,
    pub graph: &'a StateGraph<u32>,
    pub table: &'a StateTable<u32>,
    /// The tokens of the line of that number, and none where it is no line of tokens.
    pub tokens: &'a [TIdx<u32>],
    /// The tree of the first line.
    pub tree: &'a Tree<u32>,
    pub reasons: &'a Reasons<'a>,
    /// The reasons for all conflicts.
    pub told: &'a [Reason],
}

/// What is done with a subject.
#[derive(Drop)]
pub enum Task<'a> {
    /// These cases are listed.
    List(&'a [Case]),
    /// The call is tried on it.
    Try(&'a Call),
}

/// Does the task on what the sample and the number lead to.
pub fn act_on(
    rt: &HostRuntime,
    task: &Task<'_>,
    sample: &Sample,
    place: usize,
) -> Result<(), Problem> {
    let grm = YaccGrammar::from_text(rt.alloc(), sample.text)?;
    let (graph, table) = from_yacc(rt.alloc(), &grm, Minimiser::Pager)?;
    let firsts = grm.firsts()?;
    let tokens = tokens(&grm, line(sample.lines, place))?;
    let tree = tree(&grm, &table, line(sample.lines, 0))?;
    let reasons = Reasons::new(&grm, &graph)?;
    let told = reasons_of(rt.alloc(), &reasons, &table)?;
    let subject = Subject {
        sample,
        place,
        grm: &grm,
        firsts: &firsts,
        graph: &graph,
        table: &table,
        tokens: tokens.as_slice(),
        tree: &tree,
        reasons: &reasons,
        told: told.as_slice(),
    };
    match task {
        Task::List(cases) => list_cases(rt, &subject, cases),
        Task::Try(call) => try_call(rt, call, &subject),
    }
}

impl Subject<'_> {
    /// The production of that number.
    pub fn production(&self) -> Result<PIdx<u32>, Problem> {
        match u32::from_usize(self.place) {
            Some(prod) if self.place < usize::from(self.grm.prods_len()) => Ok(PIdx(prod)),
            _ => Err(Problem::NoCase),
        }
    }

    /// The state of that number.
    pub fn state(&self) -> Result<State<'_>, Problem> {
        let stidx = match u32::from_usize(self.place) {
            Some(state) if self.place < usize::from(self.graph.all_states_len()) => StIdx(state),
            _ => return Err(Problem::NoCase),
        };
        let (core, closed) = (self.graph.core_state(stidx), self.graph.closed_state(stidx));
        let symbol = match self.graph.edges(stidx).keys().next() {
            Some(symbol) => *symbol,
            None => Symbol::Token(self.grm.eof_token_idx()),
        };
        Ok(State {
            core,
            closed,
            symbol,
        })
    }
}

/// The line of that number, and an empty one where there is none.
pub fn line(lines: &'static str, number: usize) -> &'static str {
    lines.split('\n').nth(number).unwrap_or("")
}

/// The tokens that the words of the line name, and none where one is unknown.
pub fn tokens(grm: &YaccGrammar<u32>, line: &str) -> Result<Vec<TIdx<u32>>, AllocError> {
    match line_tokens(grm, line.as_bytes())? {
        Ok(tokens) => Ok(tokens),
        Err(_) => Ok(Vec::new(grm.allocator())),
    }
}

/// The reasons for all conflicts of the table.
pub fn reasons_of(
    alloc: Global,
    reasons: &Reasons<'_>,
    table: &StateTable<u32>,
) -> Result<Vec<Reason>, AllocError> {
    match table.conflicts() {
        Some(conflicts) => reasons.reasons(conflicts, STEPS, Examples::Everywhere),
        None => Ok(Vec::new(alloc)),
    }
}

/// The tree of the line.
fn tree(grm: &YaccGrammar<u32>, table: &StateTable<u32>, line: &str) -> Result<Tree<u32>, Problem> {
    let text = tokens(grm, line)?;
    match parse(grm.allocator(), grm, table, text.as_slice(), STEPS)? {
        Parsed::Tree(tree) => Ok(tree),
        Parsed::Rejected | Parsed::Unfinished => Err(Problem::Unfit),
    }
}
