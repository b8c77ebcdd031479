//! The calls, each with a text of what it answers.

use crate::cases::{Call, OfLines, OfReasons, OfStates, OfTexts, Printing};
use crate::plain::push_plain;
use crate::problems::Problem;
use crate::subjects::{LENGTHS, STEPS, State, Subject, line, reasons_of};
use crate::texts::{push_firsts, push_grammar, push_table};
use lrgrammar::grammar::{GrammarError, YaccGrammar};
use lrgrammar::idx::{IndexStorage, PIdx, SIdx};
use lrgrammar::vob::Vob;
use lrreasons::Reasons;
use lrtable::itemset::Itemset;
use lrtable::machine::{line_tokens, production_label, production_labels, run};
use lrtable::{Minimiser, StateTable, from_yacc_counted, from_yacc_if_contested, state_table};
use lrtext::reader::read_parts;
use lrtree::{Tree, parse};
use std::alloc::{AllocError, Global};
use std::fmt;

/// How many bytes there is room for in a text.
const ROOM: usize = 1 << 17;

/// Where a call answers: a text with room, and what some calls change.
#[derive(Drop)]
pub struct Room {
    pub text: String,
    /// Bits, and as many that are set.
    pub bits: Vob,
    pub ones: Vob,
    /// A copy of the closed state, or an empty item set.
    pub set: Itemset<u32>,
    /// A bit for each token, all set.
    pub looks: Vob,
}

impl Room {
    /// Room for what calls on the subject answer.
    pub fn new(alloc: Global, subject: &Subject<'_>) -> Result<Room, AllocError> {
        let set = match subject.state() {
            Ok(state) => state.closed.clone()?,
            Err(_) => Itemset::new(alloc, subject.grm),
        };
        let len = LENGTHS.get(subject.place).copied().unwrap_or(0);
        Ok(Room {
            text: String::with_capacity(alloc, ROOM)?,
            bits: Vob::from_elem(alloc, true, len)?,
            ones: Vob::from_elem(alloc, true, len)?,
            set,
            looks: Vob::from_elem(alloc, true, usize::from(subject.grm.tokens_len()))?,
        })
    }
}

/// Adds a text of what is answered.
fn push<A: fmt::Debug + Drop>(
    text: &mut String,
    made: Result<A, AllocError>,
) -> Result<(), Problem> {
    let answer = made?;
    write!(text, "{answer:?}")?;
    Ok(())
}

/// Makes the call, and adds a text of what it answers. That takes no memory where the call takes none.
pub fn answer(call: &Call, subject: &Subject<'_>, room: &mut Room) -> Result<(), Problem> {
    match call {
        Call::BitsFromElem => push(
            &mut room.text,
            Vob::from_elem(subject.grm.allocator(), true, room.bits.len()),
        ),
        Call::BitsClone => push(&mut room.text, room.bits.clone()),
        Call::Text(call) => answer_by_text(call, subject, &mut room.text),
        Call::State(call) => answer_by_state(call, subject, room),
        Call::Line(call) => answer_by_line(call, subject, &mut room.text),
        Call::Print(call) => print(call, subject, &mut room.text),
        Call::Reason(call) => answer_by_reasons(call, subject, &mut room.text),
        Call::Plain(call) => push_plain(call, subject, room),
    }
}

/// What calls answer that lead from a text to its table.
fn answer_by_text(call: &OfTexts, subject: &Subject<'_>, text: &mut String) -> Result<(), Problem> {
    let alloc = subject.grm.allocator();
    match call {
        OfTexts::FromParts => push_from_parts(alloc, subject.sample.text, false, text),
        OfTexts::FromPartsWithoutStart => push_from_parts(alloc, subject.sample.text, true, text),
        OfTexts::ByU8 => push_built::<u8>(alloc, subject.sample.text, text),
        OfTexts::ByU16 => push_built::<u16>(alloc, subject.sample.text, text),
        OfTexts::ByU32 => push_built::<u32>(alloc, subject.sample.text, text),
        OfTexts::Firsts => push_firsts_of(subject, text),
        OfTexts::Table => push_table_of(subject, text),
        OfTexts::TableAlone => push_table_alone(subject, text),
        OfTexts::TableIfContested => push_table_if_contested(subject, text),
    }
}

/// `firsts`.
fn push_firsts_of(subject: &Subject<'_>, text: &mut String) -> Result<(), Problem> {
    let firsts = subject.grm.firsts()?;
    Ok(push_firsts(text, subject.grm, &firsts)?)
}

/// `StateTable::new`.
fn push_table_of(subject: &Subject<'_>, text: &mut String) -> Result<(), Problem> {
    let table = StateTable::new(subject.grm.allocator(), subject.grm, subject.graph)?;
    Ok(push_table(text, subject.grm, subject.graph, &table)?)
}

/// `from_yacc_if_contested`.
fn push_table_if_contested(subject: &Subject<'_>, text: &mut String) -> Result<(), Problem> {
    let (graph, table, states) = from_yacc_if_contested(
        subject.grm.allocator(),
        subject.grm,
        Minimiser::Pager,
    )?;
    push(text, Ok((graph.is_some(), states)))?;
    Ok(push_table(text, subject.grm, subject.graph, &table)?)
}

/// `state_table`.
fn push_table_alone(subject: &Subject<'_>, text: &mut String) -> Result<(), Problem> {
    let (table, _counts) = state_table(subject.grm.allocator(), subject.grm, Minimiser::Pager)?;
    Ok(push_table(text, subject.grm, subject.graph, &table)?)
}

/// `read_parts` and `from_parts`, for the parts as they are or with a start rule that is none.
fn push_from_parts(
    alloc: Global,
    source: &str,
    lacks_start: bool,
    text: &mut String,
) -> Result<(), Problem> {
    let Ok(mut parts) = read_parts(alloc, source) else {
        return Err(Problem::Memory(AllocError));
    };
    if lacks_start {
        parts.start = parts.rules.len();
    }
    match YaccGrammar::<u32>::from_parts(alloc, &parts) {
        Ok(grm) => Ok(push_grammar(text, &grm)?),
        Err(GrammarError::Memory) => Err(Problem::Memory(AllocError)),
        Err(refusal) => Ok(write!(text, "{refusal:?}")?),
    }
}

/// `from_text`, by any index type, `from_yacc_counted` and `pp_closed_states`.
fn push_built<T: IndexStorage>(
    alloc: Global,
    source: &str,
    text: &mut String,
) -> Result<(), Problem> {
    let grm = YaccGrammar::<T>::from_text(alloc, source)?;
    let (graph, _table, counts) = from_yacc_counted(alloc, &grm, Minimiser::Pager)?;
    push(text, Ok(counts))?;
    push(text, graph.pp_closed_states(&grm))
}

/// What calls on the item sets of a state answer.
fn answer_by_state(call: &OfStates, subject: &Subject<'_>, room: &mut Room) -> Result<(), Problem> {
    let grm = subject.grm;
    let State {
        core,
        closed,
        symbol,
    } = subject.state()?;
    match call {
        OfStates::Close => push(&mut room.text, core.close(grm, subject.firsts)),
        OfStates::Goto => push(&mut room.text, closed.goto(grm, &symbol)),
        OfStates::Pp => push(&mut room.text, closed.pp(grm)),
        OfStates::Clone => push(&mut room.text, closed.clone()),
        OfStates::Add => push_added(room, subject, (grm.start_prod(), SIdx(0))),
    }
}

/// `Itemset::add` to the copy of the closed state. Where memory is refused, that is to be as it was.
pub fn push_added(
    room: &mut Room,
    subject: &Subject<'_>,
    item: (PIdx<u32>, SIdx<u32>),
) -> Result<(), Problem> {
    let closed = subject.state()?.closed;
    match room.set.add(item.0, item.1, &room.looks) {
        Ok(changed) => Ok(write!(&mut room.text, "{changed} {:?}", room.set)?),
        Err(_) if room.set == *closed => Err(Problem::Memory(AllocError)),
        Err(_) => Ok(room.text.push_str("changed though memory was refused")?),
    }
}

/// What calls on a line and on the tree of the first one answer.
fn answer_by_line(call: &OfLines, subject: &Subject<'_>, text: &mut String) -> Result<(), Problem> {
    let (grm, table, tree) = (subject.grm, subject.table, subject.tree);
    let (alloc, tokens) = (grm.allocator(), subject.tokens);
    match call {
        OfLines::Tokens => {
            let line = line(subject.sample.lines, subject.place);
            push(text, line_tokens(grm, line.as_bytes()))
        }
        OfLines::Run => push(text, run(alloc, grm, table, tokens, STEPS)),
        OfLines::Parse => push(text, parse(alloc, grm, table, tokens, STEPS)),
        OfLines::Leaves => push(text, tree.leaves(alloc)),
        OfLines::Productions => push(text, tree.productions(alloc)),
        OfLines::Pp => push(text, tree.pp(grm)),
        OfLines::Visits => push_visits(text, tree, alloc),
    }
}

/// All visits of the tree. Where memory is refused to one, the call is made once more.
fn push_visits(text: &mut String, tree: &Tree<u32>, alloc: Global) -> Result<(), Problem> {
    let mut visits = tree.visits(alloc);
    loop {
        let next = match visits.next() {
            Ok(next) => next,
            Err(_) => visits.next()?,
        };
        match next {
            Some(visit) => write!(text, "{visit:?}")?,
            None => return Ok(()),
        }
    }
}

/// What calls answer that print something of the grammar, its graph and its table.
fn print(call: &Printing, subject: &Subject<'_>, text: &mut String) -> Result<(), Problem> {
    let (grm, graph) = (subject.grm, subject.graph);
    match (call, subject.table.conflicts()) {
        (Printing::Production, _) => push(text, grm.pp_prod(subject.production()?)),
        (Printing::Label, _) => push(text, production_label(grm, subject.production()?)),
        (Printing::Labels, _) => push(text, production_labels(grm)),
        (Printing::Cores, _) => push(text, graph.pp_core_states(grm)),
        (Printing::ClosedStates, _) => push(text, graph.pp_closed_states(grm)),
        (Printing::GraphOfCores, _) => push(text, graph.pp(grm, true)),
        (Printing::GraphOfClosedStates, _) => push(text, graph.pp(grm, false)),
        (Printing::Conflicts, Some(conflicts)) => push(text, conflicts.pp(grm)),
        (Printing::ShiftReduce, Some(conflicts)) => push(text, conflicts.pp_sr(grm)),
        (Printing::ReduceReduce, Some(conflicts)) => push(text, conflicts.pp_rr(grm)),
        (Printing::Conflicts | Printing::ShiftReduce | Printing::ReduceReduce, None) => Ok(()),
    }
}

/// What calls answer that tell why there are conflicts.
fn answer_by_reasons(
    call: &OfReasons,
    subject: &Subject<'_>,
    text: &mut String,
) -> Result<(), Problem> {
    let (grm, reasons) = (subject.grm, subject.reasons);
    match call {
        OfReasons::New => push(text, Reasons::new(grm, subject.graph).map(|_| ())),
        OfReasons::Reasons => push(text, reasons_of(grm.allocator(), reasons, subject.table)),
        OfReasons::Pp => push(text, reasons.pp(subject.told)),
        OfReasons::PpOfEach => {
            for reason in subject.told {
                push(text, reason.pp(grm))?;
            }
            Ok(())
        }
    }
}
