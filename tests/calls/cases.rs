//! The cases, a line each: the call, the grammar, and the number of a state, a production, a line or a length.

use crate::grammars::{CONTESTED, SAMPLES, sample_named};
use crate::problems::Problem;
use crate::subjects::{LENGTHS, Subject, Task, act_on};

/// A call, or several that take no memory.
pub enum Call {
    BitsFromElem,
    BitsClone,
    Text(OfTexts),
    State(OfStates),
    Line(OfLines),
    Print(Printing),
    Reason(OfReasons),
    Plain(Plain),
}

/// Calls that lead from a text to its table.
pub enum OfTexts {
    FromParts,
    FromPartsWithoutStart,
    ByU8,
    ByU16,
    ByU32,
    Firsts,
    Table,
    TableAlone,
    TableIfContested,
}

/// Calls on the item sets of a state.
pub enum OfStates {
    Close,
    Goto,
    Pp,
    Clone,
    Add,
}

/// Calls on a line, and on the tree of the first one.
pub enum OfLines {
    Tokens,
    Run,
    Parse,
    Leaves,
    Productions,
    Pp,
    Visits,
}

/// Calls that answer texts of a grammar, its graph and its table.
pub enum Printing {
    Production,
    Label,
    Labels,
    Cores,
    ClosedStates,
    GraphOfCores,
    GraphOfClosedStates,
    Conflicts,
    ShiftReduce,
    ReduceReduce,
}

/// Calls that tell why there are conflicts, and that answer texts of that.
pub enum OfReasons {
    New,
    Reasons,
    Pp,
    PpOfEach,
}

/// Calls that take no memory, by what they are made on.
pub enum Plain {
    Bits,
    Grammar,
    Firsts,
    Graph,
    Table,
    Compared,
    Items,
    Add,
}

/// What the number in a case is that of.
pub enum Place {
    None,
    Length,
    State,
    Production,
    Line,
    /// A line whose words all name tokens.
    KnownLine,
}

/// What is tried, with its name and with what the number is that of.
pub type Case = (&'static str, Call, Place);

/// What is tried on each grammar.
pub const ALL: [Case; 41] = [
    ("vob-from_elem", Call::BitsFromElem, Place::Length),
    ("vob-clone", Call::BitsClone, Place::Length),
    ("from_parts", Call::Text(OfTexts::FromParts), Place::None),
    (
        "from_parts-without-start",
        Call::Text(OfTexts::FromPartsWithoutStart),
        Place::None,
    ),
    ("from_yacc-by-u8", Call::Text(OfTexts::ByU8), Place::None),
    ("from_yacc-by-u16", Call::Text(OfTexts::ByU16), Place::None),
    ("from_yacc-by-u32", Call::Text(OfTexts::ByU32), Place::None),
    ("firsts", Call::Text(OfTexts::Firsts), Place::None),
    ("statetable-new", Call::Text(OfTexts::Table), Place::None),
    ("state_table", Call::Text(OfTexts::TableAlone), Place::None),
    (
        "from_yacc_if_contested",
        Call::Text(OfTexts::TableIfContested),
        Place::None,
    ),
    ("itemset-close", Call::State(OfStates::Close), Place::State),
    ("itemset-goto", Call::State(OfStates::Goto), Place::State),
    ("itemset-pp", Call::State(OfStates::Pp), Place::State),
    ("itemset-clone", Call::State(OfStates::Clone), Place::State),
    ("itemset-add", Call::State(OfStates::Add), Place::State),
    ("line_tokens", Call::Line(OfLines::Tokens), Place::Line),
    ("run", Call::Line(OfLines::Run), Place::KnownLine),
    ("parse", Call::Line(OfLines::Parse), Place::KnownLine),
    ("tree-leaves", Call::Line(OfLines::Leaves), Place::None),
    (
        "tree-productions",
        Call::Line(OfLines::Productions),
        Place::None,
    ),
    ("tree-pp", Call::Line(OfLines::Pp), Place::None),
    ("tree-visits", Call::Line(OfLines::Visits), Place::None),
    (
        "pp_prod",
        Call::Print(Printing::Production),
        Place::Production,
    ),
    (
        "production_label",
        Call::Print(Printing::Label),
        Place::Production,
    ),
    (
        "production_labels",
        Call::Print(Printing::Labels),
        Place::None,
    ),
    (
        "graph-pp_core_states",
        Call::Print(Printing::Cores),
        Place::None,
    ),
    (
        "graph-pp_closed_states",
        Call::Print(Printing::ClosedStates),
        Place::None,
    ),
    (
        "graph-pp-of-cores",
        Call::Print(Printing::GraphOfCores),
        Place::None,
    ),
    (
        "graph-pp-of-closed-states",
        Call::Print(Printing::GraphOfClosedStates),
        Place::None,
    ),
    (
        "conflicts-pp",
        Call::Print(Printing::Conflicts),
        Place::None,
    ),
    (
        "conflicts-pp_sr",
        Call::Print(Printing::ShiftReduce),
        Place::None,
    ),
    (
        "conflicts-pp_rr",
        Call::Print(Printing::ReduceReduce),
        Place::None,
    ),
    ("free-vob", Call::Plain(Plain::Bits), Place::Length),
    ("free-grammar", Call::Plain(Plain::Grammar), Place::None),
    ("free-firsts", Call::Plain(Plain::Firsts), Place::None),
    ("free-graph", Call::Plain(Plain::Graph), Place::None),
    ("free-table", Call::Plain(Plain::Table), Place::None),
    ("free-compared", Call::Plain(Plain::Compared), Place::None),
    ("free-itemset", Call::Plain(Plain::Items), Place::State),
    ("free-add", Call::Plain(Plain::Add), Place::State),
];

/// What is tried on grammars with conflicts.
pub const OF_REASONS: [Case; 4] = [
    ("reasons-new", Call::Reason(OfReasons::New), Place::None),
    (
        "reasons-reasons",
        Call::Reason(OfReasons::Reasons),
        Place::None,
    ),
    ("reasons-pp", Call::Reason(OfReasons::Pp), Place::None),
    ("reason-pp", Call::Reason(OfReasons::PpOfEach), Place::None),
];

/// The case that is tried on a grammar and a line of its own.
pub const DEEP: &str = "parse-deep";

/// How many numbers there are of that.
fn places(subject: &Subject<'_>, place: &Place) -> usize {
    let lines = subject.sample.lines.split('\n').count();
    match place {
        Place::None => 1,
        Place::Length => LENGTHS.len(),
        Place::State => usize::from(subject.graph.all_states_len()),
        Place::Production => usize::from(subject.grm.prods_len()),
        Place::Line => lines,
        Place::KnownLine => lines.saturating_sub(1),
    }
}

/// Prints so many cases of the call on the grammar.
fn list_places(rt: &HostRuntime, name: &str, grammar: &str, places: usize) -> Result<(), Problem> {
    for place in 0..places {
        println!(rt; "{name} {grammar} {place}")?;
    }
    Ok(())
}

/// Prints the cases of the subject's grammar.
pub fn list_cases(rt: &HostRuntime, subject: &Subject<'_>, cases: &[Case]) -> Result<(), Problem> {
    for (name, _, place) in cases {
        list_places(rt, name, subject.sample.name, places(subject, place))?;
    }
    Ok(())
}

/// Prints all cases.
pub fn list(rt: &HostRuntime) -> Result<(), Problem> {
    for sample in SAMPLES.as_slice() {
        act_on(rt, &Task::List(ALL.as_slice()), sample, 0)?;
    }
    for sample in CONTESTED.as_slice() {
        act_on(rt, &Task::List(OF_REASONS.as_slice()), sample, 0)?;
    }
    println!(rt; "{DEEP}")?;
    Ok(())
}

/// Tries the call of that name on the grammar of that name, and on what has that number.
pub fn try_case(rt: &HostRuntime, name: &str, grammar: &str, place: usize) -> Result<(), Problem> {
    let sample = sample_named(grammar).ok_or(Problem::NoCase)?;
    for cases in [ALL.as_slice(), OF_REASONS.as_slice()] {
        for (known, call, _) in cases {
            if *known == name {
                return act_on(rt, &Task::Try(call), &sample, place);
            }
        }
    }
    Err(Problem::NoCase)
}
