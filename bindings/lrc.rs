//! Grammars of Yacc and Bison: what lrcheck tells of them, and their LR tables. docs/LIBRARY.md says what the numbers mean.
//!
//! The calls are those of liblrc.a or liblrc.so: `rustc -L FOLDER -l lrc` finds either.

/// The calls of lrc.h.
mod c {
    unsafe extern "C" {
        pub fn lrc_report(text: *const u8, length: usize, kind: u32, out: *mut u8, room: usize) -> usize;
        pub fn lrc_table(text: *const u8, length: usize, out: *mut u32, room: usize) -> usize;
        pub fn lrc_names(text: *const u8, length: usize, out: *mut u8, room: usize) -> usize;
    }
}

/// What a report tells: all that `lrcheck` tells, the verdict alone, JSON with the grammar, or a page for a browser.
#[derive(Clone, Copy, Debug, PartialEq, Eq)]
pub enum Kind {
    Report,
    Summary,
    Json,
    Page,
}

/// Why nothing is told.
#[derive(Clone, Debug, PartialEq, Eq)]
pub enum Error {
    /// The text is no grammar, or its grammar has no table: this is the report on it.
    Refused(String),
    /// Memory was refused, or a number of the table has more than 32 bits.
    TooLarge,
}

/// What a state does on a token.
#[derive(Clone, Copy, Debug, PartialEq, Eq)]
pub enum Action {
    Error,
    Accept,
    Shift(usize),
    Reduce(usize),
}

/// The LR table of a grammar. State 0 is the start state.
#[derive(Clone, Debug)]
pub struct Table {
    numbers: Vec<u32>,
    /// The name of each token. Token 0 is the end of the text, and the last one, without a name, ends the machine's input.
    pub tokens: Vec<String>,
    /// The name of each rule.
    pub rules: Vec<String>,
    /// The rule of each production, and how many symbols its body has.
    pub productions: Vec<(usize, usize)>,
}

/// All that a call tells: it is made again with the room that it asked for.
fn all<T: Clone + Default>(call: impl Fn(*mut T, usize) -> usize) -> Result<Vec<T>, Error> {
    let mut out = vec![T::default(); 1 << 16];
    loop {
        match call(out.as_mut_ptr(), out.len()) {
            usize::MAX => return Err(Error::TooLarge),
            size if size <= out.len() => {
                out.truncate(size);
                return Ok(out);
            }
            size => out.resize(size, T::default()),
        }
    }
}

/// The report of a kind on a grammar text. `Refused` where there is no page, since the text is no grammar.
pub fn report(text: &[u8], kind: Kind) -> Result<String, Error> {
    let told = all(|out, room| unsafe { c::lrc_report(text.as_ptr(), text.len(), kind as u32, out, room) })?;
    if told.is_empty() {
        return Err(Error::Refused(report(text, Kind::Report)?));
    }
    Ok(String::from_utf8_lossy(&told).into_owned())
}

impl Table {
    /// The table of the grammar of a text.
    pub fn new(text: &[u8]) -> Result<Table, Error> {
        let numbers = all(|out, room| unsafe { c::lrc_table(text.as_ptr(), text.len(), out, room) })?;
        if numbers.is_empty() {
            return Err(Error::Refused(report(text, Kind::Report)?));
        }
        let names = all(|out, room| unsafe { c::lrc_names(text.as_ptr(), text.len(), out, room) })?;
        let names = String::from_utf8_lossy(&names);
        let (states, tokens, rules) = (numbers[0] as usize, numbers[1] as usize, numbers[2] as usize);
        let mut names = names.lines().map(String::from);
        Ok(Table {
            tokens: names.by_ref().take(tokens).collect(),
            rules: names.take(rules).collect(),
            productions: numbers[4 + states * (tokens + rules)..]
                .chunks(2)
                .map(|pair| (pair[0] as usize, pair[1] as usize))
                .collect(),
            numbers,
        })
    }

    /// How many states there are.
    pub fn states(&self) -> usize {
        self.numbers[0] as usize
    }

    /// What a state does on a token.
    pub fn action(&self, state: usize, token: usize) -> Action {
        match self.numbers[4 + state * self.tokens.len() + token] as usize {
            0 => Action::Error,
            1 => Action::Accept,
            number if number % 2 == 0 => Action::Shift(number / 2 - 1),
            number => Action::Reduce(number / 2 - 1),
        }
    }

    /// Where a rule leads from a state; None where it leads nowhere.
    pub fn goto(&self, state: usize, rule: usize) -> Option<usize> {
        let gotos = 4 + self.states() * self.tokens.len();
        (self.numbers[gotos + state * self.rules.len() + rule] as usize).checked_sub(1)
    }
}
