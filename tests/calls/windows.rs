//! The window in which a case makes its call: between the lines `begin` and `end` on standard output, each of them one
//! write.

use crate::calls::{Room, answer};
use crate::cases::Call;
use crate::problems::Problem;
use crate::subjects::Subject;
use crate::texts::push_subject;
use std::alloc::{AllocError, Global};
use std::io::Write;

/// Texts that a case compares.
#[derive(Drop)]
struct Texts {
    /// What the arguments tell before the calls, and behind them.
    before: String,
    after: String,
    /// Where the call answers with ample memory, and where it does in the window.
    whole: Room,
    found: Room,
}

impl Texts {
    fn new(alloc: Global, subject: &Subject<'_>) -> Result<Texts, AllocError> {
        let whole = Room::new(alloc, subject)?;
        let found = Room::new(alloc, subject)?;
        Ok(Texts {
            before: String::new(alloc),
            after: String::new(alloc),
            whole,
            found,
        })
    }
}

/// Makes the call with ample memory, in the window, and once more where memory was refused to it there. Tells what came of it.
fn make_calls(
    rt: &HostRuntime,
    call: &Call,
    subject: &Subject<'_>,
    texts: &mut Texts,
) -> Result<(), Problem> {
    push_subject(&mut texts.before, subject)?;
    answer(call, subject, &mut texts.whole)?;
    rt.stdout().write_all(b"begin\n")?;
    let answered = answer(call, subject, &mut texts.found);
    rt.stdout().write_all(b"end\n")?;
    let is_refused = matches!(&answered, Err(Problem::Memory(_)));
    if is_refused {
        texts.found.text.clear();
        answer(call, subject, &mut texts.found)?;
    } else {
        answered?;
    }
    push_subject(&mut texts.after, subject)?;
    tell(rt, is_refused, texts)
}

/// Prints whether memory was refused to the call in the window, and how the texts compare.
fn tell(rt: &HostRuntime, is_refused: bool, texts: &Texts) -> Result<(), Problem> {
    let call = if is_refused {
        "out of memory"
    } else {
        "answered"
    };
    let is_kept = texts.before == texts.after;
    let arguments = if is_kept { "as they were" } else { "changed" };
    let is_same = texts.whole.text == texts.found.text;
    let answer = if is_same { "same" } else { "another" };
    println!(rt; "{call}, arguments {arguments}, {answer} answer")?;
    Ok(())
}

/// Tries the call on the subject, and tells what came of it.
pub fn try_call(rt: &HostRuntime, call: &Call, subject: &Subject<'_>) -> Result<(), Problem> {
    let mut texts = Texts::new(rt.alloc(), subject)?;
    make_calls(rt, call, subject, &mut texts)
}
