//! Statuses and lines of the program.

use crate::fixtures::{ASSIGNMENTS, TERMS_AND_FACTORS};
use lrcommand::command;
use std::alloc::{AllocError, Global};
use std::io;
use std::process::Abort;
use std::test::Fail;

const START: &str = "[S -> . L '=' R, {'$'}]\n[S -> . R, {'$'}]\n[L -> . '*' R, {'=', '$'}]\n\
    [L -> . 'id', {'=', '$'}]\n[R -> . L, {'$'}]\n[^ -> . S, {'$'}]\n";

const USAGE: &str =
    "usage: lrt start|core|closed|conflicts FILE | lrt run FILE STEPS | lrt tree FILE STEPS\n";

/// The arguments of a line of words.
fn words(alloc: Global, line: &str) -> Result<Vec<String>, AllocError> {
    let mut words = Vec::new(alloc);
    for word in line.split_ascii_whitespace() {
        words.push(String::from_str(alloc, word)?)?;
    }
    Ok(words)
}

/// The command of these words has that status, and writes and tells so much.
fn answers(
    rt: &impl Abort,
    alloc: Global,
    line: &str,
    file: Option<&[u8]>,
    status: u8,
    out: &str,
    faults: &str,
) -> Result<(), Fail> {
    let args = words(alloc, line)?;
    let (found, wrote, told) = command(
        alloc,
        args.as_slice(),
        file,
        io::empty(),
        Vec::new(alloc),
        Vec::new(alloc),
    );
    assert_eq!(rt; found, status, "{line}");
    assert_eq!(rt; wrote.as_slice(), out.as_bytes(), "{line}");
    assert_eq!(rt; told.as_slice(), faults.as_bytes(), "{line}");
    Ok(())
}

#[test]
fn start_states(rt: HostRuntime) -> Result<(), Fail> {
    let text = Some(ASSIGNMENTS.as_bytes());
    answers(&rt, rt.alloc(), "start a.y", text, 0, START, "")?;
    answers(&rt, rt.alloc(), "", text, 0, START, "")
}

#[test]
fn state_graphs(rt: HostRuntime) -> Result<(), Fail> {
    let text = Some(b"%start S %% S: 'a';".as_slice());
    let core = "0: [^ -> . S, {'$'}]\n   'a' -> 1\n   S -> 2\n1: [S -> 'a' ., {'$'}]\n\
        2: [^ -> S ., {'$'}]\n";
    let closed = "0: [S -> . 'a', {'$'}]\n   [^ -> . S, {'$'}]\n   'a' -> 1\n   S -> 2\n\
        1: [S -> 'a' ., {'$'}]\n2: [^ -> S ., {'$'}]\n";
    answers(&rt, rt.alloc(), "core a.y", text, 0, core, "")?;
    answers(&rt, rt.alloc(), "closed a.y", text, 0, closed, "")
}

#[test]
fn conflicts(rt: HostRuntime) -> Result<(), Fail> {
    let dangling = Some(b"%% S: 'if' S | 'if' S 'else' S | 'x';".as_slice());
    let listed = "Shift/Reduce conflicts:\n\
        \x20  State 4: Shift(\"else\") / Reduce(S: \"if\" \"S\")\n";
    let none = "no conflicts\n";
    let accepting = Some(b"%% D: D;".as_slice());
    let told = "lrt: Accept/reduce conflict\n";
    answers(&rt, rt.alloc(), "conflicts a.y", dangling, 0, listed, "")?;
    let text = Some(ASSIGNMENTS.as_bytes());
    answers(&rt, rt.alloc(), "conflicts a.y", text, 0, none, "")?;
    answers(&rt, rt.alloc(), "conflicts a.y", accepting, 1, "", told)?;
    answers(&rt, rt.alloc(), "core a.y", accepting, 1, "", told)?;
    answers(&rt, rt.alloc(), "tree a.y 5", accepting, 1, "", told)
}

#[test]
fn wrong_usage(rt: HostRuntime) -> Result<(), Fail> {
    let text = Some(ASSIGNMENTS.as_bytes());
    for line in [
        "start",
        "start a.y b.y",
        "starting a.y",
        "cores a.y",
        "closed",
        "conflict a.y",
        "begin a.y",
        "run a.y",
        "run a.y +1",
        "run a.y 18446744073709551616",
        "tree",
        "tree a.y",
        "tree a.y x",
        "tree a.y 1 2",
        "tree a.y -1",
        "tree a.y +1",
        "tree a.y 18446744073709551616",
        "trees a.y 1",
        "start a.y 1",
    ] {
        answers(&rt, rt.alloc(), line, text, 2, "", USAGE)?;
        answers(&rt, rt.alloc(), line, None, 2, "", USAGE)?;
    }
    Ok(())
}

#[test]
fn no_digits(rt: HostRuntime) -> Result<(), Fail> {
    let alloc = rt.alloc();
    let mut args = words(alloc, "run a.y")?;
    args.push(String::new(alloc))?;
    let (status, _, told) = command(
        alloc,
        args.as_slice(),
        Some(ASSIGNMENTS.as_bytes()),
        io::empty(),
        Vec::new(alloc),
        Vec::new(alloc),
    );
    assert_eq!(rt; status, 2);
    assert_eq!(rt; told.as_slice(), USAGE.as_bytes());
    Ok(())
}

/// The command of these words answers so what standard input holds.
fn answers_lines(
    rt: &impl Abort,
    alloc: Global,
    line: &str,
    text: &str,
    input: &str,
    out: &str,
) -> Result<(), Fail> {
    let args = words(alloc, line)?;
    let (status, wrote, told) = command(
        alloc,
        args.as_slice(),
        Some(text.as_bytes()),
        input.as_bytes(),
        Vec::new(alloc),
        Vec::new(alloc),
    );
    assert_eq!(rt; status, 0, "{line}");
    assert_eq!(rt; wrote.as_slice(), out.as_bytes(), "{line}");
    assert!(rt; told.is_empty(), "{line}");
    Ok(())
}

#[test]
fn runs(rt: HostRuntime) -> Result<(), Fail> {
    let input = "b a\nb b\nx\nb a a a";
    let out = "accept 5: S.1 S.0\nreject 2\nunknown x\nunfinished 7\n";
    let text = "%% S: S 'a' | 'b';";
    answers_lines(&rt, rt.alloc(), "run a.y 007", text, input, out)
}

#[test]
fn trees(rt: HostRuntime) -> Result<(), Fail> {
    // The second line takes 14 steps: 5 shifts, 8 reductions and the accepting one.
    let input = "id\nid - id * id\n- id\nid +\n\nid - id * id - id";
    let out = "tree Expr.1(Term.1(Factor.0('id')))\n\
        tree Expr.0(Term.1(Factor.0('id')) '-' \
        Expr.1(Term.0(Factor.0('id') '*' Term.1(Factor.0('id')))))\n\
        reject\nunknown +\nreject\nunfinished\n";
    answers_lines(
        &rt,
        rt.alloc(),
        "tree a.y 14",
        TERMS_AND_FACTORS,
        input,
        out,
    )
}

#[test]
fn trees_in_few_steps(rt: HostRuntime) -> Result<(), Fail> {
    let tree = "tree Expr.1(Term.1(Factor.0('id')))\n";
    answers_lines(
        &rt,
        rt.alloc(),
        "tree a.y 5",
        TERMS_AND_FACTORS,
        "id\n",
        tree,
    )?;
    answers_lines(
        &rt,
        rt.alloc(),
        "tree a.y 4",
        TERMS_AND_FACTORS,
        "id\n",
        "unfinished\n",
    )?;
    answers_lines(
        &rt,
        rt.alloc(),
        "tree a.y 0",
        TERMS_AND_FACTORS,
        "id\n",
        "unfinished\n",
    )
}

#[test]
fn trees_of_empty_productions(rt: HostRuntime) -> Result<(), Fail> {
    let text = "%% List: | List 'x';";
    let out = "tree List.0()\ntree List.1(List.1(List.0() 'x') 'x')\n";
    answers_lines(&rt, rt.alloc(), "tree a.y 9", text, "\nx x\n", out)
}

#[test]
fn files_without_a_text(rt: HostRuntime) -> Result<(), Fail> {
    let alloc = rt.alloc();
    let bytes = Some(b"\xff".as_slice());
    for line in ["start a.y", "run a.y 5", "tree a.y 5"] {
        answers(&rt, alloc, line, None, 1, "", "lrt: cannot read a.y\n")?;
        answers(&rt, alloc, line, bytes, 1, "", "lrt: a.y is not UTF-8\n")?;
    }
    let unread = "lrt: cannot read standard input\n";
    answers(&rt, alloc, "", None, 1, "", unread)?;
    let undecoded = "lrt: standard input is not UTF-8\n";
    answers(&rt, alloc, "", bytes, 1, "", undecoded)
}

#[test]
fn refused_texts(rt: HostRuntime) -> Result<(), Fail> {
    for (text, faults) in [
        ("%% S", "lrt: syntax error at byte 4\n"),
        ("%% S: x;", "lrt: unknown symbol x\n"),
        (
            "%left '+' '+' %% S: ;",
            "lrt: token + has two precedences\n",
        ),
        ("%%", "lrt: no start rule\n"),
    ] {
        for line in ["start a.y", "run a.y 5", "tree a.y 5"] {
            let bytes = Some(text.as_bytes());
            answers(&rt, rt.alloc(), line, bytes, 1, "", faults)?;
        }
    }
    Ok(())
}

/// That this output cannot be written is the fault told.
fn cannot_write<W: io::Write + Drop>(
    rt: &impl Abort,
    alloc: Global,
    line: &str,
    out: W,
) -> Result<(), Fail> {
    let args = words(alloc, line)?;
    let text = Some(ASSIGNMENTS.as_bytes());
    let (status, _, told) = command(
        alloc,
        args.as_slice(),
        text,
        io::empty(),
        out,
        Vec::new(alloc),
    );
    assert_eq!(rt; status, 1);
    assert_eq!(rt;
        told.as_slice(),
        b"lrt: cannot write standard output\n".as_slice()
    );
    Ok(())
}

/// Takes no byte.
#[derive(Drop)]
struct Stuck;

impl io::Write for Stuck {
    fn write(&mut self, _part: &[u8]) -> io::Result<usize> {
        Ok(0)
    }

    fn flush(&mut self) -> io::Result<()> {
        Ok(())
    }
}

/// Takes all bytes, and loses them when it is flushed.
#[derive(Drop)]
struct Unflushed;

impl io::Write for Unflushed {
    fn write(&mut self, part: &[u8]) -> io::Result<usize> {
        Ok(part.len())
    }

    fn flush(&mut self) -> io::Result<()> {
        Err(io::Error::from(io::ErrorKind::WriteZero))
    }
}

#[test]
fn output_that_takes_nothing(rt: HostRuntime) -> Result<(), Fail> {
    cannot_write(&rt, rt.alloc(), "start a.y", Stuck)
}

#[test]
fn output_whose_flush_fails(rt: HostRuntime) -> Result<(), Fail> {
    cannot_write(&rt, rt.alloc(), "start a.y", Unflushed)?;
    cannot_write(&rt, rt.alloc(), "run a.y 5", Unflushed)?;
    cannot_write(&rt, rt.alloc(), "tree a.y 5", Unflushed)
}

/// Cannot be read.
#[derive(Drop)]
struct Unread;

impl io::Read for Unread {
    fn read(&mut self, _buf: &mut [u8]) -> io::Result<usize> {
        Err(io::Error::from(io::ErrorKind::PermissionDenied))
    }
}

/// Of two faults the first is told: that of the reader, and not that of the flush behind it.
#[test]
fn input_that_cannot_be_read(rt: HostRuntime) -> Result<(), Fail> {
    let alloc = rt.alloc();
    for line in ["run a.y 5", "tree a.y 5"] {
        let args = words(alloc, line)?;
        let (status, _, told) = command(
            alloc,
            args.as_slice(),
            Some(ASSIGNMENTS.as_bytes()),
            Unread,
            Unflushed,
            Vec::new(alloc),
        );
        assert_eq!(rt; status, 1, "{line}");
        assert_eq!(rt;
            told.as_slice(),
            b"lrt: cannot read standard input\n".as_slice(),
            "{line}"
        );
    }
    Ok(())
}
