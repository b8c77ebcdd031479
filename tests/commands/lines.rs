//! Lines through devices in memory.

use lrlines::{Counted, LineAnswers, LineError, Words, answer_lines};
use std::alloc::AllocError;
use std::test::Fail;

/// Answers each line by itself.
struct Echo;

impl LineAnswers for Echo {
    type Prepared = ();

    ghost answer = { λ _ line. line };

    ghost can_answer = { λ _. ⊤ };

    ghost is_prepared = { λ _ _. ⊤ };

    fn prepare(&self) -> Result<(), AllocError> {
        Ok(())
    }

    fn answer(&self, _: &(), line: &[u8], out: &mut Vec<u8>) -> Result<(), AllocError> {
        out.extend_from_slice(line)
    }
}

/// A line of 100,000 bytes, which takes many reads, and a short one behind it.
#[test]
fn long_line(rt: HostRuntime) -> Result<(), Fail> {
    let alloc = rt.alloc();
    let mut text = vec![in alloc; b'a'; 100_000]?;
    text.extend_from_slice(b"\nb")?;
    let mut reader = Counted::new(text.as_slice());
    let mut writer = Counted::new(Vec::new(alloc));
    assert_eq!(rt;
        answer_lines(alloc, &mut reader, &mut writer, &Echo),
        Ok(())
    );
    text.push(b'\n')?;
    assert_eq!(rt; writer.into_inner().as_slice(), text.as_slice());
    Ok(())
}

/// A writer that is full takes no more bytes.
#[test]
fn full_writer(rt: HostRuntime) {
    let mut room = [0u8; 3];
    let mut reader = Counted::new(b"a\nb\n".as_slice());
    let mut writer = Counted::new(room.as_mut_slice());
    assert_eq!(rt;
        answer_lines(rt.alloc(), &mut reader, &mut writer, &Echo),
        Err(LineError::Write)
    );
}

#[test]
fn words_of_a_line(rt: HostRuntime) {
    let mut words = Words::new(b" a\t- bc ");
    for word in ["a", "-", "bc"] {
        assert_eq!(rt; words.next(), Some(word.as_bytes()));
    }
    assert_eq!(rt; words.next(), None);
}

#[test]
fn error_texts(rt: HostRuntime) -> Result<(), Fail> {
    let alloc = rt.alloc();
    for (error, text) in [
        (LineError::Read, "cannot read standard input"),
        (LineError::Write, "cannot write standard output"),
        (LineError::Memory, "out of memory"),
    ] {
        assert_eq!(rt; format!(in alloc; "{error}")?.as_str(), text);
    }
    Ok(())
}
