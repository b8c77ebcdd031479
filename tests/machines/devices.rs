//! Devices in memory that fail when they are told to.

ghost use Rattle.std.specs.Prelude.{Some};

use lrtable::machine::{DeviceFault, LineRead, LineWrite};
use std::alloc::Global;

/// A reader that fails once it has given so many bytes.
#[derive(Drop)]
pub struct FailingReader<'a> {
    bytes: &'a [u8],
    /// How many bytes a call gives at most.
    at_once: usize,
    /// How many bytes it still gives before it fails.
    good: usize,
    failures: u64,
}

impl<'a> FailingReader<'a> {
    /// A reader of the bytes, which gives one at a time at least.
    pub fn new(bytes: &'a [u8], at_once: usize, good: usize) -> FailingReader<'a> {
        FailingReader {
            bytes,
            at_once: at_once.max(1),
            good,
            failures: 0,
        }
    }
}

impl<'a> LineRead for FailingReader<'a> {
    ghost left = { λ r. Some r.bytes.now };

    ghost failures = { λ r. r.failures };

    fn read(&mut self, buf: &mut [u8]) -> Result<usize, DeviceFault> {
        if self.good == 0 {
            self.failures = self.failures.saturating_add(1);
            return Err(DeviceFault);
        }
        let room = buf.len().min(self.at_once).min(self.good);
        let n = self.bytes.len().min(room);
        let (front, behind) = self.bytes.split_at(n);
        buf[..n].copy_from_slice(front);
        self.bytes = behind;
        self.good -= n;
        Ok(n)
    }
}

/// A writer that fails at one of its calls.
#[derive(Drop)]
pub struct FailingWriter {
    /// What was written.
    pub bytes: Vec<u8>,
    /// How many bytes a call takes at most.
    at_once: usize,
    /// How many calls it still answers before it fails.
    good: usize,
    failures: u64,
}

impl FailingWriter {
    /// A writer to which nothing was written yet.
    pub fn new(alloc: Global, at_once: usize, good: usize) -> FailingWriter {
        FailingWriter {
            bytes: Vec::new(alloc),
            at_once,
            good,
            failures: 0,
        }
    }
}

impl LineWrite for FailingWriter {
    ghost written = { λ w. Some w.bytes.items };

    ghost failures = { λ w. w.failures };

    fn write(&mut self, buf: &[u8]) -> Result<usize, DeviceFault> {
        let n = buf.len().min(self.at_once);
        if self.good == 0 || self.bytes.extend_from_slice(&buf[..n]).is_err() {
            self.failures = self.failures.saturating_add(1);
            return Err(DeviceFault);
        }
        if n == 0 && !buf.is_empty() {
            self.failures = self.failures.saturating_add(1);
        }
        self.good -= 1;
        Ok(n)
    }
}
