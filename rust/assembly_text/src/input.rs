// Made of `crates/assembly_text/src/input.rt` by `bench/plain.py`: an edit of this file is lost.

//! An input, whose lines come one after the other.

use kit::{eprintln, format, prelude::*, print, println, vec};
use kit::memchr::memchr;
use kit::alloc::{AllocError, Global};
use kit::io;
use kit::io::{ErrorKind, Read};

/// After how many reads an input without an end is given up.
const MAX_READS: u64 = 1 << 32;

/// How many bytes are read at once, at most.
const CHUNK_LENGTH: usize = 8192;

/// An input, and what was read of it but not taken yet.
#[derive(Debug)]
pub struct Input<R: Read + Drop> {
    device: R,
    /// What was read last.
    chunk: [u8; CHUNK_LENGTH],
    /// Which bytes of the chunk are left: those from this one on.
    start: usize,
    /// And before this one.
    end: usize,
    reads: u64,
    is_at_end: bool,
}

impl<R: Read + Drop> Input<R> {
    /// All that the device has.
    pub fn new(device: R) -> Self {
        Input {
            device,
            chunk: [0; CHUNK_LENGTH],
            start: 0,
            end: 0,
            reads: 0,
            is_at_end: false,
        }
    }

    /// Adds the next line with its end, if one is left, and says whether one was. The inner error comes where the text can't grow.
    ///
    /// Nothing is read behind the line's end but what came with it.
    pub fn add_line(&mut self, text: &mut Vec<u8>) -> io::Result<Result<bool, AllocError>> {
        let mut is_some = false;
        for _ in 0..u64::MAX {
            if !self.is_left()? {
                break;
            }
            is_some = true;
            match self.add_part(text) {
                Ok(false) => {}
                Ok(true) => break,
                Err(error) => return Ok(Err(error)),
            }
        }
        Ok(Ok(is_some))
    }

    /// Adds what is left of the chunk up to a line's end, and says whether that is there.
    fn add_part(&mut self, text: &mut Vec<u8>) -> Result<bool, AllocError> {
        let left = part_of(&self.chunk, self.start, self.end);
        match memchr(b'\n', left) {
            Some(place) => {
                text.extend_from_slice(&left[..place + 1])?;
                self.start = self.start.saturating_add(place + 1);
                Ok(true)
            }
            None => {
                text.extend_from_slice(left)?;
                self.start = self.end;
                Ok(false)
            }
        }
    }

    /// Whether anything is left; where nothing of the chunk is, the next one is read.
    fn is_left(&mut self) -> io::Result<bool> {
        if self.start < self.end {
            return Ok(true);
        }
        if self.is_at_end {
            return Ok(false);
        }
        for _ in self.reads..MAX_READS {
            self.reads = self.reads.saturating_add(1);
            match self.device.read(&mut self.chunk) {
                Ok(count) => {
                    self.start = 0;
                    self.end = count;
                    self.is_at_end = count == 0;
                    return Ok(count > 0);
                }
                Err(error) => {
                    if error.kind() != ErrorKind::Interrupted {
                        return Err(error);
                    }
                }
            }
        }
        Err(io::Error::from(ErrorKind::TimedOut))
    }
}

/// The bytes from the one place on and before the other; none, where these aren't places of one part.
fn part_of(bytes: &[u8], start: usize, end: usize) -> &[u8] {
    match bytes.split_at_checked(end) {
        Some((before, _)) => match before.split_at_checked(start) {
            Some((_, left)) => left,
            None => &[],
        },
        None => &[],
    }
}
