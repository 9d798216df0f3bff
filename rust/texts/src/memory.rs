// Made of `crates/texts/src/memory.rt` by `bench/plain.py`: an edit of this file is lost.

//! A reader and a writer in memory, and runs with them.

use kit::{eprintln, format, prelude::*, print, println, vec};
use assembly_text::options::Options;
use assembly_text::run::{self, Status};
use kit::alloc::Global;
use kit::io;
use kit::io::{ErrorKind, Read, Write};

/// How many calls devices take, and fail at the next one.
#[derive(Clone, Copy, Debug)]
pub struct Calls {
    pub reads: usize,
    pub writes: usize,
    /// Of the device for what is said of faults.
    pub says: usize,
}

/// Devices that don't fail.
pub const ALL_CALLS: Calls = Calls {
    reads: usize::MAX,
    writes: usize::MAX,
    says: usize::MAX,
};

/// Gives a few bytes a call, and fails at the call after so many.
#[derive(Debug)]
pub struct Source<'a> {
    pub rest: &'a [u8],
    pub calls_left: usize,
}

impl Read for Source<'_> {
    fn read(&mut self, buf: &mut [u8]) -> io::Result<usize> {
        let Some(calls_left) = self.calls_left.checked_sub(1) else {
            return Err(io::Error::from(ErrorKind::ConnectionReset));
        };
        self.calls_left = calls_left;
        let count = buf.len().min(self.rest.len()).min(50);
        buf[..count].copy_from_slice(&self.rest[..count]);
        self.rest = &self.rest[count..];
        Ok(count)
    }
}

/// Takes a few bytes a call, and fails at the call after so many.
#[derive(Debug)]
pub struct Sink {
    pub written: Vec<u8>,
    pub calls_left: usize,
}

impl Sink {
    fn count_call(&mut self) -> io::Result<()> {
        let Some(calls_left) = self.calls_left.checked_sub(1) else {
            return Err(io::Error::from(ErrorKind::BrokenPipe));
        };
        self.calls_left = calls_left;
        Ok(())
    }
}

impl Write for Sink {
    fn write(&mut self, buf: &[u8]) -> io::Result<usize> {
        self.count_call()?;
        let count = buf.len().min(5);
        self.written.extend_from_slice(&buf[..count])?;
        Ok(count)
    }

    fn flush(&mut self) -> io::Result<()> {
        self.count_call()
    }
}

/// How a run ended, what it wrote, and what it said of a fault.
#[derive(Debug)]
pub struct Ran {
    pub status: Status,
    pub written: Vec<u8>,
    pub said: Vec<u8>,
}

/// A run over the text by these options, where the devices take so many calls: the input, the output, and the one for what is said of faults.
pub fn run_as(alloc: Global, options: Options, text: &[u8], calls: Calls) -> Ran {
    let Calls {
        reads,
        writes,
        says,
    } = calls;
    let source = Source {
        rest: text,
        calls_left: reads,
    };
    let mut sink = Sink {
        written: Vec::new(alloc),
        calls_left: writes,
    };
    let mut errors = Sink {
        written: Vec::new(alloc),
        calls_left: says,
    };
    let status = run::run_with(alloc, 0, options, source, &mut sink, &mut errors);
    Ran {
        status,
        written: sink.written,
        said: errors.written,
    }
}
