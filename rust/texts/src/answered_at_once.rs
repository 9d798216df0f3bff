// Made of `crates/texts/src/answered_at_once.rt` by `bench/plain.py`: an edit of this file is lost.

//! A reader that waits for each answer before it gives a further line.

use kit::{eprintln, format, prelude::*, print, println, vec};
use assembly_text::run::{Status, run_text};
use kit::cell::Cell;
use kit::io;
use kit::io::{Read, Write};

/// The lines before the first query.
const DECLARED: &[&[u8]] = &[b"trait 1 T 0\n", b"// nothing\n", b"adt 1 A 0\n", b"\n"];

/// Queries, each answered by a line; other lines have none.
const ASKED: &[&[u8]] = &[
    b"knowable T A\n",
    b"orphan local T A\n",
    b"solve * T A\n",
    b"knowable T u8\n",
];

/// Gives a line a call, and counts those that it gave before all queries of lines before them were answered.
#[derive(Debug)]
struct Waiting<'a> {
    /// How many lines were asked for.
    place: usize,
    /// How many answers are written.
    answered: &'a Cell<u64>,
    early: &'a Cell<u64>,
}

impl Waiting<'_> {
    /// The next line, if one is left.
    fn next_line(&mut self) -> &'static [u8] {
        let place = self.place;
        self.place = place.saturating_add(1);
        if let Some(line) = DECLARED.get(place) {
            return *line;
        }
        let asked = place.saturating_sub(DECLARED.len());
        if self.answered.get() != asked as u64 {
            self.early.set(self.early.get().saturating_add(1));
        }
        match ASKED.get(asked) {
            Some(line) => *line,
            None => &[],
        }
    }
}

impl Read for Waiting<'_> {
    fn read(&mut self, buf: &mut [u8]) -> io::Result<usize> {
        let line = self.next_line();
        let count = buf.len().min(line.len());
        buf[..count].copy_from_slice(&line[..count]);
        Ok(count)
    }
}

/// Counts the ends of lines that are written.
#[derive(Debug)]
struct Counting<'a> {
    answered: &'a Cell<u64>,
}

impl Write for Counting<'_> {
    fn write(&mut self, buf: &[u8]) -> io::Result<usize> {
        for byte in buf {
            if *byte == b'\n' {
                self.answered.set(self.answered.get().saturating_add(1));
            }
        }
        Ok(buf.len())
    }

    fn flush(&mut self) -> io::Result<()> {
        Ok(())
    }
}

#[test]
fn answers_a_query_before_a_further_line_is_read() {
    let rt = HostRuntime;
    let answered = Cell::new(0);
    let early = Cell::new(0);
    let input = Waiting {
        place: 0,
        answered: &answered,
        early: &early,
    };
    let output = Counting {
        answered: &answered,
    };
    let errors = Counting { answered: &early };
    let status = run_text(rt.alloc(), 0, input, output, errors);
    assert!( status == Status::Done);
    assert!( answered.get() == 4);
    assert!( early.get() == 0);
}
