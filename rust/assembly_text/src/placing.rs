// Made of `crates/assembly_text/src/placing.rt` by `bench/plain.py`: an edit of this file is lost.

//! Where a fault comes in: the line that brings it into the declarations, or the word of a line.
//!
//! The text is read anew, cut behind several of its parts, which are lines, or what stands between the blanks of a query. Halving finds a
//! part that brings the fault in: the text up to there has it, and without that part it hasn't. A fault may come and go; then it is one
//! of the parts with which it comes. A reading that ends in another way, as for want of memory, counts as one without the fault.


use kit::{eprintln, format, prelude::*, print, println, vec};
use crate::lines::{read_anew, without_mark};
use assembly_notation::faults::Fault;
use assembly_notation::words::{Words, end_of_words, first_bad_byte, is_blank, without_return};
use ir_trees::ir::stop::Stop;
use kit::alloc::Global;

/// A line that ended the run.
#[derive(Clone, Copy, Debug)]
pub struct BadLine<'a> {
    pub number: u64,
    pub fault: Fault<'a>,
}

/// Where a fault comes in.
#[derive(Clone, Copy, Debug)]
pub struct Place<'a> {
    /// The number of the line.
    pub number: u64,
    /// The line, without a carriage return at its end.
    pub line: &'a [u8],
    /// How many of its bytes stand before the word at fault, if that is known.
    pub before: Option<usize>,
}

/// What stands between two parts.
#[derive(Clone, Copy, Debug)]
enum Separator {
    LineFeed,
    Blank,
}

impl Separator {
    fn is(self, byte: u8) -> bool {
        match self {
            Separator::LineFeed => byte == b'\n',
            Separator::Blank => is_blank(byte),
        }
    }
}

/// A text with a fault, and what its parts are.
#[derive(Clone, Copy, Debug)]
struct Readings<'a> {
    alloc: Global,
    seed: u64,
    text: &'a [u8],
    bad: BadLine<'a>,
    /// How many bytes stand before the first part.
    start: usize,
    separator: Separator,
}

/// Where the fault of that line comes in, if that is found: of a query, or of the declarations before it.
pub fn place_of<'a>(alloc: Global, seed: u64, text: &'a [u8], bad: BadLine<'a>) -> Option<Place<'a>>
{
    let text = without_mark(text);
    let start = start_of_part(text, Separator::LineFeed, bad.number.saturating_sub(1));
    let readings = Readings {
        alloc,
        seed,
        text: &text[..start],
        bad,
        start: 0,
        separator: Separator::LineFeed,
    };
    if matches!(bad.fault, Fault::Declarations(_)) {
        let found = readings.first_with_fault(bad.number.checked_sub(2)?)?;
        let start = start_of_part(text, Separator::LineFeed, found);
        return Some(Place {
            number: found + 1,
            line: without_return(line_from(text, start)),
            before: None,
        });
    }
    let line = line_from(text, start);
    let end = end_of_words(line);
    let readings = Readings {
        text: &text[..start + end],
        start,
        separator: Separator::Blank,
        ..readings
    };
    let line = without_return(line);
    Some(Place {
        number: bad.number,
        line,
        before: match bytes_before(bad.fault, line) {
            Some(before) => Some(before),
            None => readings.bytes_before(line),
        },
    })
}

/// The lines of the text before the one of that number.
pub fn lines_before(text: &[u8], number: u64) -> &[u8] {
    &text[..start_of_part(text, Separator::LineFeed, number.saturating_sub(1))]
}

/// How many bytes of the line stand before what is at fault, where the fault says that.
pub fn bytes_before(fault: Fault<'_>, line: &[u8]) -> Option<usize> {
    match fault {
        Fault::BadByte => first_bad_byte(line),
        Fault::UnknownWord | Fault::LateDeclaration => {
            line.iter().position(|byte| !is_blank(*byte))
        }
        Fault::ShortLine => Some(end_of_words(line)),
        Fault::LongLine(rest) => Some(end_of_words(line).saturating_sub(rest.trim_start().len())),
        _ => None,
    }
}

/// How many bytes of the line stand before the word that was read last, where these words are left of it.
pub fn bytes_before_last(line: &[u8], words: Words<'_>) -> Option<usize> {
    let (read, _) = line.split_at_checked(end_of_words(line).checked_sub(words.left())?)?;
    let mut start: usize = 0;
    for place in 0..read.len() {
        if is_blank(read[place]) {
            start = place + 1;
        }
    }
    Some(start)
}

impl Readings<'_> {
    /// How many bytes of the last line, which is this one, stand before the word at fault.
    fn bytes_before(self, line: &[u8]) -> Option<usize> {
        if let Fault::Stop(Stop::Memory) = self.bad.fault {
            return None;
        }
        let found = self.first_with_fault(count_of(line, Separator::Blank))?;
        Some(start_of_part(line, Separator::Blank, found))
    }

    /// The number of a part that brings the fault in, counted from 0, where the last one has that number.
    fn first_with_fault(self, last: u64) -> Option<u64>
    {
        if !self.has_fault(last) {
            return None;
        }
        let mut least = 0;
        let mut found = last;
        for _ in 0..u64::MAX {
            if least >= found {
                break;
            }
            let middle = least + (found - least) / 2;
            if self.has_fault(middle) {
                found = middle;
            } else {
                least = middle + 1;
            }
        }
        Some(found)
    }

    /// Whether the text has the fault where the part of that number is its last one.
    fn has_fault(self, number: u64) -> bool {
        let Some((before, parts)) = self.text.split_at_checked(self.start) else {
            return false;
        };
        let end = before.len() + end_of_part(parts, self.separator, number);
        match read_anew(self.alloc, self.seed, &self.text[..end], self.bad.number) {
            Ok(()) => false,
            Err(fault) => fault == self.bad.fault,
        }
    }
}

/// How many of the bytes are separators, each of which a part follows.
fn count_of(bytes: &[u8], separator: Separator) -> u64 {
    let mut count: u64 = 0;
    for byte in bytes {
        if separator.is(*byte) {
            count = count.saturating_add(1);
        }
    }
    count
}

/// Where the part of that number ends, counted from 0: before a separator, or with the bytes.
fn end_of_part(bytes: &[u8], separator: Separator, number: u64) -> usize
{
    let mut left = number;
    for place in 0..bytes.len() {
        if separator.is(bytes[place]) {
            if left == 0 {
                return place;
            }
            left -= 1;
        }
    }
    bytes.len()
}

/// Where the part of that number begins, counted from 0.
fn start_of_part(bytes: &[u8], separator: Separator, number: u64) -> usize
{
    match number.checked_sub(1) {
        Some(before) => bytes
            .len()
            .min(end_of_part(bytes, separator, before).saturating_add(1)),
        None => 0,
    }
}

/// The line that begins there.
fn line_from(text: &[u8], start: usize) -> &[u8]
{
    let rest = &text[start..];
    &rest[..end_of_part(rest, Separator::LineFeed, 0)]
}
