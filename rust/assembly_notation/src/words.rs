// Made of `crates/assembly_notation/src/words.rt` by `bench/plain.py`: an edit of this file is lost.

//! The words of a line, from left to right.


use kit::{eprintln, format, prelude::*, print, println, vec};
use crate::faults::Fault;
use kit::str;

/// The words of a line that are still to be read.
#[derive(Clone, Copy, Debug)]
pub struct Words<'a> {
    rest: &'a str,
}

impl<'a> Words<'a> {
    /// The words of a line, or none where the line is passed over: it has no word before its comment, or its first word begins with `#`.
    ///
    /// A byte of its words other than a blank and the visible ASCII characters is `Fault::BadByte`. Any byte may stand in a comment, and in a line that
    /// is passed over.
    pub fn of_line(line: &'a [u8]) -> Result<Option<(&'a str, Words<'a>)>, Fault<'a>> {
        if begins_with_hash(line) {
            return Ok(None);
        }
        let mut words = Words::of_part(line)?;
        match words.next_word() {
            Some(first) => Ok(Some((first, words))),
            None => Ok(None),
        }
    }

    /// The words of a part of a line, before its comment. The error is the same.
    pub fn of_part(part: &'a [u8]) -> Result<Words<'a>, Fault<'a>> {
        let part = without_return(part);
        let (part, _) = part.split_at(end_of_words(part));
        if !is_readable(part) {
            return Err(Fault::BadByte);
        }
        match str::from_utf8(part) {
            Ok(rest) => Ok(Words { rest }),
            Err(_) => Err(Fault::BadByte),
        }
    }

    /// How many bytes of the line are left before its comment.
    pub fn left(&self) -> usize {
        self.rest.len()
    }

    /// The next word, if one is left before the line's comment.
    pub fn next_word(&mut self) -> Option<&'a str>
    {
        let (_, rest) = self.rest.split_at_checked(blanks(self.rest.as_bytes()))?;
        let end = letters(rest.as_bytes());
        if end == 0 || rest.starts_with("//") {
            return None;
        }
        let (word, rest) = rest.split_at_checked(end)?;
        self.rest = rest;
        Some(word)
    }

    /// The next word. Its only error is `Fault::ShortLine`.
    pub fn word(&mut self) -> Result<&'a str, Fault<'a>>
    {
        match self.next_word() {
            Some(word) => Ok(word),
            None => Err(Fault::ShortLine),
        }
    }

    /// The next word, if it begins with that byte; else none is read.
    pub fn next_if(&mut self, first: u8) -> Option<&'a str> {
        let mut ahead = *self;
        let word = ahead.next_word()?;
        if word.as_bytes().first() != Some(&first) {
            return None;
        }
        *self = ahead;
        Some(word)
    }

    /// The next word as a number from the least to the greatest one.
    ///
    /// Its errors are `Fault::ShortLine` and `Fault::BadNumber`.
    pub fn number(&mut self, least: u16, most: u16) -> Result<u16, Fault<'a>>
    {
        let word = self.word()?;
        let number = number_in(word, word, u64::from(most))? as u16;
        if number < least {
            return Err(Fault::BadNumber(word));
        }
        Ok(number)
    }

    /// What the next word says by the table.
    ///
    /// Its errors are `Fault::ShortLine`, and `Fault::BadFlag` where the table doesn't have the word.
    pub fn flag<T: Copy>(&mut self, table: &[(&'static str, T)]) -> Result<T, Fault<'a>>
    {
        let word = self.word()?;
        match listed(table, word) {
            Some(value) => Ok(value),
            None => Err(Fault::BadFlag(word)),
        }
    }

    /// Nothing if no word is left, else `Fault::LongLine` with what is.
    pub fn end(&mut self) -> Result<(), Fault<'a>>
    {
        let rest = self.rest;
        match self.next_word() {
            Some(_) => Err(Fault::LongLine(rest)),
            None => Ok(()),
        }
    }
}

/// Whether the byte stands between words: a space or a tab.
pub fn is_blank(byte: u8) -> bool
{
    byte == b' ' || byte == b'\t'
}

/// How many blanks stand in front.
fn blanks(bytes: &[u8]) -> usize
{
    for place in 0..bytes.len() {
        if !is_blank(bytes[place]) {
            return place;
        }
    }
    bytes.len()
}

/// Whether `#` is the first byte that is no blank.
fn begins_with_hash(line: &[u8]) -> bool {
    match line.get(blanks(line)) {
        Some(first) => *first == b'#',
        None => false,
    }
}

/// How many bytes stand before the first blank.
fn letters(bytes: &[u8]) -> usize
{
    for place in 0..bytes.len() {
        if is_blank(bytes[place]) {
            return place;
        }
    }
    bytes.len()
}

/// The line without a carriage return at its end.
pub fn without_return(line: &[u8]) -> &[u8] {
    line.strip_suffix(b"\r").unwrap_or(line)
}

/// How many bytes of a line stand before its comment, which begins with a word that begins with `//`.
pub fn end_of_words(line: &[u8]) -> usize
{
    let mut may_begin = true;
    for place in 0..line.len() {
        if may_begin && line[place..].starts_with(b"//") {
            return place;
        }
        may_begin = is_blank(line[place]);
    }
    line.len()
}

/// Whether all bytes are blanks and visible ASCII characters.
fn is_readable(line: &[u8]) -> bool {
    let mut is_readable = true;
    for byte in line {
        is_readable &= matches!(byte, b' '..=b'~' | b'\t');
    }
    is_readable
}

/// How many bytes of a line stand before the first that is neither a blank nor a visible ASCII character.
pub fn first_bad_byte(line: &[u8]) -> Option<usize> {
    line.iter()
        .position(|byte| !is_blank(*byte) && !matches!(byte, b'!'..=b'~'))
}

/// Whether no blank stands in the text.
pub fn is_word(text: &str) -> bool
{
    letters(text.as_bytes()) == text.len()
}

/// Whether a plus stands in front.
fn begins_with_plus(text: &str) -> bool
{
    match text.as_bytes().first() {
        Some(byte) => *byte == b'+',
        None => false,
    }
}

/// What the word stands for in a table of words, by the first row that has it.
#[inline(always)]
pub fn listed<T: Copy>(table: &[(&'static str, T)], word: &str) -> Option<T>
{
    for (listed, value) in table {
        if *listed == word {
            return Some(*value);
        }
    }
    None
}

/// Whether the text is decimal digits, at least one.
pub fn is_digits(text: &str) -> bool {
    for byte in text.bytes() {
        if !byte.is_ascii_digit() {
            return false;
        }
    }
    !text.is_empty()
}

/// The number of at most that size whose digits stand in the word, else `Fault::BadNumber` with the word.
pub fn number_in<'a>(word: &'a str, digits: &str, most: u64) -> Result<u64, Fault<'a>>
{
    match digits.parse::<u64>() {
        Ok(number) if number <= most && !begins_with_plus(digits) => Ok(number),
        _ => Err(Fault::BadNumber(word)),
    }
}
