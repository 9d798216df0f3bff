// Made of `crates/assembly_text/src/lines.rt` by `bench/plain.py`: an edit of this file is lost.

//! One line after another: declarations first, then queries.

use kit::{eprintln, format, prelude::*, print, println, vec};
use crate::asking::Query;
use crate::commands::{Command, command_named};
use crate::declaring::Declaring;
use crate::prelude::PRELUDE;
use assembly_notation::faults::Fault;
use assembly_notation::names::Origin;
use assembly_notation::words::Words;
use kit::memchr::memchr;
use kit::alloc::Global;

/// A mark that may stand before a text, and that says how its bytes are characters.
const BYTE_ORDER_MARK: &[u8] = b"\xef\xbb\xbf";

/// The text without such a mark at its beginning.
pub fn without_mark(text: &[u8]) -> &[u8] {
    text.strip_prefix(BYTE_ORDER_MARK).unwrap_or(text)
}

/// The lines of a text that are still to be read.
#[derive(Debug)]
pub struct Lines<'a> {
    rest: Option<&'a [u8]>,
    /// The line that was read last, and its number.
    line: &'a [u8],
    number: u64,
    /// How many lines so far have a first word.
    commands: u64,
}

impl<'a> Lines<'a> {
    /// All lines of the text.
    pub fn new(text: &'a [u8]) -> Self {
        Lines::of_line(without_mark(text))
    }

    /// That line, which may be one further on in a text.
    fn of_line(line: &'a [u8]) -> Self {
        Lines {
            rest: Some(line),
            line: b"",
            number: 0,
            commands: 0,
        }
    }

    /// The line that was read last.
    pub fn line(&self) -> &'a [u8] {
        self.line
    }

    /// The number of the line that was read last; before the first it is 1.
    pub fn number(&self) -> u64 {
        self.number.max(1)
    }

    /// Whether no line before the one that was read last has a first word.
    pub fn is_first(&self) -> bool {
        self.commands == 1
    }

    /// The next line, if one is left.
    pub fn next_line(&mut self) -> Option<&'a [u8]> {
        let rest = self.rest?;
        self.number = self.number.saturating_add(1);
        match memchr(b'\n', rest) {
            Some(end) => {
                self.rest = Some(&rest[end + 1..]);
                self.line = &rest[..end];
            }
            None => {
                self.rest = None;
                self.line = rest;
            }
        }
        Some(self.line)
    }

    /// The command of the next line that isn't passed over, and the words that follow it.
    ///
    /// Besides the fault of a line's bytes, `Fault::UnknownWord` comes where there is no such command.
    pub fn next_command(&mut self) -> Result<Option<(Command, Words<'a>)>, Fault<'a>> {
        for _ in 0..u64::MAX {
            let Some(line) = self.next_line() else {
                return Ok(None);
            };
            if let Some((first, words)) = Words::of_line(line)? {
                self.commands = self.commands.saturating_add(1);
                return Ok(Some((command_named(first)?, words)));
            }
        }
        Ok(None)
    }
}

/// Reads the lines up to the first query.
pub fn read_declarations<'a>(
    alloc: Global,
    seed: u64,
    lines: &mut Lines<'a>,
) -> Result<Declaring<'a>, Fault<'a>> {
    let mut declaring = Declaring::with_seed(alloc, seed)?;
    declare_all(&mut declaring, lines)?;
    Ok(declaring)
}

/// Reads the declarations anew, and then the query in the line of that number, if there is one there; no other one is asked. The error
/// is what is wrong with them, if anything is.
pub fn read_anew<'a>(
    alloc: Global,
    seed: u64,
    text: &'a [u8],
    number: u64,
) -> Result<(), Fault<'a>> {
    let mut lines = Lines::new(text);
    let mut declaring = Declaring::with_seed(alloc, seed)?;
    let first = declare_all(&mut declaring, &mut lines)?;
    let asking = declaring.finish()?;
    let Some((query, words)) = query_in(number, first, &mut lines)? else {
        return Ok(());
    };
    let (_, made) = asking.ask(query, words);
    match made {
        Ok(_) => Ok(()),
        Err(fault) => Err(fault),
    }
}

/// The query in the line of that number, if it is this one, which was read last, or one that is left.
fn query_in<'a>(
    number: u64,
    mut found: Option<(Query, Words<'a>)>,
    lines: &mut Lines<'a>,
) -> Result<Option<(Query, Words<'a>)>, Fault<'a>> {
    for _ in 0..u64::MAX {
        if found.is_none() || lines.number() == number {
            break;
        }
        found = next_query(lines)?;
    }
    Ok(found)
}

/// Does what the lines before the first query ask. The result is that query, with the words that
/// follow it.
fn declare_all<'a>(
    declaring: &mut Declaring<'a>,
    lines: &mut Lines<'a>,
) -> Result<Option<(Query, Words<'a>)>, Fault<'a>> {
    for _ in 0..u64::MAX {
        let Some((command, mut words)) = lines.next_command()? else {
            return Ok(None);
        };
        if let Command::Query(query) = command {
            return Ok(Some((query, words)));
        }
        declare(declaring, command, &mut words, lines)?;
    }
    Ok(None)
}

/// Does what the line that was read last asks, which is no query.
pub fn declare<'a>(
    declaring: &mut Declaring<'a>,
    command: Command,
    words: &mut Words<'a>,
    lines: &Lines<'a>,
) -> Result<(), Fault<'a>> {
    match command {
        Command::Declaration(declaration) => {
            declaring.declare(declaration, words, Origin::Line(lines.number()))
        }
        Command::Prelude if lines.is_first() => {
            words.end()?;
            declare_prelude(declaring)
        }
        Command::Prelude | Command::Query(_) => Err(Fault::LateDeclaration),
    }
}

/// Does what the lines of the prelude ask. The error is `Fault::Stop`.
fn declare_prelude<'a>(declaring: &mut Declaring<'a>) -> Result<(), Fault<'a>> {
    let mut lines = Lines::new(PRELUDE.as_bytes());
    for _ in 0..u64::MAX {
        match lines.next_command()? {
            Some((Command::Declaration(declaration), mut words)) => {
                declaring.declare(declaration, &mut words, Origin::Prelude)?
            }
            _ => break,
        }
    }
    Ok(())
}

/// Whether the line asks something.
pub fn is_query(line: &[u8]) -> bool {
    matches!(
        Lines::of_line(line).next_command(),
        Ok(Some((Command::Query(_), _)))
    )
}

/// The query in the line, with the words that follow it, if the line isn't passed over. The errors are those of `next_query`.
pub fn query_of(line: &[u8]) -> Result<Option<(Query, Words<'_>)>, Fault<'_>> {
    next_query(&mut Lines::of_line(line))
}

/// The next query, with the words that follow it. Besides the faults of `next_command`, `Fault::LateDeclaration` comes at any other line.
fn next_query<'a>(lines: &mut Lines<'a>) -> Result<Option<(Query, Words<'a>)>, Fault<'a>> {
    match lines.next_command()? {
        Some((Command::Query(query), words)) => Ok(Some((query, words))),
        Some(_) => Err(Fault::LateDeclaration),
        None => Ok(None),
    }
}
