// Made of `crates/assembly_text/src/help.rt` by `bench/plain.py`: an edit of this file is lost.

//! The commands and their forms, to be printed.

use kit::{eprintln, format, prelude::*, print, println, vec};
use crate::commands::{MAX_COMMANDS, row_at};
use kit::alloc::AllocError;

/// What the letters of forms stand for, and how types are written.
const LETTERS: &str = "\
\x20\x20why K IMPL IMPL: what keeps the impls apart, or why may they overlap?

C: the number of a crate, 0 to 255; where no line says which crate is local, 0 is
K: how many rounds a goal is asked for at most, or * for as many as change something; of unsizing, the number of a parameter
N: how many parameters there are, of a trait after Self, or a letter for each: t for a type, c for a constant, r for a region
CLAUSE: a trait, or an associated type, whose last TYPE is then what it is
TYPE: a type's words, its head first: u8, Vec u8, & u8, [] u8, (2) u8 u8, fn(1) u8 bool
  #0 is the first parameter of what is declared, $0 the first variable of a query; an associated type's Self and arguments stand behind its name
A line that begins with #, and what stands behind a word that begins with //, is passed over.
";

/// Adds a line for each command: its form, and what it is for; then what the letters of forms stand for. In a form `|` stands between words of
/// which one is chosen, `[` and `]` around what may be missing, and `..` behind what may come again.
pub fn add_help(text: &mut String) -> Result<(), AllocError> {
    for place in 0..MAX_COMMANDS {
        let Some(row) = row_at(place) else {
            break;
        };
        text.push_str("  ")?;
        text.push_str(row.word)?;
        row.shape.add_form(text)?;
        text.push_str(": ")?;
        text.push_str(row.help)?;
        text.push('\n')?;
    }
    text.push_str(LETTERS)
}
