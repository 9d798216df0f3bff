// Made of `crates/assembly_text/src/nearest.rt` by `bench/plain.py`: an edit of this file is lost.

//! Which word may have been meant in the place of one that is none of those that may stand there.

use kit::{eprintln, format, prelude::*, print, println, vec};
use crate::commands::{MAX_COMMANDS, row_at};
use crate::placing::Place;
use crate::saying::{allowed_at, first_word};
use assembly_notation::faults::Fault;
use assembly_notation::names::Names;
use assembly_notation::shapes::Slot;
use kit::alloc::{AllocError, Global};
use kit::strsim::levenshtein;

/// How many letters may be left out, put in or written otherwise.
const MAX_EDITS: usize = 2;

/// The word, and the one among those that were looked at which is nearest to it.
#[derive(Debug)]
struct Nearest<'a> {
    alloc: Global,
    word: &'a str,
    found: Option<&'a str>,
    /// Fewer edits than so many lead to a nearer one.
    bound: usize,
}

impl<'a> Nearest<'a> {
    /// No word yet. One to which as many edits lead as the word has letters isn't near.
    fn new(alloc: Global, word: &'a str) -> Self {
        Nearest {
            alloc,
            word,
            found: None,
            bound: word.len().min(MAX_EDITS + 1),
        }
    }

    /// Whether the word may be nearer, by how long it is.
    fn may_be_nearer(&self, word: &str) -> bool {
        word.len().abs_diff(self.word.len()) < self.bound
    }

    /// Takes the word in the place of the one that was found, where it is nearer.
    fn look_at(&mut self, word: &'a str) -> Result<(), AllocError> {
        if !self.may_be_nearer(word) {
            return Ok(());
        }
        let edits = levenshtein(self.alloc, self.word, word)?;
        if edits > 0 && edits < self.bound {
            self.found = Some(word);
            self.bound = edits;
        }
        Ok(())
    }

    /// Looks at the commands.
    fn among_commands(&mut self) -> Result<(), AllocError> {
        for place in 0..MAX_COMMANDS {
            let Some(row) = row_at(place) else {
                break;
            };
            self.look_at(row.word)?;
        }
        Ok(())
    }

    /// Looks at the words that may stand there.
    fn among_flags(&mut self, slot: Slot) -> Result<(), AllocError> {
        for word in slot.words() {
            self.look_at(word)?;
        }
        Ok(())
    }

    /// Looks at the names of what may stand there.
    fn among_names(&mut self, names: &Names<'a>, slot: Slot) -> Result<(), AllocError> {
        for name in names.definitions() {
            self.look_at_name(names, name, slot)?;
        }
        for named in names.impls.as_slice() {
            self.look_at_name(names, named.name, slot)?;
        }
        Ok(())
    }

    fn look_at_name(
        &mut self,
        names: &Names<'a>,
        name: &'a str,
        slot: Slot,
    ) -> Result<(), AllocError> {
        if !self.may_be_nearer(name) {
            return Ok(());
        }
        match names.item(name) {
            Ok(item) if slot.takes(item) => self.look_at(name),
            _ => Ok(()),
        }
    }
}

/// Adds the word that may have been meant at the place: a command, a name that is declared, or another word that may
/// stand there.
pub fn add_nearest<'a>(
    alloc: Global,
    fault: Fault<'a>,
    place: Place<'a>,
    names: &Names<'a>,
    said: &mut String,
) -> Result<(), AllocError> {
    match word_meant(alloc, fault, place, names)? {
        Some(word) => {
            said.push_str(", did you mean ")?;
            said.push_str(word)?;
            said.push('?')
        }
        None => Ok(()),
    }
}

/// The word that may have been meant at the place, if one is near.
fn word_meant<'a>(
    alloc: Global,
    fault: Fault<'a>,
    place: Place<'a>,
    names: &Names<'a>,
) -> Result<Option<&'a str>, AllocError> {
    let word = match fault {
        Fault::UnknownWord => first_word(place.line),
        Fault::UnknownName(word) if names.item(word).is_ok() => None,
        Fault::UnknownName(word) | Fault::BadFlag(word) => Some(word),
        _ => None,
    };
    let Some(word) = word else {
        return Ok(None);
    };
    let mut nearest = Nearest::new(alloc, word);
    match (fault, allowed_at(place)) {
        (Fault::UnknownWord, _) => nearest.among_commands()?,
        (Fault::BadFlag(_), Some(allowed)) => nearest.among_flags(allowed.slot())?,
        (Fault::UnknownName(_), Some(allowed)) => nearest.among_names(names, allowed.slot())?,
        _ => {}
    }
    Ok(nearest.found)
}
