// Made of `crates/assembly_notation/src/shapes.rt` by `bench/plain.py`: an edit of this file is lost.

//! What lines are made of: what may stand at each place of one.

use kit::{eprintln, format, prelude::*, print, println, vec};
use crate::names::Item;
use kit::alloc::AllocError;

/// What may stand at a place of a line.
#[derive(Clone, Copy, Debug)]
pub enum Slot {
    Crate,
    NewName,
    Parameters,
    Parameter,
    Number,
    Rounds,
    Trait,
    Adt,
    Impl,
    Assoc,
    Alias,
    Clause,
    /// A trait, or `-` before one.
    Goal,
    Type,
    /// A type, or a bound of the `dyn` type before it.
    TypeOrBound,
    /// One of these words.
    OneOf(&'static [&'static str]),
    /// `negative`, behind the mode of coherence.
    Negative,
    End,
}

/// What stands behind the first word of a line.
#[derive(Clone, Copy, Debug)]
pub struct Shape {
    /// At the places next to it.
    pub places: &'static [Slot],
    /// At all that follow these.
    pub further: Slot,
}

impl Slot {
    /// What may stand there; of several words those are said by `add_phrase`.
    fn phrase(self) -> &'static str {
        match self {
            Slot::Crate => "a crate from 0 to 255",
            Slot::NewName => "a new name",
            Slot::Parameters => {
                "a number of parameters up to 65535, or a letter for each: t, c or r"
            }
            Slot::Parameter => "the number of a parameter up to 65535",
            Slot::Number => "a number from 1 to 65535",
            Slot::Rounds => "a number from 1 to 65535, or *",
            Slot::Trait => "the name of a trait",
            Slot::Adt => "the name of a data type",
            Slot::Impl => "the name of an impl",
            Slot::Assoc => "the name of an associated type",
            Slot::Alias => "the name of an associated or opaque type",
            Slot::Clause => "the name of a trait or of an associated type",
            Slot::Goal => "the name of a trait, or -",
            Slot::Type => "a type",
            Slot::TypeOrBound => "a type, or a bound of the dyn type",
            Slot::OneOf(_) => "one of several words",
            Slot::Negative => "negative, behind coherence, or the end of the line",
            Slot::End => "the end of the line",
        }
    }

    /// Adds what may stand there.
    pub fn add_phrase(self, text: &mut String) -> Result<(), AllocError> {
        match self {
            Slot::OneOf(words) => add_choice(words, text),
            _ => text.push_str(self.phrase()),
        }
    }

    /// How a form names what stands there; of several words those are said by `add_form`.
    fn letter(self) -> &'static str {
        match self {
            Slot::Crate => "C",
            Slot::NewName => "NAME",
            Slot::Parameters | Slot::Number => "N",
            Slot::Parameter | Slot::Rounds => "K",
            Slot::Trait => "TRAIT",
            Slot::Adt => "ADT",
            Slot::Impl => "IMPL",
            Slot::Assoc => "ASSOC",
            Slot::Alias => "ALIAS",
            Slot::Clause => "CLAUSE",
            Slot::Goal => "[-] TRAIT",
            Slot::Type | Slot::TypeOrBound => "TYPE",
            Slot::OneOf(_) => "WORD",
            Slot::Negative => "negative",
            Slot::End => "",
        }
    }

    /// Adds how a form names what stands there.
    fn add_form(self, text: &mut String) -> Result<(), AllocError> {
        match self {
            Slot::OneOf(words) => add_words(words, "|", "|", text),
            _ => text.push_str(self.letter()),
        }
    }

    /// Which words may stand there, where these are few.
    pub fn words(self) -> &'static [&'static str] {
        match self {
            Slot::OneOf(words) => words,
            Slot::Negative => &["negative"],
            _ => &[],
        }
    }

    /// Whether the name of the item may stand there.
    pub fn takes(self, item: Item) -> bool {
        match self {
            Slot::Trait | Slot::Goal => matches!(item, Item::Trait(_)),
            Slot::Adt => matches!(item, Item::Adt(..)),
            Slot::Impl => matches!(item, Item::Impl(_)),
            Slot::Assoc => matches!(item, Item::Assoc(..)),
            Slot::Alias => matches!(item, Item::Assoc(..) | Item::Opaque(..)),
            Slot::Clause => matches!(item, Item::Trait(_) | Item::Assoc(..)),
            Slot::Type => !matches!(item, Item::Trait(_) | Item::Impl(_)),
            Slot::TypeOrBound => !matches!(item, Item::Impl(_)),
            _ => false,
        }
    }
}

impl Shape {
    /// Whether a line of this shape declares a name, which is its third word then.
    pub fn has_new_name(self) -> bool {
        matches!(self.places.get(1), Some(Slot::NewName))
    }

    /// Adds how a line of this shape goes on, each word behind a space.
    pub fn add_form(self, text: &mut String) -> Result<(), AllocError> {
        for place in self.places {
            text.push(' ')?;
            place.add_form(text)?;
        }
        match self.further {
            Slot::End => Ok(()),
            Slot::Type => text.push_str(" TYPE .."),
            Slot::Negative => text.push_str(" [negative]"),
            further => {
                text.push_str(" [")?;
                further.add_form(text)?;
                text.push_str("] ..")
            }
        }
    }
}

/// Adds the words with commas between them, and `or` before the last one.
fn add_choice(words: &[&str], text: &mut String) -> Result<(), AllocError> {
    add_words(words, ", ", " or ", text)
}

/// Adds the words, with that between each two, or between the last two.
fn add_words(
    words: &[&str],
    between: &str,
    before_last: &str,
    text: &mut String,
) -> Result<(), AllocError> {
    for place in 0..words.len() {
        if place > 0 && place == words.len() - 1 {
            text.push_str(before_last)?;
        } else if place > 0 {
            text.push_str(between)?;
        }
        text.push_str(words[place])?;
    }
    Ok(())
}

/// Which words of a type may stand in the place of this one, in which a number is too great.
pub fn range_of(word: &str) -> &'static str {
    match word.as_bytes().first() {
        Some(b'$') => "$0 to $255",
        Some(b'#') => "#0 to #65535",
        Some(b'!') => "!0 to !65535",
        Some(b'(') => "(0) to (65535)",
        Some(b'[') => "[0] to [18446744073709551615]",
        Some(b'f') if word.starts_with("for") => "for(0) to for(16)",
        Some(b'f') => "fn(0) to fn(65535)",
        Some(b'd') => "dyn(0) to dyn(65535)",
        Some(b'\'') => "a region that a binder around it binds",
        Some(b'0'..=b'9') => "0 to 18446744073709551615",
        _ => "a number",
    }
}
