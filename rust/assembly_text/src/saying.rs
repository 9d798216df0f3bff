// Made of `crates/assembly_text/src/saying.rt` by `bench/plain.py`: an edit of this file is lost.

//! What is said of a fault besides the answers: where it comes in, what is wrong there, and what may stand there.

use kit::{eprintln, format, prelude::*, print, println, vec};
use crate::commands::{add_commands, row_of};
use crate::nearest::add_nearest;
use crate::placing::Place;
use assembly_notation::faults::Fault;
use assembly_notation::names::{Names, Origin};
use assembly_notation::shapes::{Slot, range_of};
use assembly_notation::words::Words;
use ir_trees::decl::fault::DeclFault;
use ir_trees::ir::stop::Stop;
use kit::alloc::{AllocError, Global};

/// Adds a line that says where the fault comes in, and what is wrong, where these are the names that are declared.
pub fn add_saying<'a>(
    alloc: Global,
    fault: Fault<'a>,
    place: Place<'a>,
    names: &Names<'a>,
    said: &mut String,
) -> Result<(), AllocError> {
    let number = place.number;
    write!(said, "line {number}")?;
    if let Some(before) = place.before {
        let column = before.saturating_add(1);
        write!(said, ", column {column}")?;
    }
    said.push_str(": ")?;
    match fault {
        Fault::NameTwice(word) => add_taken(names.origin(word), said)?,
        _ => add_words(fault, place, said)?,
    }
    add_nearest(alloc, fault, place, names, said)?;
    said.push_str(way_to_write(fault))?;
    said.push('\n')
}

/// How that is written which a word as in Rust, or a comment behind words, may mean; nothing of other words.
fn way_to_write(fault: Fault<'_>) -> &'static str {
    let word = match fault {
        Fault::UnknownName(word) if is_type_in_one_piece(word) => {
            return ", a type's words stand apart, its head first: Vec u8, & u8, [] u8, (2) u8 u8";
        }
        Fault::UnknownName(word) | Fault::BadFlag(word) => word,
        Fault::LongLine(rest) => first_word(rest.as_bytes()).unwrap_or(""),
        _ => "",
    };
    if begins_comment(word) {
        ", a comment behind words begins with //"
    } else {
        ""
    }
}

/// Whether the word may be a type as Rust writes it, with signs and no spaces.
fn is_type_in_one_piece(word: &str) -> bool {
    let is_behind_sign = match word.bytes().next() {
        Some(first) => matches!(first, b'&' | b'[' | b'(' | b'*'),
        None => false,
    };
    is_behind_sign || word.bytes().any(|byte| byte == b'<')
}

/// Whether the word begins with `#`, and no number stands behind that.
fn begins_comment(word: &str) -> bool {
    match word.strip_prefix("#") {
        Some(rest) => !rest.bytes().any(|byte| byte.is_ascii_digit()),
        None => false,
    }
}

/// Adds what is wrong, with what may stand there in its stead where that is known.
fn add_words(fault: Fault<'_>, place: Place<'_>, said: &mut String) -> Result<(), AllocError> {
    match fault {
        Fault::UnknownWord => {
            said.push_str("expected one of")?;
            add_commands(said)?;
            add_found(place, said)
        }
        Fault::ShortLine
        | Fault::UnknownName(_)
        | Fault::NoConstant(_)
        | Fault::NoRegion(_)
        | Fault::BadName(_)
        | Fault::BadNumber(_)
        | Fault::BadFlag(_)
        | Fault::LongLine(_) => {
            said.push_str("expected ")?;
            add_expected(fault, place, said)?;
            add_found(place, said)
        }
        Fault::Declarations(fault) => said.push_str(declaration_words(fault, place.line)),
        _ => said.push_str(sentence(fault, place.line)),
    }
}

/// Adds that the name is taken, and where it is declared.
fn add_taken(origin: Option<Origin>, said: &mut String) -> Result<(), AllocError> {
    match origin {
        Some(Origin::Line(number)) => write!(said, "the name is taken by line {number}"),
        Some(Origin::Prelude) => said.push_str("the name is taken by the prelude"),
        None => said.push_str("the name is taken already"),
    }
}

/// Adds what stands at the place, if that is known.
fn add_found(place: Place<'_>, said: &mut String) -> Result<(), AllocError> {
    let Some(before) = place.before else {
        return Ok(());
    };
    let Some((_, rest)) = place.line.split_at_checked(before) else {
        return Ok(());
    };
    said.push_str(", found ")?;
    match first_word(rest) {
        Some(word) => said.push_str(word),
        None => Slot::End.add_phrase(said),
    }
}

/// The first word in a part of a line, if it has one.
pub fn first_word(part: &[u8]) -> Option<&str> {
    match Words::of_part(part) {
        Ok(mut words) => words.next_word(),
        Err(_) => None,
    }
}

/// Adds what may stand at the place, as far as that is known.
fn add_expected(fault: Fault<'_>, place: Place<'_>, said: &mut String) -> Result<(), AllocError> {
    let phrase = match (fault, allowed_at(place)) {
        (Fault::LongLine(_), _) => return Slot::End.add_phrase(said),
        (Fault::BadName(_), _) => {
            "a letter and then letters, digits and _, 64 bytes at most, and no type"
        }
        (Fault::NoConstant(_), _) => "a constant: a number, #k, !k or error",
        (Fault::NoRegion(_), _) => "a region: 'static, '!k, or one that a binder around it binds",
        (_, Some(Allowed::Here(slot))) => return slot.add_phrase(said),
        (Fault::BadNumber(word), _) => range_of(word),
        (_, Some(Allowed::Further(slot))) => return slot.add_phrase(said),
        (Fault::UnknownName(_), _) => "a type, or a name that is declared",
        _ => "another word",
    };
    said.push_str(phrase)
}

/// What may stand at a place, which is one of the first ones of its line, or comes behind them.
#[derive(Clone, Copy, Debug)]
pub enum Allowed {
    Here(Slot),
    Further(Slot),
}

impl Allowed {
    /// What may stand there.
    pub fn slot(self) -> Slot {
        match self {
            Allowed::Here(slot) | Allowed::Further(slot) => slot,
        }
    }
}

/// What may stand at the place, as far as the words before it say.
pub fn allowed_at(place: Place<'_>) -> Option<Allowed> {
    let (before, _) = place.line.split_at_checked(place.before?)?;
    let Ok(Some((command, mut words))) = Words::of_line(before) else {
        return None;
    };
    let shape = row_of(command)?.shape;
    let mut count: usize = 0;
    let mut is_behind_sign = false;
    let mut is_behind_dyn = false;
    for _ in 0..u64::MAX {
        let Some(word) = words.next_word() else {
            break;
        };
        count = count.saturating_add(1);
        is_behind_sign = word == "-";
        is_behind_dyn |= word.starts_with("dyn(");
    }
    Some(match shape.places.get(count) {
        Some(slot) => Allowed::Here(*slot),
        None if is_behind_sign => Allowed::Here(Slot::Trait),
        None if is_behind_dyn && matches!(shape.further, Slot::Type) => {
            Allowed::Further(Slot::TypeOrBound)
        }
        None => Allowed::Further(shape.further),
    })
}

/// What is wrong with a line, where nothing is said of what may stand there.
fn sentence(fault: Fault<'_>, line: &[u8]) -> &'static str {
    match fault {
        Fault::BadByte => "a byte is neither a space nor a visible ASCII character",
        Fault::LateDeclaration if first_word(line) == Some("prelude") => {
            "the prelude may be taken in by the first line alone"
        }
        Fault::LateDeclaration => "a declaration stands behind a query",
        Fault::Variable => "a variable may stand in a query alone, for a type",
        Fault::Parameter => "a parameter may stand neither in a query nor in env and norm",
        Fault::NotAnAlias => "the type that ends here is no alias, or for normalize no projection",
        Fault::Alias => "an alias stands in the type that ends here",
        Fault::Error => "an error may stand neither in the alias of norm nor in its type",
        Fault::TwoPrincipals => "a second trait of the dyn type is no auto trait",
        Fault::SuperOfAlias => "what a trait alias stands for is said by where lines",
        Fault::Stop(Stop::Memory) => "a growth was refused",
        Fault::Stop(_) => "a type is nested too deep, or no number is left",
        _ => "the line is bad",
    }
}

/// What is wrong with the declarations, where that line brings it in.
fn declaration_words(fault: DeclFault, line: &[u8]) -> &'static str {
    match (fault, first_word(line).unwrap_or("")) {
        (DeclFault::UnknownId, _) => "something is named that isn't declared",
        (DeclFault::WrongArity, "trait") => "an auto trait has parameters",
        (DeclFault::WrongArity, "adt") => "a phantom type has no parameter",
        (DeclFault::WrongArity, _) => "a parameter is named that its owner doesn't have",
        (DeclFault::WrongKind, command) => wrong_kind(command),
        (DeclFault::SupertraitCycle, _) => "a trait is its own supertrait",
        (DeclFault::NoTail, _) => "a type with unsizing parameters isn't a struct with a field",
        (DeclFault::LangArity, _) => {
            "a lang item's trait has other parameters than a type (Fn, FnMut, FnOnce, Unsize) or none (all others)"
        }
        (DeclFault::Memory, _) => "a growth was refused",
        (DeclFault::BadLimit, _) => "a limit is 0",
    }
}

/// What is wrong where something of another kind stands in what a definition holds, and a line with that first word brings it in.
fn wrong_kind(command: &str) -> &'static str {
    match command {
        "super" => {
            "a super clause isn't about Self, or a placeholder or a parameter of another kind stands in it"
        }
        "value" => {
            "an impl says what is no type of its trait's, or says it twice, or a placeholder or a parameter of another kind stands in it"
        }
        // Such a line may take the place of another one, whose fault hid this one.
        "sized" | "metasized" => {
            "a placeholder or a parameter of another kind stands in what a definition holds, or a super clause or a value is wrong"
        }
        _ => "a placeholder or a parameter of another kind stands in what a definition holds",
    }
}
