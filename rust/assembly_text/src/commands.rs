// Made of `crates/assembly_text/src/commands.rt` by `bench/plain.py`: an edit of this file is lost.

//! The commands: what each declares or asks, what may stand behind it, and what it is for.

use kit::{eprintln, format, prelude::*, print, println, vec};
use crate::asking::Query;
use crate::declaring::{Declaration, GivenPart};
use assembly_notation::faults::Fault;
use assembly_notation::reading::{ClausePlace, ContentKind, DefinitionKind, PlainKind};
use assembly_notation::shapes::{Shape, Slot};
use ir_trees::decl::contents::{AliasBoundKind, Sizedness};
use kit::alloc::AllocError;

/// What the first word of a line can be.
#[derive(Clone, Copy, Debug)]
pub enum Command {
    /// The prelude's declarations are taken in.
    Prelude,
    Declaration(Declaration),
    Query(Query),
}

/// A command.
#[derive(Clone, Copy, Debug)]
pub struct Row {
    /// Its name, which is the first word of its lines.
    pub word: &'static str,
    pub command: Command,
    pub shape: Shape,
    /// What it is for.
    pub help: &'static str,
}

const SIGN: Slot = Slot::OneOf(&["+", "-", "reservation"]);

const FOR_CRATE: Slot = Slot::OneOf(&["local", "compat", "remote"]);

const LIMIT: Slot = Slot::OneOf(&["walk", "alias", "const", "recursion"]);

const MODE: Slot = Slot::OneOf(&[
    "coherence",
    "analysis",
    "borrowck",
    "post_borrowck",
    "post_analysis",
]);

const FEATURE: Slot = Slot::OneOf(&["specialization"]);

const ADT_FLAG: Slot = Slot::OneOf(&[
    "fundamental",
    "phantom",
    "manually_drop",
    "unsafe_fields",
    "enum",
    "union",
]);

const TRAIT_FLAG: Slot = Slot::OneOf(&[
    "auto",
    "alias",
    "unsafe",
    "fundamental",
    "dyn",
    "default",
    "by_head",
    "marker",
]);

const ASSOC_FLAG: Slot = Slot::OneOf(&["sized_self"]);

const LANG_ITEM: Slot = Slot::OneOf(&[
    "Sized",
    "MetaSized",
    "Copy",
    "Clone",
    "TrivialClone",
    "Fn",
    "FnMut",
    "FnOnce",
    "FnPtrTrait",
    "Tuple",
    "PointeeTrait",
    "DiscriminantKind",
    "Destruct",
    "Drop",
    "BikeshedGuaranteedNoDrop",
    "Unsize",
]);

/// The commands that declare what has a name, and what belongs to it.
const DEFINING: [Row; 12] = [
    Row {
        word: "prelude",
        command: Command::Prelude,
        shape: Shape {
            places: &[],
            further: Slot::End,
        },
        help: "the declarations of Rust's std that the program brings, as the first line",
    },
    Row {
        word: "adt",
        command: Command::Declaration(Declaration::Definition(DefinitionKind::Adt)),
        shape: Shape {
            places: &[Slot::Crate, Slot::NewName, Slot::Parameters],
            further: ADT_FLAG,
        },
        help: "a data type",
    },
    Row {
        word: "trait",
        command: Command::Declaration(Declaration::Definition(DefinitionKind::Trait)),
        shape: Shape {
            places: &[Slot::Crate, Slot::NewName, Slot::Parameters],
            further: TRAIT_FLAG,
        },
        help: "a trait, with its parameters after Self",
    },
    Row {
        word: "impl",
        command: Command::Declaration(Declaration::Definition(DefinitionKind::Impl)),
        shape: Shape {
            places: &[
                Slot::Crate,
                Slot::NewName,
                Slot::Parameters,
                SIGN,
                Slot::Trait,
            ],
            further: Slot::Type,
        },
        help: "an impl: what it says of the trait and its arguments, Self first",
    },
    Row {
        word: "field",
        command: Command::Declaration(Declaration::Content(ContentKind::Field)),
        shape: Shape {
            places: &[Slot::Adt],
            further: Slot::Type,
        },
        help: "the next field of the data type",
    },
    Row {
        word: "assoc",
        command: Command::Declaration(Declaration::Assoc),
        shape: Shape {
            places: &[Slot::Trait, Slot::NewName],
            further: ASSOC_FLAG,
        },
        help: "an associated type of the trait",
    },
    Row {
        word: "foreign",
        command: Command::Declaration(Declaration::Definition(DefinitionKind::Foreign)),
        shape: Shape {
            places: &[Slot::Crate, Slot::NewName],
            further: Slot::End,
        },
        help: "a type that is known by its name alone",
    },
    Row {
        word: "opaque",
        command: Command::Declaration(Declaration::Definition(DefinitionKind::Opaque)),
        shape: Shape {
            places: &[Slot::Crate, Slot::NewName, Slot::Parameters],
            further: Slot::Type,
        },
        help: "an opaque type, and the type that it hides",
    },
    Row {
        word: "super",
        command: Command::Declaration(Declaration::Content(ContentKind::Clause(
            ClausePlace::Super,
        ))),
        shape: Shape {
            places: &[Slot::Trait, Slot::Clause],
            further: Slot::Type,
        },
        help: "what holds where the trait does",
    },
    Row {
        word: "where",
        command: Command::Declaration(Declaration::Content(ContentKind::Clause(
            ClausePlace::Where,
        ))),
        shape: Shape {
            places: &[Slot::Trait, Slot::Clause],
            further: Slot::Type,
        },
        help: "what is asked for the trait",
    },
    Row {
        word: "iwhere",
        command: Command::Declaration(Declaration::Content(ContentKind::Clause(
            ClausePlace::ImplWhere,
        ))),
        shape: Shape {
            places: &[Slot::Impl, Slot::Clause],
            further: Slot::Type,
        },
        help: "what the impl asks for",
    },
    Row {
        word: "value",
        command: Command::Declaration(Declaration::Content(ContentKind::Value)),
        shape: Shape {
            places: &[Slot::Impl, Slot::Assoc],
            further: Slot::Type,
        },
        help: "what the impl says that the associated type is",
    },
];

/// The commands that say more of what is declared, and under what is asked.
const GIVING: [Row; 14] = [
    Row {
        word: "bound",
        command: Command::Declaration(Declaration::Content(ContentKind::Clause(ClausePlace::Bound(
            AliasBoundKind::SelfBounds,
        )))),
        shape: Shape {
            places: &[Slot::Alias, Slot::Clause],
            further: Slot::Type,
        },
        help: "a bound of the alias",
    },
    Row {
        word: "nbound",
        command: Command::Declaration(Declaration::Content(ContentKind::Clause(ClausePlace::Bound(
            AliasBoundKind::NonSelfBounds,
        )))),
        shape: Shape {
            places: &[Slot::Alias, Slot::Clause],
            further: Slot::Type,
        },
        help: "a bound of an alias that it is a projection of",
    },
    Row {
        word: "env",
        command: Command::Declaration(Declaration::Given(GivenPart::Clause)),
        shape: Shape {
            places: &[Slot::Clause],
            further: Slot::Type,
        },
        help: "the clause holds",
    },
    Row {
        word: "norm",
        command: Command::Declaration(Declaration::Given(GivenPart::NormalForm)),
        shape: Shape {
            places: &[],
            further: Slot::Type,
        },
        help: "the alias that stands first is normalised to the second type",
    },
    Row {
        word: "sized",
        command: Command::Declaration(Declaration::Content(ContentKind::Constraint(
            Sizedness::Sized,
        ))),
        shape: Shape {
            places: &[Slot::Adt],
            further: Slot::Type,
        },
        help: "the data type is sized where this type is",
    },
    Row {
        word: "metasized",
        command: Command::Declaration(Declaration::Content(ContentKind::Constraint(
            Sizedness::MetaSized,
        ))),
        shape: Shape {
            places: &[Slot::Adt],
            further: Slot::Type,
        },
        help: "its size is known from metadata where this type's is",
    },
    Row {
        word: "unsizing",
        command: Command::Declaration(Declaration::Content(ContentKind::Plain(
            PlainKind::Unsizing,
        ))),
        shape: Shape {
            places: &[Slot::Adt, Slot::Parameter],
            further: Slot::End,
        },
        help: "the parameter changes where the data type is unsized",
    },
    Row {
        word: "default",
        command: Command::Declaration(Declaration::Content(ContentKind::Plain(PlainKind::Default))),
        shape: Shape {
            places: &[Slot::Impl],
            further: Slot::End,
        },
        help: "the impl is default",
    },
    Row {
        word: "specializes",
        command: Command::Declaration(Declaration::Content(ContentKind::Plain(
            PlainKind::Specializes,
        ))),
        shape: Shape {
            places: &[Slot::Impl, Slot::Impl],
            further: Slot::End,
        },
        help: "the first impl specialises the second",
    },
    Row {
        word: "lang",
        command: Command::Declaration(Declaration::Content(ContentKind::Plain(PlainKind::Lang))),
        shape: Shape {
            places: &[LANG_ITEM, Slot::Trait],
            further: Slot::End,
        },
        help: "the trait is one that the language knows",
    },
    Row {
        word: "local",
        command: Command::Declaration(Declaration::Content(ContentKind::Plain(PlainKind::Local))),
        shape: Shape {
            places: &[Slot::Crate],
            further: Slot::End,
        },
        help: "the local crate, 0 if absent",
    },
    Row {
        word: "mode",
        command: Command::Declaration(Declaration::Given(GivenPart::Mode)),
        shape: Shape {
            places: &[MODE],
            further: Slot::Negative,
        },
        help: "the mode in which goals are asked",
    },
    Row {
        word: "feature",
        command: Command::Declaration(Declaration::Given(GivenPart::Feature)),
        shape: Shape {
            places: &[FEATURE],
            further: Slot::End,
        },
        help: "a feature of the language is used",
    },
    Row {
        word: "limit",
        command: Command::Declaration(Declaration::Limit),
        shape: Shape {
            places: &[LIMIT, Slot::Number],
            further: Slot::End,
        },
        help: "where walks of that kind end",
    },
];

/// The commands that ask.
const ASKING: [Row; 9] = [
    Row {
        word: "orphan",
        command: Command::Query(Query::Orphan),
        shape: Shape {
            places: &[FOR_CRATE, Slot::Trait],
            further: Slot::Type,
        },
        help: "may the crate write an impl with this header?",
    },
    Row {
        word: "knowable",
        command: Command::Query(Query::Knowable),
        shape: Shape {
            places: &[Slot::Trait],
            further: Slot::Type,
        },
        help: "are all impls of the reference known?",
    },
    Row {
        word: "solve",
        command: Command::Query(Query::Solve),
        shape: Shape {
            places: &[Slot::Rounds, Slot::Goal],
            further: Slot::Type,
        },
        help: "what does the goal come to in K rounds?",
    },
    Row {
        word: "answer",
        command: Command::Query(Query::Answer),
        shape: Shape {
            places: &[Slot::Rounds, Slot::Goal],
            further: Slot::Type,
        },
        help: "the same, and what do its variables stand for?",
    },
    Row {
        word: "normalize",
        command: Command::Query(Query::Normalize),
        shape: Shape {
            places: &[Slot::Rounds],
            further: Slot::Type,
        },
        help: "what type is the projection?",
    },
    Row {
        word: "overlap",
        command: Command::Query(Query::Overlap),
        shape: Shape {
            places: &[Slot::Rounds, Slot::Impl, Slot::Impl],
            further: Slot::End,
        },
        help: "do the impls overlap, and what keeps them apart?",
    },
    Row {
        word: "check",
        command: Command::Query(Query::Check),
        shape: Shape {
            places: &[Slot::Rounds],
            further: Slot::End,
        },
        help: "which impls overlap, and which may not be written?",
    },
    Row {
        word: "candidates",
        command: Command::Query(Query::Candidates),
        shape: Shape {
            places: &[Slot::Rounds, Slot::Goal],
            further: Slot::Type,
        },
        help: "in which ways may the goal hold?",
    },
    Row {
        word: "why",
        command: Command::Query(Query::Why),
        shape: Shape {
            places: &[Slot::Rounds, Slot::Goal],
            further: Slot::Type,
        },
        help: "by which steps does the goal hold?",
    },
];

/// So many commands there are at most.
pub const MAX_COMMANDS: usize = 64;

/// Where the commands of each table begin.
const GIVING_FROM: usize = 12;

const ASKING_FROM: usize = 26;

fn defining_at(place: usize) -> Option<Row> {
    DEFINING.get(place).copied()
}

fn giving_at(place: usize) -> Option<Row> {
    GIVING.get(place).copied()
}

fn asking_at(place: usize) -> Option<Row> {
    ASKING.get(place).copied()
}

/// The command at that place, if there is one: those of the tables in their order.
pub fn row_at(place: usize) -> Option<Row> {
    if place < GIVING_FROM {
        defining_at(place)
    } else if place < ASKING_FROM {
        giving_at(place - GIVING_FROM)
    } else {
        asking_at(place - ASKING_FROM)
    }
}

/// The command of that name, with all that is known of it.
pub fn row_of(word: &str) -> Option<Row> {
    for place in 0..MAX_COMMANDS {
        let row = row_at(place)?;
        if row.word == word {
            return Some(row);
        }
    }
    None
}

/// The command of that name, else `Fault::UnknownWord`.
pub fn command_named<'a>(word: &str) -> Result<Command, Fault<'a>> {
    match row_of(word) {
        Some(row) => Ok(row.command),
        None => Err(Fault::UnknownWord),
    }
}

/// Adds the names of all commands, each after a space.
pub fn add_commands(text: &mut String) -> Result<(), AllocError> {
    for place in 0..MAX_COMMANDS {
        let Some(row) = row_at(place) else {
            break;
        };
        text.push(' ')?;
        text.push_str(row.word)?;
    }
    Ok(())
}
