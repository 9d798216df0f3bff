// Made of `crates/assembly_notation/src/faults.rt` by `bench/plain.py`: an edit of this file is lost.

//! What can be wrong with a line.


use kit::{eprintln, format, prelude::*, print, println, vec};
use ir_builder::decl::fault_places::DeclError;
use ir_trees::decl::fault::DeclFault;
use ir_trees::ir::stop::Stop;
use kit::alloc::{AllocError, AllocFailed};
use kit::fmt;

/// What is wrong with a line. It prints as the reason that is given for it.
#[derive(Clone, Copy, PartialEq, Eq, Debug)]
pub enum Fault<'a> {
    /// A byte stands in the line that is neither a space nor a visible ASCII character.
    BadByte,
    /// The first word is no command.
    UnknownWord,
    /// A declaration comes after a query.
    LateDeclaration,
    /// A word is missing.
    ShortLine,
    /// The word names nothing of the kind that is asked.
    UnknownName(&'a str),
    /// The word is no constant, where one is asked for.
    NoConstant(&'a str),
    /// The word is no region, where one is asked for.
    NoRegion(&'a str),
    /// The name is taken already.
    NameTwice(&'a str),
    /// The word can't be a name.
    BadName(&'a str),
    /// The word isn't a number, or one that is too great.
    BadNumber(&'a str),
    /// The word is none of the flags that may stand here.
    BadFlag(&'a str),
    /// A variable stands in a declaration.
    Variable,
    /// A parameter of a definition stands where none may: in a query, and in what queries take as given.
    Parameter,
    /// A type isn't an alias, where only one may stand.
    NotAnAlias,
    /// An alias stands in a type that has to be without.
    Alias,
    /// The word `error` stands in a type that has to be without. It prints as a word that is no type.
    Error,
    /// A `dyn` type has a second trait that isn't an auto trait.
    TwoPrincipals,
    /// A supertrait of a trait alias, whose rule asks for its `where` clauses alone.
    SuperOfAlias,
    /// Words are left over: this is the rest of the line, from the blanks before them on.
    LongLine(&'a str),
    /// The line was given up.
    Stop(Stop),
    /// The declarations were refused, for another cause than memory.
    Declarations(DeclFault),
}

impl From<Stop> for Fault<'_> {

    fn from(stop: Stop) -> Self {
        Fault::Stop(stop)
    }
}

impl From<AllocError> for Fault<'_> {

    fn from(_: AllocError) -> Self {
        Fault::Stop(Stop::Memory)
    }
}

impl<T: Drop> From<AllocFailed<T>> for Fault<'_> {

    fn from(_: AllocFailed<T>) -> Self {
        Fault::Stop(Stop::Memory)
    }
}

impl From<DeclFault> for Fault<'_> {

    fn from(fault: DeclFault) -> Self {
        match fault {
            DeclFault::Memory => Fault::Stop(Stop::Memory),
            _ => Fault::Declarations(fault),
        }
    }
}

/// The fault without its place, which is found as a line.
impl From<DeclError> for Fault<'_> {

    fn from(error: DeclError) -> Self {
        Fault::from(error.fault)
    }
}

/// What follows the reason.
#[derive(Clone, Copy, Debug)]
enum Detail<'a> {
    Nothing,
    Word(&'a str),
    Number(u8),
}

impl<'a> Fault<'a> {
    /// The reason, and what follows it.
    fn reason(self) -> (&'static str, Detail<'a>) {
        match self {
            Fault::BadByte => ("bad byte", Detail::Nothing),
            Fault::UnknownWord => ("unknown word", Detail::Nothing),
            Fault::LateDeclaration => ("late declaration", Detail::Nothing),
            Fault::ShortLine => ("short line", Detail::Nothing),
            Fault::UnknownName(word) => ("unknown name ", Detail::Word(word)),
            Fault::NoConstant(word) => ("no constant ", Detail::Word(word)),
            Fault::NoRegion(word) => ("no region ", Detail::Word(word)),
            Fault::NameTwice(word) => ("name twice ", Detail::Word(word)),
            Fault::BadName(word) => ("bad name ", Detail::Word(word)),
            Fault::BadNumber(word) => ("bad number ", Detail::Word(word)),
            Fault::BadFlag(word) => ("bad flag ", Detail::Word(word)),
            Fault::Variable => ("variable", Detail::Nothing),
            Fault::Parameter => ("parameter", Detail::Nothing),
            Fault::NotAnAlias => ("not an alias", Detail::Nothing),
            Fault::Alias => ("alias", Detail::Nothing),
            Fault::Error => ("unknown name ", Detail::Word("error")),
            Fault::TwoPrincipals => ("two principals", Detail::Nothing),
            Fault::SuperOfAlias => ("super of an alias", Detail::Nothing),
            Fault::LongLine(_) => ("long line", Detail::Nothing),
            Fault::Stop(stop) => ("stop ", Detail::Number(stop as u8)),
            Fault::Declarations(fault) => ("declaration fault ", Detail::Number(fault as u8)),
        }
    }
}

impl fmt::Display for Fault<'_> {
    fn fmt(&self, f: &mut fmt::Formatter<'_>) -> fmt::Result {
        let (reason, detail) = self.reason();
        f.write_str(reason)?;
        match detail {
            Detail::Nothing => Ok(()),
            Detail::Word(word) => f.write_str(word),
            Detail::Number(number) => write!(f, "{number}"),
        }
    }
}
