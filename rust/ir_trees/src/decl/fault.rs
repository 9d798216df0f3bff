// Made of `crates/ir_trees/src/decl/fault.rt` by `bench/plain.py`: an edit of this file is lost.

//! Why declarations are refused.


use kit::{eprintln, format, prelude::*, print, println, vec};
use kit::alloc::{AllocError, AllocFailed};
use kit::fmt;

/// Why declarations were refused. `fault as u8` is its number, and of several faults the lowest is
/// answered.
#[derive(Clone, Copy, Debug, PartialEq, Eq)]
pub enum DeclFault {
    /// A number is named that the builder never gave, or an associated item is of no trait.
    UnknownId = 1,
    /// An auto trait has parameters, or a marker type has no type parameter first.
    WrongArity = 2,
    /// Something of another kind stands where a type, a constant or a region should, or what an impl says the type of is no type of its
    /// trait's, or has two.
    WrongKind = 3,
    /// A trait is its own supertrait.
    SupertraitCycle = 4,
    /// A type with unsizing parameters isn't a struct with a field.
    NoTail = 5,
    /// A lang item's trait has the wrong parameters.
    LangArity = 6,
    /// A growth was refused.
    Memory = 7,
    /// A limit is 0.
    BadLimit = 8,
}

impl From<AllocError> for DeclFault {

    fn from(_: AllocError) -> Self {
        DeclFault::Memory
    }
}

impl<T: Drop> From<AllocFailed<T>> for DeclFault {

    fn from(_: AllocFailed<T>) -> Self {
        DeclFault::Memory
    }
}

impl DeclFault {
    fn text(self) -> &'static str {
        match self {
            DeclFault::UnknownId => "a number is named that was never given",
            DeclFault::WrongArity => "arguments or parameters don't fit a definition",
            DeclFault::WrongKind => "something of another kind is asked for",
            DeclFault::SupertraitCycle => "a trait is its own supertrait",
            DeclFault::NoTail => "a type with unsizing parameters has no last field",
            DeclFault::LangArity => "a lang item's trait has the wrong parameters",
            DeclFault::Memory => "a growth was refused",
            DeclFault::BadLimit => "a limit is 0",
        }
    }
}

impl fmt::Display for DeclFault {
    fn fmt(&self, f: &mut fmt::Formatter<'_>) -> fmt::Result {
        f.write_str(self.text())
    }
}
