//! Why a row has no answer.

use candidate_ir::decl::builder::DeclFault;
use candidate_ir::ir::stop::Stop;
use kit::alloc::{AllocError, AllocFailed};
use kit::prelude::*;

/// Which word of a row nothing knows.
#[derive(Clone, Copy)]
pub enum WordPlace {
    /// The one in that place of the row, where the verb is in place 0.
    Row(usize),
    /// One of an operand, which the reader notes.
    Operand,
}

/// Why a row has no answer.
#[derive(Clone, Copy)]
pub enum Refusal {
    /// A call that the row asks for may not be made of its operands.
    Condition,
    /// The verb doesn't know that word, or it is no name, and makes nothing.
    UnknownWord(WordPlace),
    /// The call gave up.
    Stop(Stop),
    /// Declarations were refused.
    Fault(DeclFault),
    /// What was asked doesn't hold.
    NoSolution,
    /// Too little is known.
    Ambiguous,
}

impl From<Stop> for Refusal {
    fn from(stop: Stop) -> Self {
        Refusal::Stop(stop)
    }
}

impl From<DeclFault> for Refusal {
    /// A growth that was refused is the same stop everywhere.
    fn from(fault: DeclFault) -> Self {
        match fault {
            DeclFault::Memory => Refusal::Stop(Stop::Memory),
            fault => Refusal::Fault(fault),
        }
    }
}

impl From<AllocError> for Refusal {
    fn from(_: AllocError) -> Self {
        Refusal::Stop(Stop::Memory)
    }
}

impl<T: Drop> From<AllocFailed<T>> for Refusal {
    fn from(_: AllocFailed<T>) -> Self {
        Refusal::Stop(Stop::Memory)
    }
}
