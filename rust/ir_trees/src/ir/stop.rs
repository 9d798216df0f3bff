// Made of `crates/ir_trees/src/ir/stop.rt` by `bench/plain.py`: an edit of this file is lost.

//! Why a call gave up.


use kit::{eprintln, format, prelude::*, print, println, vec};
use kit::alloc::{AllocError, AllocFailed};
use kit::fmt;

/// Why a call gave up; it is never an answer.
///
/// `stop as u8` is its number.
#[derive(Clone, Copy, Debug, PartialEq, Eq)]
pub enum Stop {
    /// A growth was refused.
    Memory = 1,
    /// The orphan walk would visit a type inside as many others as the declared limit says.
    WalkDepth = 2,
    /// An alias chain has more aliases than the declared limit.
    AliasDepth = 3,
    /// A constant stands inside as many others as the declared limit says.
    ConstDepth = 4,
    /// A function's type, a closure or a parameter came to the orphan walk.
    Unnameable = 5,
    /// All 2^32 - 1 numbers are given, or a tree would be higher than 1,024.
    NodesFull = 6,
    /// The evaluator's own limit.
    EvaluatorLimit = 7,
}

impl From<AllocError> for Stop {

    fn from(_: AllocError) -> Self {
        Stop::Memory
    }
}

impl<T: Drop> From<AllocFailed<T>> for Stop {

    fn from(_: AllocFailed<T>) -> Self {
        Stop::Memory
    }
}

impl Stop {
    fn text(self) -> &'static str {
        match self {
            Stop::Memory => "a growth was refused",
            Stop::WalkDepth => "the orphan walk is nested too deep",
            Stop::AliasDepth => "an alias chain is too long",
            Stop::ConstDepth => "constants are nested too deep",
            Stop::Unnameable => "a type that no header names came to the orphan walk",
            Stop::NodesFull => "no number is left, or a tree is too high",
            Stop::EvaluatorLimit => "the evaluator's own limit is reached",
        }
    }
}

impl fmt::Display for Stop {
    fn fmt(&self, f: &mut fmt::Formatter<'_>) -> fmt::Result {
        f.write_str(self.text())
    }
}
