// Made of `crates/assembly_text/src/stops.rt` by `bench/plain.py`: an edit of this file is lost.

//! Why queries stop, in words.

use kit::{eprintln, format, prelude::*, print, println, vec};
use ir_trees::ir::stop::Stop;

/// The stops, and how a line of `check` ends that says one.
pub(crate) const STOPS: [(Stop, &str); 7] = [
    (Stop::Memory, " stop 1"),
    (Stop::WalkDepth, " stop 2"),
    (Stop::AliasDepth, " stop 3"),
    (Stop::ConstDepth, " stop 4"),
    (Stop::Unnameable, " stop 5"),
    (Stop::NodesFull, " stop 6"),
    (Stop::EvaluatorLimit, " stop 7"),
];

/// Why a query stopped, in words.
pub fn words_of_stop(stop: Stop) -> &'static str {
    match stop {
        Stop::Memory => "a growth was refused",
        Stop::WalkDepth => "a check would visit a type inside too many others",
        Stop::AliasDepth => "a chain of aliases is too long",
        Stop::ConstDepth => "constants are nested too deep",
        Stop::Unnameable => "a type that no header names came to the check",
        Stop::NodesFull => "a type is nested too deep, or no number is left",
        Stop::EvaluatorLimit => "a goal would be asked for beside too many others",
    }
}
