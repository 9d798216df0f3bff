// Made of `crates/candidate_eval/src/eval/variable.rt` by `bench/plain.py`: an edit of this file is lost.

//! The variables that goals and responses speak of.

use kit::{eprintln, format, prelude::*, print, println, vec};
use ir_trees::ir::heads::VariableSort;

/// What a variable to be solved stands for.
#[derive(Clone, Copy, PartialEq, Eq, Debug)]
pub enum VariableKind {
    /// A type or a constant of the sort.
    Term(VariableSort),
    Region,
}

/// A variable that a response leaves open: its kind, and the newest universe whose placeholders its value may name.
#[derive(Clone, Copy, PartialEq, Eq, Debug)]
pub struct CanonicalVar {
    pub kind: VariableKind,
    pub universe: u32,
}
