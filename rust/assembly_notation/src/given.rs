// Made of `crates/assembly_notation/src/given.rt` by `bench/plain.py`: an edit of this file is lost.

//! What goals are asked under, besides the declarations.

use kit::{eprintln, format, prelude::*, print, println, vec};
use candidate_eval::eval::mode::TypingMode;
use ir_trees::ir::kinds::{Clause, Ty};
use kit::alloc::Global;

/// What goals are asked under, besides the declarations.
#[derive(Debug)]
pub struct Given {
    /// The clauses that hold.
    pub clauses: Vec<Clause>,
    /// Aliases, each with what it is normalised to.
    pub normal_forms: Vec<(Ty, Ty)>,
    pub mode: TypingMode,
    /// Whether an impl may specialise another one that no line names.
    pub specialization: bool,
    /// Whether a where clause of which it is known that it doesn't hold keeps impls apart.
    pub negative: bool,
}
