//! Rows of text that ask what stands over contexts, and any evaluator.

pub mod checks;
pub mod eval;
pub mod evaluator;
pub mod merging;
pub(crate) mod objects;
pub mod refusals;
pub(crate) mod structures;
