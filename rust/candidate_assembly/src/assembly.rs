// Made of `crates/candidate_assembly/src/assembly.rt` by `bench/plain.py`: an edit of this file is lost.

//! What assembly asks of a kind of goals, and the rules that all kinds share.

use kit::{eprintln, format, prelude::*, print, println, vec};
pub(crate) mod alias_bounds;
pub(crate) mod alias_chain;
pub(crate) mod assemble;
pub mod candidates;
pub mod characterize;
pub(crate) mod dyn_bounds;
pub mod kind;
pub mod language;
pub mod listing;
pub mod matching;
pub mod merging;
pub mod object_bounds;
pub mod opaques;
pub(crate) mod sources;
pub mod specialization;
pub mod steps;
pub mod unknowable;
