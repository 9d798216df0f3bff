// Made of `crates/candidate_assembly/src/trait_goals.rt` by `bench/plain.py`: an edit of this file is lost.

//! Goals of traits: that a trait holds of some trees, or that it does not.

use kit::{eprintln, format, prelude::*, print, println, vec};
pub(crate) mod aliases;
pub(crate) mod auto_traits;
pub(crate) mod bounds_met;
pub(crate) mod builtin;
pub mod callable;
pub mod compute;
pub mod impls;
pub mod kind;
pub(crate) mod language;
pub(crate) mod matching;
pub mod meeting;
pub(crate) mod no_drop;
pub(crate) mod parts;
pub mod preference;
pub(crate) mod to_dyn;
pub(crate) mod unsizing;
pub(crate) mod unsizing_rows;
pub(crate) mod upcasting;
