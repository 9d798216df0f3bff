// Made of `crates/projection_goals/src/lib.rt` by `bench/plain.py`: an edit of this file is lost.

//! Goals that a projection is a term: what the associated type of some arguments is.

use kit::{eprintln, format, prelude::*, print, println, vec};
pub mod asked;
pub(crate) mod callable;
pub(crate) mod impls;
pub mod kind;
pub(crate) mod language;
pub mod matching;
pub mod named;
pub mod proving;
pub mod steps;
