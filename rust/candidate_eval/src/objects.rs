// Made of `crates/candidate_eval/src/objects.rt` by `bench/plain.py`: an edit of this file is lost.

//! Object types: what an object of a trait has to fulfil, what the bounds of its type say, and what an object candidate asks for.

use kit::{eprintln, format, prelude::*, print, println, vec};
pub mod object;
pub mod object_candidate;
pub mod replacing;
pub mod required;
