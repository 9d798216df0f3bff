// Made of `crates/candidate_rounds/src/lib.rt` by `bench/plain.py`: an edit of this file is lost.

//! An evaluator that works in rounds.

use kit::{eprintln, format, prelude::*, print, println, vec};
pub mod rounds;
