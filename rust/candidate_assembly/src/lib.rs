// Made of `crates/candidate_assembly/src/lib.rt` by `bench/plain.py`: an edit of this file is lost.

//! The ways in which a goal can be proved: kinds of goals and the rules that they have, over any evaluator.

use kit::{eprintln, format, prelude::*, print, println, vec};
pub mod assembly;
pub mod trait_goals;
