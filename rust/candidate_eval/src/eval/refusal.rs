// Made of `crates/candidate_eval/src/eval/refusal.rt` by `bench/plain.py`: an edit of this file is lost.

//! Why there is no answer.


use kit::{eprintln, format, prelude::*, print, println, vec};
use ir_trees::ir::stop::Stop;

/// A goal is refused, or a call gave up. A stop is never a refusal.
#[derive(Clone, Copy, Debug, PartialEq, Eq)]
pub enum NoSolutionOrStop {
    NoSolution,
    Stop(Stop),
}

impl From<Stop> for NoSolutionOrStop {

    fn from(stop: Stop) -> Self {
        NoSolutionOrStop::Stop(stop)
    }
}
