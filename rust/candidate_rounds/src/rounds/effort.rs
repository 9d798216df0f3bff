// Made of `crates/candidate_rounds/src/rounds/effort.rt` by `bench/plain.py`: an edit of this file is lost.

//! How long goals are computed.


use kit::{eprintln, format, prelude::*, print, println, vec};
use crate::rounds::running::MAX_STEPS;

/// How long a goal is computed.
#[derive(Clone, Copy, Debug)]
pub enum Effort {
    /// In so many rounds at most, each of which computes all goals of the table that aren't final.
    Rounds(u16),
    /// As long as needed: until the goal is final or no round changes the table, in 65,535 steps at most.
    AsNeeded,
}

impl Effort {
    /// How many rounds or steps are done at most.
    pub fn most_rounds(self) -> u16
    {
        match self {
            Effort::Rounds(count) => count,
            Effort::AsNeeded => MAX_STEPS,
        }
    }
}
