//! Why what stands over contexts has no answer.

use crate::notation::refusals::Refusal;
use candidate_eval::eval::refusal::NoSolutionOrStop;
use candidate_eval::eval::response::CandidateHeadUsages;
use candidate_eval::objects::object::AmbiguousOrStop;
use candidate_ir::ir::stop::Stop;
use kit::prelude::*;

/// Why a call has no answer.
pub trait Reason: Sized {
    /// Why its row has none.
    fn refusal(self) -> Refusal;
}

impl Reason for Stop {
    fn refusal(self) -> Refusal {
        Refusal::Stop(self)
    }
}

impl Reason for NoSolutionOrStop {
    fn refusal(self) -> Refusal {
        match self {
            NoSolutionOrStop::NoSolution => Refusal::NoSolution,
            NoSolutionOrStop::Stop(stop) => Refusal::Stop(stop),
        }
    }
}

/// A candidate that doesn't hold.
impl Reason for CandidateHeadUsages {
    fn refusal(self) -> Refusal {
        Refusal::NoSolution
    }
}

impl Reason for AmbiguousOrStop {
    fn refusal(self) -> Refusal {
        match self {
            AmbiguousOrStop::Ambiguous => Refusal::Ambiguous,
            AmbiguousOrStop::Stop(stop) => Refusal::Stop(stop),
        }
    }
}

/// What the call answers, or why its row has no answer.
pub fn or_refusal<T, E: Reason>(outcome: Result<T, E>) -> Result<T, Refusal> {
    match outcome {
        Ok(found) => Ok(found),
        Err(reason) => Err(reason.refusal()),
    }
}
