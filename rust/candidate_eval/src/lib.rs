// Made of `crates/candidate_eval/src/lib.rt` by `bench/plain.py`: an edit of this file is lost.

//! The interface of an evaluator, and the orphan check that stands on its lowest part.

use kit::{eprintln, format, prelude::*, print, println, vec};
pub mod coherence;
pub mod eval;
pub mod objects;
pub mod structural;

impl std::fmt::Display for crate::eval::refusal::NoSolutionOrStop {
    fn fmt(&self, f: &mut std::fmt::Formatter<'_>) -> std::fmt::Result {
        match self {
            Self::Stop(stop) => stop.fmt(f),
            Self::NoSolution => f.write_str("the goal is refused"),
        }
    }
}

impl std::error::Error for crate::eval::refusal::NoSolutionOrStop {}

impl std::fmt::Display for crate::objects::object::AmbiguousOrStop {
    fn fmt(&self, f: &mut std::fmt::Formatter<'_>) -> std::fmt::Result {
        match self {
            Self::Stop(stop) => stop.fmt(f),
            Self::Ambiguous => f.write_str("too little is known"),
        }
    }
}

impl std::error::Error for crate::objects::object::AmbiguousOrStop {}

impl<E: std::fmt::Debug + std::fmt::Display> std::error::Error for crate::coherence::OrphanStop<E> {}

impl<E: std::fmt::Display> std::fmt::Display for crate::coherence::NormalizeErr<E> {
    fn fmt(&self, f: &mut std::fmt::Formatter<'_>) -> std::fmt::Result {
        match self {
            Self::Stop(stop) => stop.fmt(f),
            Self::Failed(error) => error.fmt(f),
        }
    }
}

impl<E: std::fmt::Debug + std::fmt::Display> std::error::Error for crate::coherence::NormalizeErr<E> {}
