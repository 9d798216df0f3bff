// Made of `crates/candidate_rounds/src/rounds.rt` by `bench/plain.py`: an edit of this file is lost.

//! The evaluator's state, and what it answers.

use kit::{eprintln, format, prelude::*, print, println, vec};
mod binding;
pub mod cleanness;
pub mod derivation;
mod due;
pub mod effort;
mod equating;
pub mod evaluator;
mod fresh;
pub mod given;
mod giving;
pub mod goals;
mod inference;
mod keys;
pub mod leaking;
mod normal_forms;
pub mod normalizing;
mod opening;
pub mod projecting;
mod repeating;
mod resolving;
mod responding;
pub mod running;
mod searching;
mod settling;
mod standing;
pub mod states;
mod table;
mod values;
mod walking;
mod writing;

use crate::rounds::goals::Goals;
use crate::rounds::inference::Inference;
use candidate_eval::eval::mode::TypingMode;
use ir_context::decl::context::Cx;
use ir_trees::ir::kinds::{AliasTy, Ty};
use kit::marker::Model;

/// An evaluator that works in rounds.
///
/// Its calls go down into types by recursion. With types of the greatest height, 1,024, they take less than 1.5 MiB of the stack, measured
/// in plain Rust.
#[derive(Debug)]
pub struct Rounds {
    cx: Cx,
    mode: TypingMode,
    /// Aliases, each with the type that it is normalised to.
    normal: Vec<(Ty, Ty)>,
    /// Whether any other alias may be any type in coherence.
    opens: bool,
    /// The opaque types that may be hidden behind a variable.
    opaques: Vec<AliasTy>,
    /// The goals of the table that the last round left, and those asked for since.
    goals: Goals,
    inference: Inference,
    /// How many changes there were when each open probe began, the newest last.
    probes: Vec<usize>,
    /// The newest universe that came with the goal which is computed.
    above: u32,
    /// Whether a placeholder of a newer universe leaks in what the goal rests on so far.
    leaks: bool,
}

impl Model for Rounds {




}
