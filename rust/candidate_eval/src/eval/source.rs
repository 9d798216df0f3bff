// Made of `crates/candidate_eval/src/eval/source.rt` by `bench/plain.py`: an edit of this file is lost.

//! Where a candidate comes from.

use kit::{eprintln, format, prelude::*, print, println, vec};
use ir_trees::decl::contents::{AliasBoundKind, ImplId};

/// The way in which a goal is proved.
#[derive(Clone, Copy, Debug, PartialEq, Eq)]
pub enum CandidateSource {
    /// By an impl.
    Impl(ImplId),
    /// By a rule of the language itself.
    BuiltinImpl(BuiltinImplSource),
    /// By a clause of the environment.
    ParamEnv(ParamEnvSource),
    /// By a bound of an alias.
    AliasBound(AliasBoundKind),
    /// Perhaps by an impl of a crate that isn't known.
    CoherenceUnknowable,
}

/// Which rule of the language.
#[derive(Clone, Copy, Debug, PartialEq, Eq)]
pub enum BuiltinImplSource {
    /// One that wins over all other candidates: that a type is sized.
    Trivial,
    Misc,
    /// The supertrait of that number of the object's own trait, which is number 0.
    Object(usize),
    /// An upcast to the supertrait of that number.
    TraitUpcasting(usize),
}

/// Whether a clause of the environment says something of what is generic there.
#[derive(Clone, Copy, Debug, PartialEq, Eq)]
pub enum ParamEnvSource {
    NonGlobal,
    Global,
}
