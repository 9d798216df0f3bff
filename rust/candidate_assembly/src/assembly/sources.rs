// Made of `crates/candidate_assembly/src/assembly/sources.rt` by `bench/plain.py`: an edit of this file is lost.

//! Candidates by their sources.


use kit::{eprintln, format, prelude::*, print, println, vec};
use candidate_eval::eval::response::Candidate;
use candidate_eval::eval::source::{BuiltinImplSource, CandidateSource, ParamEnvSource};
use ir_trees::decl::contents::AliasBoundKind;

/// Kinds of sources, by which it is said which candidates win.
#[derive(Clone, Copy, Debug)]
pub enum SourceKind {
    /// The rule of the language that wins over all others.
    Trivial,
    /// An impl.
    Impl,
    /// A bound that an object states of itself.
    Object,
    /// A bound of an alias.
    AliasBound,
    /// A bound of the goal's alias itself.
    SelfBound,
    /// A clause of the environment.
    WhereBound,
    /// A clause of the environment that isn't global.
    NonGlobal,
    /// A global clause of the environment.
    Global,
}

impl SourceKind {
    /// Whether the source is of that kind.
    pub(crate) fn has(self, source: CandidateSource) -> bool
    {
        match self {
            SourceKind::Trivial => matches!(
                source,
                CandidateSource::BuiltinImpl(BuiltinImplSource::Trivial)
            ),
            SourceKind::Impl => matches!(source, CandidateSource::Impl(_)),
            SourceKind::Object => matches!(
                source,
                CandidateSource::BuiltinImpl(BuiltinImplSource::Object(_))
            ),
            SourceKind::AliasBound => matches!(source, CandidateSource::AliasBound(_)),
            SourceKind::SelfBound => matches!(
                source,
                CandidateSource::AliasBound(AliasBoundKind::SelfBounds)
            ),
            SourceKind::WhereBound => matches!(source, CandidateSource::ParamEnv(_)),
            SourceKind::NonGlobal => {
                matches!(source, CandidateSource::ParamEnv(ParamEnvSource::NonGlobal))
            }
            SourceKind::Global => {
                matches!(source, CandidateSource::ParamEnv(ParamEnvSource::Global))
            }
        }
    }
}

/// Whether one of the candidates is of that kind.
pub(crate) fn has_any(candidates: &[Candidate], kind: SourceKind) -> bool
{
    candidates
        .iter()
        .any(|candidate| kind.has(candidate.source))
}

/// Whether all candidates are of that kind.
pub(crate) fn has_only(candidates: &[Candidate], kind: SourceKind) -> bool
{
    candidates
        .iter()
        .all(|candidate| kind.has(candidate.source))
}

/// Keeps the candidates of that kind alone.
pub(crate) fn keep(candidates: &mut Vec<Candidate>, kind: SourceKind)
{
    candidates.retain(|candidate| kind.has(candidate.source));
}

/// Removes the candidates of that kind.
pub(crate) fn remove(candidates: &mut Vec<Candidate>, kind: SourceKind)
{
    candidates.retain(|candidate| !kind.has(candidate.source));
}
