// Made of `crates/candidate_assembly/src/assembly/merging.rt` by `bench/plain.py`: an edit of this file is lost.

//! How a goal that isn't of a trait is answered, once it is known how the goal of its trait was proved.


use kit::{eprintln, format, prelude::*, print, println, vec};
use crate::assembly::assemble::has_where_bound;
use crate::assembly::candidates::assemble_and_evaluate_candidates;
use crate::assembly::kind::GoalKind;
use crate::assembly::opaques::AssembleCandidatesFrom;
use crate::assembly::sources::{SourceKind, keep};
use crate::assembly::specialization::{AllowInferenceConstraints, filter_specialized_impls};
use crate::assembly::steps::forced_ambiguity;
use candidate_eval::eval::ambiguity::flounder;
use candidate_eval::eval::certainty::MaybeInfo;
use candidate_eval::eval::context::EvalCtxt;
use candidate_eval::eval::refusal::NoSolutionOrStop;
use candidate_eval::eval::response::{Candidate, CanonicalResponse, try_merge_candidates};
use ir_trees::ir::kinds::ParamEnv;
use kit::alloc::Global;

/// How a goal of a trait is proved.
#[derive(Clone, Copy, Debug, PartialEq, Eq)]
pub enum TraitGoalProvenVia {
    /// By an impl, a rule of the language or an object's own bounds.
    Misc,
    /// By clauses of the environment.
    ParamEnv,
    /// By bounds of aliases.
    AliasBound,
}

/// Keeps the candidates by clauses of the environment alone, where there are any.
fn prefer_where_bounds(candidates: &mut Vec<Candidate>)
{
    if has_where_bound(candidates.as_slice()) {
        keep(candidates, SourceKind::WhereBound);
    }
}

/// The response that the candidates come to; where they don't merge, the one that too little is known.
///
/// `NoSolution` comes where there are none. It stops as the evaluator does where a response is asked for, and by `Stop::Memory`. The state
/// is left alike the one before.
fn merge_or_flounder<E: EvalCtxt>(
    ecx: &mut E,
    candidates: &[Candidate],
) -> Result<CanonicalResponse, NoSolutionOrStop>
{
    match try_merge_candidates(ecx, candidates)? {
        Some((response, _)) => Ok(response),
        None => flounder(ecx, candidates),
    }
}

/// What the candidates by clauses of the environment and by bounds come to. Where there are none, that is what the second closure answers;
/// else what the first does, if it answers; else they are merged, and clauses of the environment alone where there are any.
///
/// Refusals and stops are those of the closure that answers, or those of `merge_or_flounder`.
fn respond_by_assumptions<
    E: EvalCtxt,
    A: FnOnce(&mut E) -> Option<Result<CanonicalResponse, NoSolutionOrStop>>,
    F: FnOnce(&mut E) -> Result<CanonicalResponse, NoSolutionOrStop>,
>(
    ecx: &mut E,
    mut candidates: Vec<Candidate>,
    inject_forced_ambiguity_candidate: A,
    inject_normalize_to_rigid_candidate: F,
) -> Result<CanonicalResponse, NoSolutionOrStop>
{
    if candidates.as_slice().is_empty() {
        return inject_normalize_to_rigid_candidate(ecx);
    }
    if let Some(answer) = inject_forced_ambiguity_candidate(ecx) {
        return answer;
    }
    prefer_where_bounds(&mut candidates);
    merge_or_flounder(ecx, candidates.as_slice())
}

/// The response that a goal is ambiguous of whose trait goal nothing is known. It stops as `forced_ambiguity` does.
fn respond_unproved<E: EvalCtxt>(
    alloc: Global,
    ecx: &mut E,
    env: ParamEnv,
) -> Result<CanonicalResponse, NoSolutionOrStop>
{
    match forced_ambiguity(alloc, ecx, env, MaybeInfo::AMBIGUOUS) {
        Ok(candidate) => Ok(candidate.result),
        Err(error) => Err(error),
    }
}

/// What all candidates come to: those by clauses of the environment alone, where there are any; without impls that others specialise.
///
/// Refusals and stops are those of `merge_or_flounder`. The state is left alike the one before.
fn respond_by_all<E: EvalCtxt>(
    ecx: &mut E,
    mut candidates: Vec<Candidate>,
) -> Result<CanonicalResponse, NoSolutionOrStop>
{
    prefer_where_bounds(&mut candidates);
    filter_specialized_impls(ecx, AllowInferenceConstraints::Yes, &mut candidates);
    merge_or_flounder(ecx, candidates.as_slice())
}

/// What all candidates for a goal come to.
///
/// Refusals and stops are those of `assemble_and_evaluate_candidates` and of `respond_by_all`.
fn answer_by_all<E: EvalCtxt, G: GoalKind<E>>(
    alloc: Global,
    ecx: &mut E,
    env: ParamEnv,
    predicate: G,
) -> Result<CanonicalResponse, NoSolutionOrStop>
{
    let from = AssembleCandidatesFrom::All;
    let (candidates, _failed) = assemble_and_evaluate_candidates(alloc, ecx, env, predicate, from)?;
    respond_by_all(ecx, candidates)
}

/// What the candidates for a goal come to that clauses of the environment and bounds give, with the two closures.
///
/// Refusals and stops are those of `assemble_and_evaluate_candidates` and of `respond_by_assumptions`.
fn answer_by_assumptions<
    E: EvalCtxt,
    G: GoalKind<E>,
    A: FnOnce(&mut E) -> Option<Result<CanonicalResponse, NoSolutionOrStop>>,
    F: FnOnce(&mut E) -> Result<CanonicalResponse, NoSolutionOrStop>,
>(
    alloc: Global,
    ecx: &mut E,
    env: ParamEnv,
    predicate: G,
    inject_forced_ambiguity_candidate: A,
    inject_normalize_to_rigid_candidate: F,
) -> Result<CanonicalResponse, NoSolutionOrStop>
{
    let from = AssembleCandidatesFrom::EnvAndBounds;
    let (candidates, _failed) = assemble_and_evaluate_candidates(alloc, ecx, env, predicate, from)?;
    respond_by_assumptions(
        ecx,
        candidates,
        inject_forced_ambiguity_candidate,
        inject_normalize_to_rigid_candidate,
    )
}

/// The answer to a goal, by how the goal of its trait was proved: where that isn't known the goal is ambiguous; where it was by clauses of
/// the environment or by bounds, what these come to with the two closures; else what all candidates come to.
///
/// Refusals and stops are those of `assemble_and_evaluate_candidates` and of what answers then.
pub fn assemble_and_merge_candidates<
    E: EvalCtxt,
    G: GoalKind<E>,
    A: FnOnce(&mut E) -> Option<Result<CanonicalResponse, NoSolutionOrStop>>,
    F: FnOnce(&mut E) -> Result<CanonicalResponse, NoSolutionOrStop>,
>(
    alloc: Global,
    ecx: &mut E,
    proven_via: Option<TraitGoalProvenVia>,
    env: ParamEnv,
    predicate: G,
    inject_forced_ambiguity_candidate: A,
    inject_normalize_to_rigid_candidate: F,
) -> Result<CanonicalResponse, NoSolutionOrStop>
{
    match proven_via {
        None => respond_unproved(alloc, ecx, env),
        Some(TraitGoalProvenVia::Misc) => answer_by_all(alloc, ecx, env, predicate),
        Some(TraitGoalProvenVia::ParamEnv | TraitGoalProvenVia::AliasBound) => {
            answer_by_assumptions(
                alloc,
                ecx,
                env,
                predicate,
                inject_forced_ambiguity_candidate,
                inject_normalize_to_rigid_candidate,
            )
        }
    }
}
