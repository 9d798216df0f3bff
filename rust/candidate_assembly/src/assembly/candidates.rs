// Made of `crates/candidate_assembly/src/assembly/candidates.rt` by `bench/plain.py`: an edit of this file is lost.

//! All ways in which a goal can be proved, in one list.


use kit::{eprintln, format, prelude::*, print, println, vec};
use crate::assembly::assemble::assemble_known;
use crate::assembly::kind::GoalKind;
use crate::assembly::listing::recall_well_formed_table;
use crate::assembly::opaques::{AssembleCandidatesFrom, assemble_opaque_candidates};
use crate::assembly::unknowable::consider_coherence_unknowable_candidate;
use candidate_eval::eval::context::EvalCtxt;
use candidate_eval::eval::refusal::NoSolutionOrStop;
use candidate_eval::eval::resolving::resolve_env_if_possible;
use candidate_eval::eval::response::{Candidate, CandidateHeadUsages};
use ir_trees::ir::kinds::{ParamEnv, Ty};
use ir_trees::ir::stop::Stop;
use ir_trees::ir::trees::Trees;
use kit::alloc::Global;

/// What is kept of candidates that were refused.
#[derive(Debug)]
pub struct FailedCandidateInfo {
    /// What the clauses of the environment used that were refused, of one after the other.
    pub param_env_head_usages: Vec<CandidateHeadUsages>,
}

/// The one candidate.
fn alone(alloc: Global, candidate: Candidate) -> Result<Vec<Candidate>, Stop>
{
    let mut candidates = Vec::new(alloc);
    candidates.push(candidate)?;
    Ok(candidates)
}

/// The candidates for a goal whose values are put in: in coherence, where other crates may write an impl, that is the only one; else all that
/// are known. The goal stands at a state whose values make sense; its self type is neither a general variable nor a bound type.
///
/// It stops as `consider_coherence_unknowable_candidate` and `assemble_known` do. The state is left alike the one before.
fn assemble_resolved<E: EvalCtxt, G: GoalKind<E>>(
    alloc: Global,
    ecx: &mut E,
    env: ParamEnv,
    predicate: G,
    from: AssembleCandidatesFrom,
    failed: &mut Vec<CandidateHeadUsages>,
) -> Result<Vec<Candidate>, Stop>
{
    recall_well_formed_table(ecx.cx());
    if !ecx.typing_mode().is_coherence() {
        return assemble_known(alloc, ecx, env, predicate, from, failed);
    }
    match consider_coherence_unknowable_candidate(alloc, ecx, env, predicate) {
        Ok(candidate) => alone(alloc, candidate),
        Err(NoSolutionOrStop::NoSolution) => {
            assemble_known(alloc, ecx, env, predicate, from, failed)
        }
        Err(NoSolutionOrStop::Stop(stop)) => Err(stop),
    }
}

/// The candidates for the goal, whose self type has this normal form. Both stand at a state whose values make sense.
///
/// It stops as the calls for the candidates do, and as those that put the type and the values in. The state is left alike the one before.
fn assemble_for_normal<E: EvalCtxt, G: GoalKind<E>>(
    alloc: Global,
    ecx: &mut E,
    env: ParamEnv,
    predicate: G,
    ty: Ty,
    from: AssembleCandidatesFrom,
    failed: &mut Vec<CandidateHeadUsages>,
) -> Result<Vec<Candidate>, Stop>
{
    recall_well_formed_table(ecx.cx());
    let predicate = G::with_replaced_self_ty(alloc, ecx, env, predicate, ty)?;
    if ecx.cx().kind(ty).is_ty_var() {
        return assemble_opaque_candidates(alloc, ecx, env, predicate, from);
    }
    let resolved_env = resolve_env_if_possible(alloc, ecx, env)?;
    let resolved = G::resolve_vars_if_possible(ecx, env, predicate, resolved_env)?;
    assemble_resolved(alloc, ecx, resolved_env, resolved, from, failed)
}

/// All candidates for the goal, in their order, and what the clauses of the environment used that were refused. The goal stands at a state
/// whose values make sense.
///
/// The goal's self type is normalised first: where that is refused there are no candidates, and a general variable is answered by the opaque
/// types that may be hidden behind it. In coherence, where other crates may write an impl, that is the only candidate. Else there are, in this
/// order: bounds of aliases, clauses of the environment, the language's rule, unsizing, impls, and an object's own bounds. One candidate at
/// most is trivial, and so wins over all others. One fault at most is put off, and only where the chain of aliases ends at one without bounds.
///
/// It stops at the first rule that stops, with that stop; `Stop::AliasDepth` comes where a chain of aliases is longer than the declared limit.
/// Other stops are the evaluator's and those of making nodes and lists. The state is left alike the one that normalising leaves, or, where
/// that was refused or stopped, alike the one before.
pub fn assemble_and_evaluate_candidates<E: EvalCtxt, G: GoalKind<E>>(
    alloc: Global,
    ecx: &mut E,
    env: ParamEnv,
    predicate: G,
    from: AssembleCandidatesFrom,
) -> Result<(Vec<Candidate>, FailedCandidateInfo), Stop>
{
    recall_well_formed_table(ecx.cx());
    let mut failed = FailedCandidateInfo {
        param_env_head_usages: Vec::new(alloc),
    };
    let self_ty = G::self_ty(ecx.cx(), env, predicate);
    let ty = match ecx.structurally_normalize_ty(env, self_ty) {
        Ok(ty) => ty,
        Err(NoSolutionOrStop::NoSolution) => return Ok((Vec::new(alloc), failed)),
        Err(NoSolutionOrStop::Stop(stop)) => return Err(stop),
    };
    let usages = &mut failed.param_env_head_usages;
    let candidates = assemble_for_normal(alloc, ecx, env, predicate, ty, from, usages)?;
    Ok((candidates, failed))
}
