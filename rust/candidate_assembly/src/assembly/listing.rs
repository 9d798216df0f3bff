// Made of `crates/candidate_assembly/src/assembly/listing.rt` by `bench/plain.py`: an edit of this file is lost.

//! Lists of candidates, by rules in their order.


use kit::{eprintln, format, prelude::*, print, println, vec};
use crate::assembly::kind::GoalKind;
use candidate_eval::eval::certainty::Certainty;
use candidate_eval::eval::context::EvalCtxt;
use candidate_eval::eval::refusal::NoSolutionOrStop;
use candidate_eval::eval::response::{Candidate, CandidateHeadUsages, CanonicalResponse};
use ir_context::decl::{Cx, UnifyCount};
use ir_trees::decl::contents::ImplId;
use ir_trees::ir::kinds::ParamEnv;
use ir_trees::ir::stop::Stop;
use ir_trees::ir::trees::Trees;
use kit::alloc::Global;

/// Adds the candidate, if there is one; a refusal adds nothing.
///
/// A stop that was answered is handed on; `Stop::Memory` comes where the list can't grow. The candidates before stay.
pub(crate) fn push_considered(
    candidates: &mut Vec<Candidate>,
    answer: Result<Candidate, NoSolutionOrStop>,
) -> Result<(), Stop>
{
    match answer {
        Ok(candidate) => candidates.push(candidate)?,
        Err(NoSolutionOrStop::NoSolution) => {}
        Err(NoSolutionOrStop::Stop(stop)) => return Err(stop),
    }
    Ok(())
}

/// As `push_considered`, where a refusal says which goals above were used until then: these are added to those of the rules that failed.
pub(crate) fn push_or_note(
    candidates: &mut Vec<Candidate>,
    failed: &mut Vec<CandidateHeadUsages>,
    answer: Result<Result<Candidate, CandidateHeadUsages>, Stop>,
) -> Result<(), Stop>
{
    match answer? {
        Ok(candidate) => candidates.push(candidate)?,
        Err(usages) => failed.push(usages)?,
    }
    Ok(())
}

/// Adds the candidates by the clauses of the environment, in their order; of a clause that gives none, which goals above were used until
/// then. No parameter stands in the environment, and the goal mentions only the state's variables.
///
/// It stops at the first clause whose rule stops, with that stop; `Stop::Memory` comes where a list can't grow. The state is left alike the
/// one before.
pub(crate) fn assemble_param_env_candidates<E: EvalCtxt, G: GoalKind<E>>(
    alloc: Global,
    ecx: &mut E,
    env: ParamEnv,
    predicate: G,
    candidates: &mut Vec<Candidate>,
    failed: &mut Vec<CandidateHeadUsages>,
) -> Result<(), Stop>
{
    let clauses = Vec::from_slice(alloc, ecx.cx().param_env(env))?;
    for clause in &clauses {
        let answer = G::probe_and_consider_param_env_candidate(alloc, ecx, env, predicate, *clause);
        push_or_note(candidates, failed, answer)?;
    }
    Ok(())
}

/// Whether others specialise the impl.
pub(crate) fn is_default_impl(cx: &Cx, of: ImplId) -> bool
{
    match cx.impl_contents(of) {
        Some(declared) => declared.is_default,
        None => false,
    }
}

/// The impls that may be for the goal's self type, in the order of their declaration, but for those that others specialise. The only stop
/// is `Stop::Memory`.
fn impls_for<E: EvalCtxt, G: GoalKind<E>>(
    alloc: Global,
    cx: &Cx,
    env: ParamEnv,
    predicate: G,
) -> Result<Vec<ImplId>, Stop>
{
    let trait_id = G::trait_def_id(cx, env, predicate);
    let self_ty = G::self_ty(cx, env, predicate);
    let relevant = cx.for_each_relevant_impl(trait_id, self_ty, &mut UnifyCount::new())?;
    let impls = relevant.as_slice().iter().copied();
    let proper = impls.filter(|of| !is_default_impl(cx, *of));
    Ok(proper.kit_collect(alloc)?)
}

/// Nothing is wrong with what is declared.
pub(crate) fn recall_well_formed_table(cx: &Cx)
{
    cx.recall_well_formed_table();
}

/// The rule of an impl, where the response is asked for after its steps, with at most the certainty that the impl gives. It answers and stops
/// as `consider_impl_candidate`, and as the evaluator does where a response is asked for.
pub fn consider_impl_and_respond<E: EvalCtxt, G: GoalKind<E>>(
    alloc: Global,
    ecx: &mut E,
    env: ParamEnv,
    predicate: G,
    of: ImplId,
) -> Result<Candidate, NoSolutionOrStop>
{
    G::consider_impl_candidate(
        alloc,
        ecx,
        env,
        predicate,
        of,
        |ecx: &mut E, certainty: Certainty| -> Result<CanonicalResponse, NoSolutionOrStop>
        { ecx.evaluate_added_goals_and_make_canonical_response(certainty) },
    )
}

/// Adds the candidates by the impls that may be for the goal's self type, in the order of their declaration, but for those that others
/// specialise. The goal mentions only the state's variables.
///
/// It stops at the first impl whose rule stops, with that stop; `Stop::Memory` comes where a list can't grow. The state is left alike the
/// one before.
pub(crate) fn assemble_impl_candidates<E: EvalCtxt, G: GoalKind<E>>(
    alloc: Global,
    ecx: &mut E,
    env: ParamEnv,
    predicate: G,
    candidates: &mut Vec<Candidate>,
) -> Result<(), Stop>
{
    recall_well_formed_table(ecx.cx());
    let impls = impls_for::<E, G>(alloc, ecx.cx(), env, predicate)?;
    for of in &impls {
        let answer = consider_impl_and_respond(alloc, ecx, env, predicate, *of);
        push_considered(candidates, answer)?;
    }
    Ok(())
}
