// Made of `crates/candidate_assembly/src/assembly/assemble.rt` by `bench/plain.py`: an edit of this file is lost.

//! All candidates for a goal, in their order.


use kit::{eprintln, format, prelude::*, print, println, vec};
use crate::assembly::alias_chain::assemble_alias_bound_candidates;
use crate::assembly::kind::GoalKind;
use crate::assembly::language::{assemble_language_candidates, is_item};
use crate::assembly::listing::{
    assemble_impl_candidates, assemble_param_env_candidates, recall_well_formed_table,
};
use crate::assembly::object_bounds::assemble_object_bound_candidates;
use crate::assembly::opaques::AssembleCandidatesFrom;
use candidate_eval::eval::context::EvalCtxt;
use candidate_eval::eval::mode::TypingMode;
use candidate_eval::eval::response::{
    Candidate, CandidateHeadUsages, has_no_inference_or_external_constraints,
};
use candidate_eval::eval::source::{CandidateSource, ParamEnvSource};
use ir_context::decl::Cx;
use ir_trees::decl::contents::LangItem;
use ir_trees::ir::kinds::ParamEnv;
use ir_trees::ir::stop::Stop;
use kit::alloc::Global;

/// Whether it's a clause of the environment that isn't global, or a bound of an alias.
fn is_local_assumption(source: CandidateSource) -> bool
{
    matches!(
        source,
        CandidateSource::ParamEnv(ParamEnvSource::NonGlobal) | CandidateSource::AliasBound(_)
    )
}

/// Whether impls and objects would lose against the candidate: it's by such an assumption, and asks for nothing of its own.
fn shadows(cx: &Cx, candidate: &Candidate) -> bool
{
    is_local_assumption(candidate.source)
        && has_no_inference_or_external_constraints(cx, &candidate.result)
}

/// Whether impls and objects would lose against one of the candidates.
fn is_shadowed(cx: &Cx, candidates: &[Candidate]) -> bool
{
    for i in 0..candidates.len() {
        if shadows(cx, &candidates[i]) {
            return true;
        }
    }
    false
}

/// Whether it's a clause of the environment.
pub(crate) fn is_of_environment(source: CandidateSource) -> bool
{
    matches!(source, CandidateSource::ParamEnv(_))
}

/// Whether one of the candidates is by a clause of the environment.
pub(crate) fn has_where_bound(candidates: &[Candidate]) -> bool
{
    for candidate in candidates {
        if is_of_environment(candidate.source) {
            return true;
        }
    }
    false
}

/// Whether impls and objects are left out after these candidates: outside of coherence, where one of these shadows them.
///
/// They would lose anyway; and an impl that asks for the goal again, as a where-bound cuts short, would be followed from goal to goal. In
/// coherence all ways count, since each may be an overlap. Rules of the language are there already, as a trivial one wins over where-bounds.
fn leaves_out(cx: &Cx, mode: TypingMode, candidates: &[Candidate]) -> bool
{
    !mode.is_coherence() && is_shadowed(cx, candidates)
}

/// Adds the candidates by impls and then those by an object's own bounds, unless the candidates that are there shadow them. The goal stands
/// at a state whose values make sense.
///
/// It stops as `assemble_impl_candidates` and `assemble_object_bound_candidates` do. The state is left alike the one before.
fn assemble_impls_and_objects<E: EvalCtxt, G: GoalKind<E>>(
    alloc: Global,
    ecx: &mut E,
    env: ParamEnv,
    predicate: G,
    candidates: &mut Vec<Candidate>,
) -> Result<(), Stop>
{
    recall_well_formed_table(ecx.cx());
    if leaves_out(ecx.cx(), ecx.typing_mode(), candidates.as_slice()) {
        return Ok(());
    }
    assemble_impl_candidates(alloc, ecx, env, predicate, candidates)?;
    assemble_object_bound_candidates(alloc, ecx, env, predicate, candidates)
}

/// Adds the candidates by unsizing, for a goal of the trait for that. The goal stands at a state whose values make sense; its self type is
/// neither a general variable nor a bound type.
///
/// It stops as `consider_structural_builtin_unsize_candidates` does; `Stop::Memory` comes where the list can't grow. The state is left
/// alike the one before.
fn assemble_unsize_candidates<E: EvalCtxt, G: GoalKind<E>>(
    alloc: Global,
    ecx: &mut E,
    env: ParamEnv,
    predicate: G,
    candidates: &mut Vec<Candidate>,
) -> Result<(), Stop>
{
    let trait_id = G::trait_def_id(ecx.cx(), env, predicate);
    if !is_item(ecx.cx(), LangItem::Unsize, trait_id) {
        return Ok(());
    }
    let mut more = G::consider_structural_builtin_unsize_candidates(alloc, ecx, env, predicate)?;
    candidates.append(&mut more)?;
    Ok(())
}

/// Adds the candidates by unsizing, and then those by impls and by an object's own bounds, unless what is there then shadows them. The goal
/// stands at a state whose values make sense; its self type is neither a general variable nor a bound type.
///
/// It stops as the calls for these do. The state is left alike the one before.
fn assemble_unsizing<E: EvalCtxt, G: GoalKind<E>>(
    alloc: Global,
    ecx: &mut E,
    env: ParamEnv,
    predicate: G,
    candidates: &mut Vec<Candidate>,
) -> Result<(), Stop>
{
    recall_well_formed_table(ecx.cx());
    assemble_unsize_candidates(alloc, ecx, env, predicate, candidates)?;
    assemble_impls_and_objects(alloc, ecx, env, predicate, candidates)
}

/// Adds what follows bounds of aliases and clauses of the environment: the candidates by the language's rule, by unsizing, by impls and by
/// an object's own bounds; or these alone, where nothing else is looked for and no clause of the environment served. The goal stands at a
/// state whose values make sense; its self type is neither a general variable nor a bound type.
///
/// It stops as the calls for these do. The state is left alike the one before.
fn assemble_further<E: EvalCtxt, G: GoalKind<E>>(
    alloc: Global,
    ecx: &mut E,
    env: ParamEnv,
    predicate: G,
    from: AssembleCandidatesFrom,
    candidates: &mut Vec<Candidate>,
) -> Result<(), Stop>
{
    recall_well_formed_table(ecx.cx());
    match from {
        AssembleCandidatesFrom::All => {
            assemble_language_candidates(alloc, ecx, env, predicate, candidates)?;
            assemble_unsizing(alloc, ecx, env, predicate, candidates)
        }
        AssembleCandidatesFrom::EnvAndBounds => {
            if has_where_bound(candidates.as_slice()) {
                return Ok(());
            }
            assemble_object_bound_candidates(alloc, ecx, env, predicate, candidates)
        }
    }
}

/// All candidates for a goal but for what is unknowable: those by bounds of aliases, by clauses of the environment in their order, and what
/// follows these. They are as each earlier context has them, at each state alike of which the goal mentions no other variables. Of a clause
/// that gives none, it's added to `failed` which goals above were used until then. The goal stands at a state whose values make sense; its
/// self type is neither a general variable nor a bound type.
///
/// It stops as the calls for these do; what was added to `failed` stays. The state is left alike the one before.
pub(crate) fn assemble_known<E: EvalCtxt, G: GoalKind<E>>(
    alloc: Global,
    ecx: &mut E,
    env: ParamEnv,
    predicate: G,
    from: AssembleCandidatesFrom,
    failed: &mut Vec<CandidateHeadUsages>,
) -> Result<Vec<Candidate>, Stop>
{
    recall_well_formed_table(ecx.cx());
    let mut candidates = Vec::new(alloc);
    assemble_alias_bound_candidates(alloc, ecx, env, predicate, &mut candidates)?;
    assemble_param_env_candidates(alloc, ecx, env, predicate, &mut candidates, failed)?;
    assemble_further(alloc, ecx, env, predicate, from, &mut candidates)?;
    Ok(candidates)
}
