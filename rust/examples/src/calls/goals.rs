// Made of `crates/examples/src/calls/goals.rt` by `bench/plain.py`: an edit of this file is lost.

//! Callers of calls for goals of traits and of projections, and of an evaluator of rounds.


use kit::{eprintln, format, prelude::*, print, println, vec};
use candidate_assembly::assembly::candidates::assemble_and_evaluate_candidates;
use candidate_assembly::assembly::characterize::characterize_param_env_assumption;
use candidate_assembly::assembly::listing::consider_impl_and_respond;
use candidate_assembly::assembly::matching::probe_and_consider_implied_clause;
use candidate_assembly::assembly::merging::TraitGoalProvenVia;
use candidate_assembly::assembly::opaques::AssembleCandidatesFrom;
use candidate_assembly::assembly::steps::forced_ambiguity;
use candidate_assembly::trait_goals::preference::{
    CandidatePreferenceMode, merge_trait_candidates,
};
use candidate_eval::eval::certainty::{Certainty, MaybeInfo};
use candidate_eval::eval::clauses::predicate_in;
use candidate_eval::eval::context::EvalCtxt;
use candidate_eval::eval::refusal::NoSolutionOrStop;
use candidate_eval::eval::response::{Candidate, CanonicalResponse};
use candidate_eval::eval::source::{BuiltinImplSource, CandidateSource, ParamEnvSource};
use candidate_ir::decl::Cx;
use candidate_ir::decl::contents::ImplId;
use candidate_ir::decl::make::Build;
use candidate_ir::ir::heads::Flag;
use candidate_ir::ir::kinds::{Clause, ParamEnv, TraitPredicate};
use candidate_ir::ir::stop::Stop;
use candidate_ir::ir::trees::Trees;
use candidate_rounds::rounds::Rounds;
use projection_goals::kind::NormalizesTo;
use projection_goals::proving::compute_normalizes_to;
use kit::alloc::Global;

/// The goal of a trait that the clause states. `None` where it states something else, or where a parameter or an escaping bound variable
/// stands in it.
fn goal_of(cx: &Cx, env: ParamEnv, clause: Clause) -> Option<TraitPredicate>
{
    let predicate = predicate_in(cx, clause)?;
    let trait_ref = predicate.trait_ref;
    if cx.has_param(trait_ref) || cx.has_escaping_bound_vars(trait_ref.args) {
        return None;
    }
    Some(predicate)
}

/// Whether the clause of an environment is global.
pub fn is_global<E: EvalCtxt>(
    alloc: Global,
    ecx: &mut E,
    env: ParamEnv,
    clause: Clause,
) -> Result<bool, NoSolutionOrStop>
{
    debug_assert!(ir_trees::checks::is_sorted(ir_context::decl::make::Make::cx(&*ecx), env), "examples::calls::goals::is_global: `env` is {:?}, no number of its sort in this context", env);
    debug_assert!(ir_trees::checks::is_sorted(ir_context::decl::make::Make::cx(&*ecx), clause), "examples::calls::goals::is_global: `clause` is {:?}, no number of its sort in this context", clause);
    let (source, _) = characterize_param_env_assumption(alloc, ecx, env, clause)?;
    Ok(source == ParamEnvSource::Global)
}

/// The ambiguous candidate for a goal that says too little.
pub fn forced_candidate<E: EvalCtxt>(
    alloc: Global,
    ecx: &mut E,
    env: ParamEnv,
) -> Result<Candidate, NoSolutionOrStop>
{
    debug_assert!(ir_trees::checks::is_sorted(ir_context::decl::make::Make::cx(&*ecx), env), "examples::calls::goals::forced_candidate: `env` is {:?}, no number of its sort in this context", env);
    forced_ambiguity(alloc, ecx, env, MaybeInfo::AMBIGUOUS)
}

/// The candidate by the impl for the goal that the clause states. `None` where the clause states no goal that may be asked.
pub fn impl_candidate<E: EvalCtxt>(
    alloc: Global,
    ecx: &mut E,
    env: ParamEnv,
    clause: Clause,
    of: ImplId,
) -> Result<Option<Candidate>, NoSolutionOrStop>
{
    debug_assert!(ir_trees::checks::is_sorted(ir_context::decl::make::Make::cx(&*ecx), env), "examples::calls::goals::impl_candidate: `env` is {:?}, no number of its sort in this context", env);
    debug_assert!(ir_trees::checks::is_sorted(ir_context::decl::make::Make::cx(&*ecx), clause), "examples::calls::goals::impl_candidate: `clause` is {:?}, no number of its sort in this context", clause);
    let Some(predicate) = goal_of(ecx.cx(), env, clause) else {
        return Ok(None);
    };
    let candidate = consider_impl_and_respond(alloc, ecx, env, predicate, of)?;
    Ok(Some(candidate))
}

/// The candidate by a clause for the goal that another clause states. `None` where that one states no goal that may be asked, or where a
/// parameter stands in the first.
pub fn implied_candidate<E: EvalCtxt>(
    alloc: Global,
    ecx: &mut E,
    env: ParamEnv,
    clause: Clause,
    asked: Clause,
) -> Result<Option<Candidate>, NoSolutionOrStop>
{
    debug_assert!(ir_trees::checks::is_sorted(ir_context::decl::make::Make::cx(&*ecx), env), "examples::calls::goals::implied_candidate: `env` is {:?}, no number of its sort in this context", env);
    debug_assert!(ir_trees::checks::is_sorted(ir_context::decl::make::Make::cx(&*ecx), clause), "examples::calls::goals::implied_candidate: `clause` is {:?}, no number of its sort in this context", clause);
    debug_assert!(ir_trees::checks::is_sorted(ir_context::decl::make::Make::cx(&*ecx), asked), "examples::calls::goals::implied_candidate: `asked` is {:?}, no number of its sort in this context", asked);
    let Some(goal) = goal_of(ecx.cx(), env, asked) else {
        return Ok(None);
    };
    if ecx.cx().has(clause, Flag::Param) {
        return Ok(None);
    }
    let source = CandidateSource::BuiltinImpl(BuiltinImplSource::Misc);
    let candidate = probe_and_consider_implied_clause(alloc, ecx, source, env, goal, clause, &[])?;
    Ok(Some(candidate))
}

/// The response to the goal by the candidates that win, and how the goal is proved.
pub fn preferred_response<E: EvalCtxt>(
    alloc: Global,
    ecx: &mut E,
    env: ParamEnv,
    predicate: TraitPredicate,
) -> Result<(CanonicalResponse, Option<TraitGoalProvenVia>), NoSolutionOrStop>
{
    debug_assert!(ir_trees::checks::is_sorted(ir_context::decl::make::Make::cx(&*ecx), env), "examples::calls::goals::preferred_response: `env` is {:?}, no number of its sort in this context", env);
    debug_assert!(ir_trees::checks::is_sorted(ir_context::decl::make::Make::cx(&*ecx), predicate.trait_ref.args), "examples::calls::goals::preferred_response: `predicate.trait_ref.args` is {:?}, no number of its sort in this context", predicate.trait_ref.args);
    let from = AssembleCandidatesFrom::All;
    let (candidates, failed) = assemble_and_evaluate_candidates(alloc, ecx, env, predicate, from)?;
    let mode = CandidatePreferenceMode::compute(ecx.cx(), predicate.trait_ref.def_id);
    merge_trait_candidates(ecx, mode, candidates, failed)
}

/// The response to the goal that a projection is a term, by how the goal of its trait was proved. `None` where the goal may not be asked.
pub fn normalized<E: EvalCtxt>(
    alloc: Global,
    ecx: &mut E,
    via: Option<TraitGoalProvenVia>,
    env: ParamEnv,
    goal: NormalizesTo,
) -> Result<Option<CanonicalResponse>, NoSolutionOrStop>
{
    debug_assert!(ir_trees::checks::is_sorted(ir_context::decl::make::Make::cx(&*ecx), env), "examples::calls::goals::normalized: `env` is {:?}, no number of its sort in this context", env);
    debug_assert!(ir_trees::checks::is_sorted(ir_context::decl::make::Make::cx(&*ecx), goal.alias.args), "examples::calls::goals::normalized: `goal.alias.args` is {:?}, no number of its sort in this context", goal.alias.args);
    debug_assert!(ir_trees::checks::is_sorted(ir_context::decl::make::Make::cx(&*ecx), goal.term), "examples::calls::goals::normalized: `goal.term` is {:?}, no number of its sort in this context", goal.term);
    if !goal.may_be_asked(ecx.cx(), env) {
        return Ok(None);
    }
    let response = compute_normalizes_to(alloc, ecx, via, env, goal)?;
    Ok(Some(response))
}

/// The response to the goal by the candidates that win. `None` where the goal doesn't stand at what the evaluator knows.
pub fn responded(
    alloc: Global,
    rounds: &mut Rounds,
    env: ParamEnv,
    predicate: TraitPredicate,
) -> Result<Option<CanonicalResponse>, NoSolutionOrStop>
{
    debug_assert!(ir_trees::checks::is_sorted(ir_context::decl::make::Make::cx(&*rounds), env), "examples::calls::goals::responded: `env` is {:?}, no number of its sort in this context", env);
    debug_assert!(ir_trees::checks::is_sorted(ir_context::decl::make::Make::cx(&*rounds), predicate.trait_ref.args), "examples::calls::goals::responded: `predicate.trait_ref.args` is {:?}, no number of its sort in this context", predicate.trait_ref.args);
    if !rounds.stands_here(alloc, env, predicate) {
        return Ok(None);
    }
    let (response, _) = preferred_response(alloc, rounds, env, predicate)?;
    Ok(Some(response))
}

/// The response with all that the evaluator knows. It says that it is sure.
pub fn response_so_far(alloc: Global, rounds: &mut Rounds) -> Result<CanonicalResponse, Stop>
{
    rounds.make_canonical_response(alloc, Certainty::Yes)
}

/// Whether the table has a derivation of the goal, and the check accepts it. A goal that doesn't stand at what the evaluator knows has none.
pub fn is_accepted(
    alloc: Global,
    rounds: &mut Rounds,
    env: ParamEnv,
    predicate: TraitPredicate,
) -> Result<bool, Stop>
{
    debug_assert!(ir_trees::checks::is_sorted(ir_context::decl::make::Make::cx(&*rounds), env), "examples::calls::goals::is_accepted: `env` is {:?}, no number of its sort in this context", env);
    debug_assert!(ir_trees::checks::is_sorted(ir_context::decl::make::Make::cx(&*rounds), predicate.trait_ref.args), "examples::calls::goals::is_accepted: `predicate.trait_ref.args` is {:?}, no number of its sort in this context", predicate.trait_ref.args);
    if !rounds.stands_here(alloc, env, predicate) {
        return Ok(false);
    }
    match rounds.derivation(alloc, env, predicate)? {
        Some(tree) => rounds.check_derivation(alloc, &tree),
        None => Ok(false),
    }
}
