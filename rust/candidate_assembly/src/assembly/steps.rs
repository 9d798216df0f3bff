// Made of `crates/candidate_assembly/src/assembly/steps.rt` by `bench/plain.py`: an edit of this file is lost.

//! Steps of rules, by the calls of an evaluator.


use kit::{eprintln, format, prelude::*, print, println, vec};
use candidate_eval::eval::certainty::{Certainty, MaybeInfo};
use candidate_eval::eval::clauses::goals;
use candidate_eval::eval::context::{EvalCtxt, ProbeKind};
use candidate_eval::eval::refusal::NoSolutionOrStop;
use candidate_eval::eval::response::{Candidate, CandidateHeadUsages, CanonicalResponse};
use candidate_eval::eval::source::{BuiltinImplSource, CandidateSource};
use ir_trees::ir::kinds::{Clause, GoalSource, ParamEnv};
use kit::alloc::Global;

/// The candidate of a source, by its response and by what was used for it; an error stays as it is.
pub fn with_source(
    source: CandidateSource,
    answer: Result<CanonicalResponse, NoSolutionOrStop>,
    head_usages: CandidateHeadUsages,
) -> Result<Candidate, NoSolutionOrStop>
{
    let result = answer?;
    Ok(Candidate {
        source,
        result,
        head_usages,
    })
}

/// The candidate of an answer gets what was used for it; an error stays as it is.
pub fn with_head_usages(
    answer: Result<Candidate, NoSolutionOrStop>,
    head_usages: CandidateHeadUsages,
) -> Result<Candidate, NoSolutionOrStop>
{
    let candidate = answer?;
    Ok(Candidate {
        source: candidate.source,
        result: candidate.result,
        head_usages,
    })
}

/// The candidate of a source, with at most that certainty: the evaluator is asked, where what is pending is evaluated first. It is called in a
/// probe. `NoSolution` comes where the evaluator refuses; the stops are the evaluator's.
pub fn respond_as<E: EvalCtxt>(
    alloc: Global,
    ecx: &mut E,
    source: CandidateSource,
    certainty: Certainty,
) -> Result<Candidate, NoSolutionOrStop>
{
    let result = ecx.evaluate_added_goals_and_make_canonical_response(certainty)?;
    Ok(Candidate {
        source,
        result,
        head_usages: CandidateHeadUsages::new(alloc),
    })
}

/// Clauses become pending goals in the environment, and then the candidate is asked for.
pub(crate) fn nest_and_respond<E: EvalCtxt>(
    alloc: Global,
    ecx: &mut E,
    env: ParamEnv,
    nested_source: GoalSource,
    nested: &[Clause],
    source: CandidateSource,
    certainty: Certainty,
) -> Result<Candidate, NoSolutionOrStop>
{
    let nested = goals(alloc, env, nested)?;
    ecx.add_goals(nested_source, nested.as_slice())?;
    respond_as(alloc, ecx, source, certainty)
}

/// The candidate of a rule that asks for nothing but nested clauses, where the rule applies.
///
/// The state is left alike the one before, whatever is answered. `NoSolution` comes where the rule doesn't apply, or where the evaluator
/// refuses; the stops are those of growing a list and of the evaluator.
pub fn consider_with_nested<E: EvalCtxt>(
    alloc: Global,
    ecx: &mut E,
    env: ParamEnv,
    applies: bool,
    nested_source: GoalSource,
    nested: &[Clause],
    source: CandidateSource,
    certainty: Certainty,
) -> Result<Candidate, NoSolutionOrStop>
{
    debug_assert!(ir_trees::checks::is_sorted(ir_context::decl::make::Make::cx(&*ecx), env), "candidate_assembly::assembly::steps::consider_with_nested: `env` is {:?}, no number of its sort in this context", env);
    if !applies {
        return Err(NoSolutionOrStop::NoSolution);
    }
    let probe = ecx.begin_probe(ProbeKind::Kept)?;
    let answer = nest_and_respond(alloc, ecx, env, nested_source, nested, source, certainty);
    let usages = ecx.end_probe(probe);
    with_head_usages(answer, usages)
}

/// The candidate of a rule that asks at once, where it applies; its source is a rule of the language. As `consider_with_nested`.
pub fn consider_unconditional<E: EvalCtxt>(
    alloc: Global,
    ecx: &mut E,
    env: ParamEnv,
    applies: bool,
    certainty: Certainty,
) -> Result<Candidate, NoSolutionOrStop>
{
    debug_assert!(ir_trees::checks::is_sorted(ir_context::decl::make::Make::cx(&*ecx), env), "candidate_assembly::assembly::steps::consider_unconditional: `env` is {:?}, no number of its sort in this context", env);
    let source = CandidateSource::BuiltinImpl(BuiltinImplSource::Misc);
    let nested = GoalSource::Misc;
    consider_with_nested(alloc, ecx, env, applies, nested, &[], source, certainty)
}

/// The candidate where a goal says too little: with this certainty, and as `consider_unconditional`.
pub fn forced_ambiguity<E: EvalCtxt>(
    alloc: Global,
    ecx: &mut E,
    env: ParamEnv,
    maybe: MaybeInfo,
) -> Result<Candidate, NoSolutionOrStop>
{
    debug_assert!(ir_trees::checks::is_sorted(ir_context::decl::make::Make::cx(&*ecx), env), "candidate_assembly::assembly::steps::forced_ambiguity: `env` is {:?}, no number of its sort in this context", env);
    consider_unconditional(alloc, ecx, env, true, Certainty::Maybe(maybe))
}
