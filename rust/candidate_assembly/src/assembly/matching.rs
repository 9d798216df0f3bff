// Made of `crates/candidate_assembly/src/assembly/matching.rt` by `bench/plain.py`: an edit of this file is lost.

//! What follows where a clause is matched.


use kit::{eprintln, format, prelude::*, print, println, vec};
use crate::assembly::characterize::characterize_param_env_assumption;
use crate::assembly::kind::GoalKind;
use crate::assembly::steps::{respond_as, with_source};
use candidate_eval::eval::certainty::Certainty;
use candidate_eval::eval::context::{EvalCtxt, ProbeKind};
use candidate_eval::eval::refusal::NoSolutionOrStop;
use candidate_eval::eval::response::{Candidate, CandidateHeadUsages, CanonicalResponse};
use candidate_eval::eval::source::{BuiltinImplSource, CandidateSource};
use ir_trees::ir::kinds::{Clause, Goal, GoalSource, ParamEnv};
use ir_trees::ir::stop::Stop;
use kit::alloc::Global;

/// What is pending is evaluated, the clause characterised, and the candidate asked for, of the source and with at most the certainty that
/// this finds.
///
/// `NoSolution` comes where the evaluator refuses what is pending, a normal form or a response. It stops as these and
/// `characterize_param_env_assumption` do.
pub(crate) fn settle_and_characterize<E: EvalCtxt>(
    alloc: Global,
    ecx: &mut E,
    env: ParamEnv,
    clause: Clause,
) -> Result<Candidate, NoSolutionOrStop>
{
    ecx.try_evaluate_added_goals()?;
    let (source, certainty) = characterize_param_env_assumption(alloc, ecx, env, clause)?;
    respond_as(alloc, ecx, CandidateSource::ParamEnv(source), certainty)
}

/// Requirements become pending goals in the environment, each of its own source, in their order. The stops are the evaluator's.
fn add_requirements<E: EvalCtxt>(
    ecx: &mut E,
    env: ParamEnv,
    requirements: &[(GoalSource, Clause)],
) -> Result<(), Stop>
{
    for requirement in requirements {
        let goal = Goal {
            param_env: env,
            predicate: requirement.1,
        };
        ecx.add_goal(requirement.0, goal)?;
    }
    Ok(())
}

/// Requirements become pending goals, and then a response is asked for.
pub(crate) fn require_and_respond<E: EvalCtxt>(
    ecx: &mut E,
    env: ParamEnv,
    requirements: &[(GoalSource, Clause)],
) -> Result<CanonicalResponse, NoSolutionOrStop>
{
    add_requirements(ecx, env, requirements)?;
    ecx.evaluate_added_goals_and_make_canonical_response(Certainty::Yes)
}

/// The candidate of a rule of the language that matches nothing: in a probe the requirements become pending goals in the environment, and a
/// response is asked for.
///
/// `NoSolution` comes where the evaluator refuses the response; the stops are the evaluator's. The state is left alike the one before.
pub(crate) fn consider_requirements<E: EvalCtxt>(
    ecx: &mut E,
    env: ParamEnv,
    requirements: &[(GoalSource, Clause)],
) -> Result<Candidate, NoSolutionOrStop>
{
    let probe = ecx.begin_probe(ProbeKind::Kept)?;
    let answer = require_and_respond(ecx, env, requirements);
    let usages = ecx.end_probe(probe);
    let source = CandidateSource::BuiltinImpl(BuiltinImplSource::Misc);
    with_source(source, answer, usages)
}

/// The candidate of a source by a clause that implies the goal where some requirements hold: in a probe the clause is matched, the
/// requirements become pending goals in the environment, and a response is asked for.
///
/// `NoSolution` comes where the clause doesn't pass quick rejection or isn't matched, and where the evaluator refuses the response; the
/// stops are those of the match and of the evaluator. The state is left alike the one before.
pub fn probe_and_consider_implied_clause<E: EvalCtxt, G: GoalKind<E>>(
    alloc: Global,
    ecx: &mut E,
    source: CandidateSource,
    env: ParamEnv,
    predicate: G,
    clause: Clause,
    requirements: &[(GoalSource, Clause)],
) -> Result<Candidate, NoSolutionOrStop>
{
    debug_assert!(ir_trees::checks::is_sorted(ir_context::decl::make::Make::cx(&*ecx), clause), "candidate_assembly::assembly::matching::probe_and_consider_implied_clause: `clause` is {:?}, no number of its sort in this context", clause);
    G::probe_and_match_goal_against_assumption(
        alloc,
        ecx,
        source,
        env,
        predicate,
        clause,
        |ecx: &mut E| require_and_respond(ecx, env, requirements),
    )
}

/// Matches a clause of the environment, evaluates what is pending, and characterises the clause. It is called in a probe.
pub(crate) fn match_and_characterize<E: EvalCtxt, G: GoalKind<E>>(
    alloc: Global,
    ecx: &mut E,
    env: ParamEnv,
    predicate: G,
    clause: Clause,
) -> Result<Candidate, NoSolutionOrStop>
{
    G::match_assumption(
        alloc,
        ecx,
        env,
        predicate,
        clause,
        |ecx: &mut E| settle_and_characterize(alloc, ecx, env, clause),
    )
}

/// A candidate gets what was used for it; a refusal is handed out with what was used until then, other errors as the stops that they are.
pub(crate) fn with_usages(
    answer: Result<Candidate, NoSolutionOrStop>,
    usages: CandidateHeadUsages,
) -> Result<Result<Candidate, CandidateHeadUsages>, Stop>
{
    match answer {
        Ok(candidate) => Ok(Ok(Candidate {
            source: candidate.source,
            result: candidate.result,
            head_usages: usages,
        })),
        Err(NoSolutionOrStop::NoSolution) => Ok(Err(usages)),
        Err(NoSolutionOrStop::Stop(stop)) => Err(stop),
    }
}
