// Made of `crates/projection_goals/src/proving.rt` by `bench/plain.py`: an edit of this file is lost.

//! Goals that a projection is a term, proved.


use kit::{eprintln, format, prelude::*, print, println, vec};
use crate::kind::NormalizesTo;
use candidate_assembly::assembly::merging::{TraitGoalProvenVia, assemble_and_merge_candidates};
use candidate_eval::eval::certainty::Certainty;
use candidate_eval::eval::context::{EvalCtxt, ProbeKind};
use candidate_eval::eval::refusal::NoSolutionOrStop;
use candidate_eval::eval::response::CanonicalResponse;
use ir_context::decl::make::Make;
use ir_trees::ir::kinds::{GenericArg, ParamEnv, Ty, TyKind};
use ir_trees::ir::stop::Stop;
use kit::alloc::Global;

/// The response where two types are made equal. It is called in a probe.
fn respond_equal<E: EvalCtxt>(
    ecx: &mut E,
    env: ParamEnv,
    term: Ty,
    other: Ty,
) -> Result<CanonicalResponse, NoSolutionOrStop>
{
    ecx.eq(env, GenericArg::Ty(term), GenericArg::Ty(other))?;
    ecx.evaluate_added_goals_and_make_canonical_response(Certainty::Yes)
}

/// The response where two types are made equal, in a probe.
fn probe_equal<E: EvalCtxt>(
    ecx: &mut E,
    env: ParamEnv,
    term: Ty,
    other: Ty,
) -> Result<CanonicalResponse, NoSolutionOrStop>
{
    let probe = ecx.begin_probe(ProbeKind::Kept)?;
    let answer = respond_equal(ecx, env, term, other);
    let _usages = ecx.end_probe(probe);
    answer
}

/// The projection as a type.
fn alias_type<E: EvalCtxt>(ecx: &mut E, env: ParamEnv, goal: NormalizesTo) -> Result<Ty, Stop>
{
    let _ = env;
    ecx.mk_ty(TyKind::Alias(goal.alias))
}

/// The response where the projection is rigid: in a probe the term is made equal to the projection itself.
///
/// `NoSolution` comes where the evaluator refuses the equation or what it leaves; the stops are those of making a type and of the
/// evaluator. The state is left alike the one before.
fn respond_rigid<E: EvalCtxt>(
    ecx: &mut E,
    env: ParamEnv,
    goal: NormalizesTo,
) -> Result<CanonicalResponse, NoSolutionOrStop>
{
    let alias = alias_type(ecx, env, goal)?;
    probe_equal(ecx, env, goal.term, alias)
}

/// The answer to a goal that a projection is a term, by how the goal of its trait was proved.
///
/// Where that isn't known the goal is ambiguous. Where it was proved by clauses of the environment or by bounds, it is what the candidates
/// by these come to, and where there are none the projection is rigid; else what all candidates come to, those by impls among them. The
/// stops are those of `assemble_and_merge_candidates`.
pub fn compute_normalizes_to<E: EvalCtxt>(
    alloc: Global,
    ecx: &mut E,
    proven_via: Option<TraitGoalProvenVia>,
    env: ParamEnv,
    goal: NormalizesTo,
) -> Result<CanonicalResponse, NoSolutionOrStop>
{
    assemble_and_merge_candidates(
        alloc,
        ecx,
        proven_via,
        env,
        goal,
        |_: &mut E| -> Option<Result<CanonicalResponse, NoSolutionOrStop>> { None },
        |ecx: &mut E| respond_rigid(ecx, env, goal),
    )
}
