// Made of `crates/candidate_eval/src/objects/object.rt` by `bench/plain.py`: an edit of this file is lost.

//! What an object's own bounds say of its associated types.


use kit::{eprintln, format, prelude::*, print, println, vec};
use crate::eval::binders::instantiate_clause_with_infer;
use crate::eval::context::{EvalCtxt, ProbeKind};
use crate::eval::refusal::NoSolutionOrStop;
use ir_context::decl::Cx;
use ir_trees::ir::kinds::{
    AliasTerm, AssocId, Clause, ClauseKind, ParamEnv, ProjectionPredicate, Ty,
};
use ir_trees::ir::stop::Stop;
use ir_trees::ir::trees::Trees;
use kit::alloc::Global;

/// Too little is known to say what a projection is; or a call gave up.
#[derive(Clone, Copy, Debug, PartialEq, Eq)]
pub enum AmbiguousOrStop {
    Ambiguous,
    Stop(Stop),
}

impl From<Stop> for AmbiguousOrStop {

    fn from(stop: Stop) -> Self {
        AmbiguousOrStop::Stop(stop)
    }
}

/// What a bound says, if it is about that associated type.
pub(crate) fn bound_about(cx: &Cx, bound: Clause, item: AssocId) -> Option<ProjectionPredicate>
{
    match cx.clause(bound).value {
        ClauseKind::Projection(predicate) => {
            if predicate.projection_term.def_id.0 == item.0 {
                Some(predicate)
            } else {
                None
            }
        }
        _ => None,
    }
}

/// Equates the arguments of an instance of the bound with those of the projection of the same associated type, and gives the
/// instance's term. The goals that this leaves become pending.
fn equate_bound<E: EvalCtxt>(
    alloc: Global,
    ecx: &mut E,
    env: ParamEnv,
    bound: Clause,
    projection: AliasTerm,
) -> Result<Ty, NoSolutionOrStop>
{
    let instance = instantiate_clause_with_infer(alloc, ecx, bound)?;
    match bound_about(ecx.cx(), instance, projection.def_id) {
        Some(predicate) => {
            ecx.eq_args(env, predicate.projection_term.args, projection.args)?;
            Ok(predicate.term)
        }
        None => unreachable!(),
    }
}

/// Makes the two equal as `equate_bound` does, and evaluates all that is pending then.
fn equate_and_evaluate<E: EvalCtxt>(
    alloc: Global,
    ecx: &mut E,
    env: ParamEnv,
    bound: Clause,
    projection: AliasTerm,
) -> Result<(), NoSolutionOrStop>
{
    let _term = equate_bound(alloc, ecx, env, bound, projection)?;
    let _certainty = ecx.try_evaluate_added_goals()?;
    Ok(())
}

/// Whether the bound matches the projection, by a probe with nothing pending: it is about the same associated type, its
/// arguments, with fresh variables in the place of its binder's, can be equated with the projection's, and the goals that this
/// leaves aren't refused.
///
/// `Stop::Memory` comes where a growth was refused; other stops are the evaluator's, and those of `open_clause`.
pub fn bound_matches<E: EvalCtxt>(
    alloc: Global,
    ecx: &mut E,
    env: ParamEnv,
    bound: Clause,
    projection: AliasTerm,
) -> Result<bool, Stop>
{
    debug_assert!(ir_trees::checks::is_sorted(ir_context::decl::make::Make::cx(&*ecx), env), "candidate_eval::objects::object::bound_matches: `env` is {:?}, no number of its sort in this context", env);
    debug_assert!(ir_trees::checks::is_sorted(ir_context::decl::make::Make::cx(&*ecx), bound), "candidate_eval::objects::object::bound_matches: `bound` is {:?}, no number of its sort in this context", bound);
    debug_assert!(ir_trees::checks::is_sorted(ir_context::decl::make::Make::cx(&*ecx), projection.args), "candidate_eval::objects::object::bound_matches: `projection.args` is {:?}, no number of its sort in this context", projection.args);
    if bound_about(ecx.cx(), bound, projection.def_id).is_none() {
        return Ok(false);
    }
    let probe = ecx.begin_probe(ProbeKind::SetAside)?;
    let answer = equate_and_evaluate(alloc, ecx, env, bound, projection);
    let _usages = ecx.end_probe(probe);
    match answer {
        Ok(()) => Ok(true),
        Err(NoSolutionOrStop::NoSolution) => Ok(false),
        Err(NoSolutionOrStop::Stop(stop)) => Err(stop),
    }
}

/// Those of the bounds that match the projection, in their order. Each is tried in a probe of its own.
///
/// It stops as `bound_matches` does, and `Stop::Memory` comes where the list can't grow, too.
pub fn matching_bounds<E: EvalCtxt>(
    alloc: Global,
    ecx: &mut E,
    env: ParamEnv,
    bounds: &[Clause],
    projection: AliasTerm,
) -> Result<Vec<Clause>, Stop>
{
    debug_assert!(ir_trees::checks::is_sorted(ir_context::decl::make::Make::cx(&*ecx), env), "candidate_eval::objects::object::matching_bounds: `env` is {:?}, no number of its sort in this context", env);
    debug_assert!(ir_trees::checks::is_sorted(ir_context::decl::make::Make::cx(&*ecx), projection.args), "candidate_eval::objects::object::matching_bounds: `projection.args` is {:?}, no number of its sort in this context", projection.args);
    let mut found = Vec::new(alloc);
    for bound in bounds {
        if bound_matches(alloc, ecx, env, *bound, projection)? {
            found.push(*bound)?;
        }
    }
    Ok(found)
}

/// Whether the arguments of an instance of the bound can be equated with those of the projection, by a probe with what is pending: so
/// that a refusal leaves nothing behind. It stops as `bound_matches` does.
fn can_be_equated<E: EvalCtxt>(
    alloc: Global,
    ecx: &mut E,
    env: ParamEnv,
    bound: Clause,
    projection: AliasTerm,
) -> Result<bool, Stop>
{
    let probe = ecx.begin_probe(ProbeKind::Kept)?;
    let answer = equate_bound(alloc, ecx, env, bound, projection);
    let _usages = ecx.end_probe(probe);
    match answer {
        Ok(_term) => Ok(true),
        Err(NoSolutionOrStop::NoSolution) => Ok(false),
        Err(NoSolutionOrStop::Stop(stop)) => Err(stop),
    }
}

/// The term of the only bound that matches the projection: an instance of it is equated with the projection, and the goals that
/// this leaves become pending.
///
/// `Ambiguous` comes where none of the bounds matches, where two or more do, and where the equation of the only one is refused,
/// which a probe says before; the state is alike the one before then, unless an evaluator refuses what it accepted in that probe. It
/// stops as `matching_bounds` does: for want of memory, where the evaluator does, or where an instance of a bound isn't made. After a
/// stop variables that were made stay.
pub fn pick_bound<E: EvalCtxt>(
    alloc: Global,
    ecx: &mut E,
    env: ParamEnv,
    bounds: &[Clause],
    projection: AliasTerm,
) -> Result<Ty, AmbiguousOrStop>

    // Where closed probes leave the very state before, all bounds are tried at one state.
{
    debug_assert!(ir_trees::checks::is_sorted(ir_context::decl::make::Make::cx(&*ecx), env), "candidate_eval::objects::object::pick_bound: `env` is {:?}, no number of its sort in this context", env);
    debug_assert!(ir_trees::checks::is_sorted(ir_context::decl::make::Make::cx(&*ecx), projection.args), "candidate_eval::objects::object::pick_bound: `projection.args` is {:?}, no number of its sort in this context", projection.args);
    let found = matching_bounds(alloc, ecx, env, bounds, projection)?;
    if found.len() != 1 {
        return Err(AmbiguousOrStop::Ambiguous);
    }
    let only = found[0];
    if !can_be_equated(alloc, ecx, env, only, projection)? {
        return Err(AmbiguousOrStop::Ambiguous);
    }
    match equate_bound(alloc, ecx, env, only, projection) {
        Ok(term) => Ok(term),
        Err(NoSolutionOrStop::NoSolution) => Err(AmbiguousOrStop::Ambiguous),
        Err(NoSolutionOrStop::Stop(stop)) => Err(AmbiguousOrStop::Stop(stop)),
    }
}
