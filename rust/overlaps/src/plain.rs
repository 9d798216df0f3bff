// Made of `crates/overlaps/src/plain.rt` by `bench/plain.py`: an edit of this file is lost.

//! What an overlap rests on: equations of headers, and goals that leave nothing open.


use kit::{eprintln, format, prelude::*, print, println, vec};
use candidate_assembly::trait_goals::compute::compute_trait_goal;
use candidate_eval::eval::context::EvalCtxt;
use candidate_eval::eval::refusal::NoSolutionOrStop;
use ir_context::decl::make::Make;
use ir_trees::ir::heads::Flag;
use ir_trees::ir::kinds::{Args, ParamEnv, TraitPredicate};
use ir_trees::ir::stop::Stop;
use ir_trees::ir::trees::Trees;
use kit::alloc::Global;

/// Whether two rows of arguments can be made equal; they are then.
pub(crate) fn make_equal<E: EvalCtxt>(
    ecx: &mut E,
    env: ParamEnv,
    first: Args,
    second: Args,
) -> Result<bool, Stop>
{
    match ecx.eq_args(env, first, second) {
        Ok(()) => Ok(true),
        Err(NoSolutionOrStop::NoSolution) => Ok(false),
        Err(NoSolutionOrStop::Stop(stop)) => Err(stop),
    }
}

/// Whether all values are put into the list.
pub(crate) fn is_resolved<E: EvalCtxt>(ecx: &mut E, args: Args) -> Result<bool, Stop>
{
    let all = ecx.resolve_args_if_possible(args)?;
    ecx.cx().recall_distinct();
    Ok(all == args)
}

/// Whether goals are asked for in coherence.
pub(crate) fn is_in_coherence<E: EvalCtxt>(ecx: &E) -> bool
{
    ecx.typing_mode().is_coherence()
}

/// Whether the list is asked of in coherence, and no alias stands in it.
pub(crate) fn is_without_aliases<E: EvalCtxt>(ecx: &E, args: Args) -> bool
{
    if !ecx.typing_mode().is_coherence() {
        return false;
    }
    !ecx.cx().has(args, Flag::Alias)
}

/// Whether a goal that leaves nothing open is refused.
pub(crate) fn is_refused<E: EvalCtxt>(
    alloc: Global,
    ecx: &mut E,
    env: ParamEnv,
    predicate: TraitPredicate,
) -> Result<bool, Stop>
{
    match compute_trait_goal(alloc, ecx, env, predicate) {
        Ok(_) => Ok(false),
        Err(NoSolutionOrStop::NoSolution) => Ok(true),
        Err(NoSolutionOrStop::Stop(stop)) => Err(stop),
    }
}
