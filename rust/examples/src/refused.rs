// Made of `crates/examples/src/refused.rt` by `bench/plain.py`: an edit of this file is lost.

//! Whether a goal is refused in coherence.


use kit::{eprintln, format, prelude::*, print, println, vec};
use candidate_assembly::trait_goals::compute::compute_trait_goal;
use candidate_eval::eval::context::EvalCtxt;
use candidate_eval::eval::refusal::NoSolutionOrStop;
use candidate_ir::decl::make::Build;
use candidate_ir::ir::kinds::{ParamEnv, TraitPredicate};
use candidate_ir::ir::stop::Stop;
use candidate_rounds::rounds::Rounds;
use overlaps::clauses::may_decide;
use kit::alloc::Global;

/// Whether a goal that leaves nothing open is refused.
fn is_refused<E: EvalCtxt>(
    alloc: Global,
    ecx: &mut E,
    env: ParamEnv,
    predicate: TraitPredicate,
) -> Result<bool, Stop>
{
    match compute_trait_goal(alloc, ecx, env, predicate) {
        Ok(_) => Ok(false),
        Err(NoSolutionOrStop::NoSolution) => Ok(true),
        Err(NoSolutionOrStop::Stop(stop)) => Err(stop),
    }
}

/// Whether the goal of a predicate is refused in coherence in so many rounds, under no environment.
///
/// After a yes each declared impl that overlaps the goal was refused, but for `default` impls and those with an alias in their header, of which
/// nothing is said. And so was what it implies, or else no header without aliases overlaps it that a crate may write which it doesn't name. An
/// alias is equal to itself alone, unless it is listed or the evaluator opens aliases: a goal may be refused that holds by the alias's type.
///
/// A no says nothing: the goal may hold, or with more rounds be refused; it may not be asked here; or it leaves something open, as where goals
/// aren't asked for in coherence, an alias stands in it, or one of its variables has a value. A stop is no answer. Of an evaluator that
/// `Rounds::new` makes nothing is pending.
pub fn is_refused_by_all(
    alloc: Global,
    rounds: &mut Rounds,
    predicate: TraitPredicate,
    count: u16,
) -> Result<bool, Stop>
{
    debug_assert!(ir_trees::checks::is_sorted(ir_context::decl::make::Make::cx(&*rounds), predicate.trait_ref.args), "examples::refused::is_refused_by_all: `predicate.trait_ref.args` is {:?}, no number of its sort in this context", predicate.trait_ref.args);
    let env = rounds.mk_param_env(&[])?;
    if !may_decide(alloc, rounds, env, predicate)? {
        return Ok(false);
    }
    if !rounds.may_be_run(alloc, env, predicate)? {
        return Ok(false);
    }
    rounds.run(alloc, env, predicate, count)?;
    is_refused(alloc, rounds, env, predicate)
}
