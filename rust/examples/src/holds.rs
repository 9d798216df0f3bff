// Made of `crates/examples/src/holds.rt` by `bench/plain.py`: an edit of this file is lost.

//! Whether a goal holds, so that it has a derivation.


use kit::{eprintln, format, prelude::*, print, println, vec};
use candidate_ir::ir::kinds::{ParamEnv, TraitPredicate};
use candidate_ir::ir::stop::Stop;
use candidate_rounds::rounds::Rounds;
use candidate_rounds::rounds::goals::Verdict;
use kit::alloc::Global;

/// Whether the goal of a predicate holds in so many rounds.
///
/// After a yes it has a derivation from what is declared, with the values that a response gives. Outlives goals are assumed there, and so is an
/// object's own clause where what an object of it has to fulfil holds a projection of its own under a binder.
///
/// A no says nothing: the goal may hold, or with more rounds; it may not be asked here; or a region that is an error stands in a goal that was
/// asked, or in a listed type. A stop is no answer.
pub fn holds(
    alloc: Global,
    rounds: &mut Rounds,
    env: ParamEnv,
    predicate: TraitPredicate,
    count: u16,
) -> Result<bool, Stop>
{
    debug_assert!(ir_trees::checks::is_sorted(ir_context::decl::make::Make::cx(&*rounds), env), "examples::holds::holds: `env` is {:?}, no number of its sort in this context", env);
    debug_assert!(ir_trees::checks::is_sorted(ir_context::decl::make::Make::cx(&*rounds), predicate.trait_ref.args), "examples::holds::holds: `predicate.trait_ref.args` is {:?}, no number of its sort in this context", predicate.trait_ref.args);
    if !rounds.stands_here(alloc, env, predicate) {
        return Ok(false);
    }
    if !rounds.may_be_run(alloc, env, predicate)? {
        return Ok(false);
    }
    match rounds.run(alloc, env, predicate, count)? {
        Verdict::Yes(_, _) => Ok(!rounds.has_error_regions(alloc)),
        Verdict::Maybe(_, _) | Verdict::Refused => Ok(false),
    }
}
