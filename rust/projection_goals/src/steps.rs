// Made of `crates/projection_goals/src/steps.rt` by `bench/plain.py`: an edit of this file is lost.

//! What the rules of these goals have in common.


use kit::{eprintln, format, prelude::*, print, println, vec};
use candidate_eval::eval::context::EvalCtxt;
use candidate_eval::eval::refusal::NoSolutionOrStop;
use ir_trees::ir::kinds::{Args, GenericArg, ParamEnv, Ty};

/// Two lists are made equal, and then two types. The goals that this leaves become pending.
pub(crate) fn equate_both<E: EvalCtxt>(
    ecx: &mut E,
    env: ParamEnv,
    args: Args,
    other_args: Args,
    term: Ty,
    other_term: Ty,
) -> Result<(), NoSolutionOrStop>
{
    ecx.eq_args(env, args, other_args)?;
    ecx.eq(env, GenericArg::Ty(term), GenericArg::Ty(other_term))
}
