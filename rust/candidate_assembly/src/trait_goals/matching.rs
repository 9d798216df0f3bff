// Made of `crates/candidate_assembly/src/trait_goals/matching.rt` by `bench/plain.py`: an edit of this file is lost.

//! Clauses that goals of traits are matched with.


use kit::{eprintln, format, prelude::*, print, println, vec};
use crate::assembly::kind::NoSolution;
use crate::assembly::language::is_item;
use candidate_eval::eval::binders::instantiate_clause_with_infer;
use candidate_eval::eval::clauses::predicate_in;
use candidate_eval::eval::context::EvalCtxt;
use candidate_eval::eval::refusal::NoSolutionOrStop;
use ir_context::decl::Cx;
use ir_trees::decl::contents::LangItem;
use ir_trees::ir::kinds::{Clause, ParamEnv, PredicatePolarity, TraitId, TraitPredicate};
use ir_trees::ir::trees::Trees;
use ir_trees::ir::unify::RightSide;
use kit::alloc::Global;

/// Whether what a clause says of a trait may serve the goal: it says it of the goal's trait, with the goal's polarity. That a type is
/// `Sized` also serves a goal that it is `MetaSized`.
fn fits(cx: &Cx, goal: TraitPredicate, said: TraitPredicate) -> bool
{
    let trait_id = goal.trait_ref.def_id;
    match (said.polarity, goal.polarity) {
        (PredicatePolarity::Positive, PredicatePolarity::Positive) => {
            said.trait_ref.def_id == trait_id
                || is_item(cx, LangItem::Sized, said.trait_ref.def_id)
                    && is_item(cx, LangItem::MetaSized, trait_id)
        }
        (PredicatePolarity::Negative, PredicatePolarity::Negative) => {
            said.trait_ref.def_id == trait_id
        }
        _ => false,
    }
}

/// Whether a clause passes quick rejection: it may serve the goal, and its arguments may be made equal to the goal's.
pub(crate) fn fast_reject(
    cx: &Cx,
    predicate: TraitPredicate,
    clause: Clause,
) -> Result<(), NoSolution>
{
    match predicate_in(cx, clause) {
        Some(said)
            if fits(cx, predicate, said)
                && cx.args_may_unify(
                    predicate.trait_ref.args,
                    said.trait_ref.args,
                    RightSide::Plain,
                ) => { Ok(()) }
        _ => Err(NoSolution),
    }
}

/// Makes a goal's arguments equal to those of a clause, with fresh variables in the place of the clause's own.
///
/// `NoSolutionOrStop::NoSolution` comes where the evaluator refuses the equation. It stops as `instantiate_clause_with_infer` and the
/// evaluator's equation do. It is called in a probe: after a stop the variables that were made stay.
pub(crate) fn equate_clause<E: EvalCtxt>(
    alloc: Global,
    ecx: &mut E,
    env: ParamEnv,
    predicate: TraitPredicate,
    clause: Clause,
) -> Result<(), NoSolutionOrStop>
{
    let instance = instantiate_clause_with_infer(alloc, ecx, clause)?;
    match predicate_in(ecx.cx(), instance) {
        Some(said) => ecx.eq_args(env, predicate.trait_ref.args, said.trait_ref.args),
        None => unreachable!(),
    }
}

/// Matches a clause that passes quick rejection, and answers what the closure answers then.
pub(crate) fn match_clause<E: EvalCtxt, R, F: FnOnce(&mut E) -> Result<R, NoSolutionOrStop>>(
    alloc: Global,
    ecx: &mut E,
    env: ParamEnv,
    predicate: TraitPredicate,
    clause: Clause,
    then: F,
) -> Result<R, NoSolutionOrStop>
{
    equate_clause(alloc, ecx, env, predicate, clause)?;
    then(ecx)
}
