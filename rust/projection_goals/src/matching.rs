// Made of `crates/projection_goals/src/matching.rt` by `bench/plain.py`: an edit of this file is lost.

//! Clauses that goals of projections are matched with.


use kit::{eprintln, format, prelude::*, print, println, vec};
use crate::kind::NormalizesTo;
use crate::steps::equate_both;
use candidate_assembly::assembly::kind::NoSolution;
use candidate_eval::eval::binders::instantiate_clause_with_infer;
use candidate_eval::eval::context::EvalCtxt;
use candidate_eval::eval::refusal::NoSolutionOrStop;
use ir_context::decl::Cx;
use ir_trees::ir::kinds::{AliasId, Clause, ClauseKind, ParamEnv, ProjectionPredicate};
use ir_trees::ir::trees::Trees;
use ir_trees::ir::unify::RightSide;
use kit::alloc::Global;

/// What a clause says of the associated type, if it is about that one.
fn said_of(cx: &Cx, clause: Clause, item: AliasId) -> Option<ProjectionPredicate>
{
    match cx.clause(clause).value {
        ClauseKind::Projection(predicate) => {
            if predicate.projection_term.def_id.0 == item.0 {
                Some(predicate)
            } else {
                None
            }
        }
        _ => None,
    }
}

/// Whether a clause passes quick rejection: it is about the goal's associated type, and its arguments may be made equal to the goal's.
pub(crate) fn fast_reject(
    cx: &Cx,
    predicate: NormalizesTo,
    clause: Clause,
) -> Result<(), NoSolution>
{
    match said_of(cx, clause, predicate.alias.id) {
        Some(said)
            if cx.args_may_unify(
                predicate.alias.args,
                said.projection_term.args,
                RightSide::Plain,
            ) => { Ok(()) }
        _ => Err(NoSolution),
    }
}

/// Makes a goal's arguments equal to those of a clause, and then the terms, with fresh variables in the place of the clause's own.
///
/// `NoSolutionOrStop::NoSolution` comes where the evaluator refuses one of the equations. It stops as `instantiate_clause_with_infer` and
/// the evaluator's equations do. It is called in a probe: after a stop the variables that were made stay.
fn equate_clause<E: EvalCtxt>(
    alloc: Global,
    ecx: &mut E,
    env: ParamEnv,
    predicate: NormalizesTo,
    clause: Clause,
) -> Result<(), NoSolutionOrStop>
{
    let instance = instantiate_clause_with_infer(alloc, ecx, clause)?;
    match said_of(ecx.cx(), instance, predicate.alias.id) {
        Some(said) => {
            let args = said.projection_term.args;
            equate_both(
                ecx,
                env,
                predicate.alias.args,
                args,
                predicate.term,
                said.term,
            )
        }
        None => unreachable!(),
    }
}

/// Matches a clause that passes quick rejection, and answers what the closure answers then.
pub(crate) fn match_clause<E: EvalCtxt, R, F: FnOnce(&mut E) -> Result<R, NoSolutionOrStop>>(
    alloc: Global,
    ecx: &mut E,
    env: ParamEnv,
    predicate: NormalizesTo,
    clause: Clause,
    then: F,
) -> Result<R, NoSolutionOrStop>
{
    equate_clause(alloc, ecx, env, predicate, clause)?;
    then(ecx)
}
