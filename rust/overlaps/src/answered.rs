// Made of `crates/overlaps/src/answered.rt` by `bench/plain.py`: an edit of this file is lost.

//! Where clauses that are answered.


use kit::{eprintln, format, prelude::*, print, println, vec};
use crate::auto::may_rest_on_part;
use crate::opening::{Opened, Pair};
use candidate_eval::eval::clauses::{predicate_in, substitute};
use candidate_eval::eval::context::EvalCtxt;
use candidate_eval::eval::response::has_only_region_constraints;
use candidate_rounds::rounds::Rounds;
use candidate_rounds::rounds::goals::Verdict;
use ir_context::decl::Cx;
use ir_context::decl::make::Make;
use ir_trees::ir::kinds::{Args, Clause, ClauseKind, ParamEnv, TraitPredicate};
use ir_trees::ir::stop::Stop;
use ir_trees::ir::trees::Trees;
use kit::alloc::Global;

/// Whether the clause says what outlives what.
pub(crate) fn is_outlives(cx: &Cx, clause: Clause) -> bool
{
    match cx.clause(clause).value {
        ClauseKind::TypeOutlives(_, _) | ClauseKind::RegionOutlives(_, _) => true,
        ClauseKind::Trait(_)
        | ClauseKind::Projection(_)
        | ClauseKind::AliasRelate(_, _)
        | ClauseKind::ConstEquate(_, _) => false,
    }
}

/// Whether it is a Yes that says nothing of any variable.
fn is_plain_yes(cx: &Cx, verdict: &Option<Verdict>) -> bool
{
    match verdict {
        Some(Verdict::Yes(response, _)) => has_only_region_constraints(cx, response),
        Some(Verdict::Maybe(_, _) | Verdict::Refused) | None => false,
    }
}

/// Whether the table has a Yes for the goal which says nothing of any variable, rests on no region that leaks, and may not rest on an impl for
/// a part of the types with a head.
pub(crate) fn is_predicate_answered(
    alloc: Global,
    rounds: &mut Rounds,
    env: ParamEnv,
    predicate: TraitPredicate,
) -> Result<bool, Stop>
{
    if !rounds.stands_here(alloc, env, predicate) {
        return Ok(false);
    }
    let verdict = rounds.entry(alloc, env, predicate)?;
    if !is_plain_yes(rounds.cx(), &verdict) {
        return Ok(false);
    }
    let leaks = rounds.entry_leaks(alloc, env, predicate)?;
    if leaks {
        return Ok(false);
    }
    Ok(!may_rest_on_part(alloc, rounds.cx(), predicate.trait_ref.def_id)?)
}

/// Whether a where clause holds by the table, with what stands for the parameters put in and all values: one that says what outlives what
/// is assumed, and one of a projection isn't looked at.
fn is_clause_answered(
    alloc: Global,
    rounds: &mut Rounds,
    env: ParamEnv,
    clause: Clause,
    locals: Args,
) -> Result<bool, Stop>
{
    let clause = substitute(alloc, rounds, clause, locals)?;
    let clause = rounds.resolve_clause_if_possible(clause)?;
    if is_outlives(rounds.cx(), clause) {
        return Ok(true);
    }
    let Some(predicate) = predicate_in(rounds.cx(), clause) else {
        return Ok(false);
    };
    is_predicate_answered(alloc, rounds, env, predicate)
}

/// The number of the first of the where clauses that doesn't, with what stands for the parameters put in.
pub(crate) fn first_unanswered(
    alloc: Global,
    rounds: &mut Rounds,
    env: ParamEnv,
    clauses: &[Clause],
    locals: Args,
) -> Result<Option<usize>, Stop>
{
    for number in 0..clauses.len() {
        if !is_clause_answered(alloc, rounds, env, clauses[number], locals)? {
            return Ok(Some(number));
        }
    }
    Ok(None)
}

/// Whether each where clause of an open impl does.
fn is_impl_answered(
    alloc: Global,
    rounds: &mut Rounds,
    env: ParamEnv,
    of: &Opened,
) -> Result<bool, Stop>
{
    let open = first_unanswered(alloc, rounds, env, of.wheres.as_slice(), of.locals)?;
    match open {
        Some(_) => Ok(false),
        None => Ok(true),
    }
}

/// Whether each where clause of both does. Nothing is run: it is read what the table has.
pub(crate) fn are_answered(
    alloc: Global,
    rounds: &mut Rounds,
    env: ParamEnv,
    pair: &Pair,
) -> Result<bool, Stop>
{
    if !is_impl_answered(alloc, rounds, env, &pair.first)? {
        return Ok(false);
    }
    is_impl_answered(alloc, rounds, env, &pair.second)
}
