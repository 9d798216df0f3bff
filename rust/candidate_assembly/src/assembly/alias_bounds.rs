// Made of `crates/candidate_assembly/src/assembly/alias_bounds.rt` by `bench/plain.py`: an edit of this file is lost.

//! The bounds of an alias, as clauses that may prove what is asked of it.


use kit::{eprintln, format, prelude::*, print, println, vec};
use crate::assembly::kind::GoalKind;
use crate::assembly::listing::push_considered;
use crate::assembly::matching::probe_and_consider_implied_clause;
use crate::assembly::steps::consider_with_nested;
use candidate_eval::eval::certainty::Certainty;
use candidate_eval::eval::context::EvalCtxt;
use candidate_eval::eval::refusal::NoSolutionOrStop;
use candidate_eval::eval::response::Candidate;
use candidate_eval::eval::source::CandidateSource;
use ir_context::decl::make::Make;
use ir_folds::decl::subst::subst;
use ir_trees::decl::contents::AliasBoundKind;
use ir_trees::ir::kinds::{AliasTy, Clause, GoalSource, ParamEnv};
use ir_trees::ir::stop::Stop;
use kit::alloc::Global;

/// The bounds of the alias, its own or those of what it is a projection of, in order, with its arguments in the place of parameters. No
/// variable stands in them as they are declared.
///
/// `Stop::Memory` comes where a growth was refused, `Stop::NodesFull` where a clause was not made, as by `subst`.
pub(crate) fn bounds_with_arguments<M: Make>(
    alloc: Global,
    make: &mut M,
    alias: AliasTy,
    kind: AliasBoundKind,
) -> Result<Vec<Clause>, Stop>
{
    let declared = Vec::from_slice(alloc, make.cx().bounds_of(alias, kind))?;
    let mut list = Vec::new(alloc);
    for clause in &declared {
        let clause = subst(alloc, make, *clause, alias.args)?;
        list.push(clause)?;
    }
    Ok(list)
}

/// The candidate by one bound of an alias, whose arguments stand in it already.
///
/// `NoSolution` comes where the bound isn't matched, and where the evaluator refuses the response; the stops are those of the match and of
/// the evaluator. The state is left alike the one before.
pub(crate) fn consider_alias_bound<E: EvalCtxt, G: GoalKind<E>>(
    alloc: Global,
    ecx: &mut E,
    env: ParamEnv,
    predicate: G,
    clause: Clause,
    kind: AliasBoundKind,
) -> Result<Candidate, NoSolutionOrStop>
{
    let source = CandidateSource::AliasBound(kind);
    probe_and_consider_implied_clause(alloc, ecx, source, env, predicate, clause, &[])
}

/// The candidate where a general variable stands for what an alias is a projection of: too little is known of it, so it is ambiguous.
///
/// `NoSolution` comes where the evaluator refuses the response; the stops are the evaluator's. The state is left alike the one before.
pub(crate) fn consider_behind_variable<E: EvalCtxt, G: GoalKind<E>>(
    alloc: Global,
    ecx: &mut E,
    env: ParamEnv,
    predicate: G,
) -> Result<Candidate, NoSolutionOrStop>
{
    let _ = predicate;
    let source = CandidateSource::AliasBound(AliasBoundKind::NonSelfBounds);
    let nested = GoalSource::Misc;
    consider_with_nested(
        alloc,
        ecx,
        env,
        true,
        nested,
        &[],
        source,
        Certainty::AMBIGUOUS,
    )
}

/// Adds the candidates by the bounds of the alias, its own or those of what it is a projection of, in their order. No parameter stands in
/// the alias, and it and the goal mention only the state's variables.
///
/// It stops at the first bound whose rule stops, with that stop; `Stop::Memory` comes where a list can't grow, `Stop::NodesFull` where a
/// bound was not made, as by `subst`. The state is left alike the one before.
pub(crate) fn consider_alias_bounds<E: EvalCtxt, G: GoalKind<E>>(
    alloc: Global,
    ecx: &mut E,
    env: ParamEnv,
    predicate: G,
    alias: AliasTy,
    kind: AliasBoundKind,
    candidates: &mut Vec<Candidate>,
) -> Result<(), Stop>
{
    let bounds = bounds_with_arguments(alloc, ecx, alias, kind)?;
    for clause in &bounds {
        let answer = consider_alias_bound(alloc, ecx, env, predicate, *clause, kind);
        push_considered(candidates, answer)?;
    }
    Ok(())
}
