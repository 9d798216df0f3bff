// Made of `crates/overlaps/src/clauses.rt` by `bench/plain.py`: an edit of this file is lost.

//! Where clauses that are refused.


use kit::{eprintln, format, prelude::*, print, println, vec};
use crate::auto::refuses_instances;
use crate::plain::{is_in_coherence, is_refused, is_resolved, is_without_aliases};
use candidate_eval::eval::clauses::{predicate_in, substitute};
use candidate_eval::eval::context::{EvalCtxt, ProbeKind};
use candidate_rounds::rounds::Rounds;
use candidate_rounds::rounds::effort::Effort;
use ir_context::decl::make::Make;
use ir_trees::ir::kinds::{Args, Clause, ParamEnv, TraitPredicate};
use ir_trees::ir::stop::Stop;
use kit::alloc::Global;

/// Whether the goal of a predicate stands at what is known and leaves nothing open, so that its refusal decides, whatever crates come that it
/// doesn't name: goals are asked for in coherence, and in the predicate's arguments no alias stands and no variable that has a value.
///
/// The environment and the arguments are of the context, and nothing is pending, as of an evaluator that `Rounds::new` makes. Nodes are
/// made, and nothing else is changed. `Stop::Memory` comes where a growth was refused, and `Stop::NodesFull` where no numbers are left or a
/// tree would be higher than 1,024.
pub fn may_decide(
    alloc: Global,
    rounds: &mut Rounds,
    env: ParamEnv,
    predicate: TraitPredicate,
) -> Result<bool, Stop>
{
    debug_assert!(ir_trees::checks::is_sorted(ir_context::decl::make::Make::cx(&*rounds), env), "overlaps::clauses::may_decide: `env` is {:?}, no number of its sort in this context", env);
    debug_assert!(ir_trees::checks::is_sorted(ir_context::decl::make::Make::cx(&*rounds), predicate.trait_ref.args), "overlaps::clauses::may_decide: `predicate.trait_ref.args` is {:?}, no number of its sort in this context", predicate.trait_ref.args);
    let args = predicate.trait_ref.args;
    if !is_without_aliases(rounds, args) {
        return Ok(false);
    }
    if !is_resolved(rounds, args)? {
        return Ok(false);
    }
    Ok(rounds.stands_here(alloc, env, predicate))
}

/// Runs the goal by that effort where it stands at what is known, so that the table has what it comes to.
fn run_where_it_stands(
    alloc: Global,
    rounds: &mut Rounds,
    env: ParamEnv,
    predicate: TraitPredicate,
    effort: Effort,
) -> Result<(), Stop>
{
    if !rounds.stands_here(alloc, env, predicate) {
        return Ok(());
    }
    if !rounds.may_be_run(alloc, env, predicate)? {
        return Ok(());
    }
    let _verdict = rounds.run_by(alloc, env, predicate, effort)?;
    Ok(())
}

/// Whether the goal is refused by that effort, where it is asked for in coherence and may decide, and each of its instances is, as far as
/// auto traits go.
fn is_refused_in_coherence(
    alloc: Global,
    rounds: &mut Rounds,
    env: ParamEnv,
    predicate: TraitPredicate,
    effort: Effort,
) -> Result<bool, Stop>
{
    if !may_decide(alloc, rounds, env, predicate)? {
        return Ok(false);
    }
    if !rounds.may_be_run(alloc, env, predicate)? {
        return Ok(false);
    }
    rounds.run_by(alloc, env, predicate, effort)?;
    if !is_refused(alloc, rounds, env, predicate)? {
        return Ok(false);
    }
    refuses_instances(alloc, rounds.cx(), predicate.trait_ref)
}

/// Whether the goal is refused in coherence; in another mode it is run, and nothing is decided.
pub(crate) fn is_predicate_refused(
    alloc: Global,
    rounds: &mut Rounds,
    env: ParamEnv,
    predicate: TraitPredicate,
    effort: Effort,
) -> Result<bool, Stop>
{
    if !is_in_coherence(rounds) {
        run_where_it_stands(alloc, rounds, env, predicate, effort)?;
        return Ok(false);
    }
    is_refused_in_coherence(alloc, rounds, env, predicate, effort)
}

/// Whether a where clause is refused by that effort, with what stands for the parameters put in and all values; one that says nothing of
/// a trait isn't.
fn is_clause_refused(
    alloc: Global,
    rounds: &mut Rounds,
    env: ParamEnv,
    clause: Clause,
    locals: Args,
    effort: Effort,
) -> Result<bool, Stop>
{
    let clause = substitute(alloc, rounds, clause, locals)?;
    let clause = rounds.resolve_clause_if_possible(clause)?;
    let Some(predicate) = predicate_in(rounds.cx(), clause) else {
        return Ok(false);
    };
    is_predicate_refused(alloc, rounds, env, predicate, effort)
}

/// Whether the clause is refused, asked in a probe, so that what is known stays.
fn probe_clause(
    alloc: Global,
    rounds: &mut Rounds,
    env: ParamEnv,
    clause: Clause,
    locals: Args,
    effort: Effort,
) -> Result<bool, Stop>
{
    let probe = rounds.begin_probe(ProbeKind::Kept)?;
    let answer = is_clause_refused(alloc, rounds, env, clause, locals, effort);
    rounds.end_probe(probe);
    answer
}

/// The number of the first of the where clauses that is refused by that effort, with what stands for the parameters put in.
pub(crate) fn first_refused(
    alloc: Global,
    rounds: &mut Rounds,
    env: ParamEnv,
    clauses: &[Clause],
    locals: Args,
    effort: Effort,
) -> Result<Option<usize>, Stop>
{
    for number in 0..clauses.len() {
        if probe_clause(alloc, rounds, env, clauses[number], locals, effort)? {
            return Ok(Some(number));
        }
    }
    Ok(None)
}
