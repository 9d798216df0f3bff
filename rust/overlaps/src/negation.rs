// Made of `crates/overlaps/src/negation.rt` by `bench/plain.py`: an edit of this file is lost.

//! Impls that are kept apart since a where clause of one of them is known not to hold.


use kit::{eprintln, format, prelude::*, print, println, vec};
use crate::answered::is_predicate_answered;
use crate::opening::{Opened, Pair, open_both, placeholder_args_for_impl};
use crate::overlap::{WhereClause, have_aliases, have_common_trait};
use crate::plain::make_equal;
use crate::specializing::{environment_with, run_predicate};
use candidate_assembly::trait_goals::impls::recall_impl_given;
use candidate_eval::eval::clauses::{predicate_in, substitute};
use candidate_eval::eval::context::{EvalCtxt, ProbeKind};
use candidate_eval::eval::refusal::NoSolutionOrStop;
use candidate_rounds::rounds::Rounds;
use candidate_rounds::rounds::effort::Effort;
use candidate_rounds::rounds::goals::Verdict;
use ir_context::decl::Cx;
use ir_context::decl::make::{Build, Make};
use ir_folds::decl::elaborate::elaborate;
use ir_trees::decl::contents::ImplId;
use ir_trees::ir::kinds::{Args, Clause, GenericArg, ParamEnv, PredicatePolarity, TraitPredicate};
use ir_trees::ir::stop::Stop;
use ir_trees::ir::trees::Trees;
use kit::alloc::Global;

/// What says the opposite of the predicate.
fn negated(predicate: TraitPredicate) -> TraitPredicate
{
    let polarity = match predicate.polarity {
        PredicatePolarity::Positive => PredicatePolarity::Negative,
        PredicatePolarity::Negative => PredicatePolarity::Positive,
    };
    TraitPredicate {
        trait_ref: predicate.trait_ref,
        polarity,
    }
}

/// What stands in that place of the two lists, if both have it.
fn pair_at(cx: &Cx, first: Args, second: Args, place: usize) -> Option<(GenericArg, GenericArg)>
{
    let ones = cx.args(first);
    let others = cx.args(second);
    if place < ones.len() && place < others.len() {
        Some((ones[place], others[place]))
    } else {
        None
    }
}

/// Whether the two can be made equal; they are then.
pub(crate) fn make_one_equal<E: EvalCtxt>(
    ecx: &mut E,
    env: ParamEnv,
    one: GenericArg,
    other: GenericArg,
) -> Result<bool, Stop>
{
    match ecx.eq(env, one, other) {
        Ok(()) => Ok(true),
        Err(NoSolutionOrStop::NoSolution) => Ok(false),
        Err(NoSolutionOrStop::Stop(stop)) => Err(stop),
    }
}

/// Whether the two can be made equal, by a probe: so that a refusal leaves nothing behind.
fn can_be_equal(
    rounds: &mut Rounds,
    env: ParamEnv,
    one: GenericArg,
    other: GenericArg,
) -> Result<bool, Stop>
{
    let probe = rounds.begin_probe(ProbeKind::Kept)?;
    let answer = make_one_equal(rounds, env, one, other);
    rounds.end_probe(probe);
    answer
}

/// The variable becomes the placeholder, unless it can't, as one that has a value.
fn plug_one(
    rounds: &mut Rounds,
    env: ParamEnv,
    local: GenericArg,
    placeholder: GenericArg,
) -> Result<(), Stop>
{
    if !can_be_equal(rounds, env, local, placeholder)? {
        return Ok(());
    }
    make_one_equal(rounds, env, local, placeholder)?;
    Ok(())
}

/// Each of the variables that has no value becomes the placeholder in its place. What can't be one is passed over: a variable that has a value.
fn plug(rounds: &mut Rounds, env: ParamEnv, locals: Args, placeholders: Args) -> Result<(), Stop>
{
    let count = rounds.cx().args(locals).len();
    for place in 0..count {
        let Some((local, placeholder)) = pair_at(rounds.cx(), locals, placeholders, place) else {
            break;
        };
        plug_one(rounds, env, local, placeholder)?;
    }
    Ok(())
}

/// Whether it is a Yes of which the constraints don't hold for every placeholder.
fn is_leaking_yes(alloc: Global, rounds: &Rounds, verdict: &Option<Verdict>) -> Result<bool, Stop>
{
    match verdict {
        Some(Verdict::Yes(response, _)) => rounds.response_leaks(alloc, response),
        Some(Verdict::Maybe(_, _) | Verdict::Refused) | None => Ok(false),
    }
}

/// Whether the goal stands at what is known, and the constraints of its Yes, if the table has one, hold for every placeholder.
fn holds_for_all(
    alloc: Global,
    rounds: &mut Rounds,
    env: ParamEnv,
    predicate: TraitPredicate,
) -> Result<bool, Stop>
{
    if !rounds.stands_here(alloc, env, predicate) {
        return Ok(false);
    }
    let verdict = rounds.entry(alloc, env, predicate)?;
    let leaks = is_leaking_yes(alloc, rounds, &verdict)?;
    Ok(!leaks)
}

/// Whether the goal is answered, by a Yes of which the constraints hold for every placeholder.
fn is_answered_for_all(
    alloc: Global,
    rounds: &mut Rounds,
    env: ParamEnv,
    predicate: TraitPredicate,
) -> Result<bool, Stop>
{
    if !holds_for_all(alloc, rounds, env, predicate)? {
        return Ok(false);
    }
    is_predicate_answered(alloc, rounds, env, predicate)
}

/// Whether it is known that what the clause says of a trait is not so: by that effort the opposite comes to a Yes that says nothing of any
/// variable.
fn is_negation_answered(
    alloc: Global,
    rounds: &mut Rounds,
    env: ParamEnv,
    clause: Clause,
    effort: Effort,
) -> Result<bool, Stop>
{
    let Some(predicate) = predicate_in(rounds.cx(), clause) else {
        return Ok(false);
    };
    let opposite = negated(predicate);
    run_predicate(alloc, rounds, env, opposite, effort)?;
    is_answered_for_all(alloc, rounds, env, opposite)
}

/// Whether this is known of one of the clauses.
fn is_one_negated(
    alloc: Global,
    rounds: &mut Rounds,
    env: ParamEnv,
    clauses: &[Clause],
    effort: Effort,
) -> Result<bool, Stop>
{
    for number in 0..clauses.len() {
        if is_negation_answered(alloc, rounds, env, clauses[number], effort)? {
            return Ok(true);
        }
    }
    Ok(false)
}

/// A where clause, with what stands for the parameters put in and all values.
pub(crate) fn with_values<E: EvalCtxt>(
    alloc: Global,
    ecx: &mut E,
    clause: Clause,
    locals: Args,
) -> Result<Clause, Stop>
{
    let clause = substitute(alloc, ecx, clause, locals)?;
    ecx.resolve_clause_if_possible(clause)
}

/// The where clause, with what stands for the parameters put in and all values, and all that it implies.
fn implied_by<E: EvalCtxt>(
    alloc: Global,
    ecx: &mut E,
    clause: Clause,
    locals: Args,
) -> Result<Vec<Clause>, Stop>
{
    let clause = with_values(alloc, ecx, clause, locals)?;
    elaborate(alloc, ecx, &[clause])
}

/// Whether this is known of a where clause, with what stands for the parameters put in and all values, or of one that it implies.
fn is_clause_negated(
    alloc: Global,
    rounds: &mut Rounds,
    env: ParamEnv,
    clause: Clause,
    locals: Args,
    effort: Effort,
) -> Result<bool, Stop>
{
    let implied = implied_by(alloc, rounds, clause, locals)?;
    is_one_negated(alloc, rounds, env, implied.as_slice(), effort)
}

/// The number of the first of the where clauses of which this is known.
fn first_negated(
    alloc: Global,
    rounds: &mut Rounds,
    env: ParamEnv,
    clauses: &[Clause],
    locals: Args,
    effort: Effort,
) -> Result<Option<usize>, Stop>
{
    for number in 0..clauses.len() {
        if is_clause_negated(alloc, rounds, env, clauses[number], locals, effort)? {
            return Ok(Some(number));
        }
    }
    Ok(None)
}

/// The where clauses, with what stands for the parameters put in and all values.
fn all_with_values<E: EvalCtxt>(
    alloc: Global,
    ecx: &mut E,
    clauses: &[Clause],
    locals: Args,
) -> Result<Vec<Clause>, Stop>
{
    let mut list = Vec::new(alloc);
    for clause in clauses {
        let clause = with_values(alloc, ecx, *clause, locals)?;
        list.push(clause)?;
    }
    Ok(list)
}

/// The environment of an open impl's where clauses, with all values put in, and of all that they imply.
fn environment_here<E: EvalCtxt>(alloc: Global, ecx: &mut E, of: &Opened) -> Result<ParamEnv, Stop>
{
    let clauses = all_with_values(alloc, ecx, of.wheres.as_slice(), of.locals)?;
    environment_with(alloc, ecx, clauses.as_slice())
}

/// Which where clause is known not to hold, of the second of two open impls, where their headers are equal and placeholders stand for the variables that are left, under the
/// environment of the first one's where clauses.
fn negated_under(
    alloc: Global,
    rounds: &mut Rounds,
    pair: &Pair,
    effort: Effort,
) -> Result<Option<usize>, Stop>
{
    let env = environment_here(alloc, rounds, &pair.first)?;
    let second = &pair.second;
    let clauses = second.wheres.as_slice();
    first_negated(alloc, rounds, env, clauses, second.locals, effort)
}

/// Which where clause is known not to hold, of two open impls whose headers are equal, and whose variables become these placeholders.
fn negated_where_equal(
    alloc: Global,
    rounds: &mut Rounds,
    env: ParamEnv,
    pair: &Pair,
    placeholders: (Args, Args),
    effort: Effort,
) -> Result<Option<usize>, Stop>
{
    plug(rounds, env, pair.first.locals, placeholders.0)?;
    plug(rounds, env, pair.second.locals, placeholders.1)?;
    negated_under(alloc, rounds, pair, effort)
}

/// Which where clause is known not to hold, of two open impls, whose headers are made equal, and whose variables become these placeholders then.
fn negated_of_pair(
    alloc: Global,
    rounds: &mut Rounds,
    pair: &Pair,
    placeholders: (Args, Args),
    effort: Effort,
) -> Result<Option<usize>, Stop>
{
    if have_aliases(rounds.cx(), pair) {
        return Ok(None);
    }
    let above = rounds.newest_universe();
    let env = rounds.mk_param_env(&[])?;
    if !make_equal(rounds, env, pair.first.header, pair.second.header)? {
        return Ok(None);
    }
    let leaks = rounds.leaks_above(alloc, above)?;
    if leaks {
        return Ok(None);
    }
    negated_where_equal(alloc, rounds, env, pair, placeholders, effort)
}

/// Which where clause is known not to hold, of two impls, where what is found to be known stays known. The placeholders come first, so that variables may be them.
fn negated_here(
    alloc: Global,
    rounds: &mut Rounds,
    first: ImplId,
    second: ImplId,
    effort: Effort,
) -> Result<Option<usize>, Stop>
{
    recall_impl_given(rounds.cx(), first);
    recall_impl_given(rounds.cx(), second);
    let of_first = placeholder_args_for_impl(alloc, rounds, first)?;
    let of_second = placeholder_args_for_impl(alloc, rounds, second)?;
    let Some(pair) = open_both(alloc, rounds, first, second)? else {
        return Ok(None);
    };
    negated_of_pair(alloc, rounds, &pair, (of_first, of_second), effort)
}

/// Which where clause is known not to hold, in a probe in which nothing is pending, so that all stays but the table.
fn negated_aside(
    alloc: Global,
    rounds: &mut Rounds,
    first: ImplId,
    second: ImplId,
    effort: Effort,
) -> Result<Option<usize>, Stop>
{
    let probe = rounds.begin_probe(ProbeKind::SetAside)?;
    let answer = negated_here(alloc, rounds, first, second, effort);
    rounds.end_probe(probe);
    answer
}

/// A where clause of one of two impls of a trait which can't hold where the other one does.
///
/// With fresh variables for the parameters of both, their headers are made equal, and placeholders stand for the variables that are left then.
/// Under the where clauses of the one as environment, with all that these imply, the goal is run by that effort that says the opposite of a
/// where clause of the other one, or of a clause that this implies. The clause is answered if that goal has a Yes that says nothing of any
/// variable: by a negative impl, a negative clause, or a rule of the language. The clauses of the second impl are asked first, under those of the
/// first, and then the other way round; of each impl the first such clause counts. In no program in which positive and negative impls don't
/// overlap both impls hold of one reference then.
///
/// `None` comes where there is none, where the numbers aren't those of two impls of one trait, where their headers can't be made equal or their
/// equation leaks a region (`impls_overlap`), and where an alias stands in one of them. A Yes in which a region leaks answers no clause. The mode is the evaluator's; rustc asks outside coherence, since in coherence no negative goal is known that
/// another crate might make false. All that is known, what is pending and the open probes stay, whatever is answered; the table has what the
/// rounds have found. The stops are those of `impls_overlap`.
pub fn kept_apart_by_negation(
    alloc: Global,
    rounds: &mut Rounds,
    first: ImplId,
    second: ImplId,
    effort: Effort,
) -> Result<Option<WhereClause>, Stop>
{
    recall_impl_given(rounds.cx(), first);
    recall_impl_given(rounds.cx(), second);
    if !have_common_trait(rounds.cx(), first, second) {
        return Ok(None);
    }
    if let Some(number) = negated_aside(alloc, rounds, first, second, effort)? {
        return Ok(Some(WhereClause { of: second, number }));
    }
    if let Some(number) = negated_aside(alloc, rounds, second, first, effort)? {
        return Ok(Some(WhereClause { of: first, number }));
    }
    Ok(None)
}
