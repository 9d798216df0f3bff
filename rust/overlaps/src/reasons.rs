// Made of `crates/overlaps/src/reasons.rt` by `bench/plain.py`: an edit of this file is lost.

//! Why it isn't known of two impls that both hold where their headers are equal: the where clauses that are open there, each with a cause.


use kit::{eprintln, format, prelude::*, print, println, vec};
use crate::answered::is_outlives;
use crate::auto::may_rest_on_part;
use crate::negation::with_values;
use crate::opening::{Opened, Pair, open_both};
use crate::order::in_order;
use crate::overlap::{WhereClause, are_undecided, have_common_trait, refused_clause};
use crate::plain::{is_in_coherence, make_equal};
use candidate_eval::coherence::{Conflict, OrphanStop};
use candidate_eval::eval::clauses::predicate_in;
use candidate_eval::eval::context::{EvalCtxt, ProbeKind};
use candidate_eval::eval::knowing::is_knowable;
use candidate_eval::eval::response::{CanonicalResponse, has_only_region_constraints};
use candidate_rounds::rounds::Rounds;
use candidate_rounds::rounds::effort::Effort;
use candidate_rounds::rounds::goals::Verdict;
use ir_context::decl::Cx;
use ir_context::decl::make::{Build, Make};
use ir_trees::decl::contents::ImplId;
use ir_trees::ir::heads::Flag;
use ir_trees::ir::kinds::{Args, Clause, ParamEnv, TraitId, TraitPredicate, TraitRef};
use ir_trees::ir::stop::Stop;
use ir_trees::ir::trees::Trees;
use kit::alloc::Global;
use kit::fmt;

/// Why a where clause isn't known to hold.
#[derive(Clone, Copy, Debug, PartialEq, Eq)]
pub enum Cause {
    /// It says something else than that a trait holds, as what a projection is.
    NoTrait,
    /// Its goal wasn't asked: the table has nothing for it, or it doesn't stand at what is known, as one with a bound variable.
    NotAsked,
    /// Its goal isn't decided, and an alias stands in its arguments.
    Alias,
    /// Its goal is a Maybe, and another crate may have an impl of its reference, or add one.
    Conflict(Conflict),
    /// Its goal is a Maybe without such a reason: a nested goal is open, or more rounds decide it.
    Ambiguous,
    /// Its goal is refused, and decides nothing all the same.
    Refused,
    /// Its goal is a Yes by which a variable gets a value.
    GivesValues,
    /// Its goal is a Yes that may rest on an impl of an auto trait for a part of the types with a head, or on unsizing.
    RestsOnPart,
}

/// A where clause of one of two impls that isn't known to hold where their headers are equal.
#[derive(Clone, Copy, PartialEq, Eq)]
pub struct OpenClause {
    /// Which where clause it is.
    pub place: WhereClause,
    /// What it says where the headers are equal, with all values put in.
    pub clause: Clause,
    /// Why it isn't known to hold.
    pub cause: Cause,
}

/// The place, the number of the clause, and the cause.
impl fmt::Debug for OpenClause {
    fn fmt(&self, f: &mut fmt::Formatter<'_>) -> fmt::Result {
        let OpenClause {
            place,
            clause,
            cause,
        } = self;
        write!(f, "{place:?}, clause {}: {cause:?}", clause.0)
    }
}

/// Whether the stop is one of an evaluator, and not of the orphan check's walk.
fn is_of_evaluator(stop: Stop) -> bool
{
    match stop {
        Stop::Memory | Stop::NodesFull | Stop::EvaluatorLimit => true,
        Stop::WalkDepth | Stop::AliasDepth | Stop::ConstDepth | Stop::Unnameable => false,
    }
}

/// The conflict, if what is known of a reference is one. A walk that came to no end knows of none.
fn conflict_in(
    known: Result<Result<(), Conflict>, OrphanStop<()>>,
) -> Result<Option<Conflict>, Stop>
{
    match known {
        Ok(Ok(())) => Ok(None),
        Ok(Err(conflict)) => Ok(Some(conflict)),
        Err(OrphanStop::Normalize(())) => Ok(None),
        Err(OrphanStop::Stop(stop)) => {
            if is_of_evaluator(stop) {
                Err(stop)
            } else {
                Ok(None)
            }
        }
    }
}

/// Which other crate may write an impl of the reference, if one may. It is asked in a probe, so that what is known stays.
fn conflict_of(
    alloc: Global,
    rounds: &mut Rounds,
    env: ParamEnv,
    trait_ref: TraitRef,
) -> Result<Option<Conflict>, Stop>
{
    let probe = rounds.begin_probe(ProbeKind::Kept)?;
    let known = is_knowable(alloc, rounds, env, trait_ref);
    rounds.end_probe(probe);
    conflict_in(known)
}

/// Whether an alias stands in the list.
fn has_alias(cx: &Cx, args: Args) -> bool
{
    cx.has(args, Flag::Alias)
}

/// Why a goal with a Maybe may hold.
fn cause_of_maybe(
    alloc: Global,
    rounds: &mut Rounds,
    env: ParamEnv,
    trait_ref: TraitRef,
) -> Result<Cause, Stop>
{
    if has_alias(rounds.cx(), trait_ref.args) {
        return Ok(Cause::Alias);
    }
    if !is_in_coherence(rounds) {
        return Ok(Cause::Ambiguous);
    }
    match conflict_of(alloc, rounds, env, trait_ref)? {
        Some(conflict) => Ok(Cause::Conflict(conflict)),
        None => Ok(Cause::Ambiguous),
    }
}

/// Why a goal isn't known to hold that the table has nothing for.
fn cause_of_unasked(cx: &Cx, trait_ref: TraitRef) -> Cause
{
    if has_alias(cx, trait_ref.args) {
        Cause::Alias
    } else {
        Cause::NotAsked
    }
}

/// Why it isn't certain that a goal of the trait holds which has that Yes, if it isn't. The only stop is `Stop::Memory`.
fn cause_of_yes(
    alloc: Global,
    cx: &Cx,
    response: &CanonicalResponse,
    of: TraitId,
) -> Result<Option<Cause>, Stop>
{
    if !has_only_region_constraints(cx, response) {
        return Ok(Some(Cause::GivesValues));
    }
    if may_rest_on_part(alloc, cx, of)? {
        return Ok(Some(Cause::RestsOnPart));
    }
    Ok(None)
}

/// Why the table doesn't make it certain that the goal of the predicate holds, if it doesn't.
fn cause_of_goal(
    alloc: Global,
    rounds: &mut Rounds,
    env: ParamEnv,
    predicate: TraitPredicate,
) -> Result<Option<Cause>, Stop>
{
    if !rounds.stands_here(alloc, env, predicate) {
        return Ok(Some(Cause::NotAsked));
    }
    let trait_ref = predicate.trait_ref;
    let verdict = rounds.entry(alloc, env, predicate)?;
    match &verdict {
        None => Ok(Some(cause_of_unasked(rounds.cx(), trait_ref))),
        Some(Verdict::Refused) => Ok(Some(Cause::Refused)),
        Some(Verdict::Maybe(_, _)) => Ok(Some(cause_of_maybe(alloc, rounds, env, trait_ref)?)),
        Some(Verdict::Yes(response, _)) => cause_of_yes(
            alloc,
            rounds.cx(),
            response,
            trait_ref.def_id,
        ),
    }
}

/// Why the table doesn't make it certain that a clause holds, if it doesn't: one that says what outlives what is assumed.
fn cause_of_clause(
    alloc: Global,
    rounds: &mut Rounds,
    env: ParamEnv,
    clause: Clause,
) -> Result<Option<Cause>, Stop>
{
    if is_outlives(rounds.cx(), clause) {
        return Ok(None);
    }
    let Some(predicate) = predicate_in(rounds.cx(), clause) else {
        return Ok(Some(Cause::NoTrait));
    };
    cause_of_goal(alloc, rounds, env, predicate)
}

/// The where clause of that number of an open impl, if the table doesn't make it certain that it holds.
fn open_clause(
    alloc: Global,
    rounds: &mut Rounds,
    env: ParamEnv,
    of: &Opened,
    number: usize,
) -> Result<Option<OpenClause>, Stop>
{
    let clause = with_values(alloc, rounds, of.wheres[number], of.locals)?;
    let Some(cause) = cause_of_clause(alloc, rounds, env, clause)? else {
        return Ok(None);
    };
    let place = WhereClause { of: of.of, number };
    Ok(Some(OpenClause {
        place,
        clause,
        cause,
    }))
}

/// Adds the clause to the list, if there is one.
fn add_if_open(list: &mut Vec<OpenClause>, found: Option<OpenClause>) -> Result<(), Stop>
{
    match found {
        Some(clause) => Ok(list.push(clause)?),
        None => Ok(()),
    }
}

/// Adds the where clauses of an open impl of which the table doesn't make it certain that they hold, in their order.
fn add_open_clauses(
    alloc: Global,
    rounds: &mut Rounds,
    env: ParamEnv,
    of: &Opened,
    list: &mut Vec<OpenClause>,
) -> Result<(), Stop>
{
    for number in 0..of.wheres.len() {
        let found = open_clause(alloc, rounds, env, of, number)?;
        add_if_open(list, found)?;
    }
    Ok(())
}

/// The open where clauses of two open impls whose headers are equal, once all of them were run by that effort, as far as none is refused.
fn open_where_equal(
    alloc: Global,
    rounds: &mut Rounds,
    env: ParamEnv,
    pair: &Pair,
    effort: Effort,
) -> Result<Vec<OpenClause>, Stop>
{
    refused_clause(alloc, rounds, env, pair, effort)?;
    let mut list = Vec::new(alloc);
    add_open_clauses(alloc, rounds, env, &pair.first, &mut list)?;
    add_open_clauses(alloc, rounds, env, &pair.second, &mut list)?;
    Ok(list)
}

/// The open where clauses of two open impls, whose headers are made equal. What that leaves pending is set aside then.
fn open_of_pair(
    alloc: Global,
    rounds: &mut Rounds,
    pair: &Pair,
    effort: Effort,
) -> Result<Vec<OpenClause>, Stop>
{
    if are_undecided(rounds, pair) {
        return Ok(Vec::new(alloc));
    }
    let env = rounds.mk_param_env(&[])?;
    if !make_equal(rounds, env, pair.first.header, pair.second.header)? {
        return Ok(Vec::new(alloc));
    }
    let aside = rounds.begin_probe(ProbeKind::SetAside)?;
    let answer = open_where_equal(alloc, rounds, env, pair, effort);
    rounds.end_probe(aside);
    answer
}

/// The open where clauses of two impls, which are opened and made equal. What is found to be known stays known.
fn open_here(
    alloc: Global,
    rounds: &mut Rounds,
    first: ImplId,
    second: ImplId,
    effort: Effort,
) -> Result<Vec<OpenClause>, Stop>
{
    let Some(pair) = open_both(alloc, rounds, first, second)? else {
        return Ok(Vec::new(alloc));
    };
    open_of_pair(alloc, rounds, &pair, effort)
}

/// The open where clauses of two impls, found in a probe that is set aside, so that all stays but the table. Nothing is pending.
fn open_aside(
    alloc: Global,
    rounds: &mut Rounds,
    first: ImplId,
    second: ImplId,
    effort: Effort,
) -> Result<Vec<OpenClause>, Stop>
{
    if !have_common_trait(rounds.cx(), first, second) {
        return Ok(Vec::new(alloc));
    }
    let probe = rounds.begin_probe(ProbeKind::SetAside)?;
    let answer = open_here(alloc, rounds, first, second, effort);
    rounds.end_probe(probe);
    answer
}

/// Which where clauses of two impls of a trait are open: where their headers are equal it isn't known that they hold. These are what
/// `impls_overlap` is uncertain for where it answers `May`, but for an alias in a header.
///
/// All is done as there, in the order of the impls' numbers: the headers are made equal, and the where clauses are run by that effort, up to
/// the first that is refused. Then each where clause is looked up in the table. It is listed unless the table makes it certain, with what it
/// says there and with a cause; those of the impl with the lower number come first. The list is complete: each other one holds by the table,
/// or says what outlives what. None is listed of impls of different traits, nor where the headers can't be made equal, or their equation decides
/// nothing.
///
/// By `Cause::Conflict` another crate may write an impl of the clause's reference, as `is_knowable` has it: it is asked where the goal is a
/// Maybe, in coherence, and no alias stands in it. A walk of the orphan check that comes to no end knows of none.
///
/// All that is known, what is pending and the open probes stay, whatever is answered; the table has what the rounds have found. The stops
/// are those of `impls_overlap`.
pub fn open_clauses(
    alloc: Global,
    rounds: &mut Rounds,
    first: ImplId,
    second: ImplId,
    effort: Effort,
) -> Result<Vec<OpenClause>, Stop>
{
    let pair = in_order(first, second);
    open_aside(alloc, rounds, pair.0, pair.1, effort)
}
