// Made of `crates/assembly_text/src/openness.rt` by `bench/plain.py`: an edit of this file is lost.

//! Why goals may hold that aren't known to.


use kit::{eprintln, format, prelude::*, print, println, vec};
use crate::asking::unchanged;
use crate::explaining::AskedGoal;
use candidate_eval::coherence::{Conflict, OrphanStop, trait_ref_is_knowable};
use candidate_eval::eval::clauses::{predicate_in, self_ty};
use ir_context::decl::context::Cx;
use ir_trees::ir::heads::Flag;
use ir_trees::ir::kinds::{Clause, InferTy, TraitRef, Ty, TyKind};
use ir_trees::ir::stop::Stop;
use ir_trees::ir::trees::Trees;
use kit::alloc::Global;
use kit::convert::Infallible;

/// Why it isn't known whether a goal holds.
#[derive(Clone, Copy, Debug)]
pub enum Openness {
    /// Its self type may be any type.
    SelfType,
    /// An alias stands in it, which may be any type.
    Alias,
    /// Another crate may write an impl of it.
    Conflict(Conflict),
    /// No round looked at it.
    Rounds,
    /// An inference variable stands in it.
    Variable,
    /// Other goals are open that were asked for, and it may need them.
    OtherGoals,
}

impl Openness {
    /// The words behind what the goal comes to.
    pub(crate) fn words(self) -> &'static str {
        match self {
            Openness::SelfType => " because its self type isn't known",
            Openness::Alias => " because an alias isn't known",
            Openness::Conflict(Conflict::Upstream) => " because upstream crates may add an impl",
            Openness::Conflict(Conflict::Downstream) => {
                " because downstream crates may add an impl"
            }
            Openness::Rounds => " because the rounds ended before it",
            Openness::Variable => " because an inference variable in it isn't known",
            Openness::OtherGoals => " because other goals are open",
        }
    }
}

/// Whether the type is a variable that may be any type.
fn may_be_any(cx: &Cx, ty: Ty) -> bool
{
    matches!(cx.kind(ty), TyKind::Infer(InferTy::TyVar(_)))
}

/// Which other crate may write an impl, if one may. A walk that came to no end knows of none; out of memory is a stop.
fn conflict_in(
    known: Result<Result<(), Conflict>, OrphanStop<Infallible>>,
) -> Result<Option<Conflict>, Stop> {
    match known {
        Ok(Ok(())) => Ok(None),
        Ok(Err(conflict)) => Ok(Some(conflict)),
        Err(OrphanStop::Stop(Stop::Memory)) => Err(Stop::Memory),
        Err(_) => Ok(None),
    }
}

/// Why it isn't known whether the reference holds, in coherence or not, as far as it says so itself.
fn openness_of(
    alloc: Global,
    cx: &mut Cx,
    in_coherence: bool,
    of: TraitRef,
) -> Result<Option<Openness>, Stop>
{
    if may_be_any(cx, self_ty(cx, of)) {
        return Ok(Some(Openness::SelfType));
    }
    if cx.has(of.args, Flag::Alias) {
        return Ok(Some(Openness::Alias));
    }
    if !in_coherence {
        return Ok(None);
    }
    let known = trait_ref_is_knowable(alloc, cx, of, unchanged);
    match conflict_in(known)? {
        Some(conflict) => Ok(Some(Openness::Conflict(conflict))),
        None => Ok(None),
    }
}

/// Why it isn't known whether what the clause says of a trait holds. Of a clause that says something else, or has a parameter, nothing is known.
fn openness_of_clause(
    alloc: Global,
    cx: &mut Cx,
    in_coherence: bool,
    clause: Clause,
) -> Result<Option<Openness>, Stop>
{
    let Some(goal) = predicate_in(cx, clause) else {
        return Ok(None);
    };
    if cx.has(goal.trait_ref.args, Flag::Param) {
        return Ok(None);
    }
    openness_of(alloc, cx, in_coherence, goal.trait_ref)
}

/// Why it isn't known whether the goal holds, where its reference alone doesn't say it.
fn openness_among(cx: &Cx, goal: AskedGoal, are_others_open: bool) -> Option<Openness>
{
    if !goal.is_run {
        return Some(Openness::Rounds);
    }
    let args = predicate_in(cx, goal.clause)?.trait_ref.args;
    if cx.has(args, Flag::TyInfer) || cx.has(args, Flag::ConstInfer) {
        return Some(Openness::Variable);
    }
    are_others_open.then_some(Openness::OtherGoals)
}

/// The goal with why it isn't known whether it holds, if that isn't known.
fn with_openness(
    alloc: Global,
    cx: &mut Cx,
    in_coherence: bool,
    are_others_open: bool,
    goal: AskedGoal,
) -> Result<AskedGoal, Stop>
{
    if goal.is_final {
        return Ok(goal);
    }
    let openness_among_all = openness_among(cx, goal, are_others_open);
    let own_openness = openness_of_clause(alloc, cx, in_coherence, goal.clause)?;
    Ok(AskedGoal {
        openness: own_openness.or(openness_among_all),
        ..goal
    })
}

/// Whether at least two of the goals are open.
fn are_two_open(goals: &[AskedGoal]) -> bool {
    goals.iter().filter(|goal| !goal.is_final).nth(1).is_some()
}

/// The goals with why it isn't known whether they hold, of those of which it isn't. It stops as `mk_ty` does.
pub(crate) fn look_at_open(
    alloc: Global,
    cx: &mut Cx,
    in_coherence: bool,
    goals: &[AskedGoal],
) -> Result<Vec<AskedGoal>, Stop>
{
    let are_others_open = are_two_open(goals);
    let mut told = Vec::new(alloc);
    for place in 0..goals.len() {
        let goal = goals[place];
        told.push(with_openness(alloc, cx, in_coherence, are_others_open, goal)?)?;
    }
    Ok(told)
}
