// Made of `crates/candidate_assembly/src/trait_goals/to_dyn.rt` by `bench/plain.py`: an edit of this file is lost.

//! Any type to `dyn`: it meets the bounds, is sized and outlives the region.


use kit::{eprintln, format, prelude::*, print, println, vec};
use crate::assembly::dyn_bounds::{bound_clause, dyn_parts, is_dyn_compatible};
use crate::assembly::listing::push_considered;
use crate::assembly::matching::consider_requirements;
use crate::trait_goals::meeting::{meets_trait, recall_item_has_no_parameters};
use candidate_eval::eval::clauses::self_ty;
use candidate_eval::eval::context::EvalCtxt;
use candidate_eval::eval::refusal::NoSolutionOrStop;
use candidate_eval::eval::response::Candidate;
use ir_context::decl::make::{Build, Make};
use ir_trees::decl::contents::LangItem;
use ir_trees::ir::kinds::{
    Binder, Clause, ClauseKind, GoalSource, ParamEnv, Preds, Region, TraitId, TraitPredicate, Ty,
};
use ir_trees::ir::stop::Stop;
use ir_trees::ir::trees::Trees;
use kit::alloc::Global;

/// What the bounds say of the type, in their order, as requirements. `Stop::Memory` comes where a growth was refused, `Stop::NodesFull` where
/// a node was not made.
fn bound_requirements<M: Make>(
    alloc: Global,
    make: &mut M,
    ty: Ty,
    bounds: Preds,
) -> Result<Vec<(GoalSource, Clause)>, Stop>
{
    let listed = Vec::from_slice(alloc, make.cx().preds(bounds))?;
    let mut requirements = Vec::new(alloc);
    for bound in &listed {
        let clause = bound_clause(alloc, make, ty, *bound)?;
        requirements.push((GoalSource::ImplWhereBound, clause))?;
    }
    Ok(requirements)
}

/// That the type outlives the region, as a clause under an empty binder. `Stop::Memory` comes where a growth was refused, `Stop::NodesFull`
/// where a node was not made.
fn outlives<M: Make>(make: &mut M, ty: Ty, region: Region) -> Result<Clause, Stop>
{
    let vars = make.mk_vars(&[])?;
    make.mk_clause(Binder {
        vars,
        value: ClauseKind::TypeOutlives(ty, region),
    })
}

/// What the type has to fulfil so as to become the target, a `dyn` type: each of the bounds, in their order, that it is sized, and that it
/// outlives the region. It stops as `bound_requirements`.
fn dyn_requirements<M: Make>(
    alloc: Global,
    make: &mut M,
    ty: Ty,
    target: Ty,
    sized: TraitId,
) -> Result<Vec<(GoalSource, Clause)>, Stop>
{
    let (bounds, region) = dyn_parts(make.cx(), target);
    let mut requirements = bound_requirements(alloc, make, ty, bounds)?;
    let is_sized = meets_trait(make, sized, ty)?;
    let lives = outlives(make, ty, region)?;
    requirements.push((GoalSource::ImplWhereBound, is_sized))?;
    requirements.push((GoalSource::Misc, lives))?;
    Ok(requirements)
}

/// The candidate where the goal's self type unsizes to the target, a `dyn` type of which objects may be made. The trait is `Sized`.
///
/// `NoSolution` comes where the evaluator refuses; the stops are those of making nodes and lists, and the evaluator's. The state is left
/// alike the one before.
fn consider_dyn<E: EvalCtxt>(
    alloc: Global,
    ecx: &mut E,
    env: ParamEnv,
    predicate: TraitPredicate,
    target: Ty,
    sized: TraitId,
) -> Result<Candidate, NoSolutionOrStop>
{
    let ty = self_ty(ecx.cx(), predicate.trait_ref);
    let requirements = dyn_requirements(alloc, ecx, ty, target, sized)?;
    consider_requirements(ecx, env, requirements.as_slice())
}

/// Adds the candidate where the goal's self type unsizes to the target, a `dyn` type in normal form: it meets the bounds, is sized and
/// outlives the region. Nothing is added where `Sized` isn't declared or no object of the principal's trait may be made.
///
/// The stops are those of making nodes and lists, and the evaluator's. The state is left alike the one before.
pub(crate) fn unsize_to_dyn<E: EvalCtxt>(
    alloc: Global,
    ecx: &mut E,
    env: ParamEnv,
    predicate: TraitPredicate,
    target: Ty,
    candidates: &mut Vec<Candidate>,
) -> Result<(), Stop>
{
    recall_item_has_no_parameters(ecx.cx(), LangItem::Sized);
    let Some(sized) = ecx.cx().lang_item(LangItem::Sized) else {
        return Ok(());
    };
    if !is_dyn_compatible(ecx.cx(), target) {
        return Ok(());
    }
    let answer = consider_dyn(alloc, ecx, env, predicate, target, sized);
    push_considered(candidates, answer)
}
