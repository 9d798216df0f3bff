// Made of `crates/candidate_assembly/src/trait_goals/bounds_met.rt` by `bench/plain.py`: an edit of this file is lost.

//! How the bounds of a `dyn` type are met by those of another: a bound by one of the source's own, or by a supertrait of its principal.


use kit::{eprintln, format, prelude::*, print, println, vec};
use crate::trait_goals::auto_traits::is_of_trait;
use candidate_eval::eval::binders::{enter_binder, instantiate_binder_with_infer};
use candidate_eval::eval::context::{EvalCtxt, ProbeKind};
use candidate_eval::eval::refusal::NoSolutionOrStop;
use ir_context::decl::Cx;
use ir_context::decl::make::{Build, Make};
use ir_trees::ir::kinds::{
    Args, AssocId, Binder, Clause, ClauseKind, ExistentialPredicate, GenericArg, ParamEnv, Pred,
    TraitId, TraitRef, Ty,
};
use ir_trees::ir::stop::Stop;
use ir_trees::ir::trees::Trees;
use kit::alloc::Global;

/// How a bound of the target is met.
#[derive(Clone, Copy, Debug, PartialEq, Eq)]
pub(crate) enum Meeting {
    /// In one way.
    Surely,
    /// In several ways, of which none is picked.
    Ambiguously,
}

/// The arguments, and a type after them.
///
/// `Stop::Memory` comes where a growth was refused, `Stop::NodesFull` where the list was not made, as by `mk_args`.
fn with_term<M: Make>(alloc: Global, make: &mut M, args: Args, term: Ty) -> Result<Args, Stop>
{
    let mut list = Vec::from_slice(alloc, make.cx().args(args))?;
    list.push(GenericArg::Ty(term))?;
    make.mk_args(list.as_slice())
}

/// The arguments of the bound and, where it says what an associated type is, that type after them; under the bound's binder. It stops as
/// `with_term` does.
fn bound_row<M: Make>(alloc: Global, make: &mut M, bound: Pred) -> Result<Binder<Args>, Stop>
{
    let bound = make.cx().pred(bound);
    let value = match bound.value {
        ExistentialPredicate::Trait(reference) => reference.args,
        ExistentialPredicate::Projection(said) => with_term(alloc, make, said.args, said.term)?,
        ExistentialPredicate::AutoTrait(_) => make.mk_args(&[])?,
    };
    Ok(Binder {
        vars: bound.vars,
        value,
    })
}

/// The arguments but for the first. It stops as `with_term` does.
fn without_self<M: Make>(alloc: Global, make: &mut M, args: Args) -> Result<Args, Stop>
{
    let list = Vec::from_slice(alloc, make.cx().args(args))?;
    match list.as_slice() {
        [_, rest @ ..] => make.mk_args(rest),
        [] => Ok(args),
    }
}

/// The principal's reference under its clause's binder, where it is of that trait.
fn principal_of(cx: &Cx, principal: Option<Clause>, of: TraitId) -> Option<Binder<TraitRef>>
{
    let clause = cx.clause(principal?);
    match clause.value {
        ClauseKind::Trait(predicate) if predicate.trait_ref.def_id.0 == of.0 => Some(Binder {
            vars: clause.vars,
            value: predicate.trait_ref,
        }),
        _ => None,
    }
}

/// The row of the source with fresh variables in the place of its binder's, after that of the target with placeholders of a fresh
/// universe in the place of its own.
///
/// It stops as `enter_binder` does; after a stop what was made stays.
fn open_rows<E: EvalCtxt>(
    alloc: Global,
    ecx: &mut E,
    source: Binder<Args>,
    target: Binder<Args>,
) -> Result<(Args, Args), Stop>
{
    let entered = enter_binder(alloc, ecx, target)?;
    let instance = instantiate_binder_with_infer(alloc, ecx, source)?;
    Ok((instance, entered))
}

/// Equates the row of the source, with fresh variables for its binder's, and that of the target, with placeholders for its own; and
/// evaluates what is pending.
///
/// `NoSolution` comes where the rows can't be equated, and where what is pending is refused; the stops are those of `open_rows`, and the
/// evaluator's. After an error variables and equations that were made stay.
fn equate_rows<E: EvalCtxt>(
    alloc: Global,
    ecx: &mut E,
    env: ParamEnv,
    source: Binder<Args>,
    target: Binder<Args>,
) -> Result<(), NoSolutionOrStop>
{
    let (instance, entered) = open_rows(alloc, ecx, source, target)?;
    ecx.eq_args(env, instance, entered)?;
    let _certainty = ecx.try_evaluate_added_goals()?;
    Ok(())
}

/// The rows of two bounds. It stops as `with_term` does.
fn bound_rows<M: Make>(
    alloc: Global,
    make: &mut M,
    source: Pred,
    target: Pred,
) -> Result<(Binder<Args>, Binder<Args>), Stop>
{
    let source = bound_row(alloc, make, source)?;
    let target = bound_row(alloc, make, target)?;
    Ok((source, target))
}

/// The row of a principal, without its self type, and that of a bound. It stops as `with_term` does.
fn principal_rows<M: Make>(
    alloc: Global,
    make: &mut M,
    principal: Binder<TraitRef>,
    target: Pred,
) -> Result<(Binder<Args>, Binder<Args>), Stop>
{
    let value = without_self(alloc, make, principal.value.args)?;
    let target = bound_row(alloc, make, target)?;
    let vars = principal.vars;
    Ok((Binder { vars, value }, target))
}

/// Equates the rows of two bounds, and evaluates what is pending; as `equate_rows`.
fn equate_bounds<E: EvalCtxt>(
    alloc: Global,
    ecx: &mut E,
    env: ParamEnv,
    source: Pred,
    target: Pred,
) -> Result<(), NoSolutionOrStop>
{
    let (source, target) = bound_rows(alloc, ecx, source, target)?;
    equate_rows(alloc, ecx, env, source, target)
}

/// Whether the rows of two bounds can be equated, and what is pending then isn't refused: by a probe. It stops as `equate_bounds` does.
fn bounds_meet<E: EvalCtxt>(
    alloc: Global,
    ecx: &mut E,
    env: ParamEnv,
    source: Pred,
    target: Pred,
) -> Result<bool, Stop>
{
    let probe = ecx.begin_probe(ProbeKind::Kept)?;
    let answer = equate_bounds(alloc, ecx, env, source, target);
    let _usages = ecx.end_probe(probe);
    match answer {
        Ok(()) => Ok(true),
        Err(NoSolutionOrStop::NoSolution) => Ok(false),
        Err(NoSolutionOrStop::Stop(stop)) => Err(stop),
    }
}

/// Whether the bound says which type that associated type is.
fn projects(cx: &Cx, bound: Pred, item: AssocId) -> bool
{
    match cx.pred(bound).value {
        ExistentialPredicate::Projection(said) => said.def_id.0 == item.0,
        _ => false,
    }
}

/// Those of the source's bounds that are about the associated type and whose rows meet that of the target's bound, in their order; each is
/// tried in a probe. It stops as `bounds_meet` does, and `Stop::Memory` comes where the list can't grow.
fn matching_bounds<E: EvalCtxt>(
    alloc: Global,
    ecx: &mut E,
    env: ParamEnv,
    sources: &[Pred],
    item: AssocId,
    target: Pred,
) -> Result<Vec<Pred>, Stop>
{
    let mut found = Vec::new(alloc);
    for source in sources {
        if !projects(ecx.cx(), *source, item) {
            continue;
        }
        if bounds_meet(alloc, ecx, env, *source, target)? {
            found.push(*source)?;
        }
    }
    Ok(found)
}

/// A bound of the target that says which type an associated type is: the only bound of the source that matches it is equated with it, and
/// what is pending is evaluated.
///
/// `NoSolution` comes where none matches, and where the only one is refused then; it stops as `matching_bounds` does. After an error
/// variables and equations that were made stay.
fn meet_projection<E: EvalCtxt>(
    alloc: Global,
    ecx: &mut E,
    env: ParamEnv,
    sources: &[Pred],
    item: AssocId,
    target: Pred,
) -> Result<Meeting, NoSolutionOrStop>
{
    let found = matching_bounds(alloc, ecx, env, sources, item, target)?;
    match found.as_slice() {
        [] => Err(NoSolutionOrStop::NoSolution),
        [only] => {
            equate_bounds(alloc, ecx, env, *only, target)?;
            Ok(Meeting::Surely)
        }
        _ => Ok(Meeting::Ambiguously),
    }
}

/// The target's principal: the source's is equated with it, if it is of the same trait, and what is pending is evaluated.
///
/// `NoSolution` comes where it is of another trait, where they can't be equated, and where what is pending is refused; the stops are those
/// of `equate_rows`. After an error variables and equations that were made stay.
fn meet_principal<E: EvalCtxt>(
    alloc: Global,
    ecx: &mut E,
    env: ParamEnv,
    principal: Option<Clause>,
    of: TraitId,
    target: Pred,
) -> Result<Meeting, NoSolutionOrStop>
{
    let Some(principal) = principal_of(ecx.cx(), principal, of) else {
        return Err(NoSolutionOrStop::NoSolution);
    };
    let (source, target) = principal_rows(alloc, ecx, principal, target)?;
    equate_rows(alloc, ecx, env, source, target)?;
    Ok(Meeting::Surely)
}

/// Whether the bound names that auto trait.
fn names_auto_trait(cx: &Cx, bound: Pred, of: TraitId) -> bool
{
    match cx.pred(bound).value {
        ExistentialPredicate::AutoTrait(named) => named.0 == of.0,
        _ => false,
    }
}

/// Whether one of the bounds names that auto trait.
pub(crate) fn is_auto_bound(cx: &Cx, bounds: &[Pred], of: TraitId) -> bool
{
    for bound in bounds {
        if names_auto_trait(cx, *bound, of) {
            return true;
        }
    }
    false
}

/// Whether one of the clauses speaks of that trait.
fn is_supertrait(cx: &Cx, supers: &[Clause], of: TraitId) -> bool
{
    for clause in supers {
        if is_of_trait(cx, *clause, of) {
            return true;
        }
    }
    false
}

/// Whether the trait is declared as an auto trait.
fn is_auto_trait(cx: &Cx, of: TraitId) -> bool
{
    match cx.trait_flags(of) {
        Some(flags) => flags.auto,
        None => false,
    }
}

/// Whether the source has the auto trait: one of its own bounds names it, or it is a supertrait of its principal.
fn has_auto_trait(cx: &Cx, sources: &[Pred], supers: &[Clause], of: TraitId) -> bool
{
    is_auto_bound(cx, sources, of) || is_auto_trait(cx, of) && is_supertrait(cx, supers, of)
}

/// One bound of the target, where the source has these bounds and its principal these supertraits, of which one is taken for the principal.
///
/// `NoSolution` comes where it isn't met; the stops are those of `meet_projection` and `meet_principal`. After an error variables and
/// equations that were made stay.
fn meet_bound<E: EvalCtxt>(
    alloc: Global,
    ecx: &mut E,
    env: ParamEnv,
    sources: &[Pred],
    supers: &[Clause],
    principal: Option<Clause>,
    target: Pred,
) -> Result<Meeting, NoSolutionOrStop>
{
    match ecx.cx().pred(target).value {
        ExistentialPredicate::Trait(reference) => {
            meet_principal(alloc, ecx, env, principal, reference.def_id, target)
        }
        ExistentialPredicate::Projection(said) => {
            meet_projection(alloc, ecx, env, sources, said.def_id, target)
        }
        ExistentialPredicate::AutoTrait(of) => {
            if has_auto_trait(ecx.cx(), sources, supers, of) {
                Ok(Meeting::Surely)
            } else {
                Err(NoSolutionOrStop::NoSolution)
            }
        }
    }
}

/// All bounds of the target, in their order, as `meet_bound` does each: it ends at the first that is met in several ways.
///
/// `NoSolution` comes at the first that isn't met; it stops as `meet_bound` does. After an error variables and equations that were made
/// stay.
pub(crate) fn meet_bounds<E: EvalCtxt>(
    alloc: Global,
    ecx: &mut E,
    env: ParamEnv,
    sources: &[Pred],
    supers: &[Clause],
    principal: Option<Clause>,
    targets: &[Pred],
) -> Result<Meeting, NoSolutionOrStop>
{
    for target in targets {
        match meet_bound(alloc, ecx, env, sources, supers, principal, *target)? {
            Meeting::Surely => {}
            Meeting::Ambiguously => return Ok(Meeting::Ambiguously),
        }
    }
    Ok(Meeting::Surely)
}
