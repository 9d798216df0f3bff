// Made of `crates/candidate_eval/src/objects/replacing.rt` by `bench/plain.py`: an edit of this file is lost.

//! What an object has to fulfil, where its own bounds say what its associated types are.


use kit::{eprintln, format, prelude::*, print, println, vec};
use crate::eval::context::EvalCtxt;
use crate::objects::object::{AmbiguousOrStop, bound_about, pick_bound};
use crate::structural::making::first_type;
use ir_context::decl::Cx;
use ir_context::decl::make::Make;
use ir_folds::decl::fold::fold;
use ir_trees::ir::heads::Flag;
use ir_trees::ir::kinds::{
    AliasKind, AliasTerm, AliasTy, Args, AssocId, Clause, GenericArg, ParamEnv, Ty, TyKind,
};
use ir_trees::ir::stop::Stop;
use ir_trees::ir::trees::Trees;
use kit::alloc::Global;

/// How many projections of an object's own a clause may have. Types share their parts, so that a short one can have more than can be listed.
const MAX_OWN_PROJECTIONS: usize = 1_024;

/// Whether the bound is about the associated type.
fn is_about(cx: &Cx, bound: Clause, item: AssocId) -> bool
{
    bound_about(cx, bound, item).is_some()
}

/// Whether one of the bounds is about the associated type.
fn any_is_about(cx: &Cx, bounds: &[Clause], item: AssocId) -> bool
{
    for bound in bounds {
        if is_about(cx, *bound, item) {
            return true;
        }
    }
    false
}

/// Whether the first of the arguments is that type.
fn starts_with(cx: &Cx, args: Args, ty: Ty) -> bool
{
    match first_type(cx.args(args)) {
        Some(first) => cx.same(first, ty),
        None => false,
    }
}

/// The associated type with its arguments, where the alias is of one.
fn projection_of(alias: AliasTy) -> Option<AliasTerm>
{
    match alias.kind {
        AliasKind::Projection => Some(AliasTerm {
            def_id: AssocId(alias.id.0),
            args: alias.args,
        }),
        AliasKind::Inherent | AliasKind::Opaque | AliasKind::Free => None,
    }
}

/// The alias that the type is.
fn alias_in(kind: TyKind) -> Option<AliasTy>
{
    match kind {
        TyKind::Alias(alias) => Some(alias),
        _ => None,
    }
}

/// Whether the projection is of the object's own type, and one of the bounds is about its associated type.
fn is_own(cx: &Cx, object: Ty, bounds: &[Clause], projection: AliasTerm) -> bool
{
    starts_with(cx, projection.args, object) && any_is_about(cx, bounds, projection.def_id)
}

/// The projection that the argument is: of the object's own type, where one of the bounds is about its associated type.
fn own_projection(cx: &Cx, object: Ty, bounds: &[Clause], arg: GenericArg) -> Option<AliasTerm>
{
    let GenericArg::Ty(ty) = arg else {
        return None;
    };
    let alias = alias_in(cx.kind(ty))?;
    let projection = projection_of(alias)?;
    if is_own(cx, object, bounds, projection) {
        Some(projection)
    } else {
        None
    }
}

/// The projection of the object's own type that a number stands for, as `own_projection` has it: what is no type is none.
fn own_projection_at(cx: &Cx, object: Ty, bounds: &[Clause], number: u32) -> Option<AliasTerm>
{
    own_projection(cx, object, bounds, cx.argument(number)?)
}

/// Adds a projection of the object's own. `Stop::Memory` comes where the list can't grow, or has as many as it may have.
fn push_own(found: &mut Vec<AliasTerm>, projection: AliasTerm) -> Result<(), Stop>
{
    if found.len() >= MAX_OWN_PROJECTIONS {
        return Err(Stop::Memory);
    }
    push(found, projection)
}

/// Adds the projections of the object's own below a number, in their order; where no alias stands there is none. `Stop::Memory` comes where
/// the list can't grow or there are more than 1,024, `Stop::NodesFull` where there are more children than can be counted.
fn push_projections(
    cx: &Cx,
    object: Ty,
    bounds: &[Clause],
    found: &mut Vec<AliasTerm>,
    number: u32,
) -> Result<(), Stop>
{
    if !cx.marks(number).has(Flag::Alias) {
        return Ok(());
    }
    for place in 0..usize::MAX {
        let Some(child) = cx.child(number, place) else {
            return Ok(());
        };
        match own_projection_at(cx, object, bounds, child) {
            Some(projection) => push_own(found, projection)?,
            None => push_projections(cx, object, bounds, found, child)?,
        }
    }
    Err(Stop::NodesFull)
}

/// The projections of the object's own in a clause, in their order; it stops as `push_projections` does.
fn own_projections(
    alloc: Global,
    cx: &Cx,
    object: Ty,
    bounds: &[Clause],
    clause: Clause,
) -> Result<Vec<AliasTerm>, Stop>
{
    let mut found = Vec::new(alloc);
    push_projections(cx, object, bounds, &mut found, clause.0)?;
    Ok(found)
}

/// Puts an item at a list's end. The only stop is `Stop::Memory`.
fn push<T: Copy>(list: &mut Vec<T>, item: T) -> Result<(), Stop>
{
    list.push(item)?;
    Ok(())
}

/// The terms that the bounds give for the projections, one after the other, by `pick_bound`; what is said of its errors holds
/// here, too.
fn pick_all<E: EvalCtxt>(
    alloc: Global,
    ecx: &mut E,
    env: ParamEnv,
    bounds: &[Clause],
    projections: &[AliasTerm],
) -> Result<Vec<Ty>, AmbiguousOrStop>
{
    let mut terms = Vec::new(alloc);
    for projection in projections {
        let term = pick_bound(alloc, ecx, env, bounds, *projection)?;
        push(&mut terms, term)?;
    }
    Ok(terms)
}

/// The first of the terms, which is then left out, if there is one.
fn split_term(terms: &mut &[Ty]) -> Option<Ty>
{
    let (first, left) = terms.split_first()?;
    *terms = left;
    Some(*first)
}

/// What stands for the argument: for a projection of the object's own the next of the terms, which is then left out. Where no term
/// is left it stays.
fn next_term(
    cx: &Cx,
    object: Ty,
    bounds: &[Clause],
    terms: &mut &[Ty],
    arg: GenericArg,
) -> Option<GenericArg>
{
    if own_projection(cx, object, bounds, arg).is_none() {
        return None;
    }
    match split_term(terms) {
        Some(term) => Some(GenericArg::Ty(term)),
        None => Some(arg),
    }
}

/// The clause with the terms in the place of the projections of the object's own, in their order.
///
/// `Stop::Memory` comes where a growth was refused, `Stop::NodesFull` where no numbers are left, or the clause would be higher than
/// 1,024. After a stop the nodes that were made stay.
fn fill<M: Make>(
    alloc: Global,
    make: &mut M,
    object: Ty,
    bounds: &[Clause],
    clause: Clause,
    terms: &[Ty],
) -> Result<Clause, Stop>
{
    if terms.is_empty() {
        return Ok(clause);
    }
    let mut left = terms;
    fold(
        alloc,
        make,
        clause,
        move |make: &mut M, arg: GenericArg, _: u32| -> Result<Option<GenericArg>, Stop>
        { Ok(next_term(make.cx(), object, bounds, &mut left, arg)) },
    )
}

/// The clause with what the bounds say in the place of each projection of the object's own.
///
/// `Ambiguous` comes as it comes of `pick_bound`. It stops as `pick_bound` does, and `Stop::Memory` comes where a list can't grow,
/// `Stop::NodesFull` where the clause is not made, too. After an error what was equated before stays.
fn replaced_clause<E: EvalCtxt>(
    alloc: Global,
    ecx: &mut E,
    env: ParamEnv,
    object: Ty,
    bounds: &[Clause],
    clause: Clause,
) -> Result<Clause, AmbiguousOrStop>
{
    let projections = own_projections(alloc, ecx.cx(), object, bounds, clause)?;
    let terms = pick_all(alloc, ecx, env, bounds, projections.as_slice())?;
    Ok(fill(alloc, ecx, object, bounds, clause, terms.as_slice())?)
}

/// The clauses, one after the other, with what the bounds say in the place of each projection of the object's own; what is said
/// of the errors of `replaced_clause` holds here, too.
pub(crate) fn replaced<E: EvalCtxt>(
    alloc: Global,
    ecx: &mut E,
    env: ParamEnv,
    object: Ty,
    bounds: &[Clause],
    clauses: &[Clause],
) -> Result<Vec<Clause>, AmbiguousOrStop>
{
    let mut list = Vec::new(alloc);
    for clause in clauses {
        let made = replaced_clause(alloc, ecx, env, object, bounds, *clause)?;
        push(&mut list, made)?;
    }
    Ok(list)
}
