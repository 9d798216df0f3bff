// Made of `crates/candidate_eval/src/structural/tables.rt` by `bench/plain.py`: an edit of this file is lost.

//! The columns of the tables as calls.


use kit::{eprintln, format, prelude::*, print, println, vec};
use crate::eval::refusal::NoSolutionOrStop;
use crate::structural::asked::{Asked, asked_for};
use crate::structural::making::made;
use crate::structural::{Column, Constituents, Under};
use ir_context::decl::Cx;
use ir_context::decl::make::Make;
use ir_trees::decl::Sizedness;
use ir_trees::ir::kinds::{AliasKind, InferTy, Ty, TyKind};
use ir_trees::ir::stop::Stop;
use ir_trees::ir::trees::Trees;
use kit::alloc::Global;

/// The kind of the type, whose arguments are those that it takes.
pub(crate) fn kind_of(cx: &Cx, ty: Ty) -> TyKind
{
    cx.recall_well_formed();
    cx.kind(ty)
}

/// What the column asks about.
pub(crate) fn cell(cx: &Cx, column: Column, ty: Ty) -> Asked
{
    asked_for(cx, column, kind_of(cx, ty))
}

fn under(asked: Asked) -> Under
{
    match asked {
        Asked::Under(inner) => Under::Binder(inner.vars),
        _ => Under::NoBinder,
    }
}

pub(crate) fn is_refused(asked: Asked) -> bool
{
    matches!(asked, Asked::Refused)
}

/// The types that the column asks about, under their binder.
pub fn constituents<M: Make>(
    alloc: Global,
    make: &mut M,
    column: Column,
    ty: Ty,
) -> Result<Constituents, NoSolutionOrStop>
{
    debug_assert!(ir_trees::checks::is_sorted(ir_context::decl::make::Make::cx(&*make), ty), "candidate_eval::structural::tables::constituents: `ty` is {:?}, no number of its sort in this context", ty);
    let asked = cell(make.cx(), column, ty);
    if is_refused(asked) {
        return Err(NoSolutionOrStop::NoSolution);
    }
    let types = made(alloc, make, asked)?;
    Ok(Constituents {
        under: under(asked),
        types,
    })
}

/// The types that have to meet an auto trait for the type to.
///
/// No integer, float or general variable, no `dyn` type, no parameter, placeholder or bound type, and
/// no alias but an opaque type is asked about (`has_cell`). It is never refused.
/// `Stop::Memory` comes where a growth was refused, `Stop::NodesFull` where one of the types was not
/// made, as by `subst`; after a stop the nodes that were made stay.
pub fn instantiate_constituent_tys_for_auto_trait<M: Make>(
    alloc: Global,
    make: &mut M,
    ty: Ty,
) -> Result<Constituents, NoSolutionOrStop>
{
    debug_assert!(ir_trees::checks::is_sorted(ir_context::decl::make::Make::cx(&*make), ty), "candidate_eval::structural::tables::instantiate_constituent_tys_for_auto_trait: `ty` is {:?}, no number of its sort in this context", ty);
    constituents(alloc, make, Column::Auto, ty)
}

/// The types that have to be sized, in this sense, for the type to be.
///
/// No general variable and no bound type is asked about (`has_cell`). `NoSolution`
/// comes where the type is never sized, or not known to be: foreign types, aliases, parameters and
/// placeholders, and for `Sized` also `str`, slices and `dyn` types. It stops as the call for auto
/// traits does.
pub fn instantiate_constituent_tys_for_sizedness_trait<M: Make>(
    alloc: Global,
    make: &mut M,
    sizedness: Sizedness,
    ty: Ty,
) -> Result<Constituents, NoSolutionOrStop>
{
    debug_assert!(ir_trees::checks::is_sorted(ir_context::decl::make::Make::cx(&*make), ty), "candidate_eval::structural::tables::instantiate_constituent_tys_for_sizedness_trait: `ty` is {:?}, no number of its sort in this context", ty);
    constituents(alloc, make, Column::Sizedness(sizedness), ty)
}

/// The types that have to be `Copy`, `Clone` or `TrivialClone` for the type to be, by the rule that
/// the language has for it.
///
/// No general variable and no bound type is asked about (`has_cell`). `NoSolution`
/// comes where no rule is built in for the type. It stops as the call for auto traits does.
pub fn instantiate_constituent_tys_for_copy_clone_trait<M: Make>(
    alloc: Global,
    make: &mut M,
    ty: Ty,
) -> Result<Constituents, NoSolutionOrStop>
{
    debug_assert!(ir_trees::checks::is_sorted(ir_context::decl::make::Make::cx(&*make), ty), "candidate_eval::structural::tables::instantiate_constituent_tys_for_copy_clone_trait: `ty` is {:?}, no number of its sort in this context", ty);
    constituents(alloc, make, Column::CopyClone, ty)
}

fn has_auto_trait_kind(kind: TyKind) -> bool
{
    match kind {
        TyKind::Alias(alias) => matches!(alias.kind, AliasKind::Opaque),
        TyKind::Dynamic(_, _)
        | TyKind::Param(_)
        | TyKind::Placeholder(_)
        | TyKind::Bound(_)
        | TyKind::Infer(_) => false,
        _ => true,
    }
}

pub(crate) fn is_no_unknown(kind: TyKind) -> bool
{
    !matches!(kind, TyKind::Bound(_) | TyKind::Infer(InferTy::TyVar(_)))
}

/// Whether the column asks about the type: for which types the call of the column may be made, as
/// `instantiate_constituent_tys_for_auto_trait` and its like, or `const_conditions_for_destruct`.
pub fn has_cell(cx: &Cx, column: Column, ty: Ty) -> bool
{
    debug_assert!(ir_trees::checks::is_sorted(&*cx, ty), "candidate_eval::structural::tables::has_cell: `ty` is {:?}, no number of its sort in this context", ty);
    let kind = cx.kind(ty);
    match column {
        Column::Auto => has_auto_trait_kind(kind),
        Column::Sizedness(_) | Column::CopyClone | Column::Destruct => is_no_unknown(kind),
    }
}
