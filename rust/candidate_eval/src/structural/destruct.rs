// Made of `crates/candidate_eval/src/structural/destruct.rt` by `bench/plain.py`: an edit of this file is lost.

//! What has to hold for a value of a type to be dropped where a constant is computed.


use kit::{eprintln, format, prelude::*, print, println, vec};
use crate::eval::refusal::NoSolutionOrStop;
use crate::structural::Column;
use crate::structural::making::made;
use crate::structural::tables::{cell, is_refused as is_refused_cell};
use ir_context::decl::Cx;
use ir_context::decl::make::Make;
use ir_trees::decl::{Destructor, LangItem};
use ir_trees::ir::kinds::{GenericArg, TraitId, TraitRef, Ty, TyKind};
use ir_trees::ir::stop::Stop;
use ir_trees::ir::trees::Trees;
use kit::alloc::Global;

/// What a type itself has to meet.
#[derive(Clone, Copy, Debug)]
pub(crate) enum OwnDrop {
    Nothing,
    /// It has a destructor that constants can't run, or the trait of destructors isn't declared.
    Refused,
    /// This trait, of destructors.
    Drop(TraitId),
}

/// The destructor that a type has of its own, and that is run.
fn destructor_of(cx: &Cx, kind: TyKind) -> Option<Destructor>
{
    match kind {
        TyKind::Adt(id, _) => match cx.adt_flags(id) {
            Some(flags) => if flags.manually_drop {
                None
            } else {
                cx.destructor(id)
            },
            None => cx.destructor(id),
        },
        _ => None,
    }
}

fn own_drop(cx: &Cx, destructor: Option<Destructor>) -> OwnDrop
{
    match destructor {
        None => OwnDrop::Nothing,
        Some(Destructor::NotConst) => OwnDrop::Refused,
        Some(Destructor::Const) => match cx.lang_item(LangItem::Drop) {
            Some(of) => OwnDrop::Drop(of),
            None => OwnDrop::Refused,
        },
    }
}

fn is_refused(own: OwnDrop) -> bool
{
    matches!(own, OwnDrop::Refused)
}

/// What the type itself has to meet.
fn own_condition(cx: &Cx, ty: Ty) -> OwnDrop
{
    own_drop(cx, destructor_of(cx, cx.kind(ty)))
}

/// Adds that the trait holds of the type.
fn push_condition<M: Make>(
    make: &mut M,
    conditions: &mut Vec<TraitRef>,
    of: TraitId,
    ty: Ty,
) -> Result<(), Stop>
{
    let args = make.mk_args(&[GenericArg::Ty(ty)])?;
    conditions.push(TraitRef { def_id: of, args })?;
    Ok(())
}

/// That the trait holds of each of the types, in order.
fn push_conditions<M: Make>(
    make: &mut M,
    conditions: &mut Vec<TraitRef>,
    of: TraitId,
    types: &[Ty],
) -> Result<(), Stop>
{
    for ty in types {
        push_condition(make, conditions, of, *ty)?;
    }
    Ok(())
}

/// Adds what the type itself has to meet.
fn push_own<M: Make>(
    make: &mut M,
    conditions: &mut Vec<TraitRef>,
    ty: Ty,
    own: OwnDrop,
) -> Result<(), Stop>
{
    match own {
        OwnDrop::Drop(of) => {
            push_condition(make, conditions, of, ty)?;
            Ok(())
        }
        OwnDrop::Nothing | OwnDrop::Refused => Ok(()),
    }
}

/// That the trait holds of each of the types, and what the type itself has to meet.
fn all_conditions<M: Make>(
    alloc: Global,
    make: &mut M,
    of: TraitId,
    types: &[Ty],
    ty: Ty,
    own: OwnDrop,
) -> Result<Vec<TraitRef>, Stop>
{
    let mut conditions = Vec::new(alloc);
    push_conditions(make, &mut conditions, of, types)?;
    push_own(make, &mut conditions, ty, own)?;
    Ok(conditions)
}

/// What has to hold for a value of the type to be dropped where a constant is computed: that all types
/// that are dropped with it are `Destruct`, and then, where it has a destructor that constants can run,
/// that it is `Drop`.
///
/// No general variable and no bound type is asked about (`has_cell`). `NoSolution` comes where the table refuses the type, where its destructor is none that constants
/// can run, and where a trait that is needed isn't declared. `Stop::Memory` comes where a growth was
/// refused, `Stop::NodesFull` where a type or its reference was not made, as by `subst`; after a stop the
/// nodes that were made stay.
pub fn const_conditions_for_destruct<M: Make>(
    alloc: Global,
    make: &mut M,
    ty: Ty,
) -> Result<Vec<TraitRef>, NoSolutionOrStop>
{
    debug_assert!(ir_trees::checks::is_sorted(ir_context::decl::make::Make::cx(&*make), ty), "candidate_eval::structural::destruct::const_conditions_for_destruct: `ty` is {:?}, no number of its sort in this context", ty);
    let asked = cell(make.cx(), Column::Destruct, ty);
    let own = own_condition(make.cx(), ty);
    let of = match make.cx().lang_item(LangItem::Destruct) {
        Some(of) => of,
        None => return Err(NoSolutionOrStop::NoSolution),
    };
    if is_refused_cell(asked) {
        return Err(NoSolutionOrStop::NoSolution);
    }
    if is_refused(own) {
        return Err(NoSolutionOrStop::NoSolution);
    }
    let types = made(alloc, make, asked)?;
    let conditions = all_conditions(alloc, make, of, types.as_slice(), ty, own)?;
    Ok(conditions)
}
