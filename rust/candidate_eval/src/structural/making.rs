// Made of `crates/candidate_eval/src/structural/making.rt` by `bench/plain.py`: an edit of this file is lost.

//! The types that a cell asks about.


use kit::{eprintln, format, prelude::*, print, println, vec};
use crate::structural::asked::Asked;
use ir_context::decl::Cx;
use ir_context::decl::make::Make;
use ir_folds::decl::subst::subst;
use ir_trees::ir::kinds::{Args, GenericArg, Ty, TyKind, UintTy};
use ir_trees::ir::stop::Stop;
use ir_trees::ir::trees::Trees;
use kit::alloc::{AllocError, Global};

/// The types among the arguments, in order.
fn types_among(alloc: Global, list: &[GenericArg]) -> Result<Vec<Ty>, AllocError>
{
    let mut types = Vec::new(alloc);
    for arg in list {
        let GenericArg::Ty(ty) = *arg else { continue };
        types.push(ty)?;
    }
    Ok(types)
}

/// The last type among the arguments, if there is one.
fn last_type(list: &[GenericArg]) -> Option<Ty>
{
    let mut last = None;
    for arg in list {
        let GenericArg::Ty(ty) = *arg else { continue };
        last = Some(ty);
    }
    last
}

/// The first argument, if it is a type.
pub(crate) fn first_type(list: &[GenericArg]) -> Option<Ty>
{
    match list {
        [GenericArg::Ty(ty), ..] => Some(*ty),
        _ => None,
    }
}

/// The type alone, or none.
fn at_most_one(alloc: Global, ty: Option<Ty>) -> Result<Vec<Ty>, AllocError>
{
    let mut types = Vec::new(alloc);
    if let Some(ty) = ty {
        types.push(ty)?;
    }
    Ok(types)
}

/// The types that are there, as they stand in a type or are declared: no type is made.
fn listed(alloc: Global, cx: &Cx, asked: Asked) -> Result<Vec<Ty>, AllocError>
{
    match asked {
        Asked::Type(ty) => at_most_one(alloc, Some(ty)),
        Asked::Under(inner) => at_most_one(alloc, Some(inner.value)),
        Asked::Members(list) => types_among(alloc, cx.args(list)),
        Asked::LastMember(list) => at_most_one(alloc, last_type(cx.args(list))),
        Asked::FirstArgument(list) => at_most_one(alloc, first_type(cx.args(list))),
        Asked::Fields(adt, args) => Vec::from_slice(alloc, cx.fields_of(adt, args)),
        Asked::Constraint(adt, args, sizedness) => {
            at_most_one(alloc, cx.constraint_of(adt, args, sizedness))
        }
        Asked::Hidden(opaque, args) => at_most_one(alloc, cx.hidden_type_of(opaque, args)),
        Asked::Refused | Asked::Nothing | Asked::Bytes => at_most_one(alloc, None),
    }
}

/// The arguments that are put into what is declared.
fn arguments(asked: Asked) -> Option<Args>
{
    match asked {
        Asked::Fields(_, args) | Asked::Constraint(_, args, _) | Asked::Hidden(_, args) => {
            Some(args)
        }
        _ => None,
    }
}

/// The types with the arguments put in, in order.
fn substituted<M: Make>(
    alloc: Global,
    make: &mut M,
    declared: &[Ty],
    args: Args,
) -> Result<Vec<Ty>, Stop>
{
    let mut types = Vec::new(alloc);
    for ty in declared {
        let ty = subst(alloc, make, *ty, args)?;
        types.push(ty)?;
    }
    Ok(types)
}

/// The slice of bytes alone.
fn byte_slice<M: Make>(alloc: Global, make: &mut M) -> Result<Vec<Ty>, Stop>
{
    let byte = make.mk_ty(TyKind::Uint(UintTy::U8))?;
    let slice = make.mk_ty(TyKind::Slice(byte))?;
    Ok(at_most_one(alloc, Some(slice))?)
}

/// The types that are asked about.
pub(crate) fn made<M: Make>(alloc: Global, make: &mut M, asked: Asked) -> Result<Vec<Ty>, Stop>
{
    if let Asked::Bytes = asked {
        return byte_slice(alloc, make);
    }
    let types = listed(alloc, make.cx(), asked)?;
    match arguments(asked) {
        Some(args) => substituted(alloc, make, types.as_slice(), args),
        None => Ok(types),
    }
}
