// Made of `crates/candidate_eval/src/coherence/table.rt` by `bench/plain.py`: an edit of this file is lost.

//! How the orphan check takes a view: as an item of a class, or by a walk below it.


use kit::{eprintln, format, prelude::*, print, println, vec};
use crate::coherence::{InCrate, OrphanCheckMode};
use ir_context::decl::Cx;
use ir_trees::ir::heads::Flag;
use ir_trees::ir::kinds::{AdtId, AliasKind, Args, Pattern, Preds, Ty, TyKind};
use ir_trees::ir::trees::Trees;

/// The classes of the items of a frontier.
#[derive(Clone, Copy, Debug)]
pub enum ViewClass {
    NonLocal,
    Skipped,
    Local,
    Uncovered,
    /// It can't be named in a header.
    Unnameable,
}

/// A view as the walk takes it.
#[derive(Clone, Copy, Debug)]
pub enum Shape {
    Item(ViewClass),
    /// The walk goes on with this type.
    Target(Ty),
    /// The walk goes on with the types among these arguments.
    Arguments(Args),
}

fn loose_class(in_crate: InCrate) -> ViewClass
{
    match in_crate {
        InCrate::Local { .. } => ViewClass::Uncovered,
        InCrate::Remote => ViewClass::Local,
    }
}

fn loose_alias_class(in_crate: InCrate, kind: AliasKind) -> ViewClass
{
    match (kind, in_crate) {
        (
            AliasKind::Projection,
            InCrate::Local {
                mode: OrphanCheckMode::Compat,
            },
        ) => { ViewClass::Skipped }
        _ => loose_class(in_crate),
    }
}

fn owned_class(is_local: bool) -> ViewClass
{
    if is_local {
        ViewClass::Local
    } else {
        ViewClass::NonLocal
    }
}

/// Whether the definition of that number is of a crate that the check is for.
fn passes(cx: &Cx, in_crate: InCrate, definition: u32) -> bool
{
    match in_crate {
        InCrate::Local { .. } => cx.is_local(definition),
        InCrate::Remote => false,
    }
}

fn shape_of_adt(cx: &Cx, in_crate: InCrate, id: AdtId, args: Args) -> Shape
{
    if passes(cx, in_crate, id.0) {
        Shape::Item(ViewClass::Local)
    } else if cx.is_fundamental(id.0) {
        Shape::Arguments(args)
    } else {
        Shape::Item(ViewClass::NonLocal) // whatever its arguments are
    }
}

fn principal_class(cx: &Cx, in_crate: InCrate, preds: Preds) -> ViewClass
{
    match cx.principal(preds) {
        Some(id) => owned_class(passes(cx, in_crate, id.0)),
        None => ViewClass::NonLocal,
    }
}

/// Whether a type variable, a type placeholder or a bound type stands in the type.
fn has_loose(cx: &Cx, ty: Ty) -> bool
{
    cx.has(ty, Flag::TyInfer) || cx.has(ty, Flag::TyPlaceholder) || cx.has(ty, Flag::TyBound)
}

/// The shape of a view of that kind.
fn shape_of_kind(cx: &Cx, in_crate: InCrate, ty: Ty, kind: TyKind) -> Shape
{
    match kind {
        TyKind::Bool
        | TyKind::Char
        | TyKind::Int(_)
        | TyKind::Uint(_)
        | TyKind::Float(_)
        | TyKind::Str
        | TyKind::Never
        | TyKind::Array(_, _)
        | TyKind::Slice(_)
        | TyKind::RawPtr(_, _)
        | TyKind::FnPtr(_)
        | TyKind::UnsafeBinder(_)
        | TyKind::Tuple(_) => Shape::Item(ViewClass::NonLocal),
        TyKind::Pat(_, Pattern::NotNull) | TyKind::Pat(_, Pattern::Range(_, _)) => {
            Shape::Item(ViewClass::NonLocal)
        }
        TyKind::Adt(id, args) => shape_of_adt(cx, in_crate, id, args),
        TyKind::Foreign(id) => Shape::Item(owned_class(passes(cx, in_crate, id.0))),
        TyKind::Dynamic(preds, _) => Shape::Item(principal_class(cx, in_crate, preds)),
        TyKind::Ref(_, target, _) => Shape::Target(target),
        TyKind::Alias(alias) => if has_loose(cx, ty) {
            Shape::Item(loose_alias_class(in_crate, alias.kind))
        } else {
            Shape::Item(ViewClass::NonLocal)
        },
        TyKind::Placeholder(_) | TyKind::Bound(_) | TyKind::Infer(_) => {
            Shape::Item(loose_class(in_crate))
        }
        TyKind::Error => Shape::Item(ViewClass::Local),
        TyKind::FnDef(_, _) | TyKind::Closure(_, _) | TyKind::Param(_) => {
            Shape::Item(ViewClass::Unnameable)
        }
    }
}

/// The shape of a view.
pub(crate) fn shape_of(cx: &Cx, in_crate: InCrate, ty: Ty) -> Shape
{
    shape_of_kind(cx, in_crate, ty, cx.kind(ty))
}
