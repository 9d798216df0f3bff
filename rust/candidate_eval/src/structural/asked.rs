// Made of `crates/candidate_eval/src/structural/asked.rt` by `bench/plain.py`: an edit of this file is lost.

//! What the cells of the tables are read from, kind by kind.


use kit::{eprintln, format, prelude::*, print, println, vec};
use crate::structural::Column;
use ir_context::decl::Cx;
use ir_trees::decl::Sizedness;
use ir_trees::ir::kinds::{AdtId, AliasId, AliasKind, AliasTy, Args, Binder, InferTy, Ty, TyKind};

/// What a cell asks about.
#[derive(Clone, Copy, Debug)]
pub(crate) enum Asked {
    /// It is refused.
    Refused,
    Nothing,
    /// The slice of bytes.
    Bytes,
    Type(Ty),
    Under(Binder<Ty>),
    /// All members of a list.
    Members(Args),
    LastMember(Args),
    FirstArgument(Args),
    /// The types of the fields of the data type, with these arguments.
    Fields(AdtId, Args),
    /// The type that has to be sized for it to be.
    Constraint(AdtId, Args, Sizedness),
    /// The type that the opaque type hides.
    Hidden(AliasId, Args),
}

fn owned_types(cx: &Cx, adt: AdtId, args: Args) -> Asked
{
    match cx.adt_flags(adt) {
        Some(flags) => if flags.phantom_data {
            Asked::FirstArgument(args)
        } else {
            Asked::Fields(adt, args)
        },
        None => Asked::Fields(adt, args),
    }
}

fn hidden_type(alias: AliasTy) -> Asked
{
    match alias.kind {
        AliasKind::Opaque => Asked::Hidden(alias.id, alias.args),
        AliasKind::Projection | AliasKind::Inherent | AliasKind::Free => Asked::Refused,
    }
}

/// The column of auto traits.
fn asked_for_auto_trait(cx: &Cx, kind: TyKind) -> Asked
{
    match kind {
        TyKind::Bool
        | TyKind::Char
        | TyKind::Int(_)
        | TyKind::Uint(_)
        | TyKind::Float(_)
        | TyKind::Never
        | TyKind::FnDef(_, _)
        | TyKind::FnPtr(_)
        | TyKind::Error => Asked::Nothing,
        TyKind::Str => Asked::Bytes,
        TyKind::Slice(ty) | TyKind::Array(ty, _) | TyKind::Pat(ty, _) => Asked::Type(ty),
        TyKind::RawPtr(ty, _) | TyKind::Ref(_, ty, _) => Asked::Type(ty),
        TyKind::Tuple(members) => Asked::Members(members),
        TyKind::Closure(_, args) => Asked::Type(args.upvars),
        TyKind::UnsafeBinder(inner) => Asked::Under(inner),
        TyKind::Foreign(_) => Asked::Nothing,
        TyKind::Adt(id, args) => owned_types(cx, id, args),
        TyKind::Alias(alias) => hidden_type(alias),
        TyKind::Dynamic(_, _)
        | TyKind::Param(_)
        | TyKind::Placeholder(_)
        | TyKind::Bound(_)
        | TyKind::Infer(_) => Asked::Refused,
    }
}

fn unsized_type(sizedness: Sizedness) -> Asked
{
    match sizedness {
        Sizedness::Sized => Asked::Refused,
        Sizedness::MetaSized => Asked::Nothing,
    }
}

/// The column of sizedness traits.
fn asked_for_sizedness_trait(sizedness: Sizedness, kind: TyKind) -> Asked
{
    match kind {
        TyKind::Bool
        | TyKind::Char
        | TyKind::Int(_)
        | TyKind::Uint(_)
        | TyKind::Float(_)
        | TyKind::Never
        | TyKind::FnDef(_, _)
        | TyKind::FnPtr(_)
        | TyKind::Error
        | TyKind::Infer(_) => Asked::Nothing,
        TyKind::Str | TyKind::Slice(_) | TyKind::Dynamic(_, _) => unsized_type(sizedness),
        TyKind::Array(_, _) | TyKind::Pat(_, _) | TyKind::RawPtr(_, _) | TyKind::Ref(_, _, _) =>
            Asked::Nothing,
        TyKind::Tuple(members) => Asked::LastMember(members),
        TyKind::Closure(_, _) => Asked::Nothing,
        TyKind::UnsafeBinder(inner) => Asked::Under(inner),
        TyKind::Foreign(_) => Asked::Refused,
        TyKind::Adt(id, args) => Asked::Constraint(id, args, sizedness),
        TyKind::Alias(_) | TyKind::Param(_) | TyKind::Placeholder(_) | TyKind::Bound(_) => {
            Asked::Refused
        }
    }
}

/// The column of `Copy`, `Clone` and `TrivialClone`.
fn asked_for_copy_clone_trait(kind: TyKind) -> Asked
{
    match kind {
        TyKind::FnDef(_, _) | TyKind::FnPtr(_) | TyKind::Error => Asked::Nothing,
        TyKind::Pat(ty, _) => Asked::Type(ty),
        TyKind::Tuple(members) => Asked::Members(members),
        TyKind::Closure(_, args) => Asked::Type(args.upvars),
        TyKind::Bool
        | TyKind::Char
        | TyKind::Int(_)
        | TyKind::Uint(_)
        | TyKind::Float(_)
        | TyKind::Never
        | TyKind::Str
        | TyKind::Slice(_)
        | TyKind::Dynamic(_, _)
        | TyKind::Array(_, _)
        | TyKind::RawPtr(_, _)
        | TyKind::Ref(_, _, _)
        | TyKind::UnsafeBinder(_)
        | TyKind::Foreign(_)
        | TyKind::Adt(_, _)
        | TyKind::Alias(_)
        | TyKind::Param(_)
        | TyKind::Placeholder(_)
        | TyKind::Bound(_)
        | TyKind::Infer(_) => Asked::Refused,
    }
}

fn dropped_types(cx: &Cx, adt: AdtId, args: Args) -> Asked
{
    match cx.adt_flags(adt) {
        Some(flags) => if flags.manually_drop {
            Asked::Nothing
        } else {
            Asked::Fields(adt, args)
        },
        None => Asked::Fields(adt, args),
    }
}

/// The column of `Destruct`, without what the type itself has to meet.
fn asked_for_destruct(cx: &Cx, kind: TyKind) -> Asked
{
    match kind {
        TyKind::Bool
        | TyKind::Char
        | TyKind::Int(_)
        | TyKind::Uint(_)
        | TyKind::Float(_)
        | TyKind::Never
        | TyKind::FnDef(_, _)
        | TyKind::FnPtr(_)
        | TyKind::Error
        | TyKind::Infer(_)
        | TyKind::Str => Asked::Nothing,
        TyKind::Slice(ty) | TyKind::Array(ty, _) | TyKind::Pat(ty, _) => Asked::Type(ty),
        TyKind::RawPtr(_, _) | TyKind::Ref(_, _, _) => Asked::Nothing,
        TyKind::Tuple(members) => Asked::Members(members),
        TyKind::Closure(_, args) => Asked::Type(args.upvars),
        TyKind::Adt(id, args) => dropped_types(cx, id, args),
        TyKind::Dynamic(_, _)
        | TyKind::UnsafeBinder(_)
        | TyKind::Foreign(_)
        | TyKind::Alias(_)
        | TyKind::Param(_)
        | TyKind::Placeholder(_)
        | TyKind::Bound(_) => Asked::Refused,
    }
}

/// What the column asks about, by the type's kind.
pub(crate) fn asked_for(cx: &Cx, column: Column, kind: TyKind) -> Asked
{
    match column {
        Column::Auto => asked_for_auto_trait(cx, kind),
        Column::Sizedness(sizedness) => asked_for_sizedness_trait(sizedness, kind),
        Column::CopyClone => asked_for_copy_clone_trait(kind),
        Column::Destruct => asked_for_destruct(cx, kind),
    }
}
