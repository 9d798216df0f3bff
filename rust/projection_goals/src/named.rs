// Made of `crates/projection_goals/src/named.rt` by `bench/plain.py`: an edit of this file is lost.

//! Types that the rules of the language name, and what they say of a type by its head.


use kit::{eprintln, format, prelude::*, print, println, vec};
use ir_context::decl::Cx;
use ir_context::decl::make::{Build, Make};
use ir_trees::decl::definition::AdtShape;
use ir_trees::ir::heads::{Builtin, Head, VariableSort};
use ir_trees::ir::kinds::{Ty, TyKind, UintTy};
use ir_trees::ir::stop::Stop;
use ir_trees::ir::trees::Trees;

/// A type that the rules of the language name.
#[derive(Clone, Copy, Debug)]
pub enum NamedType {
    Error,
    Unit,
    Usize,
    U8,
}

impl NamedType {
    /// The type. `Stop::Memory` comes where a growth was refused, `Stop::NodesFull` where a node was not made.
    pub(crate) fn ty<M: Make>(self, make: &mut M) -> Result<Ty, Stop>
    {
        match self {
            NamedType::Error => make.mk_ty(TyKind::Error),
            NamedType::Unit => unit(make),
            NamedType::Usize => make.mk_ty(TyKind::Uint(UintTy::Usize)),
            NamedType::U8 => make.mk_ty(TyKind::Uint(UintTy::U8)),
        }
    }
}

/// The tuple of no types.
fn unit<M: Make>(make: &mut M) -> Result<Ty, Stop>
{
    let none = make.mk_args(&[])?;
    make.mk_ty(TyKind::Tuple(none))
}

/// The type, where the variable stands for an integer or a floating-point type.
fn if_numeric(sort: VariableSort, named: NamedType) -> Option<NamedType>
{
    match sort {
        VariableSort::Integer | VariableSort::Floating => Some(named),
        VariableSort::General | VariableSort::Constant => None,
    }
}

/// Whether the type holds no other.
fn holds_nothing(cx: &Cx, ty: Ty) -> bool
{
    cx.child(ty.0, 0).is_none()
}

/// The metadata of pointers to a type that no definition makes, where it is known; and whether the type holds no other.
fn metadata_of_builtin(builtin: Builtin, empty: bool) -> Option<NamedType>
{
    match builtin {
        Builtin::Str | Builtin::Slice => Some(NamedType::Usize),
        Builtin::Tuple if !empty => None,
        Builtin::UnsafeBinder => None,
        _ => Some(NamedType::Unit),
    }
}

/// The metadata of pointers to a data type, where it is known.
fn metadata_of_shape(shape: Option<AdtShape>) -> Option<NamedType>
{
    match shape {
        Some(AdtShape::Enum | AdtShape::Union) => Some(NamedType::Unit),
        Some(AdtShape::Struct) | None => None,
    }
}

/// The metadata of pointers to the type, where it is known.
pub(crate) fn metadata(cx: &Cx, ty: Ty) -> Option<NamedType>
{
    match cx.head(ty.0) {
        Head::Builtin(builtin) => metadata_of_builtin(builtin, holds_nothing(cx, ty)),
        Head::Adt(adt) => metadata_of_shape(cx.adt_shape(adt)),
        Head::Ref(_) | Head::Foreign(_) | Head::FnDef(_) | Head::Closure(_, _) => {
            Some(NamedType::Unit)
        }
        Head::Infer(variable) => if_numeric(variable.sort, NamedType::Unit),
        _ => None,
    }
}

/// The type of the discriminant of a type that no definition makes, where it is known.
fn discriminant_of_builtin(builtin: Builtin) -> Option<NamedType>
{
    match builtin {
        Builtin::UnsafeBinder => None,
        _ => Some(NamedType::U8),
    }
}

/// The type of the discriminant of a data type, where it is known.
fn discriminant_of_shape(shape: Option<AdtShape>) -> Option<NamedType>
{
    match shape {
        Some(AdtShape::Struct | AdtShape::Union) => Some(NamedType::U8),
        Some(AdtShape::Enum) | None => None,
    }
}

/// The type of the discriminant of a type with that head, where it is known.
pub(crate) fn discriminant(cx: &Cx, head: Head) -> Option<NamedType>
{
    match head {
        Head::Builtin(builtin) => discriminant_of_builtin(builtin),
        Head::Adt(adt) => discriminant_of_shape(cx.adt_shape(adt)),
        Head::Ref(_) | Head::Foreign(_) | Head::Dynamic | Head::FnDef(_) | Head::Closure(_, _) =>
            Some(NamedType::U8),
        Head::Infer(variable) => if_numeric(variable.sort, NamedType::U8),
        _ => None,
    }
}
