// Made of `crates/assembly_notation/src/first.rt` by `bench/plain.py`: an edit of this file is lost.

//! The nodes that a text's declarations begin with, which its queries ask for most often: the static region, the list without
//! arguments, and the types that are a word without a number. A query finds each by its number, and looks at what stands there: if
//! that is another node, it makes what it asks for.


use kit::{eprintln, format, prelude::*, print, println, vec};
use crate::notation::{Head, fixed_head};
use ir_builder::decl::builder::DeclsBuilder;
use ir_context::decl::context::Cx;
use ir_context::decl::make::Build;
use ir_trees::ir::kinds::{Args, FloatTy, IntTy, Region, RegionKind, Ty, TyKind, UintTy};
use ir_trees::ir::node::Node;
use ir_trees::ir::stop::Stop;
use ir_trees::ir::trees::Trees;

/// The number of the static region.
const STATIC_REGION: u32 = 0;

/// The number of the list without arguments.
const NO_ARGUMENTS: u32 = 1;

/// The words of the types, which have the numbers that follow, in this order.
const TYPES: [&str; 21] = [
    "bool", "char", "str", "!", "error", "i8", "i16", "i32", "i64", "i128", "isize", "u8", "u16",
    "u32", "u64", "u128", "usize", "f16", "f32", "f64", "f128",
];

/// Makes them, before all other nodes.
pub fn make_first(builder: &mut DeclsBuilder) -> Result<(), Stop> {
    builder.mk_region(RegionKind::Static)?;
    builder.mk_args(&[])?;
    for word in &TYPES {
        if let Some(Head::Leaf(kind)) = fixed_head(word) {
            builder.mk_ty(kind)?;
        }
    }
    Ok(())
}

/// The static region, if it is there.
pub fn static_region(cx: &Cx) -> Option<Region>
{
    match node_at(cx, STATIC_REGION)? {
        Node::Region(RegionKind::Static) => Some(Region(STATIC_REGION)),
        _ => None,
    }
}

/// The list without arguments, if it is there.
pub fn no_arguments(cx: &Cx) -> Option<Args>
{
    match node_at(cx, NO_ARGUMENTS)? {
        Node::Args(list) if list.is_empty() => Some(Args(NO_ARGUMENTS)),
        _ => None,
    }
}

/// The type of that kind, if it is one of the first nodes.
pub fn first_type(cx: &Cx, kind: TyKind) -> Option<Ty>
{
    let number = first_number(kind)?;
    match node_at(cx, number)? {
        Node::Ty(found) if is_same(*found, kind) => Some(Ty(number)),
        _ => None,
    }
}

/// The node of that number, if there is one.
fn node_at(cx: &Cx, number: u32) -> Option<&Node>
{
    if (number as usize) < cx.node_count() {
        Some(cx.node(number))
    } else {
        None
    }
}

/// The number that a type of that kind has, if it is one of the first nodes: the place of its word in `TYPES`, behind the two before. Where it
/// isn't, the type is looked for in the table, which takes longer.
fn first_number(kind: TyKind) -> Option<u32> {
    Some(match kind {
        TyKind::Bool => 2,
        TyKind::Char => 3,
        TyKind::Str => 4,
        TyKind::Never => 5,
        TyKind::Error => 6,
        TyKind::Int(IntTy::I8) => 7,
        TyKind::Int(IntTy::I16) => 8,
        TyKind::Int(IntTy::I32) => 9,
        TyKind::Int(IntTy::I64) => 10,
        TyKind::Int(IntTy::I128) => 11,
        TyKind::Int(IntTy::Isize) => 12,
        TyKind::Uint(UintTy::U8) => 13,
        TyKind::Uint(UintTy::U16) => 14,
        TyKind::Uint(UintTy::U32) => 15,
        TyKind::Uint(UintTy::U64) => 16,
        TyKind::Uint(UintTy::U128) => 17,
        TyKind::Uint(UintTy::Usize) => 18,
        TyKind::Float(FloatTy::F16) => 19,
        TyKind::Float(FloatTy::F32) => 20,
        TyKind::Float(FloatTy::F64) => 21,
        TyKind::Float(FloatTy::F128) => 22,
        _ => return None,
    })
}

/// Whether both are the kind of one type that is a word without a number.
fn is_same(a: TyKind, b: TyKind) -> bool
{
    match (a, b) {
        (TyKind::Bool, TyKind::Bool)
        | (TyKind::Char, TyKind::Char)
        | (TyKind::Str, TyKind::Str)
        | (TyKind::Never, TyKind::Never)
        | (TyKind::Error, TyKind::Error) => true,
        (TyKind::Int(a), TyKind::Int(b)) => a == b,
        (TyKind::Uint(a), TyKind::Uint(b)) => a == b,
        (TyKind::Float(a), TyKind::Float(b)) => a == b,
        _ => false,
    }
}
