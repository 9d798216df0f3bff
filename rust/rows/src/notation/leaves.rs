//! Types, constants and regions without parts, by their words.

use crate::notation::parts::Part;
use crate::notation::tables::value_of;
use candidate_ir::ir::kinds::{
    BoundVar, ConstKind, FloatTy, InferTy, IntTy, Placeholder, RegionKind, TyKind, UintTy,
};
use kit::prelude::*;

/// The words of types without parts.
const TYPES: [(&str, TyKind); 21] = [
    ("bool", TyKind::Bool),
    ("char", TyKind::Char),
    ("str", TyKind::Str),
    ("never", TyKind::Never),
    ("error", TyKind::Error),
    ("i8", TyKind::Int(IntTy::I8)),
    ("i16", TyKind::Int(IntTy::I16)),
    ("i32", TyKind::Int(IntTy::I32)),
    ("i64", TyKind::Int(IntTy::I64)),
    ("i128", TyKind::Int(IntTy::I128)),
    ("isize", TyKind::Int(IntTy::Isize)),
    ("u8", TyKind::Uint(UintTy::U8)),
    ("u16", TyKind::Uint(UintTy::U16)),
    ("u32", TyKind::Uint(UintTy::U32)),
    ("u64", TyKind::Uint(UintTy::U64)),
    ("u128", TyKind::Uint(UintTy::U128)),
    ("usize", TyKind::Uint(UintTy::Usize)),
    ("f16", TyKind::Float(FloatTy::F16)),
    ("f32", TyKind::Float(FloatTy::F32)),
    ("f64", TyKind::Float(FloatTy::F64)),
    ("f128", TyKind::Float(FloatTy::F128)),
];

/// What stands before the numbers of leaves.
const MARKS: [char; 8] = ['#', '\'', 'p', '^', '!', '?', 'i', 'f'];

/// The number of the digits, or that of nothing.
pub fn number_in(digits: &str) -> u32 {
    digits.parse::<u32>().unwrap_or(u32::MAX)
}

/// What the word says, if it is the word of a leaf.
pub(crate) fn leaf(word: &str) -> Option<Part> {
    if let Some(kind) = value_of(&TYPES, word) {
        return Some(Part::Ty(kind));
    }
    match word {
        "#error" => Some(Part::Const(ConstKind::Error)),
        "'static" => Some(Part::Region(RegionKind::Static)),
        "'error" => Some(Part::Region(RegionKind::Error)),
        _ => marked(word),
    }
}

/// What stands behind a mark.
#[derive(Clone, Copy)]
enum Mark {
    Param,
    Bound,
    Placeholder,
    Infer,
    Integer,
    Floating,
    ConstParam,
    ConstBound,
    ConstPlaceholder,
    ConstInfer,
    RegionBound,
    RegionPlaceholder,
    RegionInfer,
}

/// The marks, but that of a constant that is a number.
const NAMED_MARKS: [(&str, Mark); 13] = [
    ("p", Mark::Param),
    ("^", Mark::Bound),
    ("!", Mark::Placeholder),
    ("?", Mark::Infer),
    ("?i", Mark::Integer),
    ("?f", Mark::Floating),
    ("#p", Mark::ConstParam),
    ("#^", Mark::ConstBound),
    ("#!", Mark::ConstPlaceholder),
    ("#?", Mark::ConstInfer),
    ("'^", Mark::RegionBound),
    ("'!", Mark::RegionPlaceholder),
    ("'?", Mark::RegionInfer),
];

/// The leaf of that mark and of two numbers.
fn numbered(mark: Mark, number: u32, index: u32) -> Part {
    let bound = BoundVar {
        depth: number,
        index,
    };
    let placeholder = Placeholder {
        universe: number,
        index,
    };
    match mark {
        Mark::Param => Part::Ty(TyKind::Param(number)),
        Mark::Bound => Part::Ty(TyKind::Bound(bound)),
        Mark::Placeholder => Part::Ty(TyKind::Placeholder(placeholder)),
        Mark::Infer => Part::Ty(TyKind::Infer(InferTy::TyVar(number))),
        Mark::Integer => Part::Ty(TyKind::Infer(InferTy::IntVar(number))),
        Mark::Floating => Part::Ty(TyKind::Infer(InferTy::FloatVar(number))),
        Mark::ConstParam => Part::Const(ConstKind::Param(number)),
        Mark::ConstBound => Part::Const(ConstKind::Bound(bound)),
        Mark::ConstPlaceholder => Part::Const(ConstKind::Placeholder(placeholder)),
        Mark::ConstInfer => Part::Const(ConstKind::Infer(number)),
        Mark::RegionBound => Part::Region(RegionKind::Bound(bound)),
        Mark::RegionPlaceholder => Part::Region(RegionKind::Placeholder(placeholder)),
        Mark::RegionInfer => Part::Region(RegionKind::Var(number)),
    }
}

/// The leaf whose word is a mark and a number, or two numbers with a point between them.
fn marked(word: &str) -> Option<Part> {
    let digits = word.trim_start_matches(MARKS);
    if !digits.bytes().next()?.is_ascii_digit() {
        return None;
    }
    let mark = word.strip_suffix(digits)?;
    if mark == "#" {
        return Some(Part::Const(ConstKind::Value(digits.parse().ok()?)));
    }
    let mark = value_of(&NAMED_MARKS, mark)?;
    let (first, second) = digits.split_once('.').unwrap_or((digits, "0"));
    Some(numbered(mark, number_in(first), number_in(second)))
}
