// Made of `crates/assembly_notation/src/notation.rt` by `bench/plain.py`: an edit of this file is lost.

//! The words that types are written in.


use kit::{eprintln, format, prelude::*, print, println, vec};
use crate::building::{Constant, Constructor, Pointer};
use crate::faults::Fault;
use crate::names::Parameters;
use crate::words::{is_digits, listed, number_in};
use ir_trees::ir::kinds::{
    BoundVar, FloatTy, InferTy, IntTy, Mutability, Placeholder, RegionKind, TyKind, UintTy, VarKind,
};

/// The greatest number of a variable.
const LAST_VARIABLE: u16 = 255;

/// How many regions a binder may bind.
pub const MAX_BOUND: u16 = 16;

/// What a type's first word makes of the words that follow.
#[derive(Clone, Copy, Debug)]
pub enum Head {
    /// The word is the whole type.
    Leaf(TyKind),
    /// One type follows.
    Before(Pointer),
    /// A type follows, before which a region may stand.
    Borrow(Mutability),
    /// These arguments follow.
    Over(Constructor, Arguments),
    /// The inputs of the function follow, and what it answers.
    Fn(Inputs),
    /// The word says how the function pointer is that follows.
    Qualified(Qualifier),
    /// So many bounds follow.
    Dyn(u16),
}

/// The inputs of a function.
#[derive(Clone, Copy, Debug)]
pub struct Inputs {
    /// How many types follow for them.
    pub count: u16,
    /// Whether there may be more.
    pub is_variadic: bool,
}

/// What a word says of the function pointer that follows.
#[derive(Clone, Copy, Debug)]
pub enum Qualifier {
    /// It binds so many regions.
    For(u16),
    Unsafe,
    /// It has another ABI than Rust's.
    Extern,
}

/// The arguments that follow a word.
#[derive(Clone, Copy, Debug)]
pub struct Arguments {
    /// Whether the first one is the self type, before those for the parameters.
    pub has_self: bool,
    pub parameters: Parameters,
}

impl Arguments {
    /// So many types.
    pub fn types(count: u16) -> Arguments {
        Arguments {
            has_self: false,
            parameters: Parameters::types(count),
        }
    }

    /// How many there are.
    pub fn count(self) -> u32 {
        let count = u32::from(self.parameters.count);
        if self.has_self { count + 1 } else { count }
    }

    /// The kind of the one at that place, counted from 0.
    pub fn kind(self, place: u32) -> VarKind {
        if !self.has_self {
            return self.parameters.kind(place);
        }
        match place.checked_sub(1) {
            Some(place) => self.parameters.kind(place),
            None => VarKind::Ty,
        }
    }
}

/// The binders around a part of a type, by how many regions each binds.
#[derive(Clone, Copy, Debug)]
pub struct Binders {
    /// One more than that, a byte each, the innermost in the lowest one.
    counts: u64,
    /// Whether the words are passed over, to be read in another order.
    is_passed: bool,
}

impl Binders {
    /// No binder.
    pub fn none() -> Binders {
        Binders {
            counts: 0,
            is_passed: false,
        }
    }

    /// The same, where the words are passed over.
    pub fn passed(self) -> Binders {
        Binders {
            is_passed: true,
            ..self
        }
    }

    /// Whether the words are passed over.
    pub fn is_passed(self) -> bool {
        self.is_passed
    }

    /// One more inside of them. Of more than eight the outermost are forgotten, so that no word names what they bind.
    pub fn under(self, count: u16) -> Binders {
        let count = u64::from(count.min(MAX_BOUND));
        Binders {
            counts: self.counts.wrapping_shl(8) | (count + 1),
            ..self
        }
    }

    /// How many regions the innermost of them binds.
    pub fn innermost(self) -> u16 {
        (self.counts & 255).saturating_sub(1) as u16
    }

    /// Whether one of them binds the variable.
    fn binds(self, variable: BoundVar) -> bool {
        match self.counts.checked_shr(variable.depth.saturating_mul(8)) {
            Some(rest) => u64::from(variable.index) + 1 < rest & 255,
            None => false,
        }
    }
}

/// What a number says, by what stands around it in its word.
#[derive(Clone, Copy, Debug)]
enum Counted {
    Parameter,
    Variable,
    Placeholder,
    Tuple,
    Fn,
    VariadicFn,
    For,
    Dyn,
}

/// The words without a number, by what they begin with, so that a word is told from most others by its first byte.
const OTHERS: [(&str, Head); 6] = [
    ("char", Head::Leaf(TyKind::Char)),
    ("bool", Head::Leaf(TyKind::Bool)),
    ("str", Head::Leaf(TyKind::Str)),
    ("!", Head::Leaf(TyKind::Never)),
    ("error", Head::Leaf(TyKind::Error)),
    ("extern", Head::Qualified(Qualifier::Extern)),
];

const POINTERS: [(&str, Head); 5] = [
    ("&", Head::Borrow(Mutability::Not)),
    ("[]", Head::Before(Pointer::Slice)),
    ("&mut", Head::Borrow(Mutability::Mut)),
    ("*const", Head::Before(Pointer::RawPtr(Mutability::Not))),
    ("*mut", Head::Before(Pointer::RawPtr(Mutability::Mut))),
];

const UNSIGNED: [(&str, Head); 7] = [
    ("u8", Head::Leaf(TyKind::Uint(UintTy::U8))),
    ("u16", Head::Leaf(TyKind::Uint(UintTy::U16))),
    ("u32", Head::Leaf(TyKind::Uint(UintTy::U32))),
    ("u64", Head::Leaf(TyKind::Uint(UintTy::U64))),
    ("u128", Head::Leaf(TyKind::Uint(UintTy::U128))),
    ("usize", Head::Leaf(TyKind::Uint(UintTy::Usize))),
    ("unsafe", Head::Qualified(Qualifier::Unsafe)),
];

const SIGNED: [(&str, Head); 6] = [
    ("i8", Head::Leaf(TyKind::Int(IntTy::I8))),
    ("i16", Head::Leaf(TyKind::Int(IntTy::I16))),
    ("i32", Head::Leaf(TyKind::Int(IntTy::I32))),
    ("i64", Head::Leaf(TyKind::Int(IntTy::I64))),
    ("i128", Head::Leaf(TyKind::Int(IntTy::I128))),
    ("isize", Head::Leaf(TyKind::Int(IntTy::Isize))),
];

const FLOATS: [(&str, Head); 4] = [
    ("f16", Head::Leaf(TyKind::Float(FloatTy::F16))),
    ("f32", Head::Leaf(TyKind::Float(FloatTy::F32))),
    ("f64", Head::Leaf(TyKind::Float(FloatTy::F64))),
    ("f128", Head::Leaf(TyKind::Float(FloatTy::F128))),
];

/// How a word with a number is written, by its first byte: what stands before the number and behind it, the greatest one, and what it
/// says.
fn counted_from(first: u8, word: &str) -> Option<(&'static str, &'static str, u16, Counted)> {
    Some(match first {
        b'#' => ("#", "", u16::MAX, Counted::Parameter),
        b'$' => ("$", "", LAST_VARIABLE, Counted::Variable),
        b'(' => ("(", ")", u16::MAX, Counted::Tuple),
        b'!' => ("!", "", u16::MAX, Counted::Placeholder),
        b'f' if word.starts_with("for") => ("for(", ")", MAX_BOUND, Counted::For),
        b'f' if word.ends_with("..)") => ("fn(", "..)", u16::MAX, Counted::VariadicFn),
        b'f' => ("fn(", ")", u16::MAX, Counted::Fn),
        b'd' => ("dyn(", ")", u16::MAX, Counted::Dyn),
        _ => return None,
    })
}

/// What the first word of a type makes of the words that follow, or none where only a name can say it.
///
/// The only error is `Fault::BadNumber`, where the number in the word is too great.
#[inline(always)]
pub fn head_of<'a>(word: &'a str) -> Result<Option<Head>, Fault<'a>>
{
    if let Some(head) = fixed_head(word) {
        return Ok(Some(head));
    }
    let Some(first) = word.as_bytes().first() else {
        return Ok(None);
    };
    if let Some((before, after, most, counted)) = counted_from(*first, word) {
        let Some(digits) = digits_between(word, before, after) else {
            return Ok(None);
        };
        let number = number_in(word, digits, u64::from(most))? as u16;
        return Ok(Some(counted_head(counted, number)));
    }
    let Some(length) = text_between(word, "[", "]") else {
        return Ok(None);
    };
    match constant_in(word, length)? {
        Some(length) => Ok(Some(Head::Before(Pointer::Array(length)))),
        None => Ok(None),
    }
}

/// The constant that the text stands for, which is the word or a part of it, or none where it stands for none.
///
/// The only error is `Fault::BadNumber`, where a number in it is too great.
pub fn constant_in<'a>(word: &'a str, text: &str) -> Result<Option<Constant>, Fault<'a>>
{
    if is_digits(text) {
        return Ok(Some(Constant::Value(number_in(word, text, u64::MAX)?)));
    }
    let (mark, most, counted) = match text.as_bytes().first() {
        Some(b'#') => ("#", u16::MAX, Counted::Parameter),
        Some(b'$') => ("$", LAST_VARIABLE, Counted::Variable),
        Some(b'!') => ("!", u16::MAX, Counted::Placeholder),
        Some(b'e') if text == "error" => return Ok(Some(Constant::Error)),
        _ => return Ok(None),
    };
    let Some(digits) = digits_between(text, mark, "") else {
        return Ok(None);
    };
    let index = number_in(word, digits, u64::from(most))? as u32;
    Ok(Some(match counted {
        Counted::Parameter => Constant::Parameter(index),
        Counted::Placeholder => Constant::Placeholder(index),
        _ => Constant::Variable,
    }))
}

/// The region that the word names under these binders, or none where it names none: `'static`; `'!k`, a placeholder; `'k`, which the
/// innermost binder binds; `'d.k`, which the one binds that has d others inside.
///
/// The only error is `Fault::BadNumber`, where a number in it is too great, or no binder binds that.
pub fn region_in<'a>(word: &'a str, binders: Binders) -> Result<Option<RegionKind>, Fault<'a>>
{
    let Some(name) = word.strip_prefix("'") else {
        return Ok(None);
    };
    if name == "static" {
        return Ok(Some(RegionKind::Static));
    }
    if let Some(digits) = digits_between(name, "!", "") {
        let index = number_in(word, digits, u64::from(u16::MAX))? as u32;
        return Ok(Some(RegionKind::Placeholder(Placeholder { universe: 0, index })));
    }
    let (depth, index) = name.split_once('.').unwrap_or(("0", name));
    if !is_digits(depth) || !is_digits(index) {
        return Ok(None);
    }
    let variable = BoundVar {
        depth: number_in(word, depth, u64::from(u16::MAX))? as u32,
        index: number_in(word, index, u64::from(u16::MAX))? as u32,
    };
    if !binders.binds(variable) {
        return Err(Fault::BadNumber(word));
    }
    Ok(Some(RegionKind::Bound(variable)))
}

/// How many regions the binder binds that the word is, or none where it is no binder. The error is the same.
pub fn bound_by<'a>(word: &'a str) -> Result<Option<u16>, Fault<'a>>
{
    match digits_between(word, "for(", ")") {
        Some(digits) => Ok(Some(number_in(word, digits, u64::from(MAX_BOUND))? as u16)),
        None => Ok(None),
    }
}

/// What a word without a number makes of the words that follow, if it is one.
#[inline(always)]
pub fn fixed_head(word: &str) -> Option<Head>
{
    match word.as_bytes().first()? {
        b'&' | b'*' | b'[' => listed(&POINTERS, word),
        b'u' => listed(&UNSIGNED, word),
        b'i' => listed(&SIGNED, word),
        b'f' => listed(&FLOATS, word),
        b'b' | b'c' | b's' | b'!' | b'e' => listed(&OTHERS, word),
        _ => None,
    }
}

/// The digits that stand in the word between the two texts, if nothing else does.
#[inline(always)]
fn digits_between<'w>(word: &'w str, before: &str, after: &str) -> Option<&'w str> {
    let digits = text_between(word, before, after)?;
    if is_digits(digits) {
        Some(digits)
    } else {
        None
    }
}

/// The text that stands in the word between the two.
#[inline(always)]
fn text_between<'w>(word: &'w str, before: &str, after: &str) -> Option<&'w str> {
    word.strip_prefix(before)?.strip_suffix(after)
}

fn counted_head(counted: Counted, number: u16) -> Head
{
    let index = u32::from(number);
    match counted {
        Counted::Parameter => Head::Leaf(TyKind::Param(index)),
        Counted::Variable => Head::Leaf(TyKind::Infer(InferTy::TyVar(index))),
        Counted::Placeholder => Head::Leaf(TyKind::Placeholder(Placeholder { universe: 0, index })),
        Counted::Tuple => Head::Over(Constructor::Tuple, Arguments::types(number)),
        Counted::Fn => Head::Fn(Inputs {
            count: number,
            is_variadic: false,
        }),
        Counted::VariadicFn => Head::Fn(Inputs {
            count: number,
            is_variadic: true,
        }),
        Counted::For => Head::Qualified(Qualifier::For(number)),
        Counted::Dyn => Head::Dyn(number),
    }
}

/// The word that a type of that kind begins with, if it is the same for all types of the kind.
pub fn word_of(kind: TyKind) -> Option<&'static str>
{
    Some(match kind {
        TyKind::Bool => "bool",
        TyKind::Char => "char",
        TyKind::Str => "str",
        TyKind::Never => "!",
        TyKind::Error => "error",
        TyKind::Int(IntTy::I8) => "i8",
        TyKind::Int(IntTy::I16) => "i16",
        TyKind::Int(IntTy::I32) => "i32",
        TyKind::Int(IntTy::I64) => "i64",
        TyKind::Int(IntTy::I128) => "i128",
        TyKind::Int(IntTy::Isize) => "isize",
        TyKind::Uint(UintTy::U8) => "u8",
        TyKind::Uint(UintTy::U16) => "u16",
        TyKind::Uint(UintTy::U32) => "u32",
        TyKind::Uint(UintTy::U64) => "u64",
        TyKind::Uint(UintTy::U128) => "u128",
        TyKind::Uint(UintTy::Usize) => "usize",
        TyKind::Float(FloatTy::F16) => "f16",
        TyKind::Float(FloatTy::F32) => "f32",
        TyKind::Float(FloatTy::F64) => "f64",
        TyKind::Float(FloatTy::F128) => "f128",
        TyKind::Ref(_, _, Mutability::Not) => "&",
        TyKind::Ref(_, _, Mutability::Mut) => "&mut",
        TyKind::RawPtr(_, Mutability::Not) => "*const",
        TyKind::RawPtr(_, Mutability::Mut) => "*mut",
        TyKind::Slice(_) => "[]",
        _ => return None,
    })
}
