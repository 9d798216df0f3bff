//! Trees as they are printed: the word of the root, and behind it what stands below, in parentheses.

use crate::notation::names::{word_of, Name};
use crate::notation::transcript::Transcript;
use candidate_ir::decl::context::Cx;
use candidate_ir::ir::heads::{
    Builtin, ClauseHead, ConstHead, Head, ListHead, PartHead, PatternShape, PredHead, Signature,
    VariableSort,
};
use candidate_ir::ir::kinds::{
    AliasKind, ClosureKind, FloatTy, IntTy, Mutability, PredicatePolarity, RegionKind, UintTy,
    VarKind,
};
use candidate_ir::ir::trees::Trees;
use kit::prelude::*;

/// What is printed for a head.
#[derive(Clone, Copy)]
enum Word {
    Plain(&'static str),
    /// A number behind a mark.
    Marked(&'static str, u64),
    /// Two numbers, with a point between them, behind a mark.
    Pair(&'static str, u32, u32),
    /// A definition behind a word.
    Of(&'static str, u32),
}

fn builtin_word(builtin: Builtin) -> &'static str {
    match builtin {
        Builtin::Bool => "bool",
        Builtin::Char => "char",
        Builtin::Str => "str",
        Builtin::Never => "never",
        Builtin::Int(IntTy::I8) => "i8",
        Builtin::Int(IntTy::I16) => "i16",
        Builtin::Int(IntTy::I32) => "i32",
        Builtin::Int(IntTy::I64) => "i64",
        Builtin::Int(IntTy::I128) => "i128",
        Builtin::Int(IntTy::Isize) => "isize",
        Builtin::Uint(UintTy::U8) => "u8",
        Builtin::Uint(UintTy::U16) => "u16",
        Builtin::Uint(UintTy::U32) => "u32",
        Builtin::Uint(UintTy::U64) => "u64",
        Builtin::Uint(UintTy::U128) => "u128",
        Builtin::Uint(UintTy::Usize) => "usize",
        Builtin::Float(FloatTy::F16) => "f16",
        Builtin::Float(FloatTy::F32) => "f32",
        Builtin::Float(FloatTy::F64) => "f64",
        Builtin::Float(FloatTy::F128) => "f128",
        Builtin::Array => "array",
        Builtin::Slice => "slice",
        Builtin::Pat(PatternShape::NotNull) => "not_null",
        Builtin::Pat(PatternShape::Range) => "range",
        Builtin::RawPtr(Mutability::Not) => "ptr",
        Builtin::RawPtr(Mutability::Mut) => "ptr_mut",
        Builtin::FnPtr(Signature { safe: false, .. }) => "unsafe_fn_ptr",
        Builtin::FnPtr(Signature { variadic: true, .. }) => "variadic_fn_ptr",
        Builtin::FnPtr(Signature { rust_abi, .. }) if !rust_abi => "foreign_fn_ptr",
        Builtin::FnPtr(_) => "fn_ptr",
        Builtin::UnsafeBinder => "unsafe_binder",
        Builtin::Tuple => "tuple",
    }
}

/// What is printed for a constant, a region, a list, or what is none of these and no type.
fn other_word(head: Head) -> Word {
    match head {
        Head::Const(ConstHead::Value(value)) => Word::Marked("#", value),
        Head::Const(ConstHead::Param(index)) => Word::Marked("#p", u64::from(index)),
        Head::Const(ConstHead::Placeholder(at)) => Word::Pair("#!", at.universe, at.index),
        Head::Const(ConstHead::Bound(var)) => Word::Pair("#^", var.depth, var.index),
        Head::Const(ConstHead::Unevaluated(id)) => Word::Of("", id.0),
        Head::Const(ConstHead::Error) => Word::Plain("#error"),
        Head::Region(RegionKind::Static) => Word::Plain("'static"),
        Head::Region(RegionKind::Error) => Word::Plain("'error"),
        Head::Region(RegionKind::Bound(var)) => Word::Pair("'^", var.depth, var.index),
        Head::Region(RegionKind::Placeholder(at)) => Word::Pair("'!", at.universe, at.index),
        Head::Region(RegionKind::Var(number)) => Word::Marked("'?", u64::from(number)),
        Head::Part(PartHead::Pred(PredHead::Trait(id))) => Word::Of("bound ", id.0),
        Head::Part(PartHead::Pred(PredHead::Projection(id))) => Word::Of("projects ", id.0),
        Head::Part(PartHead::Pred(PredHead::AutoTrait(id))) => Word::Of("auto ", id.0),
        Head::Part(PartHead::Clause(ClauseHead::Trait(id, PredicatePolarity::Positive))) => {
            Word::Of("holds ", id.0)
        }
        Head::Part(PartHead::Clause(ClauseHead::Trait(id, _))) => Word::Of("fails ", id.0),
        Head::Part(PartHead::Clause(ClauseHead::Projection(id))) => Word::Of("projected ", id.0),
        Head::Part(PartHead::Clause(ClauseHead::TypeOutlives)) => Word::Plain("outlives"),
        Head::Part(PartHead::Clause(ClauseHead::RegionOutlives)) => Word::Plain("region_outlives"),
        Head::Part(PartHead::Clause(ClauseHead::AliasRelate)) => Word::Plain("relate"),
        Head::Part(PartHead::Clause(ClauseHead::ConstEquate)) => Word::Plain("equate_const"),
        Head::Part(PartHead::Sig) => Word::Plain("sig"),
        Head::Part(PartHead::Vars) => Word::Plain("binder"),
        Head::Part(PartHead::Var(VarKind::Ty)) => Word::Plain("T"),
        Head::Part(PartHead::Var(VarKind::Const)) => Word::Plain("C"),
        Head::Part(PartHead::Var(VarKind::Region)) => Word::Plain("R"),
        Head::List(ListHead::Args) => Word::Plain("args"),
        Head::List(ListHead::Preds) => Word::Plain("preds"),
        _ => Word::Plain("env"),
    }
}

/// What is printed for the head.
fn head_word(head: Head) -> Word {
    let (mark, number) = match head {
        Head::Builtin(builtin) => return Word::Plain(builtin_word(builtin)),
        Head::Ref(Mutability::Not) => return Word::Plain("ref"),
        Head::Ref(Mutability::Mut) => return Word::Plain("ref_mut"),
        Head::Dynamic => return Word::Plain("dyn"),
        Head::Error => return Word::Plain("error"),
        Head::Placeholder(at) => return Word::Pair("!", at.universe, at.index),
        Head::Bound(var) => return Word::Pair("^", var.depth, var.index),
        Head::Param(index) => return Word::Marked("p", u64::from(index)),
        Head::Infer(variable) => {
            let mark = match variable.sort {
                VariableSort::General => "?",
                VariableSort::Integer => "?i",
                VariableSort::Floating => "?f",
                VariableSort::Constant => "#?",
            };
            return Word::Marked(mark, u64::from(variable.number));
        }
        Head::Adt(id) => ("", id.0),
        Head::Foreign(id) => ("", id.0),
        Head::FnDef(id) => ("", id.0),
        Head::Alias(AliasKind::Inherent, id) => ("inherent ", id.0),
        Head::Alias(AliasKind::Free, id) => ("free ", id.0),
        Head::Alias(_, id) => ("", id.0),
        Head::Closure(id, None) => ("closure ", id.0),
        Head::Closure(id, Some(ClosureKind::Fn)) => ("fn_closure ", id.0),
        Head::Closure(id, Some(ClosureKind::FnMut)) => ("fn_mut_closure ", id.0),
        Head::Closure(id, Some(ClosureKind::FnOnce)) => ("fn_once_closure ", id.0),
        Head::Const(_) | Head::Region(_) | Head::Part(_) | Head::List(_) => {
            return other_word(head);
        }
    };
    Word::Of(mark, number)
}

/// Writes the name of the definition, or its number where it has none.
pub(crate) fn write_definition(out: &mut Transcript, names: &[Name<'_>], number: u32) {
    match word_of(names, number, false) {
        Some(word) => out.write(word),
        None => out.write_number("@", u64::from(number)),
    }
}

/// Writes what is printed for the head.
pub(crate) fn write_head(out: &mut Transcript, names: &[Name<'_>], head: Head) {
    match head_word(head) {
        Word::Plain(word) => out.write(word),
        Word::Marked(mark, number) => out.write_number(mark, number),
        Word::Pair(mark, first, second) => {
            out.write_number(mark, u64::from(first));
            out.write_number(".", u64::from(second));
        }
        Word::Of(mark, number) => {
            out.write(mark);
            write_definition(out, names, number);
        }
    }
}

/// Writes the tree of the number: its root, and behind it in parentheses what stands below.
pub(crate) fn write_tree(out: &mut Transcript, names: &[Name<'_>], cx: &Cx, number: u32) {
    if cx.child(number, 0).is_none() {
        write_head(out, names, cx.head(number));
        return;
    }
    out.write("(");
    write_head(out, names, cx.head(number));
    for place in 0..usize::MAX {
        let Some(child) = cx.child(number, place) else {
            break;
        };
        out.write(" ");
        write_tree(out, names, cx, child);
    }
    out.write(")");
}
