// Made of `crates/ir_trees/src/ir/heads.rt` by `bench/plain.py`: an edit of this file is lost.

//! What a tree has at its root besides its children.


use kit::{eprintln, format, prelude::*, print, println, vec};
use crate::ir::kinds::{
    AdtId, AliasId, AliasKind, AssocId, BoundVar, ClosureId, ClosureKind, FloatTy, FnId, ForeignId,
    IntTy, Mutability, Placeholder, PredicatePolarity, RegionKind, TraitId, UintTy, VarKind,
};

/// What a function pointer has besides its types.
#[derive(Clone, Copy, PartialEq, Eq, Hash, Debug)]
pub struct Signature {
    pub safe: bool,
    pub rust_abi: bool,
    pub variadic: bool,
}

/// The shape of a pattern type.
#[derive(Clone, Copy, PartialEq, Eq, Hash, Debug)]
pub enum PatternShape {
    NotNull,
    Range,
}

/// The types that no definition makes.
#[derive(Clone, Copy, PartialEq, Eq, Hash, Debug)]
pub enum Builtin {
    Bool,
    Char,
    Int(IntTy),
    Uint(UintTy),
    Float(FloatTy),
    Str,
    Never,
    Array,
    Slice,
    Pat(PatternShape),
    RawPtr(Mutability),
    FnPtr(Signature),
    UnsafeBinder,
    Tuple,
}

/// What a variable to be solved stands for.
#[derive(Clone, Copy, PartialEq, Eq, Hash, Debug)]
pub enum VariableSort {
    General,
    Integer,
    Floating,
    Constant,
}

/// A variable to be solved.
#[derive(Clone, Copy, PartialEq, Eq, Hash, Debug)]
pub struct Variable {
    pub sort: VariableSort,
    pub number: u32,
}

/// The heads of constants.
#[derive(Clone, Copy, PartialEq, Eq, Hash, Debug)]
pub enum ConstHead {
    Value(u64),
    Param(u32),
    Placeholder(Placeholder),
    Bound(BoundVar),
    Unevaluated(AssocId),
    Error,
}

/// The heads of the bounds of a `dyn` type.
#[derive(Clone, Copy, PartialEq, Eq, Hash, Debug)]
pub enum PredHead {
    Trait(TraitId),
    Projection(AssocId),
    AutoTrait(TraitId),
}

/// The heads of clauses.
#[derive(Clone, Copy, PartialEq, Eq, Hash, Debug)]
pub enum ClauseHead {
    Trait(TraitId, PredicatePolarity),
    Projection(AssocId),
    TypeOutlives,
    RegionOutlives,
    AliasRelate,
    ConstEquate,
}

/// What is no type, constant, region or list: a bound of a `dyn` type, a clause, a closure's signature, a binder's
/// variables.
#[derive(Clone, Copy, PartialEq, Eq, Hash, Debug)]
pub enum PartHead {
    Pred(PredHead),
    Clause(ClauseHead),
    Sig,
    Vars,
    Var(VarKind),
}

/// The heads of lists.
#[derive(Clone, Copy, PartialEq, Eq, Hash, Debug)]
pub enum ListHead {
    Args,
    Preds,
    Clauses,
}

/// All of a node but its children. A list's members stand among the children of the node that has it.
#[derive(Clone, Copy, PartialEq, Eq, Hash, Debug)]
pub enum Head {
    Builtin(Builtin),
    Ref(Mutability),
    Adt(AdtId),
    Foreign(ForeignId),
    Dynamic,
    FnDef(FnId),
    Closure(ClosureId, Option<ClosureKind>),
    Param(u32),
    Alias(AliasKind, AliasId),
    Placeholder(Placeholder),
    Bound(BoundVar),
    Infer(Variable),
    Error,
    Const(ConstHead),
    Region(RegionKind),
    Part(PartHead),
    List(ListHead),
}

/// What a tree can have in it.
#[derive(Clone, Copy, Debug)]
pub enum Flag {
    TyInfer,
    RegionInfer,
    ConstInfer,
    TyPlaceholder,
    RegionPlaceholder,
    ConstPlaceholder,
    TyBound,
    RegionBound,
    ConstBound,
    Param,
    Alias,
    Error,
}

/// Which flags' marks stand in a tree: a bit for each flag.
#[derive(Clone, Copy, Debug)]
pub struct Marks {
    pub bits: u16,
}

impl Flag {
    /// The place of its bit.
    #[inline(always)]
    fn place(self) -> u32
    {
        match self {
            Flag::TyInfer => 0,
            Flag::RegionInfer => 1,
            Flag::ConstInfer => 2,
            Flag::TyPlaceholder => 3,
            Flag::RegionPlaceholder => 4,
            Flag::ConstPlaceholder => 5,
            Flag::TyBound => 6,
            Flag::RegionBound => 7,
            Flag::ConstBound => 8,
            Flag::Param => 9,
            Flag::Alias => 10,
            Flag::Error => 11,
        }
    }
}

impl Marks {
    /// Whether the flag's mark stands there.
    pub fn has(self, flag: Flag) -> bool
    {
        (self.bits >> flag.place()) & 1 == 1
    }

    /// Whether the mark of a variable to be solved stands there.
    pub fn has_infer(self) -> bool
    {
        self.has(Flag::TyInfer) || self.has(Flag::RegionInfer) || self.has(Flag::ConstInfer)
    }

    /// Whether that of a placeholder does.
    pub fn has_placeholder(self) -> bool
    {
        self.has(Flag::TyPlaceholder)
            || self.has(Flag::RegionPlaceholder)
            || self.has(Flag::ConstPlaceholder)
    }

    /// Whether that of a bound variable does.
    pub fn has_bound(self) -> bool
    {
        self.has(Flag::TyBound) || self.has(Flag::RegionBound) || self.has(Flag::ConstBound)
    }

    /// The marks of both.
    #[inline(always)]
    pub(crate) fn joined(self, other: Marks) -> Marks
    {
        Marks {
            bits: self.bits | other.bits,
        }
    }
}

impl ConstHead {
    /// The bit of the flag that marks it, or 0.
    #[inline(always)]
    fn mark_bit(self) -> u16
    {
        match self {
            ConstHead::Value(_) => 0,
            ConstHead::Param(_) => 512,
            ConstHead::Placeholder(_) => 32,
            ConstHead::Bound(_) => 256,
            ConstHead::Unevaluated(_) => 1024,
            ConstHead::Error => 2048,
        }
    }
}

impl RegionKind {
    /// The bit of the flag that marks it, or 0.
    #[inline(always)]
    fn mark_bit(self) -> u16
    {
        match self {
            RegionKind::Static => 0,
            RegionKind::Error => 2048,
            RegionKind::Bound(_) => 128,
            RegionKind::Placeholder(_) => 16,
            RegionKind::Var(_) => 2,
        }
    }
}

impl Head {
    /// The bit of the flag that marks it, or 0.
    #[inline(always)]
    fn mark_bit(self) -> u16
    {
        match self {
            Head::Infer(var) => match var.sort {
                VariableSort::Constant => 4,
                VariableSort::General => 1,
                VariableSort::Integer => 1,
                VariableSort::Floating => 1,
            },
            Head::Placeholder(_) => 8,
            Head::Bound(_) => 64,
            Head::Param(_) => 512,
            Head::Alias(_, _) => 1024,
            Head::Error => 2048,
            Head::Const(constant) => constant.mark_bit(),
            Head::Region(region) => region.mark_bit(),
            _ => 0,
        }
    }

    /// Which flags' marks it has.
    #[inline(always)]
    pub fn marks(self) -> Marks
    {
        Marks {
            bits: self.mark_bit(),
        }
    }

    /// Whether the head has the flag's mark.
    pub fn has(self, flag: Flag) -> bool
    {
        match flag {
            Flag::TyInfer => match self {
                Head::Infer(var) => !matches!(var.sort, VariableSort::Constant),
                _ => false,
            },
            Flag::ConstInfer => match self {
                Head::Infer(var) => matches!(var.sort, VariableSort::Constant),
                _ => false,
            },
            Flag::RegionInfer => matches!(self, Head::Region(RegionKind::Var(_))),
            Flag::TyPlaceholder => matches!(self, Head::Placeholder(_)),
            Flag::RegionPlaceholder => matches!(self, Head::Region(RegionKind::Placeholder(_))),
            Flag::ConstPlaceholder => matches!(self, Head::Const(ConstHead::Placeholder(_))),
            Flag::TyBound => matches!(self, Head::Bound(_)),
            Flag::RegionBound => matches!(self, Head::Region(RegionKind::Bound(_))),
            Flag::ConstBound => matches!(self, Head::Const(ConstHead::Bound(_))),
            Flag::Param => matches!(self, Head::Param(_) | Head::Const(ConstHead::Param(_))),
            Flag::Alias => {
                matches!(
                    self,
                    Head::Alias(_, _) | Head::Const(ConstHead::Unevaluated(_))
                )
            }
            Flag::Error => matches!(
                self,
                Head::Error | Head::Const(ConstHead::Error) | Head::Region(RegionKind::Error)
            ),
        }
    }

    /// Whether it is a bound variable of none of the next binders out, which are so many.
    pub(crate) fn is_bound_beyond(self, binders: u32) -> bool
    {
        match self {
            Head::Bound(var) => var.depth >= binders,
            Head::Const(ConstHead::Bound(var)) => var.depth >= binders,
            Head::Region(RegionKind::Bound(var)) => var.depth >= binders,
            _ => false,
        }
    }

    /// How many binders stand between it and its children.
    pub fn binders(self) -> u32
    {
        match self {
            Head::Builtin(Builtin::FnPtr(_) | Builtin::UnsafeBinder) => 1,
            Head::Part(PartHead::Pred(_) | PartHead::Clause(_) | PartHead::Sig) => 1,
            _ => 0,
        }
    }

    /// Whether it is the variable of that number.
    pub(crate) fn is_number(self, number: u32) -> bool
    {
        match self.variable_number() {
            Some(variable) => variable == number,
            None => false,
        }
    }

    /// Whether it is a type's or a constant's placeholder of a universe above that one.
    pub(crate) fn is_placeholder_above(self, universe: u32) -> bool
    {
        match self {
            Head::Placeholder(placeholder) => placeholder.universe > universe,
            Head::Const(ConstHead::Placeholder(placeholder)) => placeholder.universe > universe,
            _ => false,
        }
    }

    /// Whether an evaluator makes it: a variable of any kind, or a placeholder of a universe above the root's.
    pub(crate) fn is_made(self) -> bool
    {
        match self {
            Head::Infer(_) | Head::Region(RegionKind::Var(_)) => true,
            Head::Placeholder(placeholder)
            | Head::Const(ConstHead::Placeholder(placeholder))
            | Head::Region(RegionKind::Placeholder(placeholder)) => placeholder.universe > 0,
            _ => false,
        }
    }

    /// The number of the variable to be solved that it is, if it is one.
    pub fn variable_number(self) -> Option<u32>
    {
        match self {
            Head::Infer(variable) => Some(variable.number),
            Head::Region(RegionKind::Var(number)) => Some(number),
            _ => None,
        }
    }

    /// The number of the definition that it names, if it names one.
    fn named(self) -> Option<u32>
    {
        match self {
            Head::Adt(id) => Some(id.0),
            Head::Foreign(id) => Some(id.0),
            Head::FnDef(id) => Some(id.0),
            Head::Closure(id, _) => Some(id.0),
            Head::Alias(_, id) => Some(id.0),
            Head::Const(ConstHead::Unevaluated(id)) => Some(id.0),
            Head::Part(PartHead::Pred(PredHead::Trait(id))) => Some(id.0),
            Head::Part(PartHead::Pred(PredHead::Projection(id))) => Some(id.0),
            Head::Part(PartHead::Pred(PredHead::AutoTrait(id))) => Some(id.0),
            Head::Part(PartHead::Clause(ClauseHead::Trait(id, _))) => Some(id.0),
            Head::Part(PartHead::Clause(ClauseHead::Projection(id))) => Some(id.0),
            _ => None,
        }
    }

    /// Whether it names a definition that is none of the first so many.
    pub(crate) fn names_unknown(self, definitions: usize) -> bool
    {
        match self.named() {
            Some(number) => number as usize >= definitions,
            None => false,
        }
    }

    /// Whether the heads are equal.
    pub fn is_same(self, other: Head) -> bool
    {
        self == other
    }
}
