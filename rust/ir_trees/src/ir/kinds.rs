// Made of `crates/ir_trees/src/ir/kinds.rt` by `bench/plain.py`: an edit of this file is lost.

//! Numbers of nodes, and the kinds of types, constants and regions over them.


use kit::{eprintln, format, prelude::*, print, println, vec};
use crate::ir::heads::{
    Builtin, ClauseHead, ConstHead, Head, PatternShape, PredHead, Signature, Variable, VariableSort,
};

/// A type of a context.
#[derive(Clone, Copy, Debug, PartialEq, Eq)]
pub struct Ty(pub u32);

/// A constant of a context.
#[derive(Clone, Copy, Debug, PartialEq, Eq)]
pub struct Const(pub u32);

/// A region of a context.
#[derive(Clone, Copy, Debug, PartialEq, Eq)]
pub struct Region(pub u32);

/// A list of generic arguments of a context.
#[derive(Clone, Copy, PartialEq, Eq, Debug)]
pub struct Args(pub u32);

/// A list of bounds of a `dyn` type of a context.
#[derive(Clone, Copy, PartialEq, Eq, Debug)]
pub struct Preds(pub u32);

/// One bound of a `dyn` type, under its binder.
#[derive(Clone, Copy, Debug)]
pub struct Pred(pub u32);

/// The signature of a closure, under its binder.
#[derive(Clone, Copy, Debug)]
pub struct Sig(pub u32);

/// The variables of a binder.
#[derive(Clone, Copy, Debug)]
pub struct Vars(pub u32);

/// One variable of a binder.
#[derive(Clone, Copy, Debug)]
pub struct Var(pub u32);

/// A clause, under its binder.
#[derive(Clone, Copy, PartialEq, Eq, Hash, Debug)]
pub struct Clause(pub u32);

/// An environment: the clauses that are taken as given.
#[derive(Clone, Copy, PartialEq, Eq, Debug)]
pub struct ParamEnv(pub u32);

/// A type, a constant or a region of a context.
#[derive(Clone, Copy, Debug, PartialEq, Eq)]
pub enum GenericArg {
    Ty(Ty),
    Const(Const),
    Region(Region),
}

/// An algebraic data type.
#[derive(Clone, Copy, PartialEq, Eq, Hash, Debug)]
pub struct AdtId(pub u32);

/// A foreign type.
#[derive(Clone, Copy, PartialEq, Eq, Hash, Debug)]
pub struct ForeignId(pub u32);

/// A function.
#[derive(Clone, Copy, PartialEq, Eq, Hash, Debug)]
pub struct FnId(pub u32);

/// A closure.
#[derive(Clone, Copy, PartialEq, Eq, Hash, Debug)]
pub struct ClosureId(pub u32);

/// A trait.
#[derive(Clone, Copy, Debug, PartialEq, Eq, Hash)]
pub struct TraitId(pub u32);

/// An associated item of a trait.
#[derive(Clone, Copy, PartialEq, Eq, Hash, Debug)]
pub struct AssocId(pub u32);

/// What an alias stands for: of a projection its associated type.
#[derive(Clone, Copy, PartialEq, Eq, Hash, Debug)]
pub struct AliasId(pub u32);

/// The signed integer types.
#[derive(Clone, Copy, PartialEq, Eq, Hash, Debug)]
pub enum IntTy {
    I8,
    I16,
    I32,
    I64,
    I128,
    Isize,
}

/// The unsigned integer types.
#[derive(Clone, Copy, PartialEq, Eq, Hash, Debug)]
pub enum UintTy {
    U8,
    U16,
    U32,
    U64,
    U128,
    Usize,
}

/// The floating-point types.
#[derive(Clone, Copy, PartialEq, Eq, Hash, Debug)]
pub enum FloatTy {
    F16,
    F32,
    F64,
    F128,
}

/// Whether what is pointed to may be written.
#[derive(Clone, Copy, PartialEq, Eq, Hash, Debug)]
pub enum Mutability {
    Not,
    Mut,
}

/// The kinds of aliases.
#[derive(Clone, Copy, PartialEq, Eq, Hash, Debug)]
pub enum AliasKind {
    Projection,
    Opaque,
    Inherent,
    Free,
}

/// How a closure may be called.
#[derive(Clone, Copy, PartialEq, Eq, Hash, Debug)]
pub enum ClosureKind {
    Fn,
    FnMut,
    FnOnce,
}

/// What a variable of a binder stands for.
#[derive(Clone, Copy, PartialEq, Eq, Hash, Debug)]
pub enum VarKind {
    Ty,
    Const,
    Region,
}

/// A type variable to be solved: of any type, of integer types, of floating-point types.
#[derive(Clone, Copy, Debug)]
pub enum InferTy {
    TyVar(u32),
    IntVar(u32),
    FloatVar(u32),
}

/// A rigid variable of a universe.
#[derive(Clone, Copy, PartialEq, Eq, Hash, Debug)]
pub struct Placeholder {
    pub universe: u32,
    pub index: u32,
}

/// A variable bound by the binder that is `depth` binders out, counted from 0.
#[derive(Clone, Copy, PartialEq, Eq, Hash, Debug)]
pub struct BoundVar {
    pub depth: u32,
    pub index: u32,
}

/// A trait with its arguments, of which the first is the self type.
#[derive(Clone, Copy, PartialEq, Eq, Debug)]
pub struct TraitRef {
    pub def_id: TraitId,
    pub args: Args,
}

/// A value under a binder of these variables.
#[derive(Clone, Copy, Debug)]
pub struct Binder<T> {
    pub vars: Vars,
    pub value: T,
}

/// The signature of a function pointer.
#[derive(Clone, Copy, Debug)]
pub struct FnSig {
    pub inputs: Args,
    pub output: Ty,
    pub safe: bool,
    pub rust_abi: bool,
    pub variadic: bool,
}

impl FnSig {
    /// Whether a function of this signature can have the `Fn` traits: it is safe, of the Rust ABI and not variadic.
    pub fn is_fn_trait_compatible(self) -> bool
    {
        self.safe && self.rust_abi && !self.variadic
    }
}

/// The inputs of a closure as a tuple type, and its output.
#[derive(Clone, Copy, Debug)]
pub struct ClosureSig {
    pub inputs: Ty,
    pub output: Ty,
}

/// What a closure type has besides its definition.
#[derive(Clone, Copy, Debug)]
pub struct ClosureArgs {
    pub parent: Args,
    pub kind: Option<ClosureKind>,
    pub sig: Sig,
    pub upvars: Ty,
}

/// An alias with its arguments; of a projection the self type comes first.
#[derive(Clone, Copy, PartialEq, Eq, Debug)]
pub struct AliasTy {
    pub kind: AliasKind,
    pub id: AliasId,
    pub args: Args,
}

impl AliasTy {
    /// The associated type, of the self type and the trait's parameters that the arguments say.
    pub fn projection(id: AssocId, args: Args) -> AliasTy
    {
        AliasTy {
            kind: AliasKind::Projection,
            id: AliasId(id.0),
            args,
        }
    }
}

/// What a pattern type allows: pointers that are not null, or a range of constants.
#[derive(Clone, Copy, Debug)]
pub enum Pattern {
    NotNull,
    Range(Const, Const),
}

/// A trait with its arguments but the self type.
#[derive(Clone, Copy, Debug)]
pub struct ExistentialTraitRef {
    pub def_id: TraitId,
    pub args: Args,
}

/// An associated type with its arguments but the self type, and the type that it is.
#[derive(Clone, Copy, Debug)]
pub struct ExistentialProjection {
    pub def_id: AssocId,
    pub args: Args,
    pub term: Ty,
}

/// A bound of a `dyn` type, without the self type.
#[derive(Clone, Copy, Debug)]
pub enum ExistentialPredicate {
    Trait(ExistentialTraitRef),
    Projection(ExistentialProjection),
    AutoTrait(TraitId),
}

/// An associated type with its arguments, of which the first is the self type.
#[derive(Clone, Copy, PartialEq, Eq, Debug)]
pub struct AliasTerm {
    pub def_id: AssocId,
    pub args: Args,
}

/// Whether a trait is said to hold or not to hold.
#[derive(Clone, Copy, PartialEq, Eq, Hash, Debug)]
pub enum PredicatePolarity {
    Positive,
    Negative,
}

/// That a trait holds of its arguments, or that it doesn't.
#[derive(Clone, Copy, PartialEq, Eq, Debug)]
pub struct TraitPredicate {
    pub trait_ref: TraitRef,
    pub polarity: PredicatePolarity,
}

/// That an associated type is this type.
#[derive(Clone, Copy, Debug)]
pub struct ProjectionPredicate {
    pub projection_term: AliasTerm,
    pub term: Ty,
}

/// A clause without its binder. A term is a type in each place where one stands: here, in a bound of a `dyn` type and in
/// a goal.
#[derive(Clone, Copy, Debug)]
pub enum ClauseKind {
    Trait(TraitPredicate),
    Projection(ProjectionPredicate),
    /// The type's regions outlive the region.
    TypeOutlives(Ty, Region),
    /// The first region outlives the second.
    RegionOutlives(Region, Region),
    /// The two types are one.
    AliasRelate(Ty, Ty),
    /// The two constants are one.
    ConstEquate(Const, Const),
}

/// What is to be proved, and what may be taken as given for it.
#[derive(Clone, Copy, PartialEq, Eq, Debug)]
pub struct Goal<P> {
    pub param_env: ParamEnv,
    pub predicate: P,
}

/// Where a nested goal comes from.
#[derive(Clone, Copy, Debug)]
pub enum GoalSource {
    Misc,
    /// A where clause of an impl that is tried.
    ImplWhereBound,
}

/// A type by its parts, which are numbers of a context.
#[derive(Clone, Copy, Debug)]
pub enum TyKind {
    Bool,
    Char,
    Int(IntTy),
    Uint(UintTy),
    Float(FloatTy),
    Str,
    Never,
    Adt(AdtId, Args),
    Foreign(ForeignId),
    Array(Ty, Const),
    Slice(Ty),
    Pat(Ty, Pattern),
    RawPtr(Ty, Mutability),
    Ref(Region, Ty, Mutability),
    FnDef(FnId, Args),
    FnPtr(Binder<FnSig>),
    UnsafeBinder(Binder<Ty>),
    Dynamic(Preds, Region),
    Closure(ClosureId, ClosureArgs),
    Tuple(Args),
    Alias(AliasTy),
    Param(u32),
    Placeholder(Placeholder),
    Bound(BoundVar),
    Infer(InferTy),
    Error,
}

/// A constant by its parts.
#[derive(Clone, Copy, Debug)]
pub enum ConstKind {
    Value(u64),
    Param(u32),
    Placeholder(Placeholder),
    Bound(BoundVar),
    Infer(u32),
    Unevaluated(AssocId, Args),
    Error,
}

/// A region.
#[derive(Clone, Copy, PartialEq, Eq, Hash, Debug)]
pub enum RegionKind {
    Static,
    Error,
    Bound(BoundVar),
    Placeholder(Placeholder),
    Var(u32),
}

impl VarKind {

    /// Whether the kinds are equal.
    pub fn is_same(self, other: VarKind) -> bool
    {
        match self {
            VarKind::Ty => matches!(other, VarKind::Ty),
            VarKind::Const => matches!(other, VarKind::Const),
            VarKind::Region => matches!(other, VarKind::Region),
        }
    }
}

impl GenericArg {
    /// Whether it is a type.
    pub fn is_type(self) -> bool
    {
        matches!(self, GenericArg::Ty(_))
    }

    /// Whether it is of the kind.
    pub fn is_of(self, kind: VarKind) -> bool
    {
        match kind {
            VarKind::Ty => matches!(self, GenericArg::Ty(_)),
            VarKind::Const => matches!(self, GenericArg::Const(_)),
            VarKind::Region => matches!(self, GenericArg::Region(_)),
        }
    }
}

impl InferTy {
    /// The variable that it is: its sort and number.
    pub fn variable(self) -> Variable
    {
        match self {
            InferTy::TyVar(number) => Variable {
                sort: VariableSort::General,
                number,
            },
            InferTy::IntVar(number) => Variable {
                sort: VariableSort::Integer,
                number,
            },
            InferTy::FloatVar(number) => Variable {
                sort: VariableSort::Floating,
                number,
            },
        }
    }
}

/// The number at that place of three.
pub(crate) fn one_of_three(i: usize, first: u32, second: u32, third: u32) -> u32
{
    if i == 0 {
        first
    } else if i == 1 {
        second
    } else {
        third
    }
}

impl TyKind {
    /// Whether it is a general type variable, which stands for a type of any kind.
    pub fn is_ty_var(self) -> bool
    {
        matches!(self, TyKind::Infer(InferTy::TyVar(_)))
    }

    /// Whether it stays as it is whatever its variables become and its aliases stand for: every kind but aliases, parameters,
    /// placeholders, bound types, variables and errors.
    pub fn is_known_rigid(self) -> bool
    {
        !matches!(
            self,
            TyKind::Alias(_)
                | TyKind::Param(_)
                | TyKind::Placeholder(_)
                | TyKind::Bound(_)
                | TyKind::Infer(_)
                | TyKind::Error
        )
    }

    /// The head of the type's tree.
    #[inline(always)]
    pub fn head(self) -> Head
    {
        match self {
            TyKind::Bool => Head::Builtin(Builtin::Bool),
            TyKind::Char => Head::Builtin(Builtin::Char),
            TyKind::Int(width) => Head::Builtin(Builtin::Int(width)),
            TyKind::Uint(width) => Head::Builtin(Builtin::Uint(width)),
            TyKind::Float(width) => Head::Builtin(Builtin::Float(width)),
            TyKind::Str => Head::Builtin(Builtin::Str),
            TyKind::Never => Head::Builtin(Builtin::Never),
            TyKind::Adt(id, _) => Head::Adt(id),
            TyKind::Foreign(id) => Head::Foreign(id),
            TyKind::Array(_, _) => Head::Builtin(Builtin::Array),
            TyKind::Slice(_) => Head::Builtin(Builtin::Slice),
            TyKind::Pat(_, Pattern::NotNull) => Head::Builtin(Builtin::Pat(PatternShape::NotNull)),
            TyKind::Pat(_, Pattern::Range(_, _)) => {
                Head::Builtin(Builtin::Pat(PatternShape::Range))
            }
            TyKind::RawPtr(_, mutability) => Head::Builtin(Builtin::RawPtr(mutability)),
            TyKind::Ref(_, _, mutability) => Head::Ref(mutability),
            TyKind::FnDef(id, _) => Head::FnDef(id),
            TyKind::FnPtr(sig) => Head::Builtin(Builtin::FnPtr(Signature {
                safe: sig.value.safe,
                rust_abi: sig.value.rust_abi,
                variadic: sig.value.variadic,
            })),
            TyKind::UnsafeBinder(_) => Head::Builtin(Builtin::UnsafeBinder),
            TyKind::Dynamic(_, _) => Head::Dynamic,
            TyKind::Closure(id, args) => Head::Closure(id, args.kind),
            TyKind::Tuple(_) => Head::Builtin(Builtin::Tuple),
            TyKind::Alias(alias) => Head::Alias(alias.kind, alias.id),
            TyKind::Param(index) => Head::Param(index),
            TyKind::Placeholder(placeholder) => Head::Placeholder(placeholder),
            TyKind::Bound(var) => Head::Bound(var),
            TyKind::Infer(var) => Head::Infer(var.variable()),
            TyKind::Error => Head::Error,
        }
    }

    /// How many nodes the type's kind names.
    #[inline(always)]
    pub fn child_count(self) -> usize
    {
        match self {
            TyKind::Closure(_, _) | TyKind::FnPtr(_) | TyKind::Pat(_, Pattern::Range(_, _)) => 3,
            TyKind::Ref(_, _, _)
            | TyKind::Array(_, _)
            | TyKind::UnsafeBinder(_)
            | TyKind::Dynamic(_, _) => 2,
            TyKind::Adt(_, _)
            | TyKind::Slice(_)
            | TyKind::Pat(_, Pattern::NotNull)
            | TyKind::RawPtr(_, _)
            | TyKind::FnDef(_, _)
            | TyKind::Tuple(_)
            | TyKind::Alias(_) => 1,
            TyKind::Bool
            | TyKind::Char
            | TyKind::Int(_)
            | TyKind::Uint(_)
            | TyKind::Float(_)
            | TyKind::Str
            | TyKind::Never
            | TyKind::Foreign(_)
            | TyKind::Param(_)
            | TyKind::Placeholder(_)
            | TyKind::Bound(_)
            | TyKind::Infer(_)
            | TyKind::Error => 0,
        }
    }

    /// The number of the node that the type's kind names at that place. The caller sees to it that `i` is below `child_count`.
    #[inline(always)]
    pub fn child(self, i: usize) -> u32
    {
        match self {
            TyKind::Adt(_, args) | TyKind::FnDef(_, args) | TyKind::Tuple(args) => args.0,
            TyKind::Array(ty, len) => if i == 0 { ty.0 } else { len.0 },
            TyKind::Slice(ty) | TyKind::Pat(ty, Pattern::NotNull) | TyKind::RawPtr(ty, _) => ty.0,
            TyKind::Pat(ty, Pattern::Range(from, to)) => one_of_three(i, ty.0, from.0, to.0),
            TyKind::Ref(region, ty, _) => if i == 0 { region.0 } else { ty.0 },
            TyKind::FnPtr(sig) => {
                one_of_three(i, sig.vars.0, sig.value.inputs.0, sig.value.output.0)
            }
            TyKind::UnsafeBinder(inner) => if i == 0 { inner.vars.0 } else { inner.value.0 },
            TyKind::Dynamic(preds, region) => if i == 0 { preds.0 } else { region.0 },
            TyKind::Closure(_, args) => one_of_three(i, args.parent.0, args.sig.0, args.upvars.0),
            TyKind::Alias(alias) => alias.args.0,
            TyKind::Bool
            | TyKind::Char
            | TyKind::Int(_)
            | TyKind::Uint(_)
            | TyKind::Float(_)
            | TyKind::Str
            | TyKind::Never
            | TyKind::Foreign(_)
            | TyKind::Param(_)
            | TyKind::Placeholder(_)
            | TyKind::Bound(_)
            | TyKind::Infer(_)
            | TyKind::Error => unreachable!(),
        }
    }
}

impl ConstKind {
    /// The head of the constant's tree.
    #[inline(always)]
    pub fn head(self) -> Head
    {
        match self {
            ConstKind::Value(value) => Head::Const(ConstHead::Value(value)),
            ConstKind::Param(index) => Head::Const(ConstHead::Param(index)),
            ConstKind::Placeholder(placeholder) => {
                Head::Const(ConstHead::Placeholder(placeholder))
            }
            ConstKind::Bound(var) => Head::Const(ConstHead::Bound(var)),
            ConstKind::Infer(number) => Head::Infer(Variable {
                sort: VariableSort::Constant,
                number,
            }),
            ConstKind::Unevaluated(id, _) => Head::Const(ConstHead::Unevaluated(id)),
            ConstKind::Error => Head::Const(ConstHead::Error),
        }
    }
}

impl Binder<ExistentialPredicate> {
    /// The head of the bound's tree.
    pub fn head(self) -> PredHead
    {
        match self.value {
            ExistentialPredicate::Trait(trait_ref) => PredHead::Trait(trait_ref.def_id),
            ExistentialPredicate::Projection(projection) => PredHead::Projection(projection.def_id),
            ExistentialPredicate::AutoTrait(id) => PredHead::AutoTrait(id),
        }
    }

    /// How many nodes the bound names, its variables first.
    pub fn child_count(self) -> usize
    {
        match self.value {
            ExistentialPredicate::Trait(_) => 2,
            ExistentialPredicate::Projection(_) => 3,
            ExistentialPredicate::AutoTrait(_) => 1,
        }
    }

    /// The number of the node that the bound names at that place. The caller sees to it that `i` is below `child_count`.
    pub fn child(self, i: usize) -> u32
    {
        match self.value {
            ExistentialPredicate::Trait(trait_ref) => {
                if i == 0 {
                    self.vars.0
                } else {
                    trait_ref.args.0
                }
            }
            ExistentialPredicate::Projection(projection) => {
                one_of_three(i, self.vars.0, projection.args.0, projection.term.0)
            }
            ExistentialPredicate::AutoTrait(_) => self.vars.0,
        }
    }
}

impl Binder<ClauseKind> {
    /// The head of the clause's tree.
    pub fn head(self) -> ClauseHead
    {
        match self.value {
            ClauseKind::Trait(predicate) => {
                ClauseHead::Trait(predicate.trait_ref.def_id, predicate.polarity)
            }
            ClauseKind::Projection(predicate) => {
                ClauseHead::Projection(predicate.projection_term.def_id)
            }
            ClauseKind::TypeOutlives(_, _) => ClauseHead::TypeOutlives,
            ClauseKind::RegionOutlives(_, _) => ClauseHead::RegionOutlives,
            ClauseKind::AliasRelate(_, _) => ClauseHead::AliasRelate,
            ClauseKind::ConstEquate(_, _) => ClauseHead::ConstEquate,
        }
    }

    /// How many nodes the clause names, its variables first.
    pub fn child_count(self) -> usize
    {
        match self.value {
            ClauseKind::Trait(_) => 2,
            ClauseKind::Projection(_)
            | ClauseKind::TypeOutlives(_, _)
            | ClauseKind::RegionOutlives(_, _)
            | ClauseKind::AliasRelate(_, _)
            | ClauseKind::ConstEquate(_, _) => 3,
        }
    }

    /// The number of the node that the clause names at that place. The caller sees to it that `i` is below `child_count`.
    pub fn child(self, i: usize) -> u32
    {
        match self.value {
            ClauseKind::Trait(predicate) => {
                if i == 0 {
                    self.vars.0
                } else {
                    predicate.trait_ref.args.0
                }
            }
            ClauseKind::Projection(predicate) => one_of_three(
                i,
                self.vars.0,
                predicate.projection_term.args.0,
                predicate.term.0,
            ),
            ClauseKind::TypeOutlives(ty, region) => { one_of_three(i, self.vars.0, ty.0, region.0) }
            ClauseKind::RegionOutlives(longer, shorter) => {
                one_of_three(i, self.vars.0, longer.0, shorter.0)
            }
            ClauseKind::AliasRelate(left, right) => one_of_three(i, self.vars.0, left.0, right.0),
            ClauseKind::ConstEquate(left, right) => one_of_three(i, self.vars.0, left.0, right.0),
        }
    }
}
