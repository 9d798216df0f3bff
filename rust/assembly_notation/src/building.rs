// Made of `crates/assembly_notation/src/building.rt` by `bench/plain.py`: an edit of this file is lost.

//! The types, bounds and clauses that are made of what was read. A binder binds regions alone.
//!
//! Each call stops as the calls of `Maker` that it makes, and has their faults.


use kit::{eprintln, format, prelude::*, print, println, vec};
use crate::faults::Fault;
use crate::making::{Draft, Maker};
use crate::notation::{Inputs, MAX_BOUND, Qualifier};
use ir_context::decl::make::Build;
use ir_trees::ir::kinds::{
    AdtId, AliasId, AliasKind, AliasTerm, AliasTy, AssocId, Binder, Clause, ClauseKind, Const,
    ConstKind, ExistentialPredicate, ExistentialProjection, ExistentialTraitRef, FnSig, GenericArg,
    Mutability, Placeholder, PredicatePolarity, ProjectionPredicate, Region, TraitId,
    TraitPredicate, TraitRef, Ty, TyKind, VarKind, Vars,
};
use ir_trees::ir::stop::Stop;

/// What is made of one type.
#[derive(Clone, Copy, Debug)]
pub enum Pointer {
    RawPtr(Mutability),
    Slice,
    Array(Constant),
}

/// A constant that a word names, as the length of an array.
#[derive(Clone, Copy, Debug)]
pub enum Constant {
    Value(u64),
    Parameter(u32),
    Placeholder(u32),
    /// Variables stand for types alone.
    Variable,
    Error,
}

/// How a function pointer is, besides its inputs.
#[derive(Clone, Copy, Debug)]
pub struct FnForm {
    /// How many regions it binds.
    pub bound: u16,
    safe: bool,
    rust_abi: bool,
}

impl FnForm {
    /// Safe, of the Rust ABI, and nothing bound.
    pub fn plain() -> FnForm {
        FnForm {
            bound: 0,
            safe: true,
            rust_abi: true,
        }
    }

    /// What one more word makes of it.
    pub fn with(self, qualifier: Qualifier) -> FnForm {
        match qualifier {
            Qualifier::For(bound) => FnForm { bound, ..self },
            Qualifier::Unsafe => FnForm {
                safe: false,
                ..self
            },
            Qualifier::Extern => FnForm {
                rust_abi: false,
                ..self
            },
        }
    }
}

/// The variables of a binder.
const REGIONS: [VarKind; 16] = [VarKind::Region; 16];

/// A binder of so many regions, `MAX_BOUND` at most.
fn binder<M: Maker>(maker: &mut M, count: u16) -> Result<Vars, Stop>
{
    maker.mk_vars(&REGIONS[..usize::from(count.min(MAX_BOUND))])
}

/// What is made of a list of types.
#[derive(Clone, Copy, Debug)]
pub enum Constructor {
    Tuple,
    Adt(AdtId),
    Projection(AssocId),
    Opaque(AliasId),
}

/// The type that a word alone is.
pub fn leaf_type<'a, M: Maker>(maker: &mut M, kind: TyKind, word: &'a str) -> Result<Ty, Fault<'a>>
{
    match maker.misplaced(kind) {
        Some(fault) => Err(fault),
        None => maker.leaf(kind, word),
    }
}

/// The pointer to the type, or the slice or array of it, which the word begins.
pub fn pointer_to<'a, M: Maker>(
    maker: &mut M,
    pointer: Pointer,
    target: Ty,
    word: &'a str,
) -> Result<Ty, Fault<'a>>
{
    match pointer {
        Pointer::RawPtr(mutability) => maker.ty(TyKind::RawPtr(target, mutability), word),
        Pointer::Slice => maker.ty(TyKind::Slice(target), word),
        Pointer::Array(length) => array(maker, target, length, word),
    }
}

/// The reference to the type for the region, which the word begins.
pub fn reference<'a, M: Maker>(
    maker: &mut M,
    region: Region,
    target: Ty,
    mutability: Mutability,
    word: &'a str,
) -> Result<Ty, Fault<'a>>
{
    maker.ty(TyKind::Ref(region, target, mutability), word)
}

fn array<'a, M: Maker>(
    maker: &mut M,
    target: Ty,
    length: Constant,
    word: &'a str,
) -> Result<Ty, Fault<'a>>
{
    let constant = make_constant(maker, length)?;
    maker.ty(TyKind::Array(target, constant), word)
}

/// The constant that a word names. `Fault::Variable` comes at a variable, `Fault::Parameter` at a parameter and `Fault::Error` at an
/// error where none may stand.
pub fn make_constant<'a, M: Maker>(maker: &mut M, named: Constant) -> Result<Const, Fault<'a>>
{
    match named {
        Constant::Value(number) => Ok(maker.mk_const(ConstKind::Value(number))?),
        Constant::Parameter(index) => {
            if let Some(fault) = maker.misplaced(TyKind::Param(index)) {
                return Err(fault);
            }
            Ok(maker.mk_const(ConstKind::Param(index))?)
        }
        Constant::Placeholder(index) => {
            let placeholder = Placeholder { universe: 0, index };
            Ok(maker.mk_const(ConstKind::Placeholder(placeholder))?)
        }
        Constant::Variable => Err(Fault::Variable),
        Constant::Error => {
            if let Some(fault) = maker.misplaced(TyKind::Error) {
                return Err(fault);
            }
            Ok(maker.mk_const(ConstKind::Error)?)
        }
    }
}

/// The type over these arguments, which the word begins.
pub fn construct<'a, M: Maker>(
    maker: &mut M,
    constructor: Constructor,
    list: Vec<GenericArg>,
    word: &'a str,
) -> Result<Ty, Fault<'a>>
{
    let args = maker.args(list)?;
    let kind = match constructor {
        Constructor::Tuple => TyKind::Tuple(args),
        Constructor::Adt(id) => TyKind::Adt(id, args),
        Constructor::Projection(id) => TyKind::Alias(AliasTy::projection(id, args)),
        Constructor::Opaque(id) => TyKind::Alias(AliasTy {
            kind: AliasKind::Opaque,
            id,
            args,
        }),
    };
    maker.ty(kind, word)
}

/// The pointer to functions from these types to the other one, which the word begins.
#[inline(never)]
pub fn fn_pointer<'a, M: Maker>(
    maker: &mut M,
    form: FnForm,
    is_variadic: bool,
    list: Vec<GenericArg>,
    output: Ty,
    word: &'a str,
) -> Result<Ty, Fault<'a>>
{
    let inputs = maker.args(list)?;
    let vars = binder(maker, form.bound)?;
    let value = FnSig {
        inputs,
        output,
        safe: form.safe,
        rust_abi: form.rust_abi,
        variadic: is_variadic,
    };
    maker.ty(TyKind::FnPtr(Binder { vars, value }), word)
}

/// The `dyn` type of these bounds, which the word begins.
#[inline(never)]
pub fn dyn_type<'a, M: Maker>(
    maker: &mut M,
    bounds: Vec<Binder<ExistentialPredicate>>,
    word: &'a str,
) -> Result<Ty, Fault<'a>>
{
    let preds = maker.bounds(bounds.as_slice(), word)?;
    let region = maker.static_region()?;
    maker.ty(TyKind::Dynamic(preds, region), word)
}

/// The bound by the auto trait. It binds nothing.
pub fn auto_bound<'a, M: Maker>(
    maker: &mut M,
    id: TraitId,
) -> Result<Binder<ExistentialPredicate>, Fault<'a>>
{
    let vars = binder(maker, 0)?;
    Ok(Binder {
        vars,
        value: ExistentialPredicate::AutoTrait(id),
    })
}

/// The bound by the trait with these arguments, under a binder of so many regions.
pub fn trait_bound<'a, M: Maker>(
    maker: &mut M,
    bound: u16,
    id: TraitId,
    list: Vec<GenericArg>,
) -> Result<Binder<ExistentialPredicate>, Fault<'a>>
{
    let args = maker.args(list)?;
    let vars = binder(maker, bound)?;
    Ok(Binder {
        vars,
        value: ExistentialPredicate::Trait(ExistentialTraitRef { def_id: id, args }),
    })
}

/// The bound by the associated type with these arguments of its trait, which is the type, under such a binder.
pub fn projection_bound<'a, M: Maker>(
    maker: &mut M,
    bound: u16,
    id: AssocId,
    list: Vec<GenericArg>,
    term: Ty,
) -> Result<Binder<ExistentialPredicate>, Fault<'a>>
{
    let args = maker.args(list)?;
    let vars = binder(maker, bound)?;
    Ok(Binder {
        vars,
        value: ExistentialPredicate::Projection(ExistentialProjection {
            def_id: id,
            args,
            term,
        }),
    })
}

/// The clause that the trait holds, under a binder of so many regions.
pub fn trait_clause<'a>(
    draft: &mut Draft,
    bound: u16,
    trait_ref: TraitRef,
) -> Result<Clause, Fault<'a>>
{
    let value = ClauseKind::Trait(TraitPredicate {
        trait_ref,
        polarity: PredicatePolarity::Positive,
    });
    let vars = binder(draft, bound)?;
    Ok(draft.mk_clause(Binder { vars, value })?)
}

/// The clause that the associated type with these arguments, of which the first is the self type, is the type, under such a binder.
pub fn projection_clause<'a>(
    draft: &mut Draft,
    bound: u16,
    id: AssocId,
    list: Vec<GenericArg>,
    term: Ty,
) -> Result<Clause, Fault<'a>>
{
    let args = draft.args(list)?;
    let vars = binder(draft, bound)?;
    let projection_term = AliasTerm { def_id: id, args };
    let value = ClauseKind::Projection(ProjectionPredicate {
        projection_term,
        term,
    });
    Ok(draft.mk_clause(Binder { vars, value })?)
}
