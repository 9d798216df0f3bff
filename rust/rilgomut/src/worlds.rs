//! Declarations for the examples of the documentation.

use crate::*;
use std::error::Error;

type Made<T> = Result<T, Box<dyn Error>>;

/// `trait Clone` of another crate, `struct Vec<T>`, `trait Show` of this one, and impls: `Clone for u8`, `Clone for Vec<T>` where `T: Clone`,
/// `!Clone for bool`, `Show for bool`, and `Show for T` where `T: Clone`.
#[derive(Debug)]
pub struct Clones {
    pub cx: Cx,
    pub names: Vec<&'static str>,
    pub clone: TraitId,
    pub vec: AdtId,
    pub of_byte: ImplId,
    pub of_vec: ImplId,
    pub of_truth: ImplId,
    pub of_clones: ImplId,
}

/// `trait Iterator { type Item; }`, `struct Vec<T>`, `Iterator for Vec<T>` with `Item = T`, and two impls of a trait `Show`: for each `T` whose items are
/// `u8`, and for `Vec<bool>`.
#[derive(Debug)]
pub struct Items {
    pub cx: Cx,
    pub item: AssocId,
    pub vec: AdtId,
    pub of_bytes: ImplId,
    pub of_vec: ImplId,
}

fn reference(builder: &mut DeclsBuilder, def_id: TraitId, kind: TyKind) -> Made<TraitRef> {
    let ty = builder.mk_ty(kind)?;
    let args = builder.mk_args(&[GenericArg::Ty(ty)])?;
    Ok(TraitRef { def_id, args })
}

fn add_where(builder: &mut DeclsBuilder, of: ImplId, value: ClauseKind) -> Made<()> {
    let vars = builder.mk_vars(&[])?;
    let clause = builder.mk_clause(Binder { vars, value })?;
    Ok(builder.push_impl_where(of, clause)?)
}

fn holds(trait_ref: TraitRef) -> ClauseKind {
    ClauseKind::Trait(TraitPredicate { trait_ref, polarity: PredicatePolarity::Positive })
}

fn of_parameter(builder: &mut DeclsBuilder, vec: AdtId) -> Made<TyKind> {
    let ty = builder.mk_ty(TyKind::Param(0))?;
    Ok(TyKind::Adt(vec, builder.mk_args(&[GenericArg::Ty(ty)])?))
}

/// Declares `Clones`.
pub fn clones() -> Made<Clones> {
    let mut builder = DeclsBuilder::new(Global);
    let (this, other) = (builder.add_crate()?, builder.add_crate()?);
    builder.set_local(this);
    let clone = builder.add_trait(other, &[], TraitFlags::default())?;
    let vec = builder.add_adt(other, AdtShape::Struct, &[VarKind::Ty], AdtFlags::default())?;
    let show = builder.add_trait(this, &[], TraitFlags::default())?;
    let header = reference(&mut builder, clone, TyKind::Uint(UintTy::U8))?;
    let of_byte = builder.add_impl(other, &[], header, ImplPolarity::Positive)?;
    let kind = of_parameter(&mut builder, vec)?;
    let header = reference(&mut builder, clone, kind)?;
    let of_vec = builder.add_impl(other, &[VarKind::Ty], header, ImplPolarity::Positive)?;
    let bound = reference(&mut builder, clone, TyKind::Param(0))?;
    add_where(&mut builder, of_vec, holds(bound))?;
    let header = reference(&mut builder, clone, TyKind::Bool)?;
    builder.add_impl(other, &[], header, ImplPolarity::Negative)?;
    let header = reference(&mut builder, show, TyKind::Bool)?;
    let of_truth = builder.add_impl(this, &[], header, ImplPolarity::Positive)?;
    let header = reference(&mut builder, show, TyKind::Param(0))?;
    let of_clones = builder.add_impl(this, &[VarKind::Ty], header, ImplPolarity::Positive)?;
    add_where(&mut builder, of_clones, holds(bound))?;
    let names = vec!["Clone", "Vec", "Show"];
    Ok(Clones { cx: Cx::new(builder.finish()?), names, clone, vec, of_byte, of_vec, of_truth, of_clones })
}

/// Declares `Items`.
pub fn items() -> Made<Items> {
    let mut builder = DeclsBuilder::new(Global);
    let this = builder.add_crate()?;
    builder.set_local(this);
    let iterator = builder.add_trait(this, &[], TraitFlags::default())?;
    let item = builder.add_assoc(iterator, AssocKind::Type, false)?;
    let vec = builder.add_adt(this, AdtShape::Struct, &[VarKind::Ty], AdtFlags::default())?;
    let show = builder.add_trait(this, &[], TraitFlags::default())?;
    let kind = of_parameter(&mut builder, vec)?;
    let header = reference(&mut builder, iterator, kind)?;
    let of_each = builder.add_impl(this, &[VarKind::Ty], header, ImplPolarity::Positive)?;
    let element = builder.mk_ty(TyKind::Param(0))?;
    builder.push_assoc_value(of_each, item, element)?;
    let header = reference(&mut builder, show, TyKind::Param(0))?;
    let of_bytes = builder.add_impl(this, &[VarKind::Ty], header, ImplPolarity::Positive)?;
    let bound = reference(&mut builder, iterator, TyKind::Param(0))?;
    add_where(&mut builder, of_bytes, holds(bound))?;
    let projection_term = AliasTerm { def_id: item, args: bound.args };
    let term = builder.mk_ty(TyKind::Uint(UintTy::U8))?;
    add_where(&mut builder, of_bytes, ClauseKind::Projection(ProjectionPredicate { projection_term, term }))?;
    let truth = builder.mk_ty(TyKind::Bool)?;
    let args = builder.mk_args(&[GenericArg::Ty(truth)])?;
    let header = reference(&mut builder, show, TyKind::Adt(vec, args))?;
    let of_vec = builder.add_impl(this, &[], header, ImplPolarity::Positive)?;
    Ok(Items { cx: Cx::new(builder.finish()?), item, vec, of_bytes, of_vec })
}
