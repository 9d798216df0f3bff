//! Two impls of a trait `Show` of another crate: one for `bool`, and one for each type that a second trait `Known` holds of.
//! `Known` is the local crate's and holds of `u8` alone, so the two are disjoint. Without the bound they overlap.

use candidate_eval::eval::mode::TypingMode;
use candidate_ir::decl::builder::DeclsBuilder;
use candidate_ir::decl::contents::{ImplId, ImplPolarity};
use candidate_ir::decl::context::Cx;
use candidate_ir::decl::definition::TraitFlags;
use candidate_ir::decl::make::Build;
use candidate_ir::ir::kinds::*;
use candidate_rounds::rounds::effort::Effort;
use candidate_rounds::rounds::Rounds;
use kit::alloc::Global;
use kit::prelude::Vec;
use overlaps::overlap::{impls_overlap, Overlap};
use std::error::Error;

/// The trait of a type.
fn reference(builder: &mut DeclsBuilder, def_id: TraitId, kind: TyKind) -> Result<TraitRef, Box<dyn Error>> {
    let ty = builder.mk_ty(kind)?;
    let args = builder.mk_args(&[GenericArg::Ty(ty)])?;
    Ok(TraitRef { def_id, args })
}

/// The declarations, with the two impls; the second one has its bound, or none.
fn declare(bounded: bool) -> Result<(Cx, ImplId, ImplId), Box<dyn Error>> {
    let mut builder = DeclsBuilder::new(Global);
    let (local, other) = (builder.add_crate()?, builder.add_crate()?);
    builder.set_local(local);
    let known = builder.add_trait(local, &[], TraitFlags::default())?;
    let show = builder.add_trait(other, &[], TraitFlags::default())?;
    let (byte, positive) = (TyKind::Uint(UintTy::U8), ImplPolarity::Positive);
    let known_byte = reference(&mut builder, known, byte)?;
    builder.add_impl(local, &[], known_byte, positive)?;
    let of_bool = reference(&mut builder, show, TyKind::Bool)?;
    let first = builder.add_impl(local, &[], of_bool, positive)?;
    let of_each = reference(&mut builder, show, TyKind::Param(0))?;
    let second = builder.add_impl(local, &[VarKind::Ty], of_each, positive)?;
    if bounded {
        let trait_ref = reference(&mut builder, known, TyKind::Param(0))?;
        let polarity = PredicatePolarity::Positive;
        let (vars, value) = (builder.mk_vars(&[])?, ClauseKind::Trait(TraitPredicate { trait_ref, polarity }));
        let clause = builder.mk_clause(Binder { vars, value })?;
        builder.push_impl_where(second, clause)?;
    }
    Ok((Cx::new(builder.finish()?), first, second))
}

fn main() -> Result<(), Box<dyn Error>> {
    for bounded in [true, false] {
        let (cx, first, second) = declare(bounded)?;
        let normal_forms = Vec::new(Global);
        let mut rounds = Rounds::with_open_aliases(Global, cx, TypingMode::Coherence, normal_forms, Vec::new(Global));
        let overlap = impls_overlap(Global, &mut rounds, first, second, Effort::Rounds(8))?;
        println!("with a bound: {bounded}, they overlap: {}", matches!(overlap, Overlap::May(_)));
    }
    Ok(())
}
