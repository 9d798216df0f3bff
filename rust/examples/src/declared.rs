// Made of `crates/examples/src/declared.rt` by `bench/plain.py`: an edit of this file is lost.

//! Two traits with impls, over which the clients are asked.


use kit::{eprintln, format, prelude::*, print, println, vec};
use candidate_ir::decl::contents::ImplId;
use candidate_ir::decl::definition::CrateId;
use candidate_ir::decl::make::{Build, Make};
use candidate_ir::decl::{Cx, DeclFault, DeclsBuilder, ImplPolarity, TraitFlags};
use candidate_ir::ir::kinds::{
    Binder, Clause, ClauseKind, GenericArg, PredicatePolarity, TraitId, TraitPredicate, TraitRef,
    TyKind, UintTy, VarKind,
};
use kit::alloc::Global;

/// The trait for a type of that kind.
fn reference(
    builder: &mut DeclsBuilder,
    def_id: TraitId,
    kind: TyKind,
) -> Result<TraitRef, DeclFault>
{
    let Ok(ty) = builder.mk_ty(kind) else {
        return Err(DeclFault::Memory);
    };
    let Ok(args) = builder.mk_args(&[GenericArg::Ty(ty)]) else {
        return Err(DeclFault::Memory);
    };
    Ok(TraitRef { def_id, args })
}

/// That the trait holds of the first parameter.
fn clause(builder: &mut DeclsBuilder, def_id: TraitId) -> Result<Clause, DeclFault> {
    let trait_ref = reference(builder, def_id, TyKind::Param(0))?;
    let polarity = PredicatePolarity::Positive;
    let value = ClauseKind::Trait(TraitPredicate {
        trait_ref,
        polarity,
    });
    let Ok(vars) = builder.mk_vars(&[]) else {
        return Err(DeclFault::Memory);
    };
    match builder.mk_clause(Binder { vars, value }) {
        Ok(clause) => Ok(clause),
        Err(_) => Err(DeclFault::Memory),
    }
}

/// Declares that the trait holds of a type of that kind, or what else the polarity says.
fn implement(
    builder: &mut DeclsBuilder,
    local: CrateId,
    id: TraitId,
    parameters: &[VarKind],
    kind: TyKind,
    polarity: ImplPolarity,
) -> Result<ImplId, DeclFault>
{
    let of = reference(builder, id, kind)?;
    builder.add_impl(local, parameters, of, polarity)
}

/// The impls of both traits.
fn declare_impls(
    builder: &mut DeclsBuilder,
    local: CrateId,
    bound: TraitId,
    id: TraitId,
) -> Result<(), DeclFault> {
    let (byte, each) = (TyKind::Uint(UintTy::U8), TyKind::Param(0));
    let (positive, kinds) = (ImplPolarity::Positive, [VarKind::Ty]);
    implement(builder, local, bound, &[], byte, positive)?;
    implement(builder, local, id, &[], TyKind::Bool, positive)?;
    let for_byte = implement(builder, local, id, &[], byte, positive)?;
    let for_each = implement(builder, local, id, &kinds, each, positive)?;
    builder.specializes(for_byte, for_each)?;
    let with_clause = implement(builder, local, id, &kinds, each, positive)?;
    let clause = clause(builder, bound)?;
    builder.push_impl_where(with_clause, clause)?;
    let reservation = ImplPolarity::Reservation;
    implement(builder, local, id, &[], TyKind::Bool, reservation)?;
    Ok(())
}

/// The traits with their impls. The builder is the caller's, so that none has to be let go where a call fails.
fn declare_all(builder: &mut DeclsBuilder) -> Result<(), DeclFault> {
    let local = builder.add_crate()?;
    builder.set_local(local);
    let bound = builder.add_trait(local, &[], TraitFlags::default())?;
    let id = builder.add_trait(local, &[], TraitFlags::default())?;
    declare_impls(builder, local, bound, id)
}

/// Two local traits, the first of which holds of `u8` alone; and impls of the second, for `bool`, for `u8`, for each type, which the one for
/// `u8` specialises, and for each of which the first holds; and last a reservation for `bool`.
pub fn declare(alloc: Global) -> Result<Cx, DeclFault> {
    let mut builder = DeclsBuilder::new(alloc);
    declare_all(&mut builder)?;
    Ok(Cx::new(builder.finish()?))
}
