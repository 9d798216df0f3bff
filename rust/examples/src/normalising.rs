// Made of `crates/examples/src/normalising.rt` by `bench/plain.py`: an edit of this file is lost.

//! Checks whose normalisers make nodes, or hold types of the context.


use kit::{eprintln, format, prelude::*, print, println, vec};
use candidate_eval::coherence::{
    InCrate, NormalizeErr, OrphanCheckErr, OrphanStop, orphan_check_trait_ref,
};
use candidate_ir::decl::Cx;
use candidate_ir::decl::make::Build;
use candidate_ir::ir::kinds::{Mutability, RegionKind, TraitRef, Ty, TyKind, UintTy};
use candidate_ir::ir::stop::Stop;
use candidate_ir::ir::trees::Trees;
use kit::alloc::Global;
use kit::convert::Infallible;

fn is_byte(cx: &Cx, ty: Ty) -> bool
{
    matches!(cx.kind(ty), TyKind::Uint(UintTy::U8))
}

/// The `&'static` type of a type. It stops as `Cx::mk_ty` does.
fn reference_to(cx: &mut Cx, ty: Ty) -> Result<Ty, Stop>
{
    let region = cx.mk_region(RegionKind::Static)?;
    cx.mk_ty(TyKind::Ref(region, ty, Mutability::Not))
}

/// `&'static u8` for `u8`, and any other type for itself. It stops as `Cx::mk_ty` does.
fn referenced(cx: &mut Cx, ty: Ty) -> Result<Ty, NormalizeErr<Infallible>>
{
    if !is_byte(cx, ty) {
        return Ok(ty);
    }
    match reference_to(cx, ty) {
        Ok(reference) => Ok(reference),
        Err(stop) => Err(NormalizeErr::Stop(stop)),
    }
}

/// The orphan check where `&'static u8` stands for `u8`. It makes a node for each `u8` that is met.
pub fn checked_by_reference(
    alloc: Global,
    cx: &mut Cx,
    trait_ref: TraitRef,
    in_crate: InCrate,
) -> Result<Result<(), OrphanCheckErr<Ty>>, OrphanStop<Infallible>>
{
    debug_assert!(ir_trees::checks::is_sorted(&*cx, trait_ref.args), "examples::normalising::checked_by_reference: `trait_ref.args` is {:?}, no number of its sort in this context", trait_ref.args);
    orphan_check_trait_ref(
        alloc,
        cx,
        trait_ref,
        in_crate,
        |cx: &mut Cx, ty: Ty| -> Result<Ty, NormalizeErr<Infallible>> { referenced(cx, ty) },
    )
}

/// The orphan check where one type of the context stands for each type.
pub fn checked_as(
    alloc: Global,
    cx: &mut Cx,
    trait_ref: TraitRef,
    in_crate: InCrate,
    seen: Ty,
) -> Result<Result<(), OrphanCheckErr<Ty>>, OrphanStop<Infallible>>
{
    debug_assert!(ir_trees::checks::is_sorted(&*cx, trait_ref.args), "examples::normalising::checked_as: `trait_ref.args` is {:?}, no number of its sort in this context", trait_ref.args);
    debug_assert!(ir_trees::checks::is_sorted(&*cx, seen), "examples::normalising::checked_as: `seen` is {:?}, no number of its sort in this context", seen);
    orphan_check_trait_ref(
        alloc,
        cx,
        trait_ref,
        in_crate,
        move |_: &mut Cx, _: Ty| -> Result<Ty, NormalizeErr<Infallible>> { Ok(seen) },
    )
}
