// Made of `crates/examples/src/writing.rt` by `bench/plain.py`: an edit of this file is lost.

//! A small client of the two libraries: it declares two crates, makes a reference over them, and
//! asks whether the local one may write an impl of it.


use kit::{eprintln, format, prelude::*, print, println, vec};
use candidate_eval::coherence::{
    InCrate, NormalizeErr, OrphanCheckMode, OrphanStop, orphan_check_trait_ref, trait_ref_is_plain,
};
use candidate_ir::decl::make::Build;
use candidate_ir::decl::{AdtFlags, AdtShape, Cx, DeclFault, DeclsBuilder, TraitFlags};
use candidate_ir::ir::kinds::{AdtId, GenericArg, TraitId, TraitRef, Ty, TyKind, VarKind};
use candidate_ir::ir::stop::Stop;
use candidate_ir::ir::trees::Trees;
use kit::alloc::Global;
use kit::convert::Infallible;

/// A context that declares `Vec<T>` and `From<T>` in a crate above, and `LocalType` in the local one.
#[derive(Debug)]
pub struct Declared {
    pub cx: Cx,
    pub vec: AdtId,
    pub local_type: AdtId,
    pub from: TraitId,
}

/// Declares them; only memory can be wanting.
pub fn declare(alloc: Global) -> Result<Declared, DeclFault> {
    let mut builder = DeclsBuilder::new(alloc);
    let upstream = builder.add_crate()?;
    let local = builder.add_crate()?;
    builder.set_local(local);
    let flags = AdtFlags::default();
    let vec = builder.add_adt(upstream, AdtShape::Struct, &[VarKind::Ty], flags)?;
    let local_type = builder.add_adt(local, AdtShape::Struct, &[], flags)?;
    let from = builder.add_trait(upstream, &[VarKind::Ty], TraitFlags::default())?;
    let cx = Cx::new(builder.finish()?);
    Ok(Declared {
        cx,
        vec,
        local_type,
        from,
    })
}

/// The data type with these arguments, which have the kinds of its parameters.
pub fn adt(cx: &mut Cx, id: AdtId, list: &[GenericArg]) -> Result<Ty, Stop>
{
    let args = cx.mk_args(list)?;
    cx.mk_ty(TyKind::Adt(id, args))
}

/// The trait with these arguments, which have the kinds of `Self` and its parameters.
pub fn reference(cx: &mut Cx, def_id: TraitId, list: &[GenericArg]) -> Result<TraitRef, Stop>
{
    let args = cx.mk_args(list)?;
    Ok(TraitRef { def_id, args })
}

/// `Vec<LocalType>: From<LocalType>`.
pub fn vec_from_local(declared: &mut Declared) -> Result<TraitRef, Stop>
{
    let cx = &mut declared.cx;
    let local = adt(cx, declared.local_type, &[])?;
    let vec = adt(cx, declared.vec, &[GenericArg::Ty(local)])?;
    let list = [GenericArg::Ty(vec), GenericArg::Ty(local)];
    reference(cx, declared.from, &list)
}

/// Whether the local crate may write an impl of the reference, where nothing has to be normalised.
///
/// After a yes no header overlaps it that another crate may write, in any program with these
/// declarations, if neither crate names the other. What holds a parameter, an alias or an error is
/// no such reference. A check that gives up is a stop, and no answer.
pub fn may_write(alloc: Global, cx: &mut Cx, trait_ref: TraitRef) -> Result<bool, Stop>
{
    debug_assert!(ir_trees::checks::is_sorted(&*cx, trait_ref.args), "examples::writing::may_write: `trait_ref.args` is {:?}, no number of its sort in this context", trait_ref.args);
    // What the check asks of a reference, and what its promise asks besides.
    if cx.has_param(trait_ref) || !trait_ref_is_plain(cx, trait_ref) {
        return Ok(false);
    }
    let in_crate = InCrate::Local {
        mode: OrphanCheckMode::Proper,
    };
    let checked = orphan_check_trait_ref(
        alloc,
        cx,
        trait_ref,
        in_crate,
        |_, ty| -> Result<Ty, NormalizeErr<Infallible>> { Ok(ty) },
    );
    match checked {
        Ok(Ok(())) => Ok(true),
        Ok(Err(_)) => Ok(false),
        Err(OrphanStop::Stop(stop)) => Err(stop),
        Err(OrphanStop::Normalize(never)) => match never {},
    }
}
