// Made of `crates/examples/src/clients.rt` by `bench/plain.py`: an edit of this file is lost.

//! What the client answers.


use kit::{eprintln, format, prelude::*, print, println, vec};
use crate::asserts::{equals, holds};
use crate::writing::{Declared, adt, declare, may_write, reference, vec_from_local};
use candidate_eval::coherence::{NormalizeErr, OrphanStop, trait_ref_is_knowable};
use candidate_ir::decl::Cx;
use candidate_ir::ir::heads::Flag;
use candidate_ir::ir::kinds::{GenericArg, TraitRef, Ty};
use candidate_ir::ir::stop::Stop;
use candidate_ir::ir::trees::Trees;
use kit::alloc::Global;
use kit::convert::Infallible;

/// `Vec<LocalType>: From<Vec<LocalType>>`.
fn vec_from_vec(declared: &mut Declared) -> Result<TraitRef, Stop>
{
    let cx = &mut declared.cx;
    let local = adt(cx, declared.local_type, &[])?;
    let vec = adt(cx, declared.vec, &[GenericArg::Ty(local)])?;
    reference(
        cx,
        declared.from,
        &[GenericArg::Ty(vec), GenericArg::Ty(vec)],
    )
}

/// Whether all impls of the reference are known, asked in the same way.
///
/// After a yes no header overlaps it that a crate may write which it doesn't name.
fn all_known(
    alloc: Global,
    cx: &mut Cx,
    trait_ref: TraitRef,
) -> Result<bool, OrphanStop<Infallible>>
{
    if cx.has_param(trait_ref) || cx.has(trait_ref.args, Flag::Alias) {
        return Ok(false);
    }
    let known = trait_ref_is_knowable(
        alloc,
        cx,
        trait_ref,
        |_, ty| -> Result<Ty, NormalizeErr<Infallible>> { Ok(ty) },
    );
    match known {
        Ok(Ok(())) => Ok(true),
        Ok(Err(_)) => Ok(false),
        Err(stop) => Err(stop),
    }
}

#[test]
fn a_local_parameter_makes_all_known() {
    let rt = HostRuntime;
    let mut declared = declare(rt.alloc()).expect("memory");
    let trait_ref = vec_from_local(&mut declared).expect("a reference");
    let mut cx = declared.cx;
    let answer = all_known(rt.alloc(), &mut cx, trait_ref);
    holds(&rt, matches!(answer, Ok(true)), "a local parameter");
}

#[test]
fn a_local_parameter_may_be_written() {
    let rt = HostRuntime;
    let mut declared = declare(rt.alloc()).expect("memory");
    let trait_ref = vec_from_local(&mut declared).expect("a reference");
    let mut cx = declared.cx;
    let answer = may_write(rt.alloc(), &mut cx, trait_ref);
    equals(&rt, &answer, &Ok(true), "a local parameter");
}

#[test]
fn types_of_others_may_not() {
    let rt = HostRuntime;
    let mut declared = declare(rt.alloc()).expect("memory");
    let trait_ref = vec_from_vec(&mut declared).expect("a reference");
    let mut cx = declared.cx;
    let answer = may_write(rt.alloc(), &mut cx, trait_ref);
    equals(&rt, &answer, &Ok(false), "types of others");
}
