// Made of `crates/examples/src/normalisers.rt` by `bench/plain.py`: an edit of this file is lost.

//! Checks whose normalisers make nodes, or hold a type.


use kit::{eprintln, format, prelude::*, print, println, vec};
use crate::asserts::holds;
use crate::normalising::{checked_as, checked_by_reference};
use crate::writing::{Declared, adt, declare, reference};
use candidate_eval::coherence::{InCrate, OrphanCheckMode, OrphanStop};
use candidate_ir::decl::make::Build;
use candidate_ir::ir::kinds::{GenericArg, TraitRef, Ty, TyKind, UintTy};
use candidate_ir::ir::stop::Stop;
use candidate_ir::ir::trees::Trees;

const PROPER: InCrate = InCrate::Local {
    mode: OrphanCheckMode::Proper,
};

/// `u8: From<u8>`, and the local type.
fn byte_from_byte(rt: &HostRuntime, declared: &mut Declared) -> Result<(TraitRef, Ty), Stop>
{
    let cx = &mut declared.cx;
    let kind = TyKind::Uint(UintTy::U8);
    holds(rt, cx.args_fit(kind), "no arguments");
    let byte = cx.mk_ty(kind)?;
    let local = adt(cx, declared.local_type, &[])?;
    let list = [GenericArg::Ty(byte), GenericArg::Ty(byte)];
    Ok((reference(cx, declared.from, &list)?, local))
}

#[test]
fn a_normaliser_makes_nodes() {
    let rt = HostRuntime;
    let mut declared = declare(rt.alloc()).expect("memory");
    let made = byte_from_byte(&rt, &mut declared);
    let (of_byte, _) = made.expect("a reference");
    let mut cx = declared.cx;
    let has_param = cx.has_param(of_byte);
    holds(&rt, !has_param, "no parameter");
    let checked = checked_by_reference(rt.alloc(), &mut cx, of_byte, PROPER);
    let is_too_deep = matches!(checked, Err(OrphanStop::Stop(Stop::WalkDepth)));
    holds(&rt, is_too_deep, "a reference for each byte");
}

#[test]
fn a_normaliser_holds_a_type() {
    let rt = HostRuntime;
    let mut declared = declare(rt.alloc()).expect("memory");
    let made = byte_from_byte(&rt, &mut declared);
    let (of_byte, local) = made.expect("a reference");
    let mut cx = declared.cx;
    let has_param = cx.has_param(of_byte);
    holds(&rt, !has_param, "no parameter");
    let checked = checked_as(rt.alloc(), &mut cx, of_byte, PROPER, local);
    holds(&rt, matches!(checked, Ok(Ok(()))), "a local type for each");
}
