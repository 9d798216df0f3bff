//! Equal types have one number, different ones have two.

use crate::asserts::{equals, holds};
use crate::overlapping::declare;
use candidate_ir::decl::make::Build;
use candidate_ir::decl::Cx;
use candidate_ir::ir::kinds::{Mutability, RegionKind, Ty, TyKind, UintTy};
use candidate_ir::ir::stop::Stop;
use candidate_ir::ir::trees::Trees;
use kit::prelude::*;

/// `&'static u8`, or `&'static mut u8`.
fn reference_to_byte(rt: &HostRuntime, cx: &mut Cx, mutability: Mutability) -> Result<Ty, Stop> {
    let byte = cx.mk_ty(TyKind::Uint(UintTy::U8))?;
    let region = cx.mk_region(RegionKind::Static)?;
    let kind = TyKind::Ref(region, byte, mutability);
    holds(rt, cx.args_fit(kind), "a region and a type");
    cx.mk_ty(kind)
}

#[test]
fn equal_types_have_one_number() {
    let rt = HostRuntime;
    let mut cx = declare(rt.alloc()).expect("memory");
    let first = reference_to_byte(&rt, &mut cx, Mutability::Not).expect("a reference");
    let other = reference_to_byte(&rt, &mut cx, Mutability::Mut).expect("a reference");
    let second = reference_to_byte(&rt, &mut cx, Mutability::Not).expect("a reference");
    equals(&rt, &second.0, &first.0, "equal types");
    holds(&rt, other.0 != first.0, "different types");
}
