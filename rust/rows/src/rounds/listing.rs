//! The pairs that an evaluator is given: the associated types of `u8` and of `usize`, each beside `u16`. And which pairs it may be given.

use crate::notation::answers::{Answer, Item};
use crate::notation::reader::Reader;
use crate::notation::refusals::Refusal;
use crate::notation::rows::Row;
use crate::notation::typed::ty_at;
use candidate_ir::decl::context::Cx;
use candidate_ir::decl::make::Build;
use candidate_ir::ir::kinds::{AliasTy, AssocId, GenericArg, Ty, TyKind, UintTy};
use candidate_rounds::rounds::given::may_be_listed;
use kit::alloc::Global;
use kit::prelude::*;

/// A number's type.
fn number(cx: &mut Cx, width: UintTy) -> Result<Ty, Refusal> {
    let kind = TyKind::Uint(width);
    if !cx.args_fit(kind) {
        return Err(Refusal::Condition);
    }
    let made = cx.mk_ty(kind)?;
    Ok(made)
}

/// The associated type of a type.
fn projection(cx: &mut Cx, of: AssocId, ty: Ty) -> Result<Ty, Refusal> {
    let args = cx.mk_args(&[GenericArg::Ty(ty)])?;
    let kind = TyKind::Alias(AliasTy::projection(of, args));
    if !cx.args_fit(kind) {
        return Err(Refusal::Condition);
    }
    let made = cx.mk_ty(kind)?;
    Ok(made)
}

/// The associated type of a number's type.
fn projection_of_number(cx: &mut Cx, of: AssocId, width: UintTy) -> Result<Ty, Refusal> {
    let number = number(cx, width)?;
    projection(cx, of, number)
}

/// Those pairs, which may be listed.
pub(crate) fn listed(alloc: Global, cx: &mut Cx, of: AssocId) -> Result<Vec<(Ty, Ty)>, Refusal> {
    let of_byte = projection_of_number(cx, of, UintTy::U8)?;
    let of_size = projection_of_number(cx, of, UintTy::Usize)?;
    let wide = number(cx, UintTy::U16)?;
    if !may_be_listed(cx, of_byte, wide) || !may_be_listed(cx, of_size, wide) {
        return Err(Refusal::Condition);
    }
    Ok(Vec::from_slice(alloc, &[(of_byte, wide), (of_size, wide)])?)
}

/// Whether the row's first operand may be listed with its second one. `Refusal::Condition` comes where one of them is no type.
pub(crate) fn answer<'a>(
    reader: &mut Reader<'a>,
    cx: &mut Cx,
    row: Row<'a>,
) -> Result<Answer, Refusal> {
    let [alias, ty, _] = reader.operands(cx, row)?;
    let alias = ty_at(cx, alias.node())?;
    let ty = ty_at(cx, ty.node())?;
    Ok(Answer::One(Item::Truth(may_be_listed(cx, alias, ty))))
}
