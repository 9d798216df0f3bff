// Made of `crates/candidate_rounds/src/rounds/fresh.rt` by `bench/plain.py`: an edit of this file is lost.

//! Trees that stand for parameters and for what binders bind.


use kit::{eprintln, format, prelude::*, print, println, vec};
use candidate_eval::eval::variable::VariableKind;
use ir_context::decl::context::Cx;
use ir_context::decl::make::Build;
use ir_trees::ir::heads::VariableSort;
use ir_trees::ir::kinds::{
    Args, ConstKind, GenericArg, InferTy, Placeholder, RegionKind, TyKind, VarKind,
};
use ir_trees::ir::stop::Stop;
use kit::alloc::Global;

/// What stands for parameters, one after another.
#[derive(Clone, Copy, Debug)]
pub(crate) enum Leaves {
    /// Variables, from that number on.
    Variables(u32),
    /// Placeholders of that universe.
    Placeholders(u32),
}

/// The variable of that number.
pub(crate) fn variable(cx: &mut Cx, kind: VariableKind, number: u32) -> Result<GenericArg, Stop>
{
    match kind {
        VariableKind::Term(VariableSort::General) => {
            let kind = TyKind::Infer(InferTy::TyVar(number));
            Ok(GenericArg::Ty(cx.mk_ty(kind)?))
        }
        VariableKind::Term(VariableSort::Integer) => {
            let kind = TyKind::Infer(InferTy::IntVar(number));
            Ok(GenericArg::Ty(cx.mk_ty(kind)?))
        }
        VariableKind::Term(VariableSort::Floating) => {
            let kind = TyKind::Infer(InferTy::FloatVar(number));
            Ok(GenericArg::Ty(cx.mk_ty(kind)?))
        }
        VariableKind::Term(VariableSort::Constant) => {
            let kind = ConstKind::Infer(number);
            Ok(GenericArg::Const(cx.mk_const(kind)?))
        }
        VariableKind::Region => Ok(GenericArg::Region(cx.mk_region(RegionKind::Var(number))?)),
    }
}

/// The kind of the variables that stand for a parameter.
pub(crate) fn variable_kind(kind: VarKind) -> VariableKind
{
    match kind {
        VarKind::Ty => VariableKind::Term(VariableSort::General),
        VarKind::Const => VariableKind::Term(VariableSort::Constant),
        VarKind::Region => VariableKind::Region,
    }
}

/// What stands for the parameter of that index.
pub(crate) fn leaf(
    cx: &mut Cx,
    leaves: Leaves,
    kind: VarKind,
    index: u32,
) -> Result<GenericArg, Stop>
{
    match leaves {
        Leaves::Variables(first) => variable(cx, variable_kind(kind), first + index),
        Leaves::Placeholders(universe) => {
            let placeholder = Placeholder { universe, index };
            match kind {
                VarKind::Ty => Ok(GenericArg::Ty(cx.mk_ty(TyKind::Placeholder(placeholder))?)),
                VarKind::Const => {
                    let kind = ConstKind::Placeholder(placeholder);
                    Ok(GenericArg::Const(cx.mk_const(kind)?))
                }
                VarKind::Region => {
                    let kind = RegionKind::Placeholder(placeholder);
                    Ok(GenericArg::Region(cx.mk_region(kind)?))
                }
            }
        }
    }
}

/// What stands for parameters of these kinds.
pub(crate) fn leaf_args(
    alloc: Global,
    cx: &mut Cx,
    leaves: Leaves,
    kinds: &[VarKind],
) -> Result<Args, Stop>
{
    let mut list = Vec::new(alloc);
    for i in 0..kinds.len() {
        list.push(leaf(cx, leaves, kinds[i], i as u32)?)?;
    }
    cx.mk_args(list.as_slice())
}
