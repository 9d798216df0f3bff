//! Numbers that are looked at: each stands for what is asked, or the call of the row may not be made.

use crate::notation::parts::{is_at, sort_at, NodeSort};
use crate::notation::refusals::Refusal;
use candidate_ir::decl::context::Cx;
use candidate_ir::ir::kinds::{Args, Clause, Const, GenericArg, ParamEnv, Region, Ty, Vars};
use kit::prelude::*;

/// The type of that number.
pub fn ty_at(cx: &Cx, number: u32) -> Result<Ty, Refusal> {
    if is_at(cx, number, NodeSort::Ty) {
        Ok(Ty(number))
    } else {
        Err(Refusal::Condition)
    }
}

/// The list of arguments of that number.
pub fn args_at(cx: &Cx, number: u32) -> Result<Args, Refusal> {
    if is_at(cx, number, NodeSort::Args) {
        Ok(Args(number))
    } else {
        Err(Refusal::Condition)
    }
}

/// The clause of that number.
pub fn clause_at(cx: &Cx, number: u32) -> Result<Clause, Refusal> {
    if is_at(cx, number, NodeSort::Clause) {
        Ok(Clause(number))
    } else {
        Err(Refusal::Condition)
    }
}

/// The environment of that number.
pub fn env_at(cx: &Cx, number: u32) -> Result<ParamEnv, Refusal> {
    if is_at(cx, number, NodeSort::Env) {
        Ok(ParamEnv(number))
    } else {
        Err(Refusal::Condition)
    }
}

/// The variables of a binder.
pub fn vars_at(cx: &Cx, number: u32) -> Result<Vars, Refusal> {
    if is_at(cx, number, NodeSort::Vars) {
        Ok(Vars(number))
    } else {
        Err(Refusal::Condition)
    }
}

/// The type, the constant or the region of that number.
pub fn arg_at(cx: &Cx, number: u32) -> Result<GenericArg, Refusal> {
    match sort_at(cx, number) {
        Some(NodeSort::Ty) => Ok(GenericArg::Ty(Ty(number))),
        Some(NodeSort::Const) => Ok(GenericArg::Const(Const(number))),
        Some(NodeSort::Region) => Ok(GenericArg::Region(Region(number))),
        _ => Err(Refusal::Condition),
    }
}
