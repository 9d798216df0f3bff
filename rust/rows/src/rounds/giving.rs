//! What a new evaluator of rounds is given: its root variables, and the opaque types that may be hidden behind a variable.

use crate::candidates::starting::Start;
use crate::notation::refusals::Refusal;
use crate::notation::typed::args_at;
use candidate_ir::decl::context::Cx;
use candidate_ir::ir::kinds::{AliasTy, GenericArg, TyKind};
use candidate_ir::ir::stop::Stop;
use candidate_ir::ir::trees::Trees;
use candidate_rounds::rounds::given::may_be_hidden;
use candidate_rounds::rounds::Rounds;
use kit::alloc::Global;
use kit::prelude::*;

/// Adds the root variables to the new evaluator.
pub fn add_roots(rounds: &mut Rounds, start: &Start) -> Result<(), Stop> {
    for kind in start.kinds.as_slice() {
        rounds.new_root_var(*kind)?;
    }
    Ok(())
}

/// The opaque type that the argument is. `Refusal::Condition` comes where it is none, or one that may not be hidden behind a variable.
fn opaque_in(cx: &Cx, arg: GenericArg) -> Result<AliasTy, Refusal> {
    let GenericArg::Ty(ty) = arg else {
        return Err(Refusal::Condition);
    };
    let TyKind::Alias(alias) = cx.kind(ty) else {
        return Err(Refusal::Condition);
    };
    if !may_be_hidden(cx, alias) {
        return Err(Refusal::Condition);
    }
    Ok(alias)
}

/// The opaque types of the list, each of which may be hidden behind a variable; else a `Refusal::Condition` comes.
pub fn opaques_in(alloc: Global, cx: &Cx, list: u32) -> Result<Vec<AliasTy>, Refusal> {
    let args = args_at(cx, list)?;
    let mut opaques = Vec::new(alloc);
    for arg in cx.args(args) {
        opaques.push(opaque_in(cx, *arg)?)?;
    }
    Ok(opaques)
}
