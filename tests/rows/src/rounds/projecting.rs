//! Rows that ask what projections come to.

use crate::evaluator::eval::Operands;
use crate::evaluator::merging::responded;
use crate::notation::answers::Answer;
use crate::notation::refusals::Refusal;
use crate::notation::rows::Row;
use crate::notation::typed::{env_at, ty_at};
use crate::rounds::tabling::effort_of;
use candidate_eval::eval::refusal::NoSolutionOrStop;
use candidate_ir::decl::context::Cx;
use candidate_ir::decl::make::Make;
use candidate_ir::ir::kinds::{AliasKind, AliasTy, ParamEnv, TyKind};
use candidate_ir::ir::trees::Trees;
use candidate_rounds::rounds::normalizing::trait_predicate;
use candidate_rounds::rounds::Rounds;
use kit::alloc::Global;
use kit::prelude::*;

/// The projection, in the environment. `Refusal::Condition` comes where the type is none, and where a parameter or an escaping bound
/// variable stands in it.
fn projection_at(cx: &Cx, env: u32, ty: u32) -> Result<(ParamEnv, AliasTy), Refusal> {
    let env = env_at(cx, env)?;
    let ty = ty_at(cx, ty)?;
    let kind = cx.kind(ty);
    let TyKind::Alias(alias) = kind else {
        return Err(Refusal::Condition);
    };
    let AliasKind::Projection = alias.kind else {
        return Err(Refusal::Condition);
    };
    let of = trait_predicate(cx, alias).trait_ref;
    if !cx.args_fit(kind) || !cx.trait_ref_args_fit(of) {
        return Err(Refusal::Condition);
    }
    if cx.has_param(of) || cx.has_escaping_bound_vars(of.args) {
        return Err(Refusal::Condition);
    }
    Ok((env, alias))
}

/// What the projection comes to in as many rounds as the row says, or as long as needed. `Refusal::Condition` comes where it says neither, and where
/// its trait's goal may not be run.
pub(crate) fn answer(
    alloc: Global,
    rounds: &mut Rounds,
    row: Row<'_>,
    of: Operands,
) -> Result<Answer, Refusal> {
    let (env, alias) = projection_at(rounds.cx(), of.left, of.right)?;
    let predicate = trait_predicate(rounds.cx(), alias);
    let effort = effort_of(row.first).ok_or(Refusal::Condition)?;
    if !rounds.may_be_run(alloc, env, predicate)? {
        return Err(Refusal::Condition);
    }
    let answer = rounds.normalize(alloc, env, alias, effort)?;
    responded(alloc, answer.ok_or(NoSolutionOrStop::NoSolution))
}
