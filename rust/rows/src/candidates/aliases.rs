//! Rows that ask what a kind of goals adds at an alias.

use crate::candidates::considering::{found_rows, goal_at};
use crate::evaluator::eval::Operands;
use crate::notation::answers::Answer;
use crate::notation::refusals::Refusal;
use crate::notation::typed::ty_at;
use candidate_assembly::assembly::kind::GoalKind;
use candidate_eval::eval::context::EvalCtxt;
use candidate_ir::decl::context::Cx;
use candidate_ir::decl::make::Make;
use candidate_ir::ir::heads::Flag;
use candidate_ir::ir::kinds::{AliasTy, ParamEnv, TraitPredicate, TyKind};
use candidate_ir::ir::marks::Unsolved;
use candidate_ir::ir::numbered::Numbered;
use candidate_ir::ir::trees::Trees;
use kit::alloc::Global;
use kit::prelude::*;

/// `Refusal::Condition` comes where a variable stands in the list.
fn expect_solved<N: Numbered>(cx: &Cx, list: N) -> Result<(), Refusal> {
    if cx.has_marked(list, &Unsolved) {
        return Err(Refusal::Condition);
    }
    Ok(())
}

/// The alias of that number. `Refusal::Condition` comes where there is none, and where a variable or a parameter stands in it.
fn alias_at(cx: &Cx, number: u32) -> Result<AliasTy, Refusal> {
    cx.recall_well_formed();
    let TyKind::Alias(alias) = cx.kind(ty_at(cx, number)?) else {
        return Err(Refusal::Condition);
    };
    if cx.has(alias.args, Flag::Param) {
        return Err(Refusal::Condition);
    }
    expect_solved(cx, alias.args)?;
    Ok(alias)
}

/// The goal of these operands, in which no variable stands.
fn solved_goal(cx: &Cx, of: Operands) -> Result<(ParamEnv, TraitPredicate), Refusal> {
    let (env, predicate) = goal_at(cx, of.left, of.right)?;
    expect_solved(cx, env)?;
    expect_solved(cx, predicate.trait_ref.args)?;
    Ok((env, predicate))
}

/// The candidates that goals of traits add at the alias that is the third operand. No variable stands in the goal and in the alias.
pub fn additional<E: EvalCtxt>(
    alloc: Global,
    ecx: &mut E,
    of: Operands,
) -> Result<Answer, Refusal> {
    let (env, predicate) = solved_goal(ecx.cx(), of)?;
    let alias = alias_at(ecx.cx(), of.third)?;
    let list = GoalKind::consider_additional_alias_assumptions(alloc, ecx, env, predicate, alias)?;
    found_rows(alloc, list.as_slice())
}
