//! What a projection comes to, asked of the evaluator of rounds.

use crate::asserts::holds;
use crate::overlapping::implement;
use candidate_assembly::assembly::merging::TraitGoalProvenVia;
use candidate_eval::eval::certainty::Certainty;
use candidate_eval::eval::mode::TypingMode;
use candidate_eval::eval::refusal::NoSolutionOrStop;
use candidate_eval::eval::response::CanonicalResponse;
use candidate_eval::eval::variable::VariableKind;
use candidate_ir::decl::make::{Build, Make};
use candidate_ir::decl::{AssocKind, Cx, DeclFault, DeclsBuilder, ImplPolarity, TraitFlags};
use candidate_ir::ir::heads::VariableSort;
use candidate_ir::ir::kinds::{
    AliasId, AliasKind, AliasTy, AssocId, GenericArg, InferTy, ParamEnv, TyKind, UintTy,
};
use candidate_ir::ir::stop::Stop;
use candidate_ir::ir::trees::Trees;
use candidate_rounds::rounds::Rounds;
use kit::alloc::Global;
use kit::prelude::*;
use projection_goals::kind::NormalizesTo;
use projection_goals::proving::compute_normalizes_to;

/// The trait and its impl, in a builder of the caller's.
fn declare_all(builder: &mut DeclsBuilder) -> Result<AssocId, DeclFault> {
    let local = builder.add_crate()?;
    builder.set_local(local);
    let id = builder.add_trait(local, &[], TraitFlags::default())?;
    let item = builder.add_assoc(id, AssocKind::Type, false)?;
    let (short, positive) = (TyKind::Uint(UintTy::U16), ImplPolarity::Positive);
    let of = implement(builder, local, id, &[], short, positive)?;
    let Ok(value) = builder.mk_ty(TyKind::Bool) else {
        return Err(DeclFault::Memory);
    };
    builder.push_assoc_value(of, item, value)?;
    Ok(item)
}

/// A trait with an associated type, and an impl of it for `u16` that says that this is `bool`.
fn declare(alloc: Global) -> Result<(Cx, AssocId), DeclFault> {
    let mut builder = DeclsBuilder::new(alloc);
    let item = declare_all(&mut builder)?;
    let cx = Cx::new(builder.finish()?);
    Ok((cx, item))
}

/// That the associated type of the integers of that width is a new root variable, under an empty environment.
fn goal_of(
    rounds: &mut Rounds,
    item: AssocId,
    width: UintTy,
) -> Result<(ParamEnv, NormalizesTo), Stop> {
    rounds.new_root_var(VariableKind::Term(VariableSort::General))?;
    let env = rounds.mk_param_env(&[])?;
    let ty = rounds.mk_ty(TyKind::Uint(width))?;
    let args = rounds.mk_args(&[GenericArg::Ty(ty)])?;
    let term = rounds.mk_ty(TyKind::Infer(InferTy::TyVar(0)))?;
    let alias = AliasTy {
        kind: AliasKind::Projection,
        id: AliasId(item.0),
        args,
    };
    Ok((env, NormalizesTo { alias, term }))
}

/// The goal may be asked where the evaluator stands.
fn may_be_asked(
    rt: &HostRuntime,
    alloc: Global,
    rounds: &mut Rounds,
    env: ParamEnv,
    goal: NormalizesTo,
) {
    let list = goal.mentioned(alloc, rounds).expect("a list");
    let is_goal = goal.may_be_asked(rounds.cx(), env);
    holds(rt, is_goal, "a goal of the context");
    let stands = rounds.list_stands_here(alloc, env, list);
    holds(rt, stands, "a goal that stands");
}

/// What the goal comes to, and the type that stands for its term.
fn answer_of(
    rt: &HostRuntime,
    alloc: Global,
    proven_via: TraitGoalProvenVia,
    width: UintTy,
) -> (Rounds, Result<CanonicalResponse, NoSolutionOrStop>) {
    let (cx, item) = declare(alloc).expect("declarations");
    let mode = TypingMode::Analysis;
    let mut rounds = Rounds::new(alloc, cx, mode, Vec::new(alloc), Vec::new(alloc));
    let (env, goal) = goal_of(&mut rounds, item, width).expect("a goal");
    may_be_asked(rt, alloc, &mut rounds, env, goal);
    let answer = compute_normalizes_to(alloc, &mut rounds, Some(proven_via), env, goal);
    (rounds, answer)
}

/// Whether the answer is a sure one that gives `bool`. Equal lists have one number.
fn is_bool(rt: &HostRuntime, rounds: &mut Rounds, response: &CanonicalResponse) -> bool {
    let ty = rounds.mk_ty(TyKind::Bool).expect("a type");
    let values = rounds.mk_args(&[GenericArg::Ty(ty)]).expect("a list");
    response.certainty == Certainty::Yes && response.values == values
}

#[test]
fn an_impl_says_what_it_is() {
    let rt = HostRuntime;
    let misc = TraitGoalProvenVia::Misc;
    let (mut rounds, answer) = answer_of(&rt, rt.alloc(), misc, UintTy::U16);
    let response = answer.expect("an answer");
    holds(
        &rt,
        is_bool(&rt, &mut rounds, &response),
        "what the impl says",
    );
}

#[test]
fn without_an_impl_it_is_refused() {
    let rt = HostRuntime;
    let misc = TraitGoalProvenVia::Misc;
    let (_rounds, answer) = answer_of(&rt, rt.alloc(), misc, UintTy::U8);
    let is_refused = matches!(answer, Err(NoSolutionOrStop::NoSolution));
    holds(&rt, is_refused, "by no impl");
}

#[test]
fn without_a_clause_it_is_rigid() {
    let rt = HostRuntime;
    let by_clause = TraitGoalProvenVia::ParamEnv;
    let (mut rounds, answer) = answer_of(&rt, rt.alloc(), by_clause, UintTy::U16);
    let response = answer.expect("an answer");
    holds(&rt, response.certainty == Certainty::Yes, "a sure one");
    let is_bool = is_bool(&rt, &mut rounds, &response);
    holds(&rt, !is_bool, "the projection itself");
}
