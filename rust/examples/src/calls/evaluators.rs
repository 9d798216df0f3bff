// Made of `crates/examples/src/calls/evaluators.rt` by `bench/plain.py`: an edit of this file is lost.

//! Callers of calls of any evaluator.


use kit::{eprintln, format, prelude::*, print, println, vec};
use candidate_eval::eval::ambiguity::{bail_with_ambiguity, flounder};
use candidate_eval::eval::binders::{enter_binder, enter_clause, instantiate_binder_with_infer};
use candidate_eval::eval::context::EvalCtxt;
use candidate_eval::eval::refusal::NoSolutionOrStop;
use candidate_eval::eval::resolving::resolve_env_if_possible;
use candidate_eval::eval::response::{Candidate, CanonicalResponse};
use candidate_eval::objects::object::{bound_matches, matching_bounds};
use candidate_ir::decl::make::Build;
use candidate_ir::ir::kinds::{
    AliasTerm, Args, Binder, Clause, GenericArg, Goal, GoalSource, ParamEnv, Ty, VarKind,
};
use candidate_ir::ir::stop::Stop;
use candidate_ir::ir::trees::Trees;
use kit::alloc::Global;

/// The response that too little is known.
pub fn ambiguous<E: EvalCtxt>(ecx: &mut E) -> Result<CanonicalResponse, Stop>
{
    bail_with_ambiguity(ecx)
}

/// The response that too little is known to choose among the candidates. `None` where there is no candidate.
pub fn ambiguous_among<E: EvalCtxt>(
    ecx: &mut E,
    candidates: &[Candidate],
) -> Result<Option<CanonicalResponse>, Stop>
{
    match flounder(ecx, candidates) {
        Ok(response) => Ok(Some(response)),
        Err(NoSolutionOrStop::NoSolution) => Ok(None),
        Err(NoSolutionOrStop::Stop(stop)) => Err(stop),
    }
}

/// The type with a placeholder in the place of the only variable of a binder around it.
pub fn entered_type<E: EvalCtxt>(alloc: Global, ecx: &mut E, value: Ty) -> Result<Ty, Stop>
{
    debug_assert!(ir_trees::checks::is_sorted(ir_context::decl::make::Make::cx(&*ecx), value), "examples::calls::evaluators::entered_type: `value` is {:?}, no number of its sort in this context", value);
    let vars = ecx.mk_vars(&[VarKind::Ty])?;
    enter_binder(alloc, ecx, Binder { vars, value })
}

/// The arguments with a fresh variable in the place of the only variable of a binder around them.
pub fn instantiated_args<E: EvalCtxt>(alloc: Global, ecx: &mut E, value: Args) -> Result<Args, Stop>
{
    debug_assert!(ir_trees::checks::is_sorted(ir_context::decl::make::Make::cx(&*ecx), value), "examples::calls::evaluators::instantiated_args: `value` is {:?}, no number of its sort in this context", value);
    let vars = ecx.mk_vars(&[VarKind::Ty])?;
    instantiate_binder_with_infer(alloc, ecx, Binder { vars, value })
}

/// The clause with placeholders in the place of its own binder's variables.
pub fn entered_clause<E: EvalCtxt>(
    alloc: Global,
    ecx: &mut E,
    clause: Clause,
) -> Result<Clause, Stop>
{
    debug_assert!(ir_trees::checks::is_sorted(ir_context::decl::make::Make::cx(&*ecx), clause), "examples::calls::evaluators::entered_clause: `clause` is {:?}, no number of its sort in this context", clause);
    enter_clause(alloc, ecx, clause)
}

/// An environment of the clause alone, with all values put in.
pub fn resolved_env<E: EvalCtxt>(
    alloc: Global,
    ecx: &mut E,
    clause: Clause,
) -> Result<ParamEnv, Stop>
{
    debug_assert!(ir_trees::checks::is_sorted(ir_context::decl::make::Make::cx(&*ecx), clause), "examples::calls::evaluators::resolved_env: `clause` is {:?}, no number of its sort in this context", clause);
    let env = ecx.mk_param_env(&[clause])?;
    resolve_env_if_possible(alloc, ecx, env)
}

/// The type in normal form, in an empty environment.
pub fn normal_type<E: EvalCtxt>(ecx: &mut E, ty: Ty) -> Result<Ty, NoSolutionOrStop>
{
    debug_assert!(ir_trees::checks::is_sorted(ir_context::decl::make::Make::cx(&*ecx), ty), "examples::calls::evaluators::normal_type: `ty` is {:?}, no number of its sort in this context", ty);
    let env = ecx.mk_param_env(&[])?;
    ecx.structurally_normalize_ty(env, ty)
}

/// A fresh region variable and a fresh type variable.
pub fn fresh_args<E: EvalCtxt>(ecx: &mut E) -> Result<Args, Stop>
{
    ecx.fresh_args_for_item(&[VarKind::Region, VarKind::Ty])
}

/// Makes two types equal. It answers the goals that are left.
pub fn goals_of_equation<E: EvalCtxt>(
    ecx: &mut E,
    env: ParamEnv,
    left: Ty,
    right: Ty,
) -> Result<Vec<(GoalSource, Goal<Clause>)>, NoSolutionOrStop>
{
    debug_assert!(ir_trees::checks::is_sorted(ir_context::decl::make::Make::cx(&*ecx), env), "examples::calls::evaluators::goals_of_equation: `env` is {:?}, no number of its sort in this context", env);
    debug_assert!(ir_trees::checks::is_sorted(ir_context::decl::make::Make::cx(&*ecx), left), "examples::calls::evaluators::goals_of_equation: `left` is {:?}, no number of its sort in this context", left);
    debug_assert!(ir_trees::checks::is_sorted(ir_context::decl::make::Make::cx(&*ecx), right), "examples::calls::evaluators::goals_of_equation: `right` is {:?}, no number of its sort in this context", right);
    ecx.eq_and_get_goals(env, GenericArg::Ty(left), GenericArg::Ty(right))
}

/// Adds two clauses as pending goals in the environment.
pub fn ask_both<E: EvalCtxt>(
    ecx: &mut E,
    param_env: ParamEnv,
    first: Clause,
    second: Clause,
) -> Result<(), Stop>
{
    debug_assert!(ir_trees::checks::is_sorted(ir_context::decl::make::Make::cx(&*ecx), param_env), "examples::calls::evaluators::ask_both: `param_env` is {:?}, no number of its sort in this context", param_env);
    debug_assert!(ir_trees::checks::is_sorted(ir_context::decl::make::Make::cx(&*ecx), first), "examples::calls::evaluators::ask_both: `first` is {:?}, no number of its sort in this context", first);
    debug_assert!(ir_trees::checks::is_sorted(ir_context::decl::make::Make::cx(&*ecx), second), "examples::calls::evaluators::ask_both: `second` is {:?}, no number of its sort in this context", second);
    let first = Goal {
        param_env,
        predicate: first,
    };
    let second = Goal {
        param_env,
        predicate: second,
    };
    ecx.add_goals(GoalSource::Misc, &[first, second])
}

/// Whether an opaque type may be hidden behind the type.
pub fn has_hidden_opaque<E: EvalCtxt>(ecx: &mut E, ty: Ty) -> Result<bool, Stop>
{
    debug_assert!(ir_trees::checks::is_sorted(ir_context::decl::make::Make::cx(&*ecx), ty), "examples::calls::evaluators::has_hidden_opaque: `ty` is {:?}, no number of its sort in this context", ty);
    Ok(!ecx.opaques_with_sub_unified_hidden_type(ty)?.is_empty())
}

/// Whether the clause is a bound that matches the projection.
pub fn matches_projection<E: EvalCtxt>(
    alloc: Global,
    ecx: &mut E,
    env: ParamEnv,
    clause: Clause,
    projection: AliasTerm,
) -> Result<bool, Stop>
{
    debug_assert!(ir_trees::checks::is_sorted(ir_context::decl::make::Make::cx(&*ecx), env), "examples::calls::evaluators::matches_projection: `env` is {:?}, no number of its sort in this context", env);
    debug_assert!(ir_trees::checks::is_sorted(ir_context::decl::make::Make::cx(&*ecx), clause), "examples::calls::evaluators::matches_projection: `clause` is {:?}, no number of its sort in this context", clause);
    debug_assert!(ir_trees::checks::is_sorted(ir_context::decl::make::Make::cx(&*ecx), projection.args), "examples::calls::evaluators::matches_projection: `projection.args` is {:?}, no number of its sort in this context", projection.args);
    bound_matches(alloc, ecx, env, clause, projection)
}

/// Those clauses of the environment that match the projection.
pub fn clauses_matching<E: EvalCtxt>(
    alloc: Global,
    ecx: &mut E,
    env: ParamEnv,
    projection: AliasTerm,
) -> Result<Vec<Clause>, Stop>
{
    debug_assert!(ir_trees::checks::is_sorted(ir_context::decl::make::Make::cx(&*ecx), env), "examples::calls::evaluators::clauses_matching: `env` is {:?}, no number of its sort in this context", env);
    debug_assert!(ir_trees::checks::is_sorted(ir_context::decl::make::Make::cx(&*ecx), projection.args), "examples::calls::evaluators::clauses_matching: `projection.args` is {:?}, no number of its sort in this context", projection.args);
    let bounds = Vec::from_slice(alloc, ecx.cx().param_env(env))?;
    matching_bounds(alloc, ecx, env, bounds.as_slice(), projection)
}
