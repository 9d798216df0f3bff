// Made of `crates/candidate_assembly/src/trait_goals/callable.rt` by `bench/plain.py`: an edit of this file is lost.

//! The rule for what can be called: a goal of `Fn`, `FnMut` or `FnOnce`.


use kit::{eprintln, format, prelude::*, print, println, vec};
use crate::assembly::steps::{consider_unconditional, nest_and_respond, with_head_usages};
use crate::trait_goals::builtin::is_positive;
use crate::trait_goals::meeting::{meets_trait, recall_item_has_no_parameters};
use candidate_eval::eval::binders::fresh_args_for_binder;
use candidate_eval::eval::certainty::Certainty;
use candidate_eval::eval::clauses::self_ty;
use candidate_eval::eval::context::{EvalCtxt, ProbeKind};
use candidate_eval::eval::refusal::NoSolutionOrStop;
use candidate_eval::eval::response::Candidate;
use candidate_eval::eval::source::{BuiltinImplSource, CandidateSource};
use candidate_eval::structural::callable::extract_tupled_inputs_and_output_from_callable;
use ir_context::decl::make::{Build, Make};
use ir_folds::decl::open::replace_bound_vars;
use ir_trees::decl::contents::LangItem;
use ir_trees::ir::kinds::{
    Binder, ClosureKind, GenericArg, GoalSource, ParamEnv, TraitId, TraitPredicate, TraitRef, Ty,
};
use ir_trees::ir::stop::Stop;
use ir_trees::ir::trees::Trees;
use ir_trees::ir::unify::RightSide;
use kit::alloc::Global;

/// The inputs and the output of what is called, with fresh variables in the place of those of its binder. It is called in a probe: after a stop
/// the variables that were made stay. The stops are those of making variables and nodes.
pub fn open_callable<E: EvalCtxt>(
    alloc: Global,
    ecx: &mut E,
    callable: Binder<(Ty, Ty)>,
) -> Result<(Ty, Ty), Stop>
{
    let (inputs, output) = callable.value;
    let values = fresh_args_for_binder(alloc, ecx, callable.vars)?;
    let inputs = replace_bound_vars(alloc, ecx, inputs, values)?;
    let output = replace_bound_vars(alloc, ecx, output, values)?;
    Ok((inputs, output))
}

/// Equates the arguments of the goal with its self type and these inputs, where they pass quick rejection. It is called in a probe.
///
/// `NoSolution` comes where they don't pass, and where the evaluator refuses the equation; the stops are those of making nodes, and the
/// evaluator's.
pub fn equate_inputs<E: EvalCtxt>(
    ecx: &mut E,
    env: ParamEnv,
    trait_ref: TraitRef,
    inputs: Ty,
) -> Result<(), NoSolutionOrStop>
{
    debug_assert!(ir_trees::checks::is_sorted(ir_context::decl::make::Make::cx(&*ecx), env), "candidate_assembly::trait_goals::callable::equate_inputs: `env` is {:?}, no number of its sort in this context", env);
    debug_assert!(ir_trees::checks::is_sorted(ir_context::decl::make::Make::cx(&*ecx), trait_ref.args), "candidate_assembly::trait_goals::callable::equate_inputs: `trait_ref.args` is {:?}, no number of its sort in this context", trait_ref.args);
    debug_assert!(ir_trees::checks::is_sorted(ir_context::decl::make::Make::cx(&*ecx), inputs), "candidate_assembly::trait_goals::callable::equate_inputs: `inputs` is {:?}, no number of its sort in this context", inputs);
    let ty = self_ty(ecx.cx(), trait_ref);
    let called = ecx.mk_args(&[GenericArg::Ty(ty), GenericArg::Ty(inputs)])?;
    if !ecx
        .cx()
        .args_may_unify(trait_ref.args, called, RightSide::Plain)
    {
        return Err(NoSolutionOrStop::NoSolution);
    }
    ecx.eq_args(env, trait_ref.args, called)
}

/// The candidate, where the output is sized: that it is becomes pending, and then the evaluator is asked. It is called in a probe.
///
/// `NoSolution` comes where the evaluator refuses what is pending; the stops are those of making nodes and lists, and the evaluator's.
pub fn respond_if_sized<E: EvalCtxt>(
    alloc: Global,
    ecx: &mut E,
    env: ParamEnv,
    sized: TraitId,
    output: Ty,
) -> Result<Candidate, NoSolutionOrStop>
{
    debug_assert!(ir_trees::checks::is_sorted(ir_context::decl::make::Make::cx(&*ecx), env), "candidate_assembly::trait_goals::callable::respond_if_sized: `env` is {:?}, no number of its sort in this context", env);
    debug_assert!(ir_trees::checks::is_sorted(ir_context::decl::make::Make::cx(&*ecx), output), "candidate_assembly::trait_goals::callable::respond_if_sized: `output` is {:?}, no number of its sort in this context", output);
    let clause = meets_trait(ecx, sized, output)?;
    let source = CandidateSource::BuiltinImpl(BuiltinImplSource::Misc);
    let nested = GoalSource::ImplWhereBound;
    nest_and_respond(alloc, ecx, env, nested, &[clause], source, Certainty::Yes)
}

/// The candidate of a goal whose self type is called so. It is called in a probe.
fn try_call<E: EvalCtxt>(
    alloc: Global,
    ecx: &mut E,
    env: ParamEnv,
    predicate: TraitPredicate,
    callable: Binder<(Ty, Ty)>,
    sized: TraitId,
) -> Result<Candidate, NoSolutionOrStop>
{
    let (inputs, output) = open_callable(alloc, ecx, callable)?;
    equate_inputs(ecx, env, predicate.trait_ref, inputs)?;
    respond_if_sized(alloc, ecx, env, sized, output)
}

/// The candidate of a goal whose self type is called so, in a probe.
fn probe_call<E: EvalCtxt>(
    alloc: Global,
    ecx: &mut E,
    env: ParamEnv,
    predicate: TraitPredicate,
    callable: Binder<(Ty, Ty)>,
    sized: TraitId,
) -> Result<Candidate, NoSolutionOrStop>
{
    let probe = ecx.begin_probe(ProbeKind::Kept)?;
    let answer = try_call(alloc, ecx, env, predicate, callable, sized);
    let usages = ecx.end_probe(probe);
    with_head_usages(answer, usages)
}

/// The rule for what can be called so: the goal's arguments are its self type and the inputs, and the output is sized. Where it isn't
/// known yet whether the self type can be called so, the candidate is ambiguous.
///
/// The state is left alike the one before. `NoSolution` comes where the goal isn't positive, where the self type can't be called so, where
/// no trait is declared to be `Sized`, where the arguments can't be equated, and where the evaluator refuses; the stops are those of making
/// nodes and lists, and the evaluator's.
pub(crate) fn consider_callable<E: EvalCtxt>(
    alloc: Global,
    ecx: &mut E,
    env: ParamEnv,
    predicate: TraitPredicate,
    called: ClosureKind,
) -> Result<Candidate, NoSolutionOrStop>
{
    if !is_positive(predicate.polarity) {
        return Err(NoSolutionOrStop::NoSolution);
    }
    let ty = self_ty(ecx.cx(), predicate.trait_ref);
    let extracted = extract_tupled_inputs_and_output_from_callable(alloc, ecx, ty, called)?;
    let Some(callable) = extracted else {
        return consider_unconditional(alloc, ecx, env, true, Certainty::AMBIGUOUS);
    };
    recall_item_has_no_parameters(ecx.cx(), LangItem::Sized);
    let Some(sized) = ecx.cx().lang_item(LangItem::Sized) else {
        return Err(NoSolutionOrStop::NoSolution);
    };
    probe_call(alloc, ecx, env, predicate, callable, sized)
}
