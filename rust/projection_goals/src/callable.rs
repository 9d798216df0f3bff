// Made of `crates/projection_goals/src/callable.rt` by `bench/plain.py`: an edit of this file is lost.

//! The rule for what can be called: its output is what the associated types of `Fn`, `FnMut` and `FnOnce` are.


use kit::{eprintln, format, prelude::*, print, println, vec};
use crate::kind::{NormalizesTo, reference};
use candidate_assembly::assembly::language::LanguageRule;
use candidate_assembly::assembly::steps::{consider_unconditional, with_head_usages};
use candidate_assembly::trait_goals::callable::{equate_inputs, open_callable, respond_if_sized};
use candidate_assembly::trait_goals::meeting::recall_item_has_no_parameters;
use candidate_eval::eval::certainty::Certainty;
use candidate_eval::eval::clauses::self_ty;
use candidate_eval::eval::context::{EvalCtxt, ProbeKind};
use candidate_eval::eval::refusal::NoSolutionOrStop;
use candidate_eval::eval::response::Candidate;
use candidate_eval::structural::callable::extract_tupled_inputs_and_output_from_callable;
use ir_context::decl::make::Make;
use ir_trees::decl::contents::LangItem;
use ir_trees::ir::kinds::{Binder, ClosureKind, GenericArg, ParamEnv, TraitId, TraitRef, Ty};
use kit::alloc::Global;

/// Equates the arguments with the self type and these inputs, where they pass quick rejection, and then the term with the output.
fn equate_called<E: EvalCtxt>(
    ecx: &mut E,
    env: ParamEnv,
    trait_ref: TraitRef,
    term: Ty,
    called: (Ty, Ty),
) -> Result<(), NoSolutionOrStop>
{
    let (inputs, output) = called;
    equate_inputs(ecx, env, trait_ref, inputs)?;
    ecx.eq(env, GenericArg::Ty(term), GenericArg::Ty(output))
}

/// The candidate of a goal whose self type is called so. It is called in a probe.
fn try_output<E: EvalCtxt>(
    alloc: Global,
    ecx: &mut E,
    env: ParamEnv,
    predicate: NormalizesTo,
    callable: Binder<(Ty, Ty)>,
    sized: TraitId,
) -> Result<Candidate, NoSolutionOrStop>
{
    let trait_ref = reference(ecx.cx(), env, predicate);
    let called = open_callable(alloc, ecx, callable)?;
    equate_called(ecx, env, trait_ref, predicate.term, called)?;
    respond_if_sized(alloc, ecx, env, sized, called.1)
}

/// The candidate of a goal whose self type is called so, found in a probe.
fn probe_output<E: EvalCtxt>(
    alloc: Global,
    ecx: &mut E,
    env: ParamEnv,
    predicate: NormalizesTo,
    callable: Binder<(Ty, Ty)>,
    sized: TraitId,
) -> Result<Candidate, NoSolutionOrStop>
{
    let probe = ecx.begin_probe(ProbeKind::Kept)?;
    let answer = try_output(alloc, ecx, env, predicate, callable, sized);
    let usages = ecx.end_probe(probe);
    with_head_usages(answer, usages)
}

/// The rule for what can be called so: the term is the output, which is sized, and the arguments are the self type and the inputs. Where it isn't
/// known yet whether the self type can be called so, the candidate is ambiguous.
///
/// The state is left alike the one before. `NoSolution` comes where the self type can't be called so, where no trait is declared to be `Sized`,
/// where an equation is refused, and where the evaluator refuses what is pending; the stops are those of making nodes and lists, and the
/// evaluator's.
pub(crate) fn consider_output<E: EvalCtxt>(
    alloc: Global,
    ecx: &mut E,
    env: ParamEnv,
    predicate: NormalizesTo,
    called: ClosureKind,
) -> Result<Candidate, NoSolutionOrStop>
{
    let ty = self_ty(ecx.cx(), reference(ecx.cx(), env, predicate));
    let extracted = extract_tupled_inputs_and_output_from_callable(alloc, ecx, ty, called)?;
    let Some(callable) = extracted else {
        return consider_unconditional(alloc, ecx, env, true, Certainty::AMBIGUOUS);
    };
    recall_item_has_no_parameters(ecx.cx(), LangItem::Sized);
    let Some(sized) = ecx.cx().lang_item(LangItem::Sized) else {
        return Err(NoSolutionOrStop::NoSolution);
    };
    probe_output(alloc, ecx, env, predicate, callable, sized)
}
