// Made of `crates/projection_goals/src/impls.rt` by `bench/plain.py`: an edit of this file is lost.

//! The rule of an impl: a projection is what an impl of its trait says that the associated type is.


use kit::{eprintln, format, prelude::*, print, println, vec};
use crate::kind::NormalizesTo;
use crate::steps::equate_both;
use candidate_assembly::assembly::steps::with_source;
use candidate_assembly::trait_goals::impls::{
    fresh_args_for_impl, nest_clauses, recall_impl_given,
};
use candidate_eval::eval::certainty::Certainty;
use candidate_eval::eval::clauses::substitute;
use candidate_eval::eval::context::{EvalCtxt, ProbeKind};
use candidate_eval::eval::refusal::NoSolutionOrStop;
use candidate_eval::eval::response::{Candidate, CanonicalResponse};
use candidate_eval::eval::source::CandidateSource;
use ir_context::decl::Cx;
use ir_trees::decl::contents::{ImplId, ImplPolarity};
use ir_trees::ir::kinds::{Args, AssocId, Clause, GoalSource, ParamEnv, Ty};
use ir_trees::ir::stop::Stop;
use ir_trees::ir::trees::Trees;
use ir_trees::ir::unify::RightSide;
use kit::alloc::Global;

/// What an impl declares, of one associated type.
#[derive(Debug)]
pub(crate) struct Declared {
    /// The arguments of the trait reference that it is for.
    header: Args,
    /// What the associated type is.
    value: Ty,
    wheres: Vec<Clause>,
}

/// Whether the rule of an impl applies: it is a positive one that says what the associated type is, and its header's arguments may be made
/// equal to the goal's.
fn applies_by(cx: &Cx, predicate: NormalizesTo, of: ImplId) -> bool
{
    let Some(declared) = cx.impl_contents(of) else {
        return false;
    };
    declared.value(AssocId(predicate.alias.id.0)).is_some()
        && matches!(declared.polarity, ImplPolarity::Positive)
        && cx.args_may_unify(
            predicate.alias.args,
            declared.trait_ref.args,
            RightSide::Header,
        )
}

/// What the impl declares of the associated type, whose parameters have these arguments; `None` where it doesn't say what that is.
fn declared_by(
    alloc: Global,
    cx: &Cx,
    of: ImplId,
    item: AssocId,
    args: Args,
) -> Result<Option<Declared>, Stop>
{
    let Some(value) = cx.assoc_value(of, args, item) else {
        return Ok(None);
    };
    let Some(declared) = cx.impl_of(of, args) else {
        return Ok(None);
    };
    let wheres = Vec::from_slice(alloc, declared.wheres.as_slice())?;
    Ok(Some(Declared {
        header: declared.trait_ref.args,
        value,
        wheres,
    }))
}

/// Makes the goal's arguments equal to those of a header, and what the associated type is to the goal's term, with what stands for the
/// impl's parameters.
fn equate_declared<E: EvalCtxt>(
    alloc: Global,
    ecx: &mut E,
    env: ParamEnv,
    predicate: NormalizesTo,
    header: Args,
    value: Ty,
    locals: Args,
) -> Result<(), NoSolutionOrStop>
{
    let header = substitute(alloc, ecx, header, locals)?;
    let value = substitute(alloc, ecx, value, locals)?;
    equate_both(
        ecx,
        env,
        predicate.alias.args,
        header,
        value,
        predicate.term,
    )
}

/// Makes arguments and term equal to those that are declared, and then where clauses become pending, all with what stands for the impl's
/// parameters.
fn equate_and_nest<E: EvalCtxt>(
    alloc: Global,
    ecx: &mut E,
    env: ParamEnv,
    predicate: NormalizesTo,
    header: Args,
    value: Ty,
    wheres: &[Clause],
    locals: Args,
) -> Result<(), NoSolutionOrStop>
{
    equate_declared(alloc, ecx, env, predicate, header, value, locals)?;
    nest_clauses(alloc, ecx, env, GoalSource::ImplWhereBound, wheres, locals)?;
    Ok(())
}

/// What an impl's rule does before it asks, where it applies. It answers what stands for the impl's parameters.
fn follow_impl<E: EvalCtxt>(
    alloc: Global,
    ecx: &mut E,
    env: ParamEnv,
    predicate: NormalizesTo,
    of: ImplId,
) -> Result<Args, NoSolutionOrStop>
{
    recall_impl_given(ecx.cx(), of);
    let locals = fresh_args_for_impl(alloc, ecx, of)?;
    let item = AssocId(predicate.alias.id.0);
    let Some(declared) = declared_by(alloc, ecx.cx(), of, item, locals)? else {
        unreachable!();
    };
    let wheres = &declared.wheres;
    equate_and_nest(
        alloc,
        ecx,
        env,
        predicate,
        declared.header,
        declared.value,
        wheres.as_slice(),
        locals,
    )?;
    Ok(locals)
}

/// What an impl's rule does, and then what the closure answers.
fn follow_impl_and_then<
    E: EvalCtxt,
    F: FnOnce(&mut E, Certainty) -> Result<CanonicalResponse, NoSolutionOrStop>,
>(
    alloc: Global,
    ecx: &mut E,
    env: ParamEnv,
    predicate: NormalizesTo,
    of: ImplId,
    then: F,
) -> Result<CanonicalResponse, NoSolutionOrStop>
{
    follow_impl(alloc, ecx, env, predicate, of)?;
    then(ecx, Certainty::Yes)
}

/// What an impl's rule does where it applies, and then what the closure answers, in a probe.
fn probe_impl<
    E: EvalCtxt,
    F: FnOnce(&mut E, Certainty) -> Result<CanonicalResponse, NoSolutionOrStop>,
>(
    alloc: Global,
    ecx: &mut E,
    env: ParamEnv,
    predicate: NormalizesTo,
    of: ImplId,
    then: F,
) -> Result<Candidate, NoSolutionOrStop>
{
    recall_impl_given(ecx.cx(), of);
    let probe = ecx.begin_probe(ProbeKind::Kept)?;
    let answer = follow_impl_and_then(alloc, ecx, env, predicate, of, then);
    let usages = ecx.end_probe(probe);
    with_source(CandidateSource::Impl(of), answer, usages)
}

/// The rule of an impl: its steps in a probe, and then what the closure answers, which is given the certainty `Yes`.
///
/// `NoSolution` comes where the rule doesn't apply, where the header's arguments can't be made equal to the goal's or the declared type to
/// the goal's term, and where the closure answers it. The stops are those of growing a list, of making nodes and of the evaluator, and the
/// closure's. The state is left alike the one before, whatever is answered.
pub(crate) fn consider_impl<
    E: EvalCtxt,
    F: FnOnce(&mut E, Certainty) -> Result<CanonicalResponse, NoSolutionOrStop>,
>(
    alloc: Global,
    ecx: &mut E,
    env: ParamEnv,
    predicate: NormalizesTo,
    of: ImplId,
    then: F,
) -> Result<Candidate, NoSolutionOrStop>
{
    if !applies_by(ecx.cx(), predicate, of) {
        return Err(NoSolutionOrStop::NoSolution);
    }
    probe_impl(alloc, ecx, env, predicate, of, then)
}
