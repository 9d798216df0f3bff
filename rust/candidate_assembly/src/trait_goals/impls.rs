// Made of `crates/candidate_assembly/src/trait_goals/impls.rt` by `bench/plain.py`: an edit of this file is lost.

//! The rule of an impl: a goal of a trait holds by an impl of it.


use kit::{eprintln, format, prelude::*, print, println, vec};
use crate::assembly::steps::with_source;
use candidate_eval::eval::certainty::Certainty;
use candidate_eval::eval::clauses::substitute;
use candidate_eval::eval::context::{EvalCtxt, ProbeKind};
use candidate_eval::eval::mode::TypingMode;
use candidate_eval::eval::refusal::NoSolutionOrStop;
use candidate_eval::eval::response::{Candidate, CanonicalResponse};
use candidate_eval::eval::source::CandidateSource;
use ir_context::decl::Cx;
use ir_trees::decl::contents::{ImplId, ImplPolarity};
use ir_trees::ir::kinds::{
    Args, Clause, Goal, GoalSource, ParamEnv, PredicatePolarity, TraitId, TraitPredicate,
};
use ir_trees::ir::stop::Stop;
use ir_trees::ir::trees::Trees;
use ir_trees::ir::unify::RightSide;
use kit::alloc::Global;

/// What an impl declares, without what its associated types are.
#[derive(Debug)]
pub struct DeclaredImpl {
    /// The trait that it is for.
    pub def_id: TraitId,
    /// The arguments of the trait reference that it is for.
    pub header: Args,
    /// Its where-clauses.
    pub wheres: Vec<Clause>,
    /// The outlives clauses of its trait's supertraits.
    pub super_outlives: Vec<Clause>,
}

/// How sure an impl makes a goal, if it serves it.
fn impl_certainty(mode: TypingMode, goal: PredicatePolarity, of: ImplPolarity) -> Option<Certainty>
{
    match (of, goal) {
        (ImplPolarity::Reservation, _) => match mode {
            TypingMode::Coherence => Some(Certainty::AMBIGUOUS),
            _ => None,
        },
        (ImplPolarity::Positive, PredicatePolarity::Positive) => Some(Certainty::Yes),
        (ImplPolarity::Negative, PredicatePolarity::Negative) => Some(Certainty::Yes),
        _ => None,
    }
}

/// The certainty that the impl gives the goal, if its rule applies.
fn certainty_by(
    cx: &Cx,
    mode: TypingMode,
    env: ParamEnv,
    predicate: TraitPredicate,
    of: ImplId,
) -> Option<Certainty>
{
    let _ = env;
    let declared = cx.impl_contents(of)?;
    let header = declared.trait_ref;
    let polarity = declared.polarity;
    if !cx.args_may_unify(predicate.trait_ref.args, header.args, RightSide::Header) {
        return None;
    }
    impl_certainty(mode, predicate.polarity, polarity)
}

/// What is declared of the impl is of the context: said to a caller that needs it. Nothing is done.
pub fn recall_impl_given(cx: &Cx, of: ImplId)
{
    let _ = of;
    cx.recall_well_formed_table();
}

/// Fresh variables in the place of an impl's parameters; of what is no impl there are none. The stops are those of growing a list and of
/// the evaluator.
pub fn fresh_args_for_impl<E: EvalCtxt>(
    alloc: Global,
    ecx: &mut E,
    of: ImplId,
) -> Result<Args, Stop>
{
    let kinds = ecx.cx().impl_parameters(alloc, of)?;
    ecx.fresh_args_for_item(kinds.as_slice())
}

/// What the impl declares, whose parameters have these arguments; `None` where no impl has the number. The one error is `Memory`, where a
/// list can't grow.
pub fn declared_by(
    alloc: Global,
    cx: &Cx,
    of: ImplId,
    args: Args,
) -> Result<Option<DeclaredImpl>, Stop>
{
    let Some(declared) = cx.impl_of(of, args) else {
        return Ok(None);
    };
    let wheres = Vec::from_slice(alloc, declared.wheres.as_slice())?;
    let super_outlives = Vec::from_slice(alloc, declared.super_outlives.as_slice())?;
    Ok(Some(DeclaredImpl {
        def_id: declared.trait_ref.def_id,
        header: declared.trait_ref.args,
        wheres,
        super_outlives,
    }))
}

/// Equates the arguments with those of a header, with what stands for the impl's parameters.
fn equate_header<E: EvalCtxt>(
    alloc: Global,
    ecx: &mut E,
    env: ParamEnv,
    args: Args,
    header: Args,
    locals: Args,
) -> Result<(), NoSolutionOrStop>
{
    let header = substitute(alloc, ecx, header, locals)?;
    ecx.eq_args(env, args, header)
}

/// Clauses become pending, one after the other, with what stands for the impl's parameters. The stops are those of growing a list, of
/// making nodes and of the evaluator; the clauses before the one where it stopped are pending then.
pub fn nest_clauses<E: EvalCtxt>(
    alloc: Global,
    ecx: &mut E,
    env: ParamEnv,
    source: GoalSource,
    clauses: &[Clause],
    locals: Args,
) -> Result<(), Stop>
{
    debug_assert!(ir_trees::checks::is_sorted(ir_context::decl::make::Make::cx(&*ecx), env), "candidate_assembly::trait_goals::impls::nest_clauses: `env` is {:?}, no number of its sort in this context", env);
    debug_assert!(ir_trees::checks::is_sorted(ir_context::decl::make::Make::cx(&*ecx), locals), "candidate_assembly::trait_goals::impls::nest_clauses: `locals` is {:?}, no number of its sort in this context", locals);
    for clause in clauses {
        let predicate = substitute(alloc, ecx, *clause, locals)?;
        ecx.add_goal(
            source,
            Goal {
                param_env: env,
                predicate,
            },
        )?;
    }
    Ok(())
}

/// Equates the arguments with those of a header, and then where clauses and outlives clauses become pending, all with what stands for
/// the impl's parameters.
fn equate_and_nest<E: EvalCtxt>(
    alloc: Global,
    ecx: &mut E,
    env: ParamEnv,
    args: Args,
    header: Args,
    wheres: &[Clause],
    super_outlives: &[Clause],
    locals: Args,
) -> Result<(), NoSolutionOrStop>
{
    equate_header(alloc, ecx, env, args, header, locals)?;
    let source = GoalSource::ImplWhereBound;
    nest_clauses(alloc, ecx, env, source, wheres, locals)?;
    nest_clauses(alloc, ecx, env, GoalSource::Misc, super_outlives, locals)?;
    Ok(())
}

/// What an impl's rule does before it asks, for a row of arguments. It answers what stands for the impl's parameters; of what is no impl
/// nothing is done.
fn follow_impl<E: EvalCtxt>(
    alloc: Global,
    ecx: &mut E,
    env: ParamEnv,
    args: Args,
    of: ImplId,
) -> Result<Args, NoSolutionOrStop>
{
    recall_impl_given(ecx.cx(), of);
    let locals = fresh_args_for_impl(alloc, ecx, of)?;
    let Some(declared) = declared_by(alloc, ecx.cx(), of, locals)? else {
        return Ok(locals);
    };
    let (wheres, super_outlives) = (&declared.wheres, &declared.super_outlives);
    equate_and_nest(
        alloc,
        ecx,
        env,
        args,
        declared.header,
        wheres.as_slice(),
        super_outlives.as_slice(),
        locals,
    )?;
    Ok(locals)
}

/// What an impl's rule does, and then what the closure answers.
fn follow_impl_and_then<
    E: EvalCtxt,
    F: FnOnce(&mut E, Certainty) -> Result<CanonicalResponse, NoSolutionOrStop>,
>(
    alloc: Global,
    ecx: &mut E,
    env: ParamEnv,
    args: Args,
    of: ImplId,
    certainty: Certainty,
    then: F,
) -> Result<CanonicalResponse, NoSolutionOrStop>
{
    follow_impl(alloc, ecx, env, args, of)?;
    then(ecx, certainty)
}

/// What an impl's rule does, and then what the closure answers, in a probe.
fn probe_impl<
    E: EvalCtxt,
    F: FnOnce(&mut E, Certainty) -> Result<CanonicalResponse, NoSolutionOrStop>,
>(
    alloc: Global,
    ecx: &mut E,
    env: ParamEnv,
    args: Args,
    of: ImplId,
    certainty: Certainty,
    then: F,
) -> Result<Candidate, NoSolutionOrStop>
{
    recall_impl_given(ecx.cx(), of);
    let probe = ecx.begin_probe(ProbeKind::Kept)?;
    let answer = follow_impl_and_then(alloc, ecx, env, args, of, certainty, then);
    let usages = ecx.end_probe(probe);
    with_source(CandidateSource::Impl(of), answer, usages)
}

/// The rule of an impl: its steps in a probe, and then what the closure answers, which is given the certainty that the impl gives.
///
/// `NoSolution` comes where the rule doesn't apply, where the header's arguments can't be equated with the goal's, and where the closure
/// answers it. The stops are those of growing a list, of making nodes and of the evaluator, and the closure's. The state is left alike the
/// one before, whatever is answered.
pub fn consider_impl<
    E: EvalCtxt,
    F: FnOnce(&mut E, Certainty) -> Result<CanonicalResponse, NoSolutionOrStop>,
>(
    alloc: Global,
    ecx: &mut E,
    env: ParamEnv,
    predicate: TraitPredicate,
    of: ImplId,
    then: F,
) -> Result<Candidate, NoSolutionOrStop>
{
    debug_assert!(ir_trees::checks::is_sorted(ir_context::decl::make::Make::cx(&*ecx), env), "candidate_assembly::trait_goals::impls::consider_impl: `env` is {:?}, no number of its sort in this context", env);
    debug_assert!(ir_trees::checks::is_sorted(ir_context::decl::make::Make::cx(&*ecx), predicate.trait_ref.args), "candidate_assembly::trait_goals::impls::consider_impl: `predicate.trait_ref.args` is {:?}, no number of its sort in this context", predicate.trait_ref.args);
    let mode = ecx.typing_mode();
    let Some(certainty) = certainty_by(ecx.cx(), mode, env, predicate, of) else {
        return Err(NoSolutionOrStop::NoSolution);
    };
    let args = predicate.trait_ref.args;
    probe_impl(alloc, ecx, env, args, of, certainty, then)
}
