// Made of `crates/candidate_assembly/src/assembly/object_bounds.rt` by `bench/plain.py`: an edit of this file is lost.

//! Candidates by an object's own bounds: what the bounds of a `dyn` type say of it.


use kit::{eprintln, format, prelude::*, print, println, vec};
use crate::assembly::dyn_bounds::{
    bound_clause, dyn_parts, is_dyn_compatible, is_principal, principal_supertraits,
};
use crate::assembly::kind::GoalKind;
use crate::assembly::language::is_item;
use crate::assembly::listing::{push_considered, recall_well_formed_table};
use crate::assembly::steps::{respond_as, with_head_usages};
use candidate_eval::eval::certainty::Certainty;
use candidate_eval::eval::context::{EvalCtxt, ProbeKind};
use candidate_eval::eval::refusal::NoSolutionOrStop;
use candidate_eval::eval::response::Candidate;
use candidate_eval::eval::source::{BuiltinImplSource, CandidateSource};
use candidate_eval::objects::object::AmbiguousOrStop;
use candidate_eval::objects::object_candidate::predicates_for_object_candidate;
use ir_context::decl::Cx;
use ir_context::decl::make::Make;
use ir_trees::decl::contents::LangItem;
use ir_trees::ir::heads::Head;
use ir_trees::ir::kinds::{
    Binder, Clause, ClauseKind, GoalSource, ParamEnv, Pred, Preds, TraitId, TraitRef, Ty,
};
use ir_trees::ir::stop::Stop;
use ir_trees::ir::trees::Trees;
use kit::alloc::{AllocError, Global};

/// The reference of the trait that the clause speaks of, under the clause's binder. A clause that says what an associated type is speaks of
/// the trait of that, with the same arguments.
fn reference_in(cx: &Cx, clause: Clause) -> Binder<TraitRef>
{
    cx.recall_well_formed();
    cx.recall_well_formed_table();
    let said = cx.clause(clause);
    let trait_ref = match said.value {
        ClauseKind::Trait(predicate) => predicate.trait_ref,
        ClauseKind::Projection(projection) => {
            let term = projection.projection_term;
            match cx.assoc_trait(term.def_id) {
                Some(def_id) => TraitRef {
                    def_id,
                    args: term.args,
                },
                None => unreachable!(),
            }
        }
        ClauseKind::TypeOutlives(_, _)
        | ClauseKind::RegionOutlives(_, _)
        | ClauseKind::AliasRelate(_, _)
        | ClauseKind::ConstEquate(_, _) => unreachable!(),
    };
    Binder {
        vars: said.vars,
        value: trait_ref,
    }
}

/// What an object of the reference's trait has to fulfil becomes pending in the environment, if that is to be asked, and the candidate is asked
/// for. Where too little is known of a projection of the object's own, the candidate is ambiguous.
///
/// `NoSolution` comes where the evaluator refuses the response; it stops as `predicates_for_object_candidate` and the evaluator do.
fn require_of_object<E: EvalCtxt>(
    alloc: Global,
    ecx: &mut E,
    source: CandidateSource,
    asks: bool,
    env: ParamEnv,
    trait_ref: Binder<TraitRef>,
    object_bounds: Preds,
) -> Result<Candidate, NoSolutionOrStop>
{
    if !asks {
        return respond_as(alloc, ecx, source, Certainty::Yes);
    }
    match predicates_for_object_candidate(alloc, ecx, env, trait_ref, object_bounds) {
        Ok(goals) => {
            ecx.add_goals(GoalSource::ImplWhereBound, goals.as_slice())?;
            respond_as(alloc, ecx, source, Certainty::Yes)
        }
        Err(AmbiguousOrStop::Ambiguous) => respond_as(alloc, ecx, source, Certainty::AMBIGUOUS),
        Err(AmbiguousOrStop::Stop(stop)) => Err(NoSolutionOrStop::Stop(stop)),
    }
}

/// Matches a clause of the `dyn` type that the goal is about, which passes quick rejection, and asks for what an object of the clause's trait
/// has to fulfil, if the kind of goals does. It is called in a probe.
///
/// `NoSolution` comes where the clause isn't matched, and where the evaluator refuses the response; it stops as the match and
/// `predicates_for_object_candidate` do, and as the evaluator.
fn match_and_require<E: EvalCtxt, G: GoalKind<E>>(
    alloc: Global,
    ecx: &mut E,
    source: CandidateSource,
    env: ParamEnv,
    predicate: G,
    clause: Clause,
) -> Result<Candidate, NoSolutionOrStop>
{
    recall_well_formed_table(ecx.cx());
    let self_ty = G::self_ty(ecx.cx(), env, predicate);
    let (object_bounds, _) = dyn_parts(ecx.cx(), self_ty);
    let trait_ref = reference_in(ecx.cx(), clause);
    let asks = G::asks_of_objects();
    G::match_assumption(
        alloc,
        ecx,
        env,
        predicate,
        clause,
        |ecx: &mut E| require_of_object(alloc, ecx, source, asks, env, trait_ref, object_bounds),
    )
}

/// The candidate of a source by a clause of the `dyn` type that the goal is about: in a probe the clause is matched; then what an object of
/// the clause's trait has to fulfil becomes pending, if the kind of goals asks for that, and a response is asked for. Where too little is known
/// of a projection of the object's own, the candidate is ambiguous.
///
/// `NoSolution` comes where the clause doesn't pass quick rejection or isn't matched, and where the evaluator refuses the response; it stops
/// as the match and `predicates_for_object_candidate` do, and as the evaluator. The state is left alike the one before.
pub fn probe_and_consider_object_bound_candidate<E: EvalCtxt, G: GoalKind<E>>(
    alloc: Global,
    ecx: &mut E,
    source: CandidateSource,
    env: ParamEnv,
    predicate: G,
    clause: Clause,
) -> Result<Candidate, NoSolutionOrStop>
{
    debug_assert!(ir_trees::checks::is_sorted(ir_context::decl::make::Make::cx(&*ecx), clause), "candidate_assembly::assembly::object_bounds::probe_and_consider_object_bound_candidate: `clause` is {:?}, no number of its sort in this context", clause);
    recall_well_formed_table(ecx.cx());
    if G::fast_reject_assumption(ecx.cx(), env, predicate, clause).is_err() {
        return Err(NoSolutionOrStop::NoSolution);
    }
    let probe = ecx.begin_probe(ProbeKind::Kept)?;
    let answer = match_and_require(alloc, ecx, source, env, predicate, clause);
    let usages = ecx.end_probe(probe);
    with_head_usages(answer, usages)
}

/// Adds the candidates by clauses of the `dyn` type that the goal is about, each of its source, in their order.
///
/// It stops at the first clause whose rule stops, with that stop, and as `probe_and_consider_object_bound_candidate`; `Stop::Memory` comes
/// where the list can't grow. The state is left alike the one before.
fn consider_own_clauses<E: EvalCtxt, G: GoalKind<E>>(
    alloc: Global,
    ecx: &mut E,
    env: ParamEnv,
    predicate: G,
    clauses: &[(CandidateSource, Clause)],
    candidates: &mut Vec<Candidate>,
) -> Result<(), Stop>
{
    recall_well_formed_table(ecx.cx());
    for clause in clauses {
        let (source, clause) = *clause;
        let answer = probe_and_consider_object_bound_candidate(
            alloc, ecx, source, env, predicate, clause,
        );
        push_considered(candidates, answer)?;
    }
    Ok(())
}

/// What the bounds say of a type, but for the principal, in their order.
///
/// `Stop::Memory` comes where a growth was refused, `Stop::NodesFull` where a node was not made. After a stop the nodes that were made stay.
fn bounds_said<M: Make>(
    alloc: Global,
    make: &mut M,
    ty: Ty,
    bounds: &[Pred],
) -> Result<Vec<(CandidateSource, Clause)>, Stop>
{
    let mut clauses = Vec::new(alloc);
    for bound in bounds {
        if !is_principal(make.cx(), *bound) {
            let clause = bound_clause(alloc, make, ty, *bound)?;
            let source = CandidateSource::BuiltinImpl(BuiltinImplSource::Misc);
            clauses.push((source, clause))?;
        }
    }
    Ok(clauses)
}

/// Adds the supertraits of an object's own trait, each with its number. The list can't grow where `AllocError` comes.
fn push_supertraits(
    clauses: &mut Vec<(CandidateSource, Clause)>,
    supers: &[Clause],
) -> Result<(), AllocError>
{
    for number in 0..supers.len() {
        let source = CandidateSource::BuiltinImpl(BuiltinImplSource::Object(number));
        clauses.push((source, supers[number]))?;
    }
    Ok(())
}

/// All clauses that the bounds of a `dyn` type give, each with its source: what its projections and auto traits say, in their order, and then
/// the supertraits of its principal, each by its number. No parameter stands in the type.
///
/// `Stop::Memory` comes where a growth was refused, `Stop::NodesFull` where a node was not made. After a stop the nodes that were made stay.
fn own_clauses<M: Make>(
    alloc: Global,
    make: &mut M,
    ty: Ty,
) -> Result<Vec<(CandidateSource, Clause)>, Stop>
{
    recall_well_formed_table(make.cx());
    let (preds, _) = dyn_parts(make.cx(), ty);
    let bounds = Vec::from_slice(alloc, make.cx().preds(preds))?;
    let supers = principal_supertraits(alloc, make, ty, bounds.as_slice())?;
    let mut clauses = bounds_said(alloc, make, ty, bounds.as_slice())?;
    push_supertraits(&mut clauses, supers.as_slice())?;
    Ok(clauses)
}

/// Whether the bounds of a type say something of it that may prove a goal of the trait: it is a `dyn` type, of which objects may be made, and
/// the trait isn't one of sizedness, which isn't had by a bound.
fn has_own_clauses(cx: &Cx, trait_id: TraitId, ty: Ty) -> bool
{
    if is_item(cx, LangItem::Sized, trait_id) || is_item(cx, LangItem::MetaSized, trait_id) {
        return false;
    }
    if !matches!(cx.head(ty.0), Head::Dynamic) {
        return false;
    }
    is_dyn_compatible(cx, ty)
}

/// Adds the candidates by an object's own bounds: what its projections and auto traits say, in their order, and then the supertraits of its
/// principal, each by its number. There are none for traits of sizedness, for a self type that is no `dyn` type, and where no objects of the
/// principal's trait may be made.
///
/// It stops at the first clause whose rule stops, with that stop, and as `probe_and_consider_object_bound_candidate`; `Stop::Memory` comes
/// where a list can't grow, `Stop::NodesFull` where a clause was not made. The state is left alike the one before.
pub(crate) fn assemble_object_bound_candidates<E: EvalCtxt, G: GoalKind<E>>(
    alloc: Global,
    ecx: &mut E,
    env: ParamEnv,
    predicate: G,
    candidates: &mut Vec<Candidate>,
) -> Result<(), Stop>
{
    recall_well_formed_table(ecx.cx());
    let trait_id = G::trait_def_id(ecx.cx(), env, predicate);
    let self_ty = G::self_ty(ecx.cx(), env, predicate);
    if !has_own_clauses(ecx.cx(), trait_id, self_ty) {
        return Ok(());
    }
    let clauses = own_clauses(alloc, ecx, self_ty)?;
    consider_own_clauses(alloc, ecx, env, predicate, clauses.as_slice(), candidates)
}
