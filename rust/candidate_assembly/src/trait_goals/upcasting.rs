// Made of `crates/candidate_assembly/src/trait_goals/upcasting.rt` by `bench/plain.py`: an edit of this file is lost.

//! `dyn` to `dyn`: each bound of the target is met by the source's own bounds and by one of its principal's supertraits.


use kit::{eprintln, format, prelude::*, print, println, vec};
use crate::assembly::dyn_bounds::{
    bound_clause, dyn_parts, principal_among, principal_supertraits,
};
use crate::assembly::listing::push_considered;
use crate::assembly::steps::{nest_and_respond, respond_as, with_head_usages};
use crate::trait_goals::bounds_met::{Meeting, is_auto_bound, meet_bounds};
use candidate_eval::eval::certainty::Certainty;
use candidate_eval::eval::clauses::self_ty;
use candidate_eval::eval::context::{EvalCtxt, ProbeKind};
use candidate_eval::eval::refusal::NoSolutionOrStop;
use candidate_eval::eval::response::Candidate;
use candidate_eval::eval::source::{BuiltinImplSource, CandidateSource};
use ir_context::decl::Cx;
use ir_context::decl::make::{Build, Make};
use ir_trees::ir::kinds::{
    Binder, Clause, ClauseKind, ExistentialPredicate, GoalSource, ParamEnv, Pred, Region,
    TraitPredicate, Ty,
};
use ir_trees::ir::stop::Stop;
use ir_trees::ir::trees::Trees;
use kit::alloc::Global;

/// What an upcast is made of.
#[derive(Debug)]
pub(crate) struct Upcast {
    /// The bounds of the source.
    sources: Vec<Pred>,
    /// The supertraits of its principal, which is the first, or what serves for them.
    supers: Vec<Clause>,
    /// The bounds of the target.
    targets: Vec<Pred>,
    /// That the source's region outlives the target's.
    outlives: Clause,
}

/// The candidate of that source, where the bounds are met, with one of the supertraits for the principal, and the one region outlives the
/// other. It is called in a probe.
fn try_upcast<E: EvalCtxt>(
    alloc: Global,
    ecx: &mut E,
    env: ParamEnv,
    upcast: &Upcast,
    principal: Option<Clause>,
    source: CandidateSource,
) -> Result<Candidate, NoSolutionOrStop>
{
    let sources = upcast.sources.as_slice();
    let supers = upcast.supers.as_slice();
    let targets = upcast.targets.as_slice();
    match meet_bounds(alloc, ecx, env, sources, supers, principal, targets)? {
        Meeting::Surely => {
            let nested = GoalSource::ImplWhereBound;
            let sure = Certainty::Yes;
            nest_and_respond(alloc, ecx, env, nested, &[upcast.outlives], source, sure)
        }
        Meeting::Ambiguously => respond_as(alloc, ecx, source, Certainty::AMBIGUOUS),
    }
}

/// The candidate of that source, where the bounds are met, with one of the supertraits for the principal, and the one region outlives the
/// other; in a probe.
///
/// The state is left alike the one before. `NoSolution` comes where a bound isn't met, and where the evaluator refuses; the stops are those of
/// making nodes and lists, and the evaluator's.
fn consider_upcast<E: EvalCtxt>(
    alloc: Global,
    ecx: &mut E,
    env: ParamEnv,
    upcast: &Upcast,
    principal: Option<Clause>,
    source: CandidateSource,
) -> Result<Candidate, NoSolutionOrStop>
{
    let probe = ecx.begin_probe(ProbeKind::Kept)?;
    let answer = try_upcast(alloc, ecx, env, upcast, principal, source);
    let usages = ecx.end_probe(probe);
    with_head_usages(answer, usages)
}

/// Adds the candidates of the upcasts to the proper supertraits, in their order; each is tried at a state that is alike the one before.
///
/// The stops are those of `consider_upcast`, and `Stop::Memory` where the list can't grow. The state is left alike the one before.
fn consider_upcasts<E: EvalCtxt>(
    alloc: Global,
    ecx: &mut E,
    env: ParamEnv,
    upcast: &Upcast,
    candidates: &mut Vec<Candidate>,
) -> Result<(), Stop>
{
    for number in 1..upcast.supers.len() {
        let source = CandidateSource::BuiltinImpl(BuiltinImplSource::TraitUpcasting(number));
        let principal = Some(upcast.supers[number]);
        let answer = consider_upcast(alloc, ecx, env, upcast, principal, source);
        push_considered(candidates, answer)?;
    }
    Ok(())
}

/// The principal alone of a `dyn` type that has these bounds, as a clause about the type; nothing without one.
///
/// `Stop::Memory` comes where a growth was refused, `Stop::NodesFull` where a node was not made. After a stop the nodes that were made stay.
fn principal_alone<M: Make>(
    alloc: Global,
    make: &mut M,
    ty: Ty,
    bounds: &[Pred],
) -> Result<Vec<Clause>, Stop>
{
    let Some(principal) = principal_among(make.cx(), bounds) else {
        return Ok(Vec::new(alloc));
    };
    let clause = bound_clause(alloc, make, ty, principal)?;
    make.cx().recall_well_formed_table();
    let list = Vec::from_slice(alloc, &[clause])?;
    Ok(list)
}

/// Whether a bound of the target names an auto trait that none of the source's own bounds names.
fn lacks_auto_trait(cx: &Cx, sources: &[Pred], target: Pred) -> bool
{
    match cx.pred(target).value {
        ExistentialPredicate::AutoTrait(of) => !is_auto_bound(cx, sources, of),
        _ => false,
    }
}

/// Whether one of the target's bounds does.
fn lacks_auto_traits(cx: &Cx, sources: &[Pred], targets: &[Pred]) -> bool
{
    for target in targets {
        if lacks_auto_trait(cx, sources, *target) {
            return true;
        }
    }
    false
}

/// Whether an upcast asks for no supertrait of the source's principal but that itself: it stays, and the source's own bounds name each auto
/// trait that the target's do.
fn is_principal_enough(cx: &Cx, from: Ty, to: Ty, sources: &[Pred], targets: &[Pred]) -> bool
{
    keeps_principal(cx, from, to) && !lacks_auto_traits(cx, sources, targets)
}

/// Clauses for the supertraits of the source's principal in the rules of an upcast: the principal alone, where that is enough, else all. It
/// stops as `principal_supertraits` does.
fn needed_supertraits<M: Make>(
    alloc: Global,
    make: &mut M,
    from: Ty,
    to: Ty,
    sources: &[Pred],
    targets: &[Pred],
) -> Result<Vec<Clause>, Stop>
{
    make.cx().recall_well_formed_table();
    if is_principal_enough(make.cx(), from, to, sources, targets) {
        return principal_alone(alloc, make, from, sources);
    }
    principal_supertraits(alloc, make, from, sources)
}

/// That the one region outlives the other, as a clause under an empty binder. `Stop::Memory` comes where a growth was refused,
/// `Stop::NodesFull` where a node was not made.
fn region_outlives<M: Make>(make: &mut M, longer: Region, shorter: Region) -> Result<Clause, Stop>
{
    let vars = make.mk_vars(&[])?;
    make.mk_clause(Binder {
        vars,
        value: ClauseKind::RegionOutlives(longer, shorter),
    })
}

/// What an upcast from the one `dyn` type to the other is made of. It stops as `needed_supertraits` does.
fn upcast_between<M: Make>(alloc: Global, make: &mut M, from: Ty, to: Ty) -> Result<Upcast, Stop>
{
    let (source_bounds, source_region) = dyn_parts(make.cx(), from);
    let (target_bounds, target_region) = dyn_parts(make.cx(), to);
    let sources = Vec::from_slice(alloc, make.cx().preds(source_bounds))?;
    let targets = Vec::from_slice(alloc, make.cx().preds(target_bounds))?;
    let (own, asked) = (sources.as_slice(), targets.as_slice());
    let supers = needed_supertraits(alloc, make, from, to, own, asked)?;
    let outlives = region_outlives(make, source_region, target_region)?;
    Ok(Upcast {
        sources,
        supers,
        targets,
        outlives,
    })
}

/// Whether the target asks for no principal, or for one of the trait of the source's.
fn keeps_principal(cx: &Cx, from: Ty, to: Ty) -> bool
{
    let (sources, _) = dyn_parts(cx, from);
    let (targets, _) = dyn_parts(cx, to);
    match (cx.principal(sources), cx.principal(targets)) {
        (_, None) => true,
        (None, Some(_)) => false,
        (Some(source), Some(target)) => source.0 == target.0,
    }
}

/// The first of the clauses.
fn first_of(clauses: &[Clause]) -> Option<Clause>
{
    match clauses {
        [first, ..] => Some(*first),
        [] => None,
    }
}

/// Adds the candidates where the goal's self type, a `dyn` type, unsizes to the target, a `dyn` type in normal form: one where the principal
/// stays, else one for each of its proper supertraits.
///
/// The stops are those of making nodes and lists, and the evaluator's. The state is left alike the one before.
pub(crate) fn unsize_dyn_to_dyn<E: EvalCtxt>(
    alloc: Global,
    ecx: &mut E,
    env: ParamEnv,
    predicate: TraitPredicate,
    target: Ty,
    candidates: &mut Vec<Candidate>,
) -> Result<(), Stop>
{
    let ty = self_ty(ecx.cx(), predicate.trait_ref);
    let keeps = keeps_principal(ecx.cx(), ty, target);
    let upcast = upcast_between(alloc, ecx, ty, target)?;
    if !keeps {
        return consider_upcasts(alloc, ecx, env, &upcast, candidates);
    }
    let principal = first_of(upcast.supers.as_slice());
    let source = CandidateSource::BuiltinImpl(BuiltinImplSource::Misc);
    let answer = consider_upcast(alloc, ecx, env, &upcast, principal, source);
    push_considered(candidates, answer)
}
