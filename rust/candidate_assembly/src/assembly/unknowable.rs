// Made of `crates/candidate_assembly/src/assembly/unknowable.rt` by `bench/plain.py`: an edit of this file is lost.

//! Impls that other crates may write: in coherence a goal that one of them may prove is too little known.


use kit::{eprintln, format, prelude::*, print, println, vec};
use crate::assembly::kind::GoalKind;
use crate::assembly::listing::recall_well_formed_table;
use crate::assembly::steps::{nest_and_respond, with_head_usages};
use candidate_eval::coherence::OrphanStop;
use candidate_eval::eval::certainty::Certainty;
use candidate_eval::eval::clauses::trait_clause;
use candidate_eval::eval::context::{EvalCtxt, ProbeKind};
use candidate_eval::eval::knowing::is_knowable;
use candidate_eval::eval::refusal::NoSolutionOrStop;
use candidate_eval::eval::response::Candidate;
use candidate_eval::eval::source::CandidateSource;
use ir_context::decl::make::Build;
use ir_folds::decl::elaborate::elaborate;
use ir_trees::ir::kinds::{
    Clause, GoalSource, ParamEnv, PredicatePolarity, TraitPredicate, TraitRef,
};
use ir_trees::ir::stop::Stop;
use kit::alloc::Global;

/// What it implies that the reference holds: the clause that says so, and then all else. No parameter stands in the reference.
///
/// `Stop::Memory` comes where a growth was refused, `Stop::NodesFull` where a clause was not made. The state stays.
fn implied_by_reference<E: EvalCtxt>(
    alloc: Global,
    ecx: &mut E,
    trait_ref: TraitRef,
) -> Result<Vec<Clause>, Stop>
{
    let vars = ecx.mk_vars(&[])?;
    let polarity = PredicatePolarity::Positive;
    let holds = TraitPredicate {
        trait_ref,
        polarity,
    };
    let clause = trait_clause(ecx, vars, holds)?;
    let implied = elaborate(alloc, ecx, &[clause])?;
    recall_well_formed_table(ecx.cx());
    Ok(implied)
}

/// Other crates may write impls of the reference, where types are normalised as the evaluator does in the environment. No parameter stands
/// in the reference.
///
/// `NoSolution` comes where they may not, and where a normal form is refused. It stops as the walk of the orphan check does, and as the
/// evaluator. What normalising changes stays.
fn require_unknowable<E: EvalCtxt>(
    alloc: Global,
    ecx: &mut E,
    env: ParamEnv,
    trait_ref: TraitRef,
) -> Result<(), NoSolutionOrStop>
{
    match is_knowable(alloc, ecx, env, trait_ref) {
        Ok(Err(_)) => Ok(()),
        Ok(Ok(())) => Err(NoSolutionOrStop::NoSolution),
        Err(OrphanStop::Normalize(())) => Err(NoSolutionOrStop::NoSolution),
        Err(OrphanStop::Stop(stop)) => Err(NoSolutionOrStop::Stop(stop)),
    }
}

/// The clauses after the first.
fn but_first(clauses: &[Clause]) -> &[Clause]
{
    match clauses {
        [_, others @ ..] => others,
        [] => &[],
    }
}

/// Where other crates may write impls of the reference, what its clause implies but for itself becomes pending, and the candidate is asked
/// for. It is called in a probe.
fn try_unknowable<E: EvalCtxt>(
    alloc: Global,
    ecx: &mut E,
    env: ParamEnv,
    trait_ref: TraitRef,
) -> Result<Candidate, NoSolutionOrStop>
{
    recall_well_formed_table(ecx.cx());
    require_unknowable(alloc, ecx, env, trait_ref)?;
    recall_well_formed_table(ecx.cx());
    let implied = implied_by_reference(alloc, ecx, trait_ref)?;
    let nested = but_first(implied.as_slice());
    nest_and_respond(
        alloc,
        ecx,
        env,
        GoalSource::Misc,
        nested,
        CandidateSource::CoherenceUnknowable,
        Certainty::AMBIGUOUS,
    )
}

/// The candidate by what other crates may write, for coherence: where they may write impls of the goal's trait reference, what the goal
/// implies becomes pending in a probe, and an ambiguous response is asked for.
///
/// `NoSolution` comes where they may write none, where a normal form is refused, and where the evaluator refuses what is pending or the
/// response. The stops are `Stop::WalkDepth` and `Stop::Unnameable`, of the orphan check's walk, those of making nodes and lists, and the
/// evaluator's. The state is left alike the one before.
pub fn consider_coherence_unknowable_candidate<E: EvalCtxt, G: GoalKind<E>>(
    alloc: Global,
    ecx: &mut E,
    env: ParamEnv,
    predicate: G,
) -> Result<Candidate, NoSolutionOrStop>
{
    recall_well_formed_table(ecx.cx());
    let trait_ref = G::trait_ref(ecx.cx(), env, predicate);
    let probe = ecx.begin_probe(ProbeKind::Kept)?;
    let answer = try_unknowable(alloc, ecx, env, trait_ref);
    let usages = ecx.end_probe(probe);
    with_head_usages(answer, usages)
}
