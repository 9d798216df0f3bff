// Made of `crates/candidate_assembly/src/trait_goals/aliases.rt` by `bench/plain.py`: an edit of this file is lost.

//! The rule of trait aliases: an alias holds where the where clauses of its trait do.


use kit::{eprintln, format, prelude::*, print, println, vec};
use crate::assembly::steps::consider_with_nested;
use crate::trait_goals::builtin::is_positive;
use candidate_eval::eval::certainty::Certainty;
use candidate_eval::eval::context::EvalCtxt;
use candidate_eval::eval::refusal::NoSolutionOrStop;
use candidate_eval::eval::response::Candidate;
use candidate_eval::eval::source::{BuiltinImplSource, CandidateSource};
use ir_context::decl::make::Make;
use ir_folds::decl::subst::subst;
use ir_trees::ir::kinds::{Clause, GoalSource, ParamEnv, TraitPredicate, TraitRef};
use ir_trees::ir::stop::Stop;
use kit::alloc::Global;

/// The where clauses of the reference's trait, in order, with the reference's arguments in the place of parameters.
///
/// `Stop::Memory` comes where a growth was refused, `Stop::NodesFull` where a clause was not made, as by `subst`.
fn where_clauses<M: Make>(
    alloc: Global,
    make: &mut M,
    reference: TraitRef,
) -> Result<Vec<Clause>, Stop>
{
    let declared = Vec::from_slice(alloc, make.cx().trait_where_clauses_of(reference))?;
    let mut list = Vec::new(alloc);
    for clause in &declared {
        let clause = subst(alloc, make, *clause, reference.args)?;
        list.push(clause)?;
    }
    Ok(list)
}

/// The rule of a trait alias.
///
/// The state is left alike the one before. `NoSolution` comes for a negative goal and where the evaluator refuses; the stops are those of
/// making nodes and lists, and the evaluator's.
pub(crate) fn consider_trait_alias<E: EvalCtxt>(
    alloc: Global,
    ecx: &mut E,
    env: ParamEnv,
    predicate: TraitPredicate,
) -> Result<Candidate, NoSolutionOrStop>
{
    if !is_positive(predicate.polarity) {
        return Err(NoSolutionOrStop::NoSolution);
    }
    let clauses = where_clauses(alloc, ecx, predicate.trait_ref)?;
    let source = CandidateSource::BuiltinImpl(BuiltinImplSource::Misc);
    let nested = clauses.as_slice();
    consider_with_nested(
        alloc,
        ecx,
        env,
        true,
        GoalSource::Misc,
        nested,
        source,
        Certainty::Yes,
    )
}
