// Made of `crates/candidate_assembly/src/trait_goals/compute.rt` by `bench/plain.py`: an edit of this file is lost.

//! What a goal of a trait comes to.


use kit::{eprintln, format, prelude::*, print, println, vec};
use crate::assembly::candidates::assemble_and_evaluate_candidates;
use crate::assembly::merging::TraitGoalProvenVia;
use crate::assembly::opaques::AssembleCandidatesFrom;
use crate::trait_goals::preference::{CandidatePreferenceMode, merge_trait_candidates};
use candidate_eval::eval::context::EvalCtxt;
use candidate_eval::eval::refusal::NoSolutionOrStop;
use candidate_eval::eval::response::CanonicalResponse;
use ir_context::decl::Cx;
use ir_context::decl::make::Make;
use ir_trees::ir::kinds::{ParamEnv, TraitPredicate};
use kit::alloc::Global;

/// Nothing is wrong with what is declared, and its lists are no longer than a machine counts.
fn recall_declared(cx: &Cx)
{
    cx.recall_well_formed_table();
    cx.recall_counted();
}

/// The response to a goal of a trait, and how the goal is proved: of all candidates for it those that win, merged. The goal stands at a
/// state whose values make sense.
///
/// The list is that of `assemble_and_evaluate_candidates`, from all sources. Which candidates win, and what they come to, is that of
/// `merge_trait_candidates`, in the mode that `CandidatePreferenceMode::compute` gives the trait. Where those that win don't merge the
/// response is that too little is known, and nothing is said of how the goal is proved; `NoSolution` comes where there are none.
/// In coherence a goal without aliases, to which no value is left to be put in and beside which nothing is pending, is refused for one of two
/// reasons alone: what its clause implies was refused, or no crate that it doesn't name may write a header that overlaps it.
/// Each declared impl of the trait that serves such a goal and whose header overlaps it was then tried: the equation was accepted, and what
/// was pending after it, the impl's clauses among it, refused. Of default impls and of headers with an alias nothing is said.
///
/// It stops as these two calls do. The state is left alike the one that normalising the goal's self type leaves; or, where that was refused
/// or stopped, alike the one before. No fault is put off but by the list.
pub fn compute_trait_goal<E: EvalCtxt>(
    alloc: Global,
    ecx: &mut E,
    env: ParamEnv,
    predicate: TraitPredicate,
) -> Result<(CanonicalResponse, Option<TraitGoalProvenVia>), NoSolutionOrStop>
{
    debug_assert!(ir_trees::checks::is_sorted(ir_context::decl::make::Make::cx(&*ecx), env), "candidate_assembly::trait_goals::compute::compute_trait_goal: `env` is {:?}, no number of its sort in this context", env);
    debug_assert!(ir_trees::checks::is_sorted(ir_context::decl::make::Make::cx(&*ecx), predicate.trait_ref.args), "candidate_assembly::trait_goals::compute::compute_trait_goal: `predicate.trait_ref.args` is {:?}, no number of its sort in this context", predicate.trait_ref.args);
    recall_declared(ecx.cx());
    let from = AssembleCandidatesFrom::All;
    let (candidates, failed) = assemble_and_evaluate_candidates(alloc, ecx, env, predicate, from)?;
    let mode = CandidatePreferenceMode::compute(ecx.cx(), predicate.trait_ref.def_id);
    merge_trait_candidates(ecx, mode, candidates, failed)
}
