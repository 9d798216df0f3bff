//! Rows that ask a new evaluator for all candidates of a goal, what these have used, and what it comes to.

use crate::candidates::considering::{found_rows, goal_at, used_rows};
use crate::candidates::preferring::{proved, VIAS};
use crate::evaluator::eval::Operands;
use crate::evaluator::merging::responded;
use crate::notation::answers::Answer;
use crate::notation::refusals::{Refusal, WordPlace};
use crate::notation::rows::Row;
use crate::notation::tables::value_of;
use crate::recorder::Recorder;
use candidate_assembly::assembly::candidates::assemble_and_evaluate_candidates;
use candidate_assembly::assembly::merging::assemble_and_merge_candidates;
use candidate_assembly::assembly::opaques::AssembleCandidatesFrom;
use candidate_assembly::trait_goals::compute::compute_trait_goal;
use candidate_eval::eval::ambiguity::bail_with_ambiguity;
use candidate_eval::eval::certainty::Certainty;
use candidate_eval::eval::context::EvalCtxt;
use candidate_eval::eval::refusal::NoSolutionOrStop;
use candidate_eval::eval::response::CanonicalResponse;
use candidate_ir::decl::make::Make;
use candidate_ir::ir::kinds::{ParamEnv, TraitPredicate};
use candidate_ir::ir::stop::Stop;
use candidate_rounds::rounds::Rounds;
use kit::alloc::Global;
use kit::prelude::*;

/// The words for which candidates are looked for.
const FROM: [(&str, AssembleCandidatesFrom); 2] = [
    ("all", AssembleCandidatesFrom::All),
    ("bounds", AssembleCandidatesFrom::EnvAndBounds),
];

/// The goal of these operands, which stands at what the evaluator knows; else a `Refusal::Condition` comes.
fn standing_goal(
    alloc: Global,
    rounds: &Rounds,
    of: Operands,
) -> Result<(ParamEnv, TraitPredicate), Refusal> {
    let (env, predicate) = goal_at(rounds.cx(), of.left, of.right)?;
    if !rounds.stands_here(alloc, env, predicate) {
        return Err(Refusal::Condition);
    }
    Ok((env, predicate))
}

/// The response to the goal, where the goal of its trait is proved as the row says. Beside assumptions too little is known if the row says
/// `bails`; without such the answer is yes, or, if the row says `refuses`, a refusal.
fn answered<E: EvalCtxt>(
    alloc: Global,
    ecx: &mut E,
    row: Row<'_>,
    env: ParamEnv,
    predicate: TraitPredicate,
) -> Result<Answer, Refusal> {
    let via = value_of(&VIAS, row.second).ok_or(Refusal::UnknownWord(WordPlace::Row(2)))?;
    let (bails, refuses) = (row.has("bails"), row.has("refuses"));
    let ambiguity = |ecx: &mut E| -> Option<Result<CanonicalResponse, NoSolutionOrStop>> {
        if !bails {
            return None;
        }
        match bail_with_ambiguity(ecx) {
            Ok(response) => Some(Ok(response)),
            Err(stop) => Some(Err(NoSolutionOrStop::Stop(stop))),
        }
    };
    let rigid = |ecx: &mut E| -> Result<CanonicalResponse, NoSolutionOrStop> {
        if refuses {
            return Err(NoSolutionOrStop::NoSolution);
        }
        ecx.evaluate_added_goals_and_make_canonical_response(Certainty::Yes)
    };
    let outcome = assemble_and_merge_candidates(alloc, ecx, via, env, predicate, ambiguity, rigid);
    responded(alloc, outcome)
}

/// All candidates for the goal, each with its source and the number of the probe in which it was found, as what it has used; then what
/// clauses of the environment have used that were refused.
fn used<E: EvalCtxt>(
    alloc: Global,
    ecx: &mut E,
    from: AssembleCandidatesFrom,
    env: ParamEnv,
    predicate: TraitPredicate,
) -> Result<Answer, Refusal> {
    let mut recorder = Recorder::new(alloc, ecx);
    let (list, failed) =
        assemble_and_evaluate_candidates(alloc, &mut recorder, env, predicate, from)?;
    if recorder.is_cut() {
        return Err(Refusal::Stop(Stop::Memory));
    }
    used_rows(alloc, list.as_slice(), &failed)
}

/// What the row asks of the goal of these operands: all candidates for it, each with its source and its response or with what it has used,
/// or what it comes to.
pub fn of_goal(
    alloc: Global,
    rounds: &mut Rounds,
    row: Row<'_>,
    of: Operands,
) -> Result<Answer, Refusal> {
    let (env, predicate) = standing_goal(alloc, rounds, of)?;
    match row.verb {
        "prove" => {
            let outcome = compute_trait_goal(alloc, rounds, env, predicate);
            return proved(alloc, outcome);
        }
        "answer" => return answered(alloc, rounds, row, env, predicate),
        _ => {}
    }
    let from = value_of(&FROM, row.second).ok_or(Refusal::UnknownWord(WordPlace::Row(2)))?;
    if row.verb == "used" {
        return used(alloc, rounds, from, env, predicate);
    }
    let (list, _) = assemble_and_evaluate_candidates(alloc, rounds, env, predicate, from)?;
    found_rows(alloc, list.as_slice())
}
