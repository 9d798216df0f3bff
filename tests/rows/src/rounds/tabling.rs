//! Rows that run goals of traits in rounds, and that read what the table has of them.

use crate::candidates::considering::{found_rows, goal_at};
use crate::candidates::preferring::proved;
use crate::evaluator::eval::Operands;
use crate::notation::answers::{Answer, Item};
use crate::notation::refusals::Refusal;
use crate::notation::rows::Row;
use candidate_eval::eval::refusal::NoSolutionOrStop;
use candidate_ir::decl::make::Make;
use candidate_ir::ir::kinds::{ParamEnv, TraitPredicate};
use candidate_rounds::rounds::effort::Effort;
use candidate_rounds::rounds::goals::Verdict;
use candidate_rounds::rounds::Rounds;
use kit::alloc::Global;
use kit::prelude::*;

/// What is printed for a verdict: how the goal is proved, and its response.
fn said(alloc: Global, verdict: Verdict) -> Result<Answer, Refusal> {
    let outcome = match verdict {
        Verdict::Yes(response, via) | Verdict::Maybe(response, via) => Ok((response, via)),
        Verdict::Refused => Err(NoSolutionOrStop::NoSolution),
    };
    proved(alloc, outcome)
}

/// How long a goal is computed: as long as needed by `*`, and else in as many rounds as the word says, if that is a number above 0.
pub(crate) fn effort_of(word: &str) -> Option<Effort> {
    match word.parse::<u16>() {
        Ok(0) => None,
        Ok(count) => Some(Effort::Rounds(count)),
        Err(_) => (word == "*").then_some(Effort::AsNeeded),
    }
}

/// Runs the goal for as many rounds as the row says, or as long as needed. `Refusal::Condition` comes where it says neither, and where the
/// goal may not be run.
fn run(
    alloc: Global,
    rounds: &mut Rounds,
    row: Row<'_>,
    env: ParamEnv,
    predicate: TraitPredicate,
) -> Result<Answer, Refusal> {
    let effort = effort_of(row.first).ok_or(Refusal::Condition)?;
    if !rounds.may_be_run(alloc, env, predicate)? {
        return Err(Refusal::Condition);
    }
    let verdict = match effort {
        Effort::Rounds(count) => rounds.run(alloc, env, predicate, count)?,
        Effort::AsNeeded => rounds.run_settled(alloc, env, predicate)?,
    };
    said(alloc, verdict)
}

/// Does one step for the goal, and says whether no more is needed. `Refusal::Condition` comes where the goal may not be run.
fn step(
    alloc: Global,
    rounds: &mut Rounds,
    env: ParamEnv,
    predicate: TraitPredicate,
) -> Result<Answer, Refusal> {
    if !rounds.may_be_run(alloc, env, predicate)? {
        return Err(Refusal::Condition);
    }
    let is_last = rounds.run_step(alloc, env, predicate)?;
    Ok(Answer::One(Item::Truth(is_last)))
}

/// What the table has of the goal.
fn entry(
    alloc: Global,
    rounds: &mut Rounds,
    env: ParamEnv,
    predicate: TraitPredicate,
) -> Result<Answer, Refusal> {
    match rounds.entry(alloc, env, predicate) {
        Ok(Some(verdict)) => said(alloc, verdict),
        Ok(None) => Ok(Answer::One(Item::Nothing)),
        Err(stop) => Err(Refusal::Stop(stop)),
    }
}

/// The goal's candidates by the table. `Refusal::Condition` comes where the goal may not be run.
fn candidates(
    alloc: Global,
    rounds: &mut Rounds,
    env: ParamEnv,
    predicate: TraitPredicate,
) -> Result<Answer, Refusal> {
    if !rounds.may_be_run(alloc, env, predicate)? {
        return Err(Refusal::Condition);
    }
    let list = rounds.candidates(alloc, env, predicate)?;
    found_rows(alloc, list.as_slice())
}

/// What the row asks, if it is one of these rows.
pub(crate) fn answer(
    alloc: Global,
    rounds: &mut Rounds,
    row: Row<'_>,
    of: Operands,
) -> Result<Answer, Refusal> {
    let (env, predicate) = goal_at(rounds.cx(), of.left, of.right)?;
    match row.verb {
        "run" => run(alloc, rounds, row, env, predicate),
        "step" => step(alloc, rounds, env, predicate),
        "entry" => entry(alloc, rounds, env, predicate),
        "candidates" => candidates(alloc, rounds, env, predicate),
        _ => {
            let may = rounds.may_be_run(alloc, env, predicate)?;
            Ok(Answer::One(Item::Truth(may)))
        }
    }
}
