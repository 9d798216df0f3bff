//! Rows that ask why a goal of the table holds.

use crate::candidates::considering::{goal_at, push_source};
use crate::evaluator::eval::Operands;
use crate::evaluator::merging::push_response;
use crate::notation::answers::{Answer, Item, Items};
use crate::notation::refusals::Refusal;
use crate::notation::rows::Row;
use candidate_eval::eval::source::CandidateSource;
use candidate_ir::decl::make::Make;
use candidate_rounds::rounds::derivation::{DerivationStep, DerivationTree};
use candidate_rounds::rounds::Rounds;
use kit::alloc::Global;
use kit::prelude::*;

/// Adds the goal of the step, the rule by which it holds, what it comes to, and the places of the steps that it rests on.
fn push_step(items: &mut Items, step: &DerivationStep) {
    items.push(Item::Node(step.key.goal.predicate.0));
    items.push(Item::Word("by"));
    push_source(items, step.source);
    push_response(items, &step.response);
    for i in 0..step.nested.len() {
        items.push(Item::Word(if i == 0 { "from" } else { "and" }));
        items.push(Item::Count(step.nested[i]));
    }
}

/// The steps, one after the other.
fn shown(alloc: Global, tree: &DerivationTree) -> Result<Answer, Refusal> {
    let mut items = Items::new(alloc);
    for i in 0..tree.steps.len() {
        if i > 0 {
            items.push(Item::Next);
        }
        push_step(&mut items, &tree.steps[i]);
    }
    items.rows()
}

/// Changes what the last step says of why it holds: that it rests on itself, or on nothing; or by which rule it does. Else it stays.
fn spoil(
    alloc: Global,
    step: DerivationStep,
    place: usize,
    how: &str,
) -> Result<DerivationStep, Refusal> {
    let DerivationStep {
        key,
        mut source,
        response,
        mut nested,
    } = step;
    match how {
        "itself" => nested.push(place)?,
        "nothing" => nested = Vec::new(alloc),
        "unknowable" => source = CandidateSource::CoherenceUnknowable,
        _ => {}
    }
    Ok(DerivationStep {
        key,
        source,
        response,
        nested,
    })
}

/// The steps, of which the last one is changed so.
fn changed(alloc: Global, tree: DerivationTree, how: &str) -> Result<DerivationTree, Refusal> {
    let mut steps = tree.steps;
    let Some(last) = steps.pop() else {
        return Ok(DerivationTree {
            steps: Vec::new(alloc),
        });
    };
    let step = spoil(alloc, last, steps.len(), how)?;
    steps.push(step)?;
    Ok(DerivationTree { steps })
}

/// Why the goal holds that the row says; or, with a word, whether that is accepted with the last step changed so.
pub(crate) fn answer(
    alloc: Global,
    rounds: &mut Rounds,
    row: Row<'_>,
    of: Operands,
) -> Result<Answer, Refusal> {
    let (env, predicate) = goal_at(rounds.cx(), of.left, of.right)?;
    let Some(tree) = rounds.derivation(alloc, env, predicate)? else {
        return Ok(Answer::One(Item::Nothing));
    };
    if row.first.is_empty() {
        return shown(alloc, &tree);
    }
    let tree = changed(alloc, tree, row.first)?;
    let accepted = rounds.check_derivation(alloc, &tree)?;
    Ok(Answer::One(Item::Truth(accepted)))
}
