//! Rows that ask how sure answers are, what a response asks for, and what candidates are merged to.

use crate::evaluator::eval::Operands;
use crate::evaluator::evaluator::VARIABLES;
use crate::evaluator::refusals::{or_refusal, Reason};
use crate::notation::answers::{Answer, Item, Items};
use crate::notation::refusals::Refusal;
use crate::notation::rows::Row;
use crate::notation::tables::{word_for, UNNAMED};
use crate::notation::typed::args_at;
use candidate_eval::eval::certainty::{Certainty, MaybeCause, MaybeInfo, OpaqueTypesJank};
use candidate_eval::eval::response::{
    has_no_inference_or_external_constraints, has_only_region_constraints, try_merge_candidates,
    Candidate, CandidateHeadUsages, CanonicalResponse, MergeCandidateInfo,
};
use candidate_eval::eval::source::{BuiltinImplSource, CandidateSource};
use candidate_ir::decl::context::Cx;
use candidate_ir::ir::kinds::Args;
use kit::alloc::Global;
use kit::prelude::*;

/// How sure the words say that an answer is: `yes`, or `ambiguous` or `overflow` with what else is said of it.
pub fn certainty(words: &str) -> Option<Certainty> {
    let mut said = words.split_whitespace();
    let cause = match said.next()? {
        "yes" => return Some(Certainty::Yes),
        "ambiguous" => MaybeCause::Ambiguity,
        "overflow" => MaybeCause::Overflow {
            suggest_increasing_limit: words.contains("suggest"),
            keep_constraints: words.contains("keep"),
        },
        _ => return None,
    };
    let opaque_types_jank = if words.contains("jank") {
        OpaqueTypesJank::ErrorIfRigidSelfTy
    } else {
        OpaqueTypesJank::AllGood
    };
    Some(Certainty::Maybe(MaybeInfo {
        cause,
        opaque_types_jank,
    }))
}

/// Adds these words.
pub fn push_certainty(items: &mut Items, certainty: Certainty) {
    let Certainty::Maybe(info) = certainty else {
        items.push(Item::Word("yes"));
        return;
    };
    let (cause, suggests, keeps) = match info.cause {
        MaybeCause::Ambiguity => ("ambiguous", false, false),
        MaybeCause::Overflow {
            suggest_increasing_limit,
            keep_constraints,
        } => ("overflow", suggest_increasing_limit, keep_constraints),
    };
    items.push(Item::Word(cause));
    let is_janky = info.opaque_types_jank == OpaqueTypesJank::ErrorIfRigidSelfTy;
    for (is_said, word) in [(suggests, "suggest"), (keeps, "keep"), (is_janky, "jank")] {
        if is_said {
            items.push(Item::Word(word));
        }
    }
}

/// How sure something is.
fn said(alloc: Global, certainty: Certainty) -> Result<Answer, Refusal> {
    let mut items = Items::new(alloc);
    push_certainty(&mut items, certainty);
    items.row()
}

/// How sure something is, if that is known.
pub fn sure<E: Reason>(alloc: Global, outcome: Result<Certainty, E>) -> Result<Answer, Refusal> {
    said(alloc, or_refusal(outcome)?)
}

/// How sure two answers are together.
pub fn both(alloc: Global, row: Row<'_>) -> Result<Answer, Refusal> {
    match (certainty(row.left), certainty(row.right)) {
        (Some(left), Some(right)) => said(alloc, left.and(right)),
        _ => Err(Refusal::Condition),
    }
}

/// Adds how sure the response is, the list of its values, the kinds and universes of the variables that it leaves open, and its regions.
pub fn push_response(items: &mut Items, response: &CanonicalResponse) {
    push_certainty(items, response.certainty);
    items.push(Item::Node(response.values.0));
    for var in &response.vars {
        let kind = word_for(&VARIABLES, var.kind).unwrap_or(UNNAMED);
        items.push(Item::Word(kind));
        items.push(Item::Count(var.universe as usize));
    }
    for region in &response.regions {
        items.push(Item::Node(region.0));
    }
}

/// The response, if there is one.
pub fn responded<E: Reason>(
    alloc: Global,
    outcome: Result<CanonicalResponse, E>,
) -> Result<Answer, Refusal> {
    let mut items = Items::new(alloc);
    push_response(&mut items, &or_refusal(outcome)?);
    items.row()
}

/// A response with these values, for which nothing else is asked.
fn response(alloc: Global, values: Args, certainty: Certainty) -> CanonicalResponse {
    CanonicalResponse {
        vars: Vec::new(alloc),
        values,
        regions: Vec::new(alloc),
        certainty,
    }
}

/// Whether a response with these values has no constraints but of regions, and whether it has none at all.
fn constraints(alloc: Global, cx: &Cx, number: u32) -> Result<Answer, Refusal> {
    let values = args_at(cx, number)?;
    let response = response(alloc, values, Certainty::Yes);
    let mut items = Items::new(alloc);
    let of_regions = has_only_region_constraints(cx, &response);
    items.push(Item::Truth(of_regions));
    let has_none = has_no_inference_or_external_constraints(cx, &response);
    items.push(Item::Truth(has_none));
    items.row()
}

/// A candidate with that response.
fn candidate(alloc: Global, cx: &Cx, number: u32, words: &str) -> Result<Candidate, Refusal> {
    let values = args_at(cx, number)?;
    match certainty(words) {
        Some(certainty) => Ok(Candidate {
            source: CandidateSource::BuiltinImpl(BuiltinImplSource::Misc),
            result: response(alloc, values, certainty),
            head_usages: CandidateHeadUsages::new(alloc),
        }),
        None => Err(Refusal::Condition),
    }
}

/// What the candidates come to together, and why.
fn merge(alloc: Global, cx: &Cx, candidates: &[Candidate]) -> Result<Answer, Refusal> {
    let Some((response, info)) = try_merge_candidates(cx, candidates)? else {
        return Ok(Answer::One(Item::Nothing));
    };
    let mut items = Items::new(alloc);
    match info {
        MergeCandidateInfo::AlwaysApplicable(number) => {
            items.push(Item::Word("applicable"));
            items.push(Item::Count(number));
        }
        MergeCandidateInfo::EqualResponse => items.push(Item::Word("equal")),
    }
    push_certainty(&mut items, response.certainty);
    items.push(Item::Node(response.values.0));
    items.row()
}

/// What the row asks of the lists of these numbers.
pub fn answer(alloc: Global, cx: &Cx, row: Row<'_>, of: Operands) -> Result<Answer, Refusal> {
    if row.verb == "constraints" {
        return constraints(alloc, cx, of.left);
    }
    if row.first.is_empty() {
        return merge(alloc, cx, &[]);
    }
    let first = candidate(alloc, cx, of.left, row.first)?;
    let second = candidate(alloc, cx, of.right, row.second)?;
    merge(alloc, cx, &[first, second])
}
