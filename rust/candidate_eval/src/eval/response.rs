// Made of `crates/candidate_eval/src/eval/response.rt` by `bench/plain.py`: an edit of this file is lost.

//! What an evaluator answers to a goal, and how several answers are merged.


use kit::{eprintln, format, prelude::*, print, println, vec};
use crate::eval::certainty::Certainty;
use crate::eval::source::CandidateSource;
use crate::eval::variable::CanonicalVar;
use ir_context::decl::Cx;
use ir_context::decl::make::Make;
use ir_trees::ir::kinds::{Args, Clause, GenericArg};
use ir_trees::ir::stop::Stop;
use ir_trees::ir::trees::Trees;
use kit::alloc::{AllocError, Global};
use kit::fmt;

/// What an evaluator answers to a goal with root variables.
#[derive(Debug)]
pub struct CanonicalResponse {
    /// The variables that `values` and `regions` leave open, by their numbers from 0 on.
    pub vars: Vec<CanonicalVar>,
    /// What stands for each root variable, with what is left open numbered in the order in which it first occurs.
    pub values: Args,
    /// The outlives constraints, in the order in which they were found.
    pub regions: Vec<Clause>,
    pub certainty: Certainty,
}

/// Goals that are still being evaluated above, which an answer has used, by the numbers that an evaluator gives them.
#[derive(Debug)]
pub struct CandidateHeadUsages {
    heads: Vec<u32>,
}

impl CandidateHeadUsages {
    /// No goal.
    pub fn new(alloc: Global) -> CandidateHeadUsages
    {
        CandidateHeadUsages {
            heads: Vec::new(alloc),
        }
    }

    /// The goals of these numbers. The only error is `Stop::Memory`, where a growth was refused.
    pub fn of(alloc: Global, heads: &[u32]) -> Result<CandidateHeadUsages, Stop>
    {
        Ok(CandidateHeadUsages {
            heads: Vec::from_slice(alloc, heads)?,
        })
    }

    /// Their numbers, as they were given.
    pub fn heads(&self) -> &[u32]
    {
        self.heads.as_slice()
    }
}

/// A way in which a goal may be proved.
pub struct Candidate {
    pub source: CandidateSource,
    pub result: CanonicalResponse,
    pub head_usages: CandidateHeadUsages,
}

/// The source and the certainty.
impl fmt::Debug for Candidate {
    fn fmt(&self, f: &mut fmt::Formatter<'_>) -> fmt::Result {
        write!(f, "{:?}: {:?}", self.source, self.result.certainty)
    }
}

/// Why candidates are merged.
#[derive(Clone, Copy, Debug, PartialEq, Eq)]
pub enum MergeCandidateInfo {
    /// The candidate of that number is sure and asks for nothing.
    AlwaysApplicable(usize),
    /// All responses are equal.
    EqualResponse,
}

/// Whether two lists have equal clauses, in one order.
fn same_clauses(cx: &Cx, a: &[Clause], b: &[Clause]) -> bool
{
    if a.len() != b.len() {
        return false;
    }
    for i in 0..a.len() {
        if !cx.same(a[i], b[i]) {
            return false;
        }
    }
    true
}

fn same_regions(cx: &Cx, a: &CanonicalResponse, b: &CanonicalResponse) -> bool
{
    same_clauses(cx, a.regions.as_slice(), b.regions.as_slice())
}

fn same_values(cx: &Cx, a: &CanonicalResponse, b: &CanonicalResponse) -> bool
{
    cx.same(a.values, b.values)
}

/// Whether two responses are equal in all their parts.
fn same_response(cx: &Cx, a: &CanonicalResponse, b: &CanonicalResponse) -> bool
{
    a.vars.as_slice() == b.vars.as_slice()
        && same_values(cx, a, b)
        && same_regions(cx, a, b)
        && a.certainty == b.certainty
}

fn is_number(cx: &Cx, arg: GenericArg, number: usize) -> bool
{
    match cx.variable_number(arg) {
        Some(other) => other as usize == number,
        None => false,
    }
}

/// Whether no root variable has got a value and no two have become one: each root variable is the one of its own number.
pub fn has_only_region_constraints(cx: &Cx, response: &CanonicalResponse) -> bool
{
    let values = cx.args(response.values);
    for i in 0..values.len() {
        if !is_number(cx, values[i], i) {
            return false;
        }
    }
    true
}

/// Whether besides no region constraint was found.
pub fn has_no_inference_or_external_constraints(cx: &Cx, response: &CanonicalResponse) -> bool
{
    has_only_region_constraints(cx, response) && response.regions.is_empty()
}

fn is_always_applicable(cx: &Cx, response: &CanonicalResponse) -> bool
{
    matches!(response.certainty, Certainty::Yes)
        && has_no_inference_or_external_constraints(cx, response)
}

/// The number of the first candidate that is sure and asks for nothing.
fn first_applicable(cx: &Cx, candidates: &[Candidate]) -> Option<usize>
{
    for i in 0..candidates.len() {
        if is_always_applicable(cx, &candidates[i].result) {
            return Some(i);
        }
    }
    None
}

/// Whether all candidates have that response.
fn all_answer(cx: &Cx, response: &CanonicalResponse, candidates: &[Candidate]) -> bool
{
    for candidate in candidates {
        if !same_response(cx, &candidate.result, response) {
            return false;
        }
    }
    true
}

impl CanonicalResponse {
    /// A copy of the response. The error comes where a list can't grow.
    pub fn copied(&self) -> Result<CanonicalResponse, AllocError>
    {
        Ok(CanonicalResponse {
            vars: self.vars.clone()?,
            values: self.values,
            regions: self.regions.clone()?,
            certainty: self.certainty,
        })
    }
}

/// The response of the candidate, if there is one.
fn merge_to(
    candidate: Option<&Candidate>,
    info: MergeCandidateInfo,
) -> Result<Option<(CanonicalResponse, MergeCandidateInfo)>, AllocError>
{
    match candidate {
        Some(candidate) => Ok(Some((candidate.result.copied()?, info))),
        None => Ok(None),
    }
}

/// What candidates come to together: the response of the first that is sure and asks for nothing; else the one that all
/// have; else nothing.
///
/// The only error is `Stop::Memory`, where a growth was refused.
pub fn try_merge_candidates<M: Make>(
    ecx: &M,
    candidates: &[Candidate],
) -> Result<Option<(CanonicalResponse, MergeCandidateInfo)>, Stop>
{
    let cx = ecx.cx();
    if let Some(number) = first_applicable(cx, candidates) {
        let info = MergeCandidateInfo::AlwaysApplicable(number);
        return Ok(merge_to(candidates.get(number), info)?);
    }
    match candidates.split_first() {
        Some((first, others)) if all_answer(cx, &first.result, others) => {
            Ok(merge_to(Some(first), MergeCandidateInfo::EqualResponse)?)
        }
        _ => Ok(None),
    }
}
