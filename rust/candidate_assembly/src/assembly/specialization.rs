// Made of `crates/candidate_assembly/src/assembly/specialization.rt` by `bench/plain.py`: an edit of this file is lost.

//! Impls that give way to others that specialise them.


use kit::{eprintln, format, prelude::*, print, println, vec};
use candidate_eval::eval::context::EvalCtxt;
use candidate_eval::eval::response::{Candidate, CanonicalResponse, has_only_region_constraints};
use candidate_eval::eval::source::CandidateSource;
use ir_context::decl::Cx;
use ir_context::decl::make::Make;
use ir_trees::decl::contents::ImplId;

/// Whether an impl may drive out the ones that it specialises although it finds values of variables.
#[derive(Clone, Copy, Debug, PartialEq, Eq)]
pub enum AllowInferenceConstraints {
    /// Each impl may.
    Yes,
    /// Only one that constrains nothing but regions may.
    No,
}

/// Whether the impl is one of these.
fn lists_impl(impls: &[ImplId], of: ImplId) -> bool
{
    impls.iter().any(|other| other.0 == of.0)
}

/// Whether the first impl is declared to specialise the second.
fn specializes(cx: &Cx, of: ImplId, other: ImplId) -> bool
{
    match cx.impl_contents(of) {
        Some(declared) => lists_impl(declared.specializes.as_slice(), other),
        None => false,
    }
}

/// Whether a candidate with that response may drive others out.
fn is_eligible(cx: &Cx, allow: AllowInferenceConstraints, response: &CanonicalResponse) -> bool
{
    match allow {
        AllowInferenceConstraints::Yes => true,
        AllowInferenceConstraints::No => has_only_region_constraints(cx, response),
    }
}

/// Whether the candidate is eligible and by an impl that specialises that one.
fn drives_out(cx: &Cx, allow: AllowInferenceConstraints, of: ImplId, candidate: &Candidate) -> bool
{
    match candidate.source {
        CandidateSource::Impl(other) => {
            specializes(cx, other, of) && is_eligible(cx, allow, &candidate.result)
        }
        _ => false,
    }
}

/// Whether one of the candidates drives the impl out.
fn has_special_case(
    cx: &Cx,
    allow: AllowInferenceConstraints,
    of: ImplId,
    candidates: &[Candidate],
) -> bool
{
    for i in 0..candidates.len() {
        if drives_out(cx, allow, of, &candidates[i]) {
            return true;
        }
    }
    false
}

/// Whether the candidate of that number is an impl that one of the others drives out.
fn is_driven_out(
    cx: &Cx,
    allow: AllowInferenceConstraints,
    candidates: &[Candidate],
    number: usize,
) -> bool
{
    let CandidateSource::Impl(of) = candidates[number].source else {
        return false;
    };
    let (before, rest) = candidates.split_at(number);
    has_special_case(cx, allow, of, before) || has_special_case(cx, allow, of, &rest[1..])
}

/// Removes, from the front on, each candidate by an impl that another of the candidates drives out: one by an impl that specialises it, and
/// that is eligible. What is removed no longer counts. The others keep their order; in coherence all stay.
pub fn filter_specialized_impls<E: EvalCtxt>(
    ecx: &E,
    allow: AllowInferenceConstraints,
    candidates: &mut Vec<Candidate>,
)
{
    if ecx.typing_mode().is_coherence() {
        return;
    }
    let cx = ecx.cx();
    let mut number = 0;
    while number < candidates.len() {
        if is_driven_out(cx, allow, candidates.as_slice(), number) {
            candidates.remove(number);
        } else {
            number += 1;
        }
    }
}
