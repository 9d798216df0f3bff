// Made of `crates/candidate_assembly/src/trait_goals/preference.rt` by `bench/plain.py`: an edit of this file is lost.

//! Which of the candidates for a goal of a trait win, and what these come to.


use kit::{eprintln, format, prelude::*, print, println, vec};
use crate::assembly::candidates::FailedCandidateInfo;
use crate::assembly::language::is_item;
use crate::assembly::merging::TraitGoalProvenVia;
use crate::assembly::sources::{SourceKind, has_any, has_only, keep, remove};
use crate::assembly::specialization::{AllowInferenceConstraints, filter_specialized_impls};
use candidate_eval::eval::ambiguity::flounder;
use candidate_eval::eval::context::EvalCtxt;
use candidate_eval::eval::refusal::NoSolutionOrStop;
use candidate_eval::eval::response::{
    Candidate, CanonicalResponse, MergeCandidateInfo, has_only_region_constraints,
    try_merge_candidates,
};
use ir_context::decl::Cx;
use ir_context::decl::make::Make;
use ir_trees::decl::contents::LangItem;
use ir_trees::ir::kinds::TraitId;

/// Whether bounds of an alias win over clauses of the environment.
#[derive(Clone, Copy, Debug, PartialEq, Eq)]
pub enum CandidatePreferenceMode {
    /// Clauses of the environment that aren't global win over bounds of aliases.
    Default,
    /// Bounds of the goal's alias itself win: for auto traits, sizedness traits and default traits.
    Marker,
}

/// Whether the trait is an auto trait, or one that types have by default.
fn is_auto_or_default(cx: &Cx, trait_id: TraitId) -> bool
{
    match cx.trait_flags(trait_id) {
        Some(flags) => flags.auto || flags.default,
        None => false,
    }
}

/// Whether it is a trait of sizedness: `Sized` or `MetaSized`.
fn is_sizedness(cx: &Cx, trait_id: TraitId) -> bool
{
    is_item(cx, LangItem::Sized, trait_id) || is_item(cx, LangItem::MetaSized, trait_id)
}

impl CandidatePreferenceMode {
    /// The mode for goals of the trait: `Marker` for auto traits, for traits that types have by default and for those of sizedness.
    pub fn compute(cx: &Cx, trait_id: TraitId) -> CandidatePreferenceMode
    {
        if is_auto_or_default(cx, trait_id) || is_sizedness(cx, trait_id) {
            CandidatePreferenceMode::Marker
        } else {
            CandidatePreferenceMode::Default
        }
    }
}

/// Whether the first candidate by a bound that an object states of itself finds no value of a variable.
fn object_wins(cx: &Cx, candidates: &[Candidate]) -> bool
{
    for i in 0..candidates.len() {
        if SourceKind::Object.has(candidates[i].source) {
            return has_only_region_constraints(cx, &candidates[i].result);
        }
    }
    false
}

/// Removes the candidates by impls where an object's own bounds hold: where the first candidate by one of these finds no value of a
/// variable. In coherence all stay.
///
/// An impl may then be passed over that says something else of the object's trait; so this isn't sound for more than goals of traits.
pub fn unsound_prefer_builtin_dyn_impl<E: EvalCtxt>(ecx: &E, candidates: &mut Vec<Candidate>)
{
    if ecx.typing_mode().is_coherence() {
        return;
    }
    if object_wins(ecx.cx(), candidates.as_slice()) {
        remove(candidates, SourceKind::Impl);
    }
}

/// Whether bounds of aliases win since there is one of the goal's alias itself.
fn prefers_self_bounds(mode: CandidatePreferenceMode, candidates: &[Candidate]) -> bool
{
    matches!(mode, CandidatePreferenceMode::Marker) && has_any(candidates, SourceKind::SelfBound)
}

/// Keeps those of the candidates that win whatever impls there are, and says how the goal is then proved; without such all stay, and the
/// answer is `None`.
///
/// A trivial candidate comes first, since it asks for nothing: a where-bound that states the same of one lifetime would force that on the
/// goal, and so extend a borrow. Then come clauses of the environment: in a generic body what its where-bounds say is what is known.
fn keep_trivial_or_assumptions(
    mode: CandidatePreferenceMode,
    candidates: &mut Vec<Candidate>,
) -> Option<TraitGoalProvenVia>
{
    let list = candidates.as_slice();
    if has_any(list, SourceKind::Trivial) {
        keep(candidates, SourceKind::Trivial);
        return Some(TraitGoalProvenVia::Misc);
    }
    if prefers_self_bounds(mode, list) {
        keep(candidates, SourceKind::AliasBound);
        return Some(TraitGoalProvenVia::AliasBound);
    }
    if has_any(list, SourceKind::NonGlobal) {
        keep(candidates, SourceKind::WhereBound);
        return Some(TraitGoalProvenVia::ParamEnv);
    }
    if has_any(list, SourceKind::AliasBound) {
        keep(candidates, SourceKind::AliasBound);
        return Some(TraitGoalProvenVia::AliasBound);
    }
    None
}

/// Keeps those of the candidates that win where none did by `keep_trivial_or_assumptions`, and says how the goal is then proved: what impls and objects
/// leave of the list, and global clauses of the environment only where there is nothing else.
fn keep_impls_or_global<E: EvalCtxt>(ecx: &E, candidates: &mut Vec<Candidate>) -> TraitGoalProvenVia
{
    filter_specialized_impls(ecx, AllowInferenceConstraints::No, candidates);
    unsound_prefer_builtin_dyn_impl(ecx, candidates);
    if has_only(candidates.as_slice(), SourceKind::Global) {
        return TraitGoalProvenVia::ParamEnv;
    }
    remove(candidates, SourceKind::Global);
    TraitGoalProvenVia::Misc
}

/// Keeps those of the candidates that win, and says how the goal is then proved.
fn keep_preferred<E: EvalCtxt>(
    ecx: &E,
    mode: CandidatePreferenceMode,
    candidates: &mut Vec<Candidate>,
) -> TraitGoalProvenVia
{
    if ecx.typing_mode().is_coherence() {
        return TraitGoalProvenVia::Misc;
    }
    match keep_trivial_or_assumptions(mode, candidates) {
        Some(via) => via,
        None => keep_impls_or_global(ecx, candidates),
    }
}

/// Forgets which goals the candidates have used, but for the one of that number.
fn ignore_others<E: EvalCtxt>(ecx: &mut E, candidates: Vec<Candidate>, winner: usize)
{
    for (number, candidate) in candidates.into_iter().enumerate() {
        if number != winner {
            ecx.ignore_candidate_head_usages(candidate.head_usages);
        }
    }
}

/// Forgets which goals clauses of the environment have used that were refused.
fn ignore_failed<E: EvalCtxt>(ecx: &mut E, failed: FailedCandidateInfo)
{
    for usages in failed.param_env_head_usages {
        ecx.ignore_candidate_head_usages(usages);
    }
}

/// Where clauses of the environment win that aren't all global, and one of them is sure and asks for nothing: forgets which goals the
/// others have used, and those that were refused, since they don't change the answer.
fn ignore_losers<E: EvalCtxt>(
    ecx: &mut E,
    via: TraitGoalProvenVia,
    info: MergeCandidateInfo,
    candidates: Vec<Candidate>,
    failed: FailedCandidateInfo,
)
{
    let is_by_environment = matches!(via, TraitGoalProvenVia::ParamEnv);
    if !is_by_environment || has_only(candidates.as_slice(), SourceKind::Global) {
        return;
    }
    if let MergeCandidateInfo::AlwaysApplicable(winner) = info {
        ignore_others(ecx, candidates, winner);
        ignore_failed(ecx, failed);
    }
}

/// What the candidates for a goal of a trait come to, at most one of which is trivial, and how the goal is proved. In coherence all win; else
/// the first row that applies says which do:
/// - the trivial one, whatever it is;
/// - for markers, where there is a bound of the goal's alias itself: all bounds of aliases;
/// - where there is a clause of the environment that isn't global: all clauses of it;
/// - all bounds of aliases;
/// - after `filter_specialized_impls` and `unsound_prefer_builtin_dyn_impl`, the candidates that are not by global clauses, or these where
///   there is nothing else.
///
/// Those that win are merged. Where they don't merge the response is that too little is known, and nothing is said of how the goal is
/// proved; `NoSolution` comes where none win. It stops as the evaluator does where a response is asked for, and by `Stop::Memory`. The state
/// is left alike the one before.
pub fn merge_trait_candidates<E: EvalCtxt>(
    ecx: &mut E,
    mode: CandidatePreferenceMode,
    mut candidates: Vec<Candidate>,
    failed: FailedCandidateInfo,
) -> Result<(CanonicalResponse, Option<TraitGoalProvenVia>), NoSolutionOrStop>
{
    let via = keep_preferred(ecx, mode, &mut candidates);
    match try_merge_candidates(ecx, candidates.as_slice())? {
        Some((response, info)) => {
            ignore_losers(ecx, via, info, candidates, failed);
            Ok((response, Some(via)))
        }
        None => Ok((flounder(ecx, candidates.as_slice())?, None)),
    }
}
