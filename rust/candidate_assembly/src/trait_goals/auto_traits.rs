// Made of `crates/candidate_assembly/src/trait_goals/auto_traits.rt` by `bench/plain.py`: an edit of this file is lost.

//! The rule of auto traits: a type meets one where its parts do, unless an impl says otherwise.


use kit::{eprintln, format, prelude::*, print, println, vec};
use crate::assembly::steps::consider_unconditional;
use crate::trait_goals::builtin::{is_positive, self_head};
use crate::trait_goals::parts::consider_column;
use candidate_eval::eval::certainty::Certainty;
use candidate_eval::eval::clauses::{predicate_in, self_ty};
use candidate_eval::eval::context::EvalCtxt;
use candidate_eval::eval::refusal::NoSolutionOrStop;
use candidate_eval::eval::response::Candidate;
use candidate_eval::eval::source::{BuiltinImplSource, CandidateSource};
use candidate_eval::structural::Column;
use ir_context::decl::make::Make;
use ir_context::decl::{Cx, UnifyCount};
use ir_trees::ir::heads::Head;
use ir_trees::ir::kinds::{
    AliasId, AliasKind, Clause, ParamEnv, TraitId, TraitPredicate, TraitRef,
};
use ir_trees::ir::stop::Stop;
use kit::alloc::Global;

/// Whether the clause speaks of the trait, be it that it holds or that it doesn't.
pub(crate) fn is_of_trait(cx: &Cx, clause: Clause, of: TraitId) -> bool
{
    match predicate_in(cx, clause) {
        Some(predicate) => predicate.trait_ref.def_id.0 == of.0,
        None => false,
    }
}

/// Whether an opaque type's own bounds speak of the trait.
fn bounds_name(cx: &Cx, opaque: AliasId, of: TraitId) -> bool
{
    for bound in cx.self_bounds(opaque) {
        if is_of_trait(cx, *bound, of) {
            return true;
        }
    }
    false
}

/// Whether the head of its self type bars a goal from the trait.
fn is_barred(cx: &Cx, of: TraitId, head: Head) -> bool
{
    let flags = cx.trait_flags(of).unwrap_or_default();
    match head {
        Head::Dynamic | Head::Param(_) | Head::Placeholder(_) => true,
        Head::Alias(AliasKind::Opaque, opaque) => bounds_name(cx, opaque, of),
        Head::Alias(_, _) => true,
        Head::Foreign(_) => !flags.default,
        Head::Adt(adt) => flags.unsafe_ && cx.adt_flags(adt).unwrap_or_default().unsafe_fields,
        _ => false,
    }
}

fn may_have_impls(head: Head) -> bool
{
    !matches!(head, Head::Alias(_, _) | Head::Error)
}

/// Whether an impl bars the goal's self type: one that may be for it, or, where the trait says so, for types with its head. The only stop
/// is `Stop::Memory`.
fn has_barring_impl(cx: &Cx, of: TraitRef) -> Result<bool, Stop>
{
    let self_ty = self_ty(cx, of);
    let impls = if cx.trait_flags(of.def_id).unwrap_or_default().by_head {
        cx.for_each_impl_of_head(of.def_id, self_ty)?
    } else {
        cx.for_each_relevant_impl(of.def_id, self_ty, &mut UnifyCount::new())?
    };
    Ok(!impls.is_empty())
}

/// Whether the goal is refused before parts are asked about. The only stop is `Stop::Memory`.
fn is_refused(cx: &Cx, predicate: TraitPredicate, head: Head) -> Result<bool, Stop>
{
    let of = predicate.trait_ref.def_id;
    if is_barred(cx, of, head) || !may_have_impls(head) {
        return Ok(is_barred(cx, of, head));
    }
    has_barring_impl(cx, predicate.trait_ref)
}

/// The rule of auto traits for the goal's self type.
///
/// It is ambiguous for integer and floating-point variables. `NoSolution` comes for a negative goal, for types that are barred from the
/// trait, where an impl may be for the type, and where the evaluator refuses; the stops are those of making nodes and lists, and the
/// evaluator's. The state is left alike the one before.
pub(crate) fn consider_auto_trait<E: EvalCtxt>(
    alloc: Global,
    ecx: &mut E,
    env: ParamEnv,
    predicate: TraitPredicate,
) -> Result<Candidate, NoSolutionOrStop>
{
    if !is_positive(predicate.polarity) {
        return Err(NoSolutionOrStop::NoSolution);
    }
    let head = self_head(ecx.cx(), predicate);
    if matches!(head, Head::Infer(_)) {
        return consider_unconditional(alloc, ecx, env, true, Certainty::AMBIGUOUS);
    }
    let refused = is_refused(ecx.cx(), predicate, head)?;
    let applies = !refused;
    let source = CandidateSource::BuiltinImpl(BuiltinImplSource::Misc);
    consider_column(alloc, ecx, env, predicate, applies, Column::Auto, source)
}
