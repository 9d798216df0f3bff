// Made of `crates/candidate_assembly/src/trait_goals/no_drop.rt` by `bench/plain.py`: an edit of this file is lost.

//! The rule of the trait that says that nothing is run where a value is dropped.


use kit::{eprintln, format, prelude::*, print, println, vec};
use crate::assembly::steps::{consider_unconditional, consider_with_nested};
use crate::trait_goals::builtin::{is_positive, self_head};
use crate::trait_goals::meeting::{meets_trait, recall_item_has_no_parameters};
use crate::trait_goals::parts::consider_column;
use candidate_eval::eval::certainty::Certainty;
use candidate_eval::eval::clauses::self_ty;
use candidate_eval::eval::context::EvalCtxt;
use candidate_eval::eval::refusal::NoSolutionOrStop;
use candidate_eval::eval::response::Candidate;
use candidate_eval::eval::source::{BuiltinImplSource, CandidateSource};
use candidate_eval::structural::Column;
use ir_context::decl::Cx;
use ir_context::decl::make::Make;
use ir_trees::decl::contents::LangItem;
use ir_trees::ir::heads::{Builtin, Head};
use ir_trees::ir::kinds::{GoalSource, ParamEnv, TraitPredicate};
use kit::alloc::Global;

/// What a type needs so that nothing is run where a value of it is dropped.
#[derive(Clone, Copy, Debug)]
pub(crate) enum NoDrop {
    Nothing,
    /// That the elements need.
    Elements,
    /// To be `Copy`.
    Copy,
}

fn needs(cx: &Cx, head: Head) -> NoDrop
{
    match head {
        Head::Ref(_) => NoDrop::Nothing,
        Head::Adt(adt) => if cx.adt_flags(adt).unwrap_or_default().manually_drop {
            NoDrop::Nothing
        } else {
            NoDrop::Copy
        },
        Head::Builtin(Builtin::Tuple | Builtin::Array) => NoDrop::Elements,
        _ => NoDrop::Copy,
    }
}

/// The self type is `Copy`.
fn consider_copy<E: EvalCtxt>(
    alloc: Global,
    ecx: &mut E,
    env: ParamEnv,
    predicate: TraitPredicate,
) -> Result<Candidate, NoSolutionOrStop>
{
    if !is_positive(predicate.polarity) {
        return Err(NoSolutionOrStop::NoSolution);
    }
    recall_item_has_no_parameters(ecx.cx(), LangItem::Copy);
    let Some(copy) = ecx.cx().lang_item(LangItem::Copy) else {
        return Err(NoSolutionOrStop::NoSolution);
    };
    let ty = self_ty(ecx.cx(), predicate.trait_ref);
    let clause = meets_trait(ecx, copy, ty)?;
    let source = CandidateSource::BuiltinImpl(BuiltinImplSource::Misc);
    let nested = GoalSource::ImplWhereBound;
    consider_with_nested(
        alloc,
        ecx,
        env,
        true,
        nested,
        &[clause],
        source,
        Certainty::Yes,
    )
}

/// The rule for the goal's self type.
///
/// The state is left alike the one before. `NoSolution` comes for a negative goal, where `Copy` is needed and not declared, and where the
/// evaluator refuses; the stops are those of making nodes and lists, and the evaluator's.
pub(crate) fn consider_no_drop<E: EvalCtxt>(
    alloc: Global,
    ecx: &mut E,
    env: ParamEnv,
    predicate: TraitPredicate,
) -> Result<Candidate, NoSolutionOrStop>
{
    let applies = is_positive(predicate.polarity);
    match needs(ecx.cx(), self_head(ecx.cx(), predicate)) {
        NoDrop::Nothing => consider_unconditional(alloc, ecx, env, applies, Certainty::Yes),
        NoDrop::Elements => {
            let source = CandidateSource::BuiltinImpl(BuiltinImplSource::Misc);
            consider_column(alloc, ecx, env, predicate, applies, Column::Auto, source)
        }
        NoDrop::Copy => consider_copy(alloc, ecx, env, predicate),
    }
}
