// Made of `crates/candidate_assembly/src/assembly/language.rt` by `bench/plain.py`: an edit of this file is lost.

//! The rules that the language has for some traits, by name.


use kit::{eprintln, format, prelude::*, print, println, vec};
use crate::assembly::kind::GoalKind;
use crate::assembly::listing::push_considered;
use candidate_eval::eval::context::EvalCtxt;
use candidate_eval::eval::refusal::NoSolutionOrStop;
use candidate_eval::eval::response::Candidate;
use ir_context::decl::Cx;
use ir_trees::decl::contents::{LangItem, Sizedness};
use ir_trees::ir::kinds::{ClosureKind, ParamEnv, TraitId};
use ir_trees::ir::stop::Stop;
use kit::alloc::Global;

/// A rule of the language.
#[derive(Clone, Copy, Debug)]
pub enum LanguageRule {
    /// Where the predicate holds an error.
    Error,
    AutoTrait,
    TraitAlias,
    Sizedness(Sizedness),
    /// For `Copy`, `Clone` and `TrivialClone`.
    CopyClone,
    FnTrait(ClosureKind),
    FnPtrTrait,
    Tuple,
    Pointee,
    DiscriminantKind,
    Destruct,
    NoDrop,
}

/// Whether the trait is the lang item.
pub(crate) fn is_item(cx: &Cx, item: LangItem, trait_id: TraitId) -> bool
{
    match cx.lang_item(item) {
        Some(other) => other == trait_id,
        None => false,
    }
}

/// The rule of a lang item, if it has one.
fn rule_of_item(item: LangItem) -> Option<LanguageRule>
{
    let rule = match item {
        LangItem::Sized => LanguageRule::Sizedness(Sizedness::Sized),
        LangItem::MetaSized => LanguageRule::Sizedness(Sizedness::MetaSized),
        LangItem::Copy | LangItem::Clone | LangItem::TrivialClone => LanguageRule::CopyClone,
        LangItem::Fn => LanguageRule::FnTrait(ClosureKind::Fn),
        LangItem::FnMut => LanguageRule::FnTrait(ClosureKind::FnMut),
        LangItem::FnOnce => LanguageRule::FnTrait(ClosureKind::FnOnce),
        LangItem::FnPtrTrait => LanguageRule::FnPtrTrait,
        LangItem::Tuple => LanguageRule::Tuple,
        LangItem::PointeeTrait => LanguageRule::Pointee,
        LangItem::DiscriminantKind => LanguageRule::DiscriminantKind,
        LangItem::Destruct => LanguageRule::Destruct,
        LangItem::BikeshedGuaranteedNoDrop => LanguageRule::NoDrop,
        LangItem::Drop | LangItem::Unsize => return None,
    };
    Some(rule)
}

/// The rule of the item, where the trait is that item.
fn rule_by_item(cx: &Cx, trait_id: TraitId, item: LangItem) -> Option<LanguageRule>
{
    if !is_item(cx, item, trait_id) {
        return None;
    }
    rule_of_item(item)
}

/// The rule of the first lang item that the trait is and that has one.
fn rule_among_items(cx: &Cx, trait_id: TraitId) -> Option<LanguageRule>
{
    for item in &LangItem::ALL {
        if let Some(rule) = rule_by_item(cx, trait_id, *item) {
            return Some(rule);
        }
    }
    None
}

/// The rule that the language has for the trait, if it has one: an auto trait and a trait alias have theirs whatever items they are.
pub(crate) fn builtin_rule_of(cx: &Cx, trait_id: TraitId) -> Option<LanguageRule>
{
    if let Some(flags) = cx.trait_flags(trait_id) {
        if flags.auto {
            return Some(LanguageRule::AutoTrait);
        }
        if flags.alias {
            return Some(LanguageRule::TraitAlias);
        }
    }
    rule_among_items(cx, trait_id)
}

/// The rule that the language has for the goal, if it has one: the one for errors, where it holds an error; else its trait's.
fn rule_for<E: EvalCtxt, G: GoalKind<E>>(
    cx: &Cx,
    env: ParamEnv,
    predicate: G,
) -> Option<LanguageRule>
{
    if G::holds_error(cx, env, predicate) {
        return Some(LanguageRule::Error);
    }
    builtin_rule_of(cx, G::trait_def_id(cx, env, predicate))
}

/// Adds the candidate by the rule that the language has for the goal, if it has one and that gives one. The self type of the goal is neither a
/// general variable nor a bound type.
///
/// It stops as the rule does; `Stop::Memory` comes where the list can't grow. The state is left alike the one before.
pub(crate) fn assemble_language_candidates<E: EvalCtxt, G: GoalKind<E>>(
    alloc: Global,
    ecx: &mut E,
    env: ParamEnv,
    predicate: G,
    candidates: &mut Vec<Candidate>,
) -> Result<(), Stop>
{
    let Some(rule) = rule_for::<E, G>(ecx.cx(), env, predicate) else {
        return Ok(());
    };
    let answer = G::consider_builtin_candidate(alloc, ecx, env, predicate, rule);
    push_considered(candidates, answer)
}
