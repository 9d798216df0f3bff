// Made of `crates/overlaps/src/auto.rt` by `bench/plain.py`: an edit of this file is lost.

//! Auto traits that are implemented for some types of a head alone: what a goal of theirs comes to isn't so of each of its instances, unless
//! an impl bars each type with the head.


use kit::{eprintln, format, prelude::*, print, println, vec};
use candidate_eval::eval::clauses::self_ty;
use ir_context::decl::Cx;
use ir_trees::decl::contents::{ImplId, LangItem};
use ir_trees::ir::heads::{ConstHead, Flag, Head};
use ir_trees::ir::kinds::{AliasId, AssocId, Clause, ClauseKind, TraitId, TraitRef, Ty, TyKind};
use ir_trees::ir::stop::Stop;
use ir_trees::ir::trees::Trees;
use kit::alloc::Global;

/// Whether the tree of the number is a parameter, or a region.
fn is_parameter(cx: &Cx, number: u32) -> bool
{
    match cx.head(number) {
        Head::Param(_) | Head::Const(ConstHead::Param(_)) | Head::Region(_) => true,
        _ => false,
    }
}

/// Whether the child stands at that place below the number.
fn stands_at(cx: &Cx, number: u32, child: u32, place: usize) -> bool
{
    cx.recall_distinct();
    match cx.child(number, place) {
        Some(other) => other == child,
        None => false,
    }
}

/// Whether the child stands at a place before that one below the number.
fn stands_before(cx: &Cx, number: u32, child: u32, place: usize) -> bool
{
    for earlier in 0..place {
        if stands_at(cx, number, child, earlier) {
            return true;
        }
    }
    false
}

/// Whether the child at that place below the number is a parameter or a region, and another one than those before it.
fn is_new_parameter(cx: &Cx, number: u32, child: u32, place: usize) -> bool
{
    is_parameter(cx, child) && !stands_before(cx, number, child, place)
}

/// Whether it is an alias, or a head over anything but parameters and regions, each another one, so that it is a part of the types with that head.
fn is_part(cx: &Cx, ty: Ty) -> bool
{
    if cx.head(ty.0).has(Flag::Alias) {
        return true;
    }
    for place in 0..usize::MAX {
        let Some(child) = cx.child(ty.0, place) else {
            return false;
        };
        if !is_new_parameter(cx, ty.0, child, place) {
            return true;
        }
    }
    true
}

/// Whether the impl is for such a part.
fn is_for_part(cx: &Cx, of: ImplId) -> bool
{
    match cx.impl_contents(of) {
        Some(contents) => is_part(cx, self_ty(cx, contents.trait_ref)),
        None => false,
    }
}

/// Whether the trait is an auto trait of which an impl is for a part of the types with a head, and bars no other type with that head.
fn is_implemented_by_part(cx: &Cx, of: TraitId) -> bool
{
    let Some(flags) = cx.trait_flags(of) else {
        return false;
    };
    if !flags.auto || flags.by_head {
        return false;
    }
    let impls = cx.impls_of(of);
    for number in 0..impls.len() {
        if is_for_part(cx, impls[number]) {
            return true;
        }
    }
    false
}

/// Adds the trait to the list, unless it is there.
fn add_trait(traits: &mut Vec<TraitId>, of: TraitId) -> Result<(), Stop>
{
    for number in 0..traits.len() {
        if traits[number] == of {
            return Ok(());
        }
    }
    Ok(traits.push(of)?)
}

/// The trait of which the clause says something, or of whose associated type it says what that is.
fn trait_spoken_of(cx: &Cx, clause: Clause) -> Option<TraitId>
{
    match cx.clause(clause).value {
        ClauseKind::Trait(predicate) => Some(predicate.trait_ref.def_id),
        ClauseKind::Projection(said) => cx.assoc_trait(said.projection_term.def_id),
        ClauseKind::TypeOutlives(_, _)
        | ClauseKind::RegionOutlives(_, _)
        | ClauseKind::AliasRelate(_, _)
        | ClauseKind::ConstEquate(_, _) => None,
    }
}

/// Adds the trait of which the clause says something.
fn add_trait_of_clause(cx: &Cx, clause: Clause, traits: &mut Vec<TraitId>) -> Result<(), Stop>
{
    match trait_spoken_of(cx, clause) {
        Some(of) => add_trait(traits, of),
        None => Ok(()),
    }
}

/// Adds the traits of which the clauses say something.
fn add_traits(cx: &Cx, clauses: &[Clause], traits: &mut Vec<TraitId>) -> Result<(), Stop>
{
    for number in 0..clauses.len() {
        add_trait_of_clause(cx, clauses[number], traits)?;
    }
    Ok(())
}

/// Adds the traits of the impl's where clauses.
fn add_traits_of_impl(cx: &Cx, of: ImplId, traits: &mut Vec<TraitId>) -> Result<(), Stop>
{
    match cx.impl_contents(of) {
        Some(contents) => add_traits(cx, contents.wheres.as_slice(), traits),
        None => Ok(()),
    }
}

/// Adds the traits of the where clauses of the trait's impls.
fn add_traits_of_impls(cx: &Cx, of: TraitId, traits: &mut Vec<TraitId>) -> Result<(), Stop>
{
    let impls = cx.impls_of(of);
    for number in 0..impls.len() {
        add_traits_of_impl(cx, impls[number], traits)?;
    }
    Ok(())
}

/// Adds the traits of the associated type's bounds.
fn add_traits_of_item(cx: &Cx, of: AssocId, traits: &mut Vec<TraitId>) -> Result<(), Stop>
{
    let alias = AliasId(of.0);
    add_traits(cx, cx.self_bounds(alias), traits)?;
    add_traits(cx, cx.non_self_bounds(alias), traits)
}

/// Adds the traits of the bounds of the trait's associated types.
fn add_traits_of_items(cx: &Cx, of: TraitId, traits: &mut Vec<TraitId>) -> Result<(), Stop>
{
    let items = cx.associated_items(of);
    for number in 0..items.len() {
        add_traits_of_item(cx, items[number], traits)?;
    }
    Ok(())
}

/// Whether the trait is the lang item.
fn is_item(cx: &Cx, item: LangItem, of: TraitId) -> bool
{
    match cx.lang_item(item) {
        Some(other) => other == of,
        None => false,
    }
}

/// Adds the second lang item's trait, if the trait is the first one.
fn add_asked(
    cx: &Cx,
    of: TraitId,
    item: LangItem,
    asked: LangItem,
    traits: &mut Vec<TraitId>,
) -> Result<(), Stop>
{
    if !is_item(cx, item, of) {
        return Ok(());
    }
    match cx.lang_item(asked) {
        Some(next) => add_trait(traits, next),
        None => Ok(()),
    }
}

/// Adds the trait that the language's rule of the trait asks for: what is called has a sized output, and what isn't dropped is `Copy`.
fn add_asked_by_language(cx: &Cx, of: TraitId, traits: &mut Vec<TraitId>) -> Result<(), Stop>
{
    add_asked(cx, of, LangItem::Fn, LangItem::Sized, traits)?;
    add_asked(cx, of, LangItem::FnMut, LangItem::Sized, traits)?;
    add_asked(cx, of, LangItem::FnOnce, LangItem::Sized, traits)?;
    add_asked(
        cx,
        of,
        LangItem::BikeshedGuaranteedNoDrop,
        LangItem::Copy,
        traits,
    )
}

/// Adds the traits to which a goal of the trait may lead at once: those of its super clauses and its where clauses, of the bounds of its
/// associated types and of the where clauses of its impls, and that for which the language's rule asks.
fn add_next(cx: &Cx, of: TraitId, traits: &mut Vec<TraitId>) -> Result<(), Stop>
{
    add_traits(cx, cx.super_clauses(of), traits)?;
    add_traits(cx, cx.trait_where_clauses(of), traits)?;
    add_traits_of_items(cx, of, traits)?;
    add_traits_of_impls(cx, of, traits)?;
    add_asked_by_language(cx, of, traits)
}

/// Whether a goal of the trait may rest on an impl of an auto trait for a part of the types with a head. Such an impl takes the place of the
/// fields' rule where it may serve, and of no other type with that head; so what it refuses may hold of an instance, and what holds beside it
/// may not. Where the trait has the flag `by_head` it takes that place for each type with the head, so that neither is so.
///
/// The traits are followed through all that their rules ask for (`add_next`); whatever leads to unsizing may, by which a goal may lead to each auto
/// trait that the target's bounds name. The only stop is `Stop::Memory`.
pub(crate) fn may_rest_on_part(alloc: Global, cx: &Cx, of: TraitId) -> Result<bool, Stop>
{
    let mut traits = Vec::new(alloc);
    add_trait(&mut traits, of)?;
    for place in 0..usize::MAX {
        let Some(next) = traits.get(place).copied() else {
            return Ok(false);
        };
        if is_item(cx, LangItem::Unsize, next) || is_implemented_by_part(cx, next) {
            return Ok(true);
        }
        add_next(cx, next, &mut traits)?;
    }
    Err(Stop::Memory)
}

/// Whether a goal of the trait of which the clause speaks, if it speaks of one, may. The only stop is `Stop::Memory`.
pub(crate) fn clause_may_rest_on_part(alloc: Global, cx: &Cx, clause: Clause) -> Result<bool, Stop>
{
    match trait_spoken_of(cx, clause) {
        Some(of) => may_rest_on_part(alloc, cx, of),
        None => Ok(false),
    }
}

/// Whether a refusal of the reference's goal is one of each of its instances, as far as auto traits go: no variable stands in it, or it rests
/// on no impl for a part of the types with a head. The only stop is `Stop::Memory`.
pub(crate) fn refuses_instances(alloc: Global, cx: &Cx, of: TraitRef) -> Result<bool, Stop>
{
    if !cx.has(of.args, Flag::TyInfer) && !cx.has(of.args, Flag::ConstInfer) {
        return Ok(true);
    }
    Ok(!may_rest_on_part(alloc, cx, of.def_id)?)
}
