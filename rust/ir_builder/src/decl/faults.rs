// Made of `crates/ir_builder/src/decl/faults.rt` by `bench/plain.py`: an edit of this file is lost.

//! What is wrong with declarations, each fault by itself.


use kit::{eprintln, format, prelude::*, print, println, vec};
use ir_trees::decl::contents::{AdtContents, AssocValue, Contents, Impl, ImplId, LangItem};
use ir_trees::decl::definition::{AdtShape, AssocKind, Declaration, DefinitionKind, Parameters};
use ir_trees::ir::at::at;
use ir_trees::ir::kinds::{AssocId, TraitId};

/// Whether it is the number of a trait.
fn is_declared_trait(definitions: &[Declaration], number: TraitId) -> bool
{
    match at(definitions, number.0 as usize) {
        Some(definition) => definition.is_trait(),
        None => false,
    }
}

fn any_is_past(impls: &[ImplId], count: usize) -> bool
{
    impls.iter().any(|of| count <= of.0 as usize)
}

fn any_value_is_past(values: &[AssocValue], count: usize) -> bool
{
    values.iter().any(|value| count <= value.assoc.0 as usize)
}

/// Whether the impl is of a crate that wasn't added, of what is no trait, specialises what is no impl, or says what no definition is.
pub(crate) fn impl_misnames(
    crates: u32,
    definitions: &[Declaration],
    count: usize,
    of: &Impl,
) -> bool
{
    of.krate.is_unknown(crates)
        || !is_declared_trait(definitions, of.trait_ref.def_id)
        || any_is_past(of.specializes.as_slice(), count)
        || any_value_is_past(of.values.as_slice(), definitions.len())
}

/// Whether the number is that of a type among the items of the trait.
fn is_declared_item(definitions: &[Declaration], of: TraitId, number: AssocId) -> bool
{
    match at(definitions, number.0 as usize) {
        Some(definition) => match definition.kind {
            DefinitionKind::Assoc(owner, AssocKind::Type, _, _) => owner == of,
            _ => false,
        },
        None => false,
    }
}

/// How many of the values are of the associated type.
fn count_of(values: &[AssocValue], assoc: AssocId) -> usize
{
    let is_of = |value: &&AssocValue| value.assoc == assoc;
    values.iter().filter(is_of).count()
}

/// Whether the value is of what is no type among the trait's items, or not the only one of its item.
fn is_wrong_value(
    definitions: &[Declaration],
    of: TraitId,
    values: &[AssocValue],
    value: AssocValue,
) -> bool
{
    !is_declared_item(definitions, of, value.assoc) || 1 < count_of(values, value.assoc)
}

pub(crate) fn has_wrong_value(definitions: &[Declaration], of: &Impl) -> bool
{
    let values = of.values.as_slice();
    values.iter().any(|value| is_wrong_value(definitions, of.trait_ref.def_id, values, *value))
}

/// Whether some impl says of what is no type among its trait's items what it is, or says it twice of one.
pub(crate) fn any_has_wrong_value(definitions: &[Declaration], impls: &[Impl]) -> bool
{
    impls.iter().any(|of| has_wrong_value(definitions, of))
}

fn item_misnames(definitions: &[Declaration], item: Option<TraitId>) -> bool
{
    match item {
        Some(of) => !is_declared_trait(definitions, of),
        None => false,
    }
}

fn any_number_is_past(numbers: &[u32], count: usize) -> bool
{
    numbers.iter().any(|number| count <= *number as usize)
}

/// Whether one of the parameters that change where it is unsized isn't there.
fn has_past_unsizing(parameters: &Parameters, adt: Option<&AdtContents>) -> bool
{
    match adt {
        Some(adt) => any_number_is_past(adt.unsizing.as_slice(), parameters.count()),
        None => false,
    }
}

pub(crate) fn unsizes_past(contents: &Contents, definition: &Declaration) -> bool
{
    match definition.kind {
        DefinitionKind::Adt(_, _, place) => {
            has_past_unsizing(
                &definition.parameters,
                at(contents.adts.as_slice(), place as usize),
            )
        }
        _ => false,
    }
}

fn unsizes_without_tail(shape: AdtShape, adt: Option<&AdtContents>) -> bool
{
    let Some(adt) = adt else { return false };
    !adt.unsizing.is_empty() && (!matches!(shape, AdtShape::Struct) || adt.fields.is_empty())
}

pub(crate) fn lacks_tail(contents: &Contents, kind: DefinitionKind) -> bool
{
    match kind {
        DefinitionKind::Adt(shape, _, place) => {
            unsizes_without_tail(shape, at(contents.adts.as_slice(), place as usize))
        }
        _ => false,
    }
}

fn definition_lacks_tail(contents: &Contents, definition: &Declaration) -> bool
{
    lacks_tail(contents, definition.kind)
}

/// Whether some definition is of none of the first so many crates.
pub(crate) fn any_is_unknown(definitions: &[Declaration], crates: u32) -> bool
{
    definitions
        .iter()
        .any(|definition| definition.krate().is_unknown(crates))
}

/// Whether some definition is an associated item of what is no trait among them.
pub(crate) fn any_lacks_trait(definitions: &[Declaration]) -> bool
{
    definitions
        .iter()
        .any(|definition| definition.lacks_trait(definitions))
}

/// Whether some definition has parameters that its flags don't allow.
pub(crate) fn any_has_wrong_arity(definitions: &[Declaration]) -> bool
{
    definitions
        .iter()
        .any(|definition| definition.has_wrong_arity())
}

/// Whether some impl misnames: a crate, its trait, what it specialises, or what it says a type of.
pub(crate) fn any_impl_misnames(crates: u32, definitions: &[Declaration], impls: &[Impl]) -> bool
{
    impls
        .iter()
        .any(|of| impl_misnames(crates, definitions, impls.len(), of))
}

/// Whether some lang item is no trait.
pub(crate) fn any_item_misnames(definitions: &[Declaration], items: &[Option<TraitId>]) -> bool
{
    items.iter().any(|item| item_misnames(definitions, *item))
}

/// Whether some definition names a parameter that it doesn't have, as one that changes where it is unsized.
pub(crate) fn any_unsizes_past(definitions: &[Declaration], contents: &Contents) -> bool
{
    definitions
        .iter()
        .any(|definition| unsizes_past(contents, definition))
}

/// Whether some definition changes where it is unsized, and isn't a struct with a field.
pub(crate) fn any_lacks_tail(definitions: &[Declaration], contents: &Contents) -> bool
{
    definitions
        .iter()
        .any(|definition| definition_lacks_tail(contents, definition))
}

/// Whether the trait that is the lang item has other parameters than the item has.
fn item_has_wrong_arity(
    definitions: &[Declaration],
    items: &[Option<TraitId>; 16],
    item: LangItem,
) -> bool
{
    let Some(of) = items[item.number()] else {
        return false;
    };
    match at(definitions, of.0 as usize) {
        Some(definition) => !has_item_parameters(item, &definition.parameters),
        None => false,
    }
}

fn has_item_parameters(item: LangItem, parameters: &Parameters) -> bool
{
    if item.takes_a_type() {
        parameters.count() == 1 && parameters.begins_with_type()
    } else {
        parameters.is_empty()
    }
}

/// Whether some lang item's trait has other parameters than the item has.
pub(crate) fn any_item_has_wrong_arity(
    definitions: &[Declaration],
    items: &[Option<TraitId>; 16],
) -> bool
{
    LangItem::ALL
        .iter()
        .any(|item| item_has_wrong_arity(definitions, items, *item))
}
