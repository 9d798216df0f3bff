//! Rows that ask about the parts of types, what can be called, and what an object has to fulfil.

use crate::context::lookups::listed_answer;
use crate::evaluator::refusals::or_refusal;
use crate::notation::answers::{Answer, Item, Items};
use crate::notation::refusals::Refusal;
use crate::notation::rows::Row;
use crate::notation::tables::value_of;
use crate::notation::typed::{args_at, ty_at};
use candidate_eval::eval::refusal::NoSolutionOrStop;
use candidate_eval::objects::required::{own_bounds, requirements};
use candidate_eval::structural::callable::{
    extract_fn_def_from_const_callable, extract_tupled_inputs_and_output_from_callable,
    has_callable_cell, CallableId,
};
use candidate_eval::structural::destruct::const_conditions_for_destruct;
use candidate_eval::structural::tables::{
    has_cell, instantiate_constituent_tys_for_auto_trait,
    instantiate_constituent_tys_for_copy_clone_trait,
    instantiate_constituent_tys_for_sizedness_trait,
};
use candidate_eval::structural::{Column, Constituents, Under};
use candidate_ir::decl::contents::Sizedness;
use candidate_ir::decl::context::Cx;
use candidate_ir::ir::kinds::{Binder, ClosureKind, TraitRef, Ty, TyKind};
use candidate_ir::ir::trees::Trees;
use kit::alloc::Global;
use kit::prelude::*;

/// What the row answers where a type has no cell in the column.
const EXCLUDED: Answer = Answer::One(Item::Word("excluded"));

/// The words of the columns.
const COLUMNS: [(&str, Column); 5] = [
    ("auto", Column::Auto),
    ("sized", Column::Sizedness(Sizedness::Sized)),
    ("meta_sized", Column::Sizedness(Sizedness::MetaSized)),
    ("copy", Column::CopyClone),
    ("destruct", Column::Destruct),
];

/// The types, behind their binder, if they stand under one.
fn constituents(
    alloc: Global,
    outcome: Result<Constituents, NoSolutionOrStop>,
) -> Result<Answer, Refusal> {
    let found = or_refusal(outcome)?;
    let mut items = Items::new(alloc);
    if let Under::Binder(vars) = found.under {
        items.push(Item::Node(vars.0));
    }
    for ty in &found.types {
        items.push(Item::Node(ty.0));
    }
    items.list()
}

/// What the column asks about: types, or references that have to hold.
fn cell(alloc: Global, cx: &mut Cx, word: &str, number: u32) -> Result<Answer, Refusal> {
    let column = value_of(&COLUMNS, word).ok_or(Refusal::Condition)?;
    let ty = ty_at(cx, number)?;
    if !has_cell(cx, column, ty) {
        return Ok(EXCLUDED);
    }
    let outcome = match column {
        Column::Auto => instantiate_constituent_tys_for_auto_trait(alloc, cx, ty),
        Column::Sizedness(sizedness) => {
            instantiate_constituent_tys_for_sizedness_trait(alloc, cx, sizedness, ty)
        }
        Column::CopyClone => instantiate_constituent_tys_for_copy_clone_trait(alloc, cx, ty),
        Column::Destruct => {
            let outcome = const_conditions_for_destruct(alloc, cx, ty);
            return listed_answer(alloc, or_refusal(outcome));
        }
    };
    constituents(alloc, outcome)
}

/// The ways to call.
const CALLS: [(&str, ClosureKind); 3] = [
    ("fn", ClosureKind::Fn),
    ("fn_mut", ClosureKind::FnMut),
    ("fn_once", ClosureKind::FnOnce),
];

/// Adds the binder, the inputs and the output.
fn push_callable(items: &mut Items, found: Binder<(Ty, Ty)>) {
    items.push(Item::Node(found.vars.0));
    items.push(Item::Node(found.value.0 .0));
    items.push(Item::Node(found.value.1 .0));
}

/// With which inputs and output the type is called in that way.
fn call(alloc: Global, cx: &mut Cx, kind: ClosureKind, ty: Ty) -> Result<Answer, Refusal> {
    let outcome = extract_tupled_inputs_and_output_from_callable(alloc, cx, ty, kind);
    match or_refusal(outcome)? {
        Some(found) => {
            let mut items = Items::new(alloc);
            push_callable(&mut items, found);
            items.row()
        }
        None => Ok(Answer::One(Item::Word("undetermined"))),
    }
}

/// What is called where a constant is computed, with its own arguments.
fn const_call(alloc: Global, cx: &mut Cx, ty: Ty) -> Result<Answer, Refusal> {
    let outcome = extract_fn_def_from_const_callable(alloc, cx, ty);
    let (found, id, args) = or_refusal(outcome)?;
    let number = match id {
        CallableId::Function(id) => id.0,
        CallableId::Closure(id) => id.0,
    };
    let mut items = Items::new(alloc);
    items.push(Item::Definition(number));
    items.push(Item::Node(args.0));
    push_callable(&mut items, found);
    items.row()
}

/// What the row asks of a type that may be called.
fn called(alloc: Global, cx: &mut Cx, row: Row<'_>, number: u32) -> Result<Answer, Refusal> {
    let ty = ty_at(cx, number)?;
    if !has_callable_cell(cx, ty) {
        return Ok(EXCLUDED);
    }
    if row.verb == "const_call" {
        return const_call(alloc, cx, ty);
    }
    match value_of(&CALLS, row.first) {
        Some(kind) => call(alloc, cx, kind, ty),
        None => Err(Refusal::Condition),
    }
}

/// What the bounds of the object's type say of it.
fn said(alloc: Global, cx: &mut Cx, number: u32) -> Result<Answer, Refusal> {
    let object = ty_at(cx, number)?;
    let TyKind::Dynamic(bounds, _) = cx.kind(object) else {
        return Err(Refusal::Condition);
    };
    listed_answer(alloc, own_bounds(alloc, cx, object, bounds))
}

/// What an object of the reference's trait has to fulfil.
pub fn required(alloc: Global, cx: &mut Cx, reference: TraitRef) -> Result<Answer, Refusal> {
    let args = args_at(cx, reference.args.0)?;
    let def_id = reference.def_id;
    listed_answer(alloc, requirements(alloc, cx, TraitRef { def_id, args }))
}

/// What the row asks of the type of that number.
pub fn answer(alloc: Global, cx: &mut Cx, row: Row<'_>, number: u32) -> Result<Answer, Refusal> {
    match row.verb {
        "cell" => cell(alloc, cx, row.first, number),
        "own_bounds" => said(alloc, cx, number),
        _ => called(alloc, cx, row, number),
    }
}
