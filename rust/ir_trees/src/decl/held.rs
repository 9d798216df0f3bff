// Made of `crates/ir_trees/src/decl/held.rt` by `bench/plain.py`: an edit of this file is lost.

//! The types, clauses, lists and binders that declarations hold, one after the other.


use kit::{eprintln, format, prelude::*, print, println, vec};
use crate::decl::contents::{AdtContents, AssocValue, Bounds, Contents, Impl, TraitContents};
use crate::decl::definition::{Declaration, DefinitionKind};
use crate::ir::at::at;
use crate::ir::kinds::{Binder, Clause, FnSig, Ty};
use kit::alloc::{AllocError, Global};

/// A definition or an impl, by its number.
#[derive(Clone, Copy, Debug, PartialEq, Eq)]
pub enum Owner {
    Definition(usize),
    Impl(usize),
}

/// What is held.
#[derive(Clone, Copy, Debug)]
pub enum HeldSort {
    Ty,
    Args,
    Clause,
    Vars,
}

/// A number that a declaration holds, of a node of that sort, and whether it stands under a binder of the declaration.
#[derive(Clone, Copy, Debug)]
pub struct Held {
    pub owner: Owner,
    pub sort: HeldSort,
    pub number: u32,
    pub under_binder: bool,
}

fn add(
    held: &mut Vec<Held>,
    owner: Owner,
    sort: HeldSort,
    number: u32,
    under_binder: bool,
) -> Result<(), AllocError>
{
    held.push(Held {
        owner,
        sort,
        number,
        under_binder,
    })?;
    Ok(())
}

fn add_type(held: &mut Vec<Held>, owner: Owner, ty: Ty) -> Result<(), AllocError>
{
    add(held, owner, HeldSort::Ty, ty.0, false)
}

fn add_types(held: &mut Vec<Held>, owner: Owner, types: &[Ty]) -> Result<(), AllocError>
{
    for ty in types {
        add_type(held, owner, *ty)?;
    }
    Ok(())
}

fn add_values(held: &mut Vec<Held>, owner: Owner, values: &[AssocValue]) -> Result<(), AllocError>
{
    for value in values {
        add_type(held, owner, value.ty)?;
    }
    Ok(())
}

fn add_option(held: &mut Vec<Held>, owner: Owner, ty: Option<Ty>) -> Result<(), AllocError>
{
    match ty {
        Some(ty) => add_type(held, owner, ty),
        None => Ok(()),
    }
}

fn add_clauses(held: &mut Vec<Held>, owner: Owner, clauses: &[Clause]) -> Result<(), AllocError>
{
    for clause in clauses {
        add(held, owner, HeldSort::Clause, clause.0, false)?;
    }
    Ok(())
}

fn add_sig(held: &mut Vec<Held>, owner: Owner, sig: Binder<FnSig>) -> Result<(), AllocError>
{
    add(held, owner, HeldSort::Vars, sig.vars.0, false)?;
    add(held, owner, HeldSort::Args, sig.value.inputs.0, true)?;
    add(held, owner, HeldSort::Ty, sig.value.output.0, true)
}

fn add_adt(held: &mut Vec<Held>, owner: Owner, adt: Option<&AdtContents>) -> Result<(), AllocError>
{
    let Some(adt) = adt else { return Ok(()) };
    add_types(held, owner, adt.fields.as_slice())?;
    add_option(held, owner, adt.sized)?;
    add_option(held, owner, adt.meta_sized)
}

fn add_trait(
    held: &mut Vec<Held>,
    owner: Owner,
    of: Option<&TraitContents>,
) -> Result<(), AllocError>
{
    let Some(of) = of else { return Ok(()) };
    add_clauses(held, owner, of.supers.as_slice())?;
    add_clauses(held, owner, of.wheres.as_slice())
}

fn add_bounds(held: &mut Vec<Held>, owner: Owner, bounds: Option<&Bounds>) -> Result<(), AllocError>
{
    let Some(bounds) = bounds else { return Ok(()) };
    add_clauses(held, owner, bounds.self_bounds.as_slice())?;
    add_clauses(held, owner, bounds.non_self_bounds.as_slice())
}

fn add_opaque(
    held: &mut Vec<Held>,
    owner: Owner,
    hidden: Ty,
    bounds: Option<&Bounds>,
) -> Result<(), AllocError>
{
    add_type(held, owner, hidden)?;
    add_bounds(held, owner, bounds)
}

/// What a definition holds. What says that it has contents which aren't there holds nothing.
fn add_definition(
    held: &mut Vec<Held>,
    contents: &Contents,
    number: usize,
    kind: DefinitionKind,
) -> Result<(), AllocError>
{
    let owner = Owner::Definition(number);
    match kind {
        DefinitionKind::Adt(_, _, place) => {
            add_adt(held, owner, at(contents.adts.as_slice(), place as usize))
        }
        DefinitionKind::Trait(_, place) => {
            add_trait(held, owner, at(contents.traits.as_slice(), place as usize))
        }
        DefinitionKind::Assoc(_, _, _, place) => {
            add_bounds(held, owner, at(contents.bounds.as_slice(), place as usize))
        }
        DefinitionKind::Opaque(hidden, place) => {
            add_opaque(
                held,
                owner,
                hidden,
                at(contents.bounds.as_slice(), place as usize),
            )
        }
        DefinitionKind::Function(_, sig) => add_sig(held, owner, sig),
        DefinitionKind::Foreign | DefinitionKind::Alias(_) | DefinitionKind::Closure(_) => Ok(()),
    }
}

fn add_impl(held: &mut Vec<Held>, number: usize, of: &Impl) -> Result<(), AllocError>
{
    let owner = Owner::Impl(number);
    add(held, owner, HeldSort::Args, of.trait_ref.args.0, false)?;
    add_clauses(held, owner, of.wheres.as_slice())?;
    add_clauses(held, owner, of.super_outlives.as_slice())?;
    add_values(held, owner, of.values.as_slice())
}

/// What all declarations hold: the definitions in the order of their numbers, and then the impls.
pub fn all_held(
    alloc: Global,
    definitions: &[Declaration],
    contents: &Contents,
) -> Result<Vec<Held>, AllocError>
{
    let mut held = Vec::new(alloc);
    for number in 0..definitions.len() {
        let definition = &definitions[number];
        add_definition(&mut held, contents, number, definition.kind)?;
    }
    for number in 0..contents.impls.len() {
        add_impl(&mut held, number, &contents.impls[number])?;
    }
    Ok(held)
}
