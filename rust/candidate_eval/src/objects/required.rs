// Made of `crates/candidate_eval/src/objects/required.rt` by `bench/plain.py`: an edit of this file is lost.

//! What a type has to fulfil so as to be an object of a trait, and what the bounds of the object's type say of it as clauses.


use kit::{eprintln, format, prelude::*, print, println, vec};
use ir_context::decl::Cx;
use ir_context::decl::make::Make;
use ir_folds::decl::elaborate::elaborate;
use ir_folds::decl::parameters::has_arguments;
use ir_folds::decl::subst::subst;
use ir_trees::decl::definition::AssocKind;
use ir_trees::ir::kinds::{
    AliasId, AliasTerm, Args, AssocId, Binder, Clause, ClauseKind, ExistentialPredicate,
    ExistentialProjection, GenericArg, Pred, Preds, ProjectionPredicate, TraitId, TraitRef, Ty,
};
use ir_trees::ir::stop::Stop;
use ir_trees::ir::trees::Trees;
use kit::alloc::{AllocError, Global};

/// Where clauses are declared.
#[derive(Clone, Copy, Debug)]
pub(crate) enum Declared {
    /// The super clauses of a trait.
    SuperClauses(TraitId),
    /// The bounds of an associated type itself.
    SelfBounds(AliasId),
    /// The bounds of what it is a projection of.
    NonSelfBounds(AliasId),
}

/// The object, and then the arguments.
fn with_object(
    alloc: Global,
    cx: &Cx,
    object: Ty,
    args: Args,
) -> Result<Vec<GenericArg>, AllocError>
{
    let mut list = Vec::new(alloc);
    list.push(GenericArg::Ty(object))?;
    list.extend_from_slice(cx.args(args))?;
    Ok(list)
}

/// What a projection bound says of the object.
fn bound_clause<M: Make>(
    alloc: Global,
    make: &mut M,
    object: Ty,
    bound: Binder<ExistentialProjection>,
) -> Result<Clause, Stop>
{
    let list = with_object(alloc, make.cx(), object, bound.value.args)?;
    let args = make.mk_args(list.as_slice())?;
    make.mk_clause(Binder {
        vars: bound.vars,
        value: ClauseKind::Projection(ProjectionPredicate {
            projection_term: AliasTerm {
                def_id: bound.value.def_id,
                args,
            },
            term: bound.value.term,
        }),
    })
}

/// Adds what the bound says of the object, if it is a projection bound.
fn push_own<M: Make>(
    alloc: Global,
    make: &mut M,
    list: &mut Vec<Clause>,
    object: Ty,
    bound: Pred,
) -> Result<(), Stop>
{
    make.cx().recall_well_formed();
    let bound = make.cx().pred(bound);
    if let ExistentialPredicate::Projection(value) = bound.value {
        let bound = Binder {
            vars: bound.vars,
            value,
        };
        let clause = bound_clause(alloc, make, object, bound)?;
        list.push(clause)?;
    }
    Ok(())
}

/// What the projection bounds of the object's type say of it, in order: for each that an associated type, of the object and of
/// the bound's arguments, is the bound's term, under the bound's binder. Bounds that name traits say nothing here.
///
/// `Stop::Memory` comes where a growth was refused, `Stop::NodesFull` where a list of arguments or a clause was not made, as by
/// `mk_args` and `mk_clause`. After a stop the nodes that were made stay.
pub fn own_bounds<M: Make>(
    alloc: Global,
    make: &mut M,
    object: Ty,
    bounds: Preds,
) -> Result<Vec<Clause>, Stop>
{
    debug_assert!(ir_trees::checks::is_sorted(ir_context::decl::make::Make::cx(&*make), object), "candidate_eval::objects::required::own_bounds: `object` is {:?}, no number of its sort in this context", object);
    let listed = Vec::from_slice(alloc, make.cx().preds(bounds))?;
    let mut list = Vec::new(alloc);
    for bound in &listed {
        push_own(alloc, make, &mut list, object, *bound)?;
    }
    Ok(list)
}

/// The clause with the arguments put in; as it is declared where one of its parameters has none.
fn with_arguments<M: Make>(
    alloc: Global,
    make: &mut M,
    clause: Clause,
    args: Args,
) -> Result<Clause, Stop>
{
    if has_arguments(make.cx(), clause, args) {
        subst(alloc, make, clause, args)
    } else {
        Ok(clause)
    }
}

/// The clauses that are declared there, in order.
fn declared_clauses(cx: &Cx, of: Declared) -> &[Clause]
{
    match of {
        Declared::SuperClauses(id) => cx.super_clauses(id),
        Declared::SelfBounds(alias) => cx.self_bounds(alias),
        Declared::NonSelfBounds(alias) => cx.non_self_bounds(alias),
    }
}

/// Adds the clauses that are declared there, with the arguments put in, in order.
fn push_declared<M: Make>(
    alloc: Global,
    make: &mut M,
    list: &mut Vec<Clause>,
    of: Declared,
    args: Args,
) -> Result<(), Stop>
{
    let declared = Vec::from_slice(alloc, declared_clauses(make.cx(), of))?;
    for clause in &declared {
        let clause = with_arguments(alloc, make, *clause, args)?;
        list.push(clause)?;
    }
    Ok(())
}

/// Whether an object has the item: an associated type that doesn't require that `Self` is sized.
fn is_required(cx: &Cx, item: AssocId) -> bool
{
    matches!(cx.assoc_kind(item), Some(AssocKind::Type)) && !cx.requires_sized_self(item)
}

/// Adds the bounds of the associated type, with the arguments put in: its self bounds, and then the others.
fn push_bounds<M: Make>(
    alloc: Global,
    make: &mut M,
    list: &mut Vec<Clause>,
    item: AssocId,
    args: Args,
) -> Result<(), Stop>
{
    make.cx().recall_well_formed_table();
    let alias = AliasId(item.0);
    push_declared(alloc, make, list, Declared::SelfBounds(alias), args)?;
    push_declared(alloc, make, list, Declared::NonSelfBounds(alias), args)
}

/// Adds the bounds of all associated types that an object of the trait has, with the arguments put in, in the order of their
/// declaration.
fn push_required<M: Make>(
    alloc: Global,
    make: &mut M,
    list: &mut Vec<Clause>,
    trait_ref: TraitRef,
) -> Result<(), Stop>
{
    make.cx().recall_well_formed_table();
    let items = Vec::from_slice(alloc, make.cx().associated_items(trait_ref.def_id))?;
    for item in &items {
        if !is_required(make.cx(), *item) {
            continue;
        }
        push_bounds(alloc, make, list, *item, trait_ref.args)?;
    }
    Ok(())
}

/// All that an object of the reference's trait has to fulfil: the elaboration of the trait's super clauses, then the bounds of
/// its associated types but of those that require `Self: Sized`, in the order of their declaration. Each clause has the
/// reference's arguments in the place of its parameters; where one of its parameters has no argument of its kind, it stays as it
/// is declared.
///
/// It stops as `subst` and `elaborate` do; `Stop::Memory` comes where a list can't grow, too. After a stop the nodes that
/// were made stay.
pub fn requirements<M: Make>(
    alloc: Global,
    make: &mut M,
    trait_ref: TraitRef,
) -> Result<Vec<Clause>, Stop>
{
    debug_assert!(ir_trees::checks::is_sorted(ir_context::decl::make::Make::cx(&*make), trait_ref.args), "candidate_eval::objects::required::requirements: `trait_ref.args` is {:?}, no number of its sort in this context", trait_ref.args);
    make.cx().recall_well_formed_table();
    let of = Declared::SuperClauses(trait_ref.def_id);
    let mut supers = Vec::new(alloc);
    push_declared(alloc, make, &mut supers, of, trait_ref.args)?;
    let mut list = elaborate(alloc, make, supers.as_slice())?;
    make.cx().recall_well_formed();
    push_required(alloc, make, &mut list, trait_ref)?;
    Ok(list)
}
