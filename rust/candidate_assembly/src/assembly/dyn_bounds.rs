// Made of `crates/candidate_assembly/src/assembly/dyn_bounds.rt` by `bench/plain.py`: an edit of this file is lost.

//! The bounds of `dyn` types, and what each says of a type.


use kit::{eprintln, format, prelude::*, print, println, vec};
use ir_context::decl::Cx;
use ir_context::decl::make::{Build, Make};
use ir_folds::decl::elaborate::supertraits;
use ir_trees::ir::heads::{Head, PartHead, PredHead};
use ir_trees::ir::kinds::{
    AliasTerm, Args, Binder, Clause, ClauseKind, ExistentialPredicate, GenericArg, Pred,
    PredicatePolarity, Preds, ProjectionPredicate, Region, TraitId, TraitPredicate, TraitRef, Ty,
    TyKind,
};
use ir_trees::ir::stop::Stop;
use ir_trees::ir::trees::Trees;
use kit::alloc::{AllocError, Global};

/// The bounds and the region of a `dyn` type.
pub(crate) fn dyn_parts(cx: &Cx, ty: Ty) -> (Preds, Region)
{
    match cx.kind(ty) {
        TyKind::Dynamic(bounds, region) => (bounds, region),
        _ => unreachable!(),
    }
}

/// Whether objects of the trait of a `dyn` type's principal may be made; without a principal nothing bars them.
pub(crate) fn is_dyn_compatible(cx: &Cx, ty: Ty) -> bool
{
    let (bounds, _) = dyn_parts(cx, ty);
    let Some(principal) = cx.principal(bounds) else {
        return true;
    };
    match cx.trait_flags(principal) {
        Some(flags) => flags.dyn_compatible,
        None => false,
    }
}

/// The arguments of a bound; one by an auto trait has none.
fn bound_args(cx: &Cx, bound: Binder<ExistentialPredicate>) -> &[GenericArg]
{
    match bound.value {
        ExistentialPredicate::Trait(trait_ref) => cx.args(trait_ref.args),
        ExistentialPredicate::Projection(projection) => cx.args(projection.args),
        ExistentialPredicate::AutoTrait(_) => &[],
    }
}

/// The type, and then the arguments of the bound.
fn with_type(
    alloc: Global,
    cx: &Cx,
    ty: Ty,
    bound: Binder<ExistentialPredicate>,
) -> Result<Vec<GenericArg>, AllocError>
{
    let mut list = Vec::new(alloc);
    list.push(GenericArg::Ty(ty))?;
    list.extend_from_slice(bound_args(cx, bound))?;
    Ok(list)
}

/// That the trait holds of the arguments.
fn holds(def_id: TraitId, args: Args) -> ClauseKind
{
    ClauseKind::Trait(TraitPredicate {
        trait_ref: TraitRef { def_id, args },
        polarity: PredicatePolarity::Positive,
    })
}

/// What the bound says of the arguments, of which the first is the type: that its trait holds of them, or what an associated type is.
fn kind_said(bound: ExistentialPredicate, args: Args) -> ClauseKind
{
    match bound {
        ExistentialPredicate::Trait(trait_ref) => holds(trait_ref.def_id, args),
        ExistentialPredicate::Projection(projection) => {
            ClauseKind::Projection(ProjectionPredicate {
                projection_term: AliasTerm {
                    def_id: projection.def_id,
                    args,
                },
                term: projection.term,
            })
        }
        ExistentialPredicate::AutoTrait(id) => holds(id, args),
    }
}

/// What a bound says of a type, as a clause under the bound's binder: that its trait holds of the type and the bound's arguments, or what an
/// associated type of these is.
///
/// `Stop::Memory` comes where a growth was refused, `Stop::NodesFull` where a node was not made. After a stop the nodes that were made stay.
pub(crate) fn bound_clause<M: Make>(
    alloc: Global,
    make: &mut M,
    ty: Ty,
    bound: Pred,
) -> Result<Clause, Stop>
{
    make.cx().recall_well_formed();
    let bound = make.cx().pred(bound);
    let list = with_type(alloc, make.cx(), ty, bound)?;
    let args = make.mk_args(list.as_slice())?;
    make.mk_clause(Binder {
        vars: bound.vars,
        value: kind_said(bound.value, args),
    })
}

/// Whether the bound is the principal of its list.
pub(crate) fn is_principal(cx: &Cx, bound: Pred) -> bool
{
    matches!(
        cx.head(bound.0),
        Head::Part(PartHead::Pred(PredHead::Trait(_)))
    )
}

/// The first principal among the bounds, if there is one.
pub(crate) fn principal_among(cx: &Cx, bounds: &[Pred]) -> Option<Pred>
{
    for bound in bounds {
        if is_principal(cx, *bound) {
            return Some(*bound);
        }
    }
    None
}

/// The supertraits of the principal of a `dyn` type that has these bounds, itself the first; without one there are none. Where a rule may speak
/// of the type, it may speak of these.
///
/// `Stop::Memory` comes where a growth was refused, `Stop::NodesFull` where a node was not made. After a stop the nodes that were made stay.
pub(crate) fn principal_supertraits<M: Make>(
    alloc: Global,
    make: &mut M,
    ty: Ty,
    bounds: &[Pred],
) -> Result<Vec<Clause>, Stop>
{
    make.cx().recall_well_formed_table();
    let Some(principal) = principal_among(make.cx(), bounds) else {
        return Ok(Vec::new(alloc));
    };
    let clause = bound_clause(alloc, make, ty, principal)?;
    make.cx().recall_well_formed_table();
    let supers = supertraits(alloc, make, clause)?;
    make.cx().recall_well_formed_table();
    Ok(supers)
}
