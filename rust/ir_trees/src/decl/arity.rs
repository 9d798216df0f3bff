// Made of `crates/ir_trees/src/decl/arity.rt` by `bench/plain.py`: an edit of this file is lost.

//! Whether the arguments of a node are those that its definition takes.


use kit::{eprintln, format, prelude::*, print, println, vec};
use crate::decl::contents::Impl;
use crate::decl::definition::{Declaration, DefinitionSort, are_type_args};
use crate::decl::misplaced::is_args;
use crate::ir::at::at;
use crate::ir::kinds::{
    AliasKind, AliasTy, Binder, ClauseKind, ConstKind, ExistentialPredicate, GenericArg, TyKind,
};
use crate::ir::node::Node;
use crate::ir::nodes::Nodes;
use crate::ir::trees::Trees;

/// Whether the number is that of a definition of the sort, with parameters of the kinds of these arguments.
fn takes(
    definitions: &[Declaration],
    sort: DefinitionSort,
    number: u32,
    list: &[GenericArg],
) -> bool
{
    match at(definitions, number as usize) {
        Some(definition) => definition.takes(sort, list),
        None => false,
    }
}

/// Whether the number is that of a definition of the sort, with parameters of the kinds of a type and then of these arguments.
pub fn takes_after_self(
    definitions: &[Declaration],
    sort: DefinitionSort,
    number: u32,
    list: &[GenericArg],
) -> bool
{
    match list {
        [GenericArg::Ty(_), list @ ..] => takes(definitions, sort, number, list),
        _ => false,
    }
}

fn alias_takes(definitions: &[Declaration], alias: AliasTy, list: &[GenericArg]) -> bool
{
    let number = alias.id.0;
    match alias.kind {
        AliasKind::Projection => {
            takes_after_self(definitions, DefinitionSort::AssociatedType, number, list)
        }
        AliasKind::Opaque => takes(definitions, DefinitionSort::Opaque, number, list),
        AliasKind::Inherent | AliasKind::Free => {
            takes(definitions, DefinitionSort::Alias, number, list)
        }
    }
}

/// Whether the arguments of the type are those that it takes.
pub fn ty_fits(definitions: &[Declaration], nodes: &Nodes, kind: TyKind) -> bool
{
    match kind {
        TyKind::Adt(id, args) => takes(definitions, DefinitionSort::Adt, id.0, nodes.args(args)),
        TyKind::Foreign(id) => takes(definitions, DefinitionSort::Foreign, id.0, &[]),
        TyKind::FnDef(id, args) => {
            takes(
                definitions,
                DefinitionSort::Function,
                id.0,
                nodes.args(args),
            )
        }
        TyKind::Closure(id, closure) => takes(
            definitions,
            DefinitionSort::Closure,
            id.0,
            nodes.args(closure.parent),
        ),
        TyKind::Alias(alias) => alias_takes(definitions, alias, nodes.args(alias.args)),
        TyKind::Tuple(args) => are_type_args(nodes.args(args)),
        TyKind::FnPtr(sig) => are_type_args(nodes.args(sig.value.inputs)),
        TyKind::Dynamic(preds, _) => nodes.holds_bounds(preds),
        _ => true,
    }
}

/// Whether the arguments of the constant are those that it takes.
pub fn const_fits(definitions: &[Declaration], nodes: &Nodes, kind: ConstKind) -> bool
{
    match kind {
        ConstKind::Unevaluated(id, args) => takes_after_self(
            definitions,
            DefinitionSort::AssociatedConst,
            id.0,
            nodes.args(args),
        ),
        _ => true,
    }
}

/// Whether the arguments of the bound are those that it takes, which has no self type.
pub(crate) fn bound_fits(
    definitions: &[Declaration],
    nodes: &Nodes,
    bound: Binder<ExistentialPredicate>,
) -> bool
{
    match bound.value {
        ExistentialPredicate::Trait(trait_ref) => takes(
            definitions,
            DefinitionSort::Trait,
            trait_ref.def_id.0,
            nodes.args(trait_ref.args),
        ),
        ExistentialPredicate::Projection(projection) => takes(
            definitions,
            DefinitionSort::AssociatedType,
            projection.def_id.0,
            nodes.args(projection.args),
        ),
        ExistentialPredicate::AutoTrait(id) => takes(definitions, DefinitionSort::Trait, id.0, &[]),
    }
}

/// Whether the arguments of each bound are those that it takes.
pub fn bounds_fit(
    definitions: &[Declaration],
    nodes: &Nodes,
    bounds: &[Binder<ExistentialPredicate>],
) -> bool
{
    for bound in bounds {
        if !bound_fits(definitions, nodes, *bound) {
            return false;
        }
    }
    true
}

/// Whether the arguments of the clause are those that it takes.
pub fn clause_fits(definitions: &[Declaration], nodes: &Nodes, clause: Binder<ClauseKind>) -> bool
{
    match clause.value {
        ClauseKind::Trait(predicate) => takes_after_self(
            definitions,
            DefinitionSort::Trait,
            predicate.trait_ref.def_id.0,
            nodes.args(predicate.trait_ref.args),
        ),
        ClauseKind::Projection(predicate) => takes_after_self(
            definitions,
            DefinitionSort::AssociatedType,
            predicate.projection_term.def_id.0,
            nodes.args(predicate.projection_term.args),
        ),
        ClauseKind::TypeOutlives(_, _) | ClauseKind::RegionOutlives(_, _) => true,
        ClauseKind::AliasRelate(_, _) => true,
        ClauseKind::ConstEquate(_, _) => true,
    }
}

/// Whether the children of the node are those that it takes.
fn node_fits(definitions: &[Declaration], nodes: &Nodes, node: &Node) -> bool
{
    match node {
        Node::Ty(kind) => ty_fits(definitions, nodes, *kind),
        Node::Const(kind) => const_fits(definitions, nodes, *kind),
        Node::Pred(bound) => bound_fits(definitions, nodes, *bound),
        Node::Clause(clause) => clause_fits(definitions, nodes, *clause),
        _ => true,
    }
}

/// Whether the children of each node are those that it takes.
pub fn nodes_fit(definitions: &[Declaration], nodes: &Nodes) -> bool
{
    for number in 0..nodes.len() {
        if !node_fits(definitions, nodes, nodes.node(number as u32)) {
            return false;
        }
    }
    true
}

/// Whether the arguments of the impl's header are those that its trait takes.
fn impl_fits(definitions: &[Declaration], nodes: &Nodes, of: &Impl) -> bool
{
    let trait_ref = of.trait_ref;
    if !is_args(nodes, trait_ref.args) {
        return false;
    }
    let number = trait_ref.def_id.0;
    takes_after_self(
        definitions,
        DefinitionSort::Trait,
        number,
        nodes.args(trait_ref.args),
    )
}

/// The number of the first impl of which they aren't.
pub fn first_unfit(definitions: &[Declaration], nodes: &Nodes, impls: &[Impl]) -> Option<usize>
{
    for number in 0..impls.len() {
        if !impl_fits(definitions, nodes, &impls[number]) {
            return Some(number);
        }
    }
    None
}

/// Whether those of each impl's header are.
pub fn impls_fit(definitions: &[Declaration], nodes: &Nodes, impls: &[Impl]) -> bool
{
    first_unfit(definitions, nodes, impls).is_none()
}

/// Whether some node names a definition that is none of the first so many.
pub fn any_names_unknown(definitions: usize, nodes: &Nodes) -> bool
{
    for number in 0..nodes.len() {
        if nodes.node(number as u32).names_unknown(definitions) {
            return true;
        }
    }
    false
}
