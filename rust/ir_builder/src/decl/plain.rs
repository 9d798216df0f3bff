// Made of `crates/ir_builder/src/decl/plain.rt` by `bench/plain.py`: an edit of this file is lost.

//! One look at all that declarations hold, which finds in most of them that nothing is misplaced and that no bound
//! variable escapes. Only where it doesn't is each of these looked for.


use kit::{eprintln, format, prelude::*, print, println, vec};
use ir_trees::decl::contents::Impl;
use ir_trees::decl::definition::{Declaration, Parameters};
use ir_trees::decl::held::{Held, Owner};
use ir_trees::decl::misplaced::parameter_kind;
use ir_trees::ir::at::at;
use ir_trees::ir::kinds::{ConstKind, RegionKind, TyKind, VarKind};
use ir_trees::ir::node::Node;
use ir_trees::ir::nodes::Nodes;
use ir_trees::ir::trees::Trees;

fn is_type(kind: Option<VarKind>) -> bool
{
    matches!(kind, Some(VarKind::Ty))
}

fn ty_is_plain(kind: TyKind, after_self: bool, parameters: &Parameters) -> bool
{
    match kind {
        TyKind::Param(number) => is_type(parameter_kind(after_self, parameters, number)),
        TyKind::Placeholder(_) | TyKind::Bound(_) | TyKind::Infer(_) => false,
        _ => true,
    }
}

/// Whether the node alone shows that it may stand where these parameters are.
fn node_is_plain(node: &Node, after_self: bool, parameters: &Parameters) -> bool
{
    match node {
        Node::Ty(kind) => ty_is_plain(*kind, after_self, parameters),
        Node::Region(kind) => matches!(kind, RegionKind::Static),
        Node::Const(kind) => matches!(kind, ConstKind::Value(_)),
        _ => true,
    }
}

/// Whether all nodes of a number's tree show that.
fn number_is_plain(nodes: &Nodes, number: u32, after_self: bool, parameters: &Parameters) -> bool
{
    let node = nodes.node(number);
    if !node_is_plain(node, after_self, parameters) {
        return false;
    }
    for i in 0..node.child_count() {
        if !number_is_plain(nodes, node.child(i), after_self, parameters) {
            return false;
        }
    }
    true
}

fn definition_is_plain(nodes: &Nodes, number: u32, owner: Option<&Declaration>) -> bool
{
    match owner {
        Some(owner) => number_is_plain(nodes, number, owner.has_self(), &owner.parameters),
        None => false,
    }
}

fn impl_is_plain(nodes: &Nodes, number: u32, owner: Option<&Impl>) -> bool
{
    match owner {
        Some(owner) => number_is_plain(nodes, number, false, &owner.parameters),
        None => false,
    }
}

fn held_is_plain(nodes: &Nodes, definitions: &[Declaration], impls: &[Impl], held: Held) -> bool
{
    match held.owner {
        Owner::Definition(i) => definition_is_plain(nodes, held.number, at(definitions, i)),
        Owner::Impl(i) => impl_is_plain(nodes, held.number, at(impls, i)),
    }
}

/// Whether one look shows that nothing is misplaced in what is held, and that no bound variable escapes.
pub(crate) fn all_are_plain(
    nodes: &Nodes,
    definitions: &[Declaration],
    impls: &[Impl],
    held: &[Held],
) -> bool
{
    for held in held {
        if !held_is_plain(nodes, definitions, impls, *held) {
            return false;
        }
    }
    true
}
