// Made of `crates/ir_trees/src/decl/misplaced.rt` by `bench/plain.py`: an edit of this file is lost.

//! What may not stand in a declaration.


use kit::{eprintln, format, prelude::*, print, println, vec};
use crate::decl::contents::Impl;
use crate::decl::definition::{Declaration, Parameters};
use crate::decl::held::{Held, HeldSort, Owner};
use crate::ir::at::at;
use crate::ir::heads::{ConstHead, Head};
use crate::ir::kinds::{Args, Clause, RegionKind, VarKind};
use crate::ir::node::Node;
use crate::ir::nodes::Nodes;
use crate::ir::trees::Trees;
use crate::ir::walks::number_escapes;

/// What may not stand in a declaration with certain parameters.
#[derive(Clone, Copy, Debug)]
pub enum Misplaced {
    /// A parameter past them.
    Past,
    /// One of another kind, a variable or a placeholder.
    Stray,
}

/// Whether the node is of the sort.
fn is_held_node(sort: HeldSort, node: &Node) -> bool
{
    match sort {
        HeldSort::Ty => matches!(node, Node::Ty(_)),
        HeldSort::Args => matches!(node, Node::Args(_)),
        HeldSort::Clause => matches!(node, Node::Clause(_)),
        HeldSort::Vars => matches!(node, Node::Vars(_)),
    }
}

/// Whether the number is that of a list of arguments.
pub fn is_args(nodes: &Nodes, args: Args) -> bool
{
    if args.0 as usize >= nodes.len() {
        return false;
    }
    is_held_node(HeldSort::Args, nodes.node(args.0))
}

/// Whether the number is that of a clause.
pub fn is_clause(nodes: &Nodes, clause: Clause) -> bool
{
    if clause.0 as usize >= nodes.len() {
        return false;
    }
    is_held_node(HeldSort::Clause, nodes.node(clause.0))
}

/// Whether the number is that of no such node as is held.
pub fn is_not_given(nodes: &Nodes, held: Held) -> bool
{
    if held.number as usize >= nodes.len() {
        return true;
    }
    !is_held_node(held.sort, nodes.node(held.number))
}

/// Whether some number is that of no such node as is held.
pub fn any_not_given(nodes: &Nodes, held: &[Held]) -> bool
{
    held.iter().any(|held| is_not_given(nodes, *held))
}

/// The kind of the parameter of that number, of parameters that `Self` may come before.
pub fn parameter_kind(after_self: bool, parameters: &Parameters, number: u32) -> Option<VarKind>
{
    if !after_self {
        return parameters.kind(number as usize);
    }
    if number == 0 {
        return Some(VarKind::Ty);
    }
    parameters.kind(number as usize - 1)
}

/// Whether a parameter of the kind is misplaced, where the one of its number is of this kind, if there is one.
fn parameter_misplaced(what: Misplaced, asked: VarKind, kind: Option<VarKind>) -> bool
{
    match what {
        Misplaced::Past => kind.is_none(),
        Misplaced::Stray => match kind {
            Some(kind) => !asked.is_same(kind),
            None => false,
        },
    }
}

fn is_stray(what: Misplaced) -> bool
{
    matches!(what, Misplaced::Stray)
}

/// Whether it may not stand where these parameters are.
fn head_is_misplaced(head: Head, what: Misplaced, after_self: bool, parameters: &Parameters) -> bool
{
    match head {
        Head::Param(i) => {
            parameter_misplaced(what, VarKind::Ty, parameter_kind(after_self, parameters, i))
        }
        Head::Const(ConstHead::Param(i)) => {
            parameter_misplaced(
                what,
                VarKind::Const,
                parameter_kind(after_self, parameters, i),
            )
        }
        Head::Infer(_) | Head::Placeholder(_) => is_stray(what),
        Head::Const(ConstHead::Placeholder(_)) => is_stray(what),
        Head::Region(RegionKind::Placeholder(_)) | Head::Region(RegionKind::Var(_)) => {
            is_stray(what)
        }
        _ => false,
    }
}

/// Whether something stands in a number's tree that may not stand where these parameters are.
fn number_misplaces(
    nodes: &Nodes,
    number: u32,
    what: Misplaced,
    after_self: bool,
    parameters: &Parameters,
) -> bool
{
    let node = nodes.node(number);
    if head_is_misplaced(node.head(), what, after_self, parameters) {
        return true;
    }
    for i in 0..node.child_count() {
        if number_misplaces(nodes, node.child(i), what, after_self, parameters) {
            return true;
        }
    }
    false
}

fn definition_misplaces(
    nodes: &Nodes,
    number: u32,
    what: Misplaced,
    owner: Option<&Declaration>,
) -> bool
{
    match owner {
        Some(owner) => number_misplaces(nodes, number, what, owner.has_self(), &owner.parameters),
        None => false,
    }
}

fn impl_misplaces(nodes: &Nodes, number: u32, what: Misplaced, owner: Option<&Impl>) -> bool
{
    match owner {
        Some(owner) => number_misplaces(nodes, number, what, false, &owner.parameters),
        None => false,
    }
}

/// Whether something misplaced stands in what is held. What is of no owner misplaces nothing.
pub fn held_misplaces(
    nodes: &Nodes,
    definitions: &[Declaration],
    impls: &[Impl],
    what: Misplaced,
    held: Held,
) -> bool
{
    match held.owner {
        Owner::Definition(i) => definition_misplaces(nodes, held.number, what, at(definitions, i)),
        Owner::Impl(i) => impl_misplaces(nodes, held.number, what, at(impls, i)),
    }
}

/// Whether a bound variable stands in what is held that neither it nor its declaration binds.
pub fn held_escapes(nodes: &Nodes, held: Held) -> bool
{
    nodes.len(); // so that one more than a number is a number
    if held.under_binder {
        number_escapes(nodes, held.number, 1)
    } else {
        number_escapes(nodes, held.number, 0)
    }
}

/// Whether something misplaced stands in something held.
pub fn any_misplaces(
    nodes: &Nodes,
    definitions: &[Declaration],
    impls: &[Impl],
    what: Misplaced,
    held: &[Held],
) -> bool
{
    for held in held {
        if held_misplaces(nodes, definitions, impls, what, *held) {
            return true;
        }
    }
    false
}

/// Whether a bound variable stands in something held that neither it nor its declaration binds.
pub fn any_escapes(nodes: &Nodes, held: &[Held]) -> bool
{
    for held in held {
        if held_escapes(nodes, *held) {
            return true;
        }
    }
    false
}
