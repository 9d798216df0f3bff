// Made of `crates/ir_folds/src/decl/fold.rt` by `bench/plain.py`: an edit of this file is lost.

//! Folds by a closure.


use kit::{eprintln, format, prelude::*, print, println, vec};
use ir_context::decl::make::Make;
use ir_trees::ir::kinds::{GenericArg, Pred};
use ir_trees::ir::node::Node;
use ir_trees::ir::numbered::Numbered;
use ir_trees::ir::stop::Stop;
use ir_trees::ir::trees::Trees;
use kit::alloc::Global;

/// One call of the closure.
fn call<M, F>(
    make: &mut M,
    fold: &mut F,
    arg: GenericArg,
    binders: u32,
) -> Result<Option<GenericArg>, Stop>
where
    M: Make,
    F: FnMut(&mut M, GenericArg, u32) -> Result<Option<GenericArg>, Stop>,
{
    fold(make, arg, binders)
}

/// What the closure says of a number: of what is no type, constant or region it isn't asked.
fn answer_for<M, F>(
    make: &mut M,
    fold: &mut F,
    number: u32,
    binders: u32,
) -> Result<Option<u32>, Stop>
where
    M: Make,
    F: FnMut(&mut M, GenericArg, u32) -> Result<Option<GenericArg>, Stop>,
{
    let Some(arg) = make.cx().argument(number) else {
        return Ok(None);
    };
    match call(make, fold, arg, binders)? {
        Some(answer) => Ok(Some(answer.number())),
        None => Ok(None),
    }
}

/// Makes the node, where one call does.
fn add<M: Make>(make: &mut M, node: &Node) -> Result<u32, Stop>
{
    match node {
        Node::Ty(kind) => Ok(make.mk_ty(*kind)?.0),
        Node::Const(kind) => Ok(make.mk_const(*kind)?.0),
        Node::Args(list) => Ok(make.mk_args(list.as_slice())?.0),
        Node::Clauses(list) => Ok(make.mk_param_env(list.as_slice())?.0),
        Node::Clause(clause) => Ok(make.mk_clause(*clause)?.0),
        Node::Sig(sig) => Ok(make.mk_sig(*sig)?.0),
        Node::Region(_) | Node::Preds(_) | Node::Pred(_) | Node::Vars(_) | Node::Var(_) => {
            unreachable!()
        }
    }
}

/// Folds the children of a node of that number, or of a copy of it.
fn fold_children<M, F>(
    alloc: Global,
    make: &mut M,
    fold: &mut F,
    node: &Node,
    number: u32,
    binders: u32,
) -> Result<Vec<u32>, Stop>
where
    M: Make,
    F: FnMut(&mut M, GenericArg, u32) -> Result<Option<GenericArg>, Stop>,
{
    let more = node.head().binders();
    let mut children = Vec::new(alloc);
    for i in 0..node.child_count() {
        let child = fold_number(alloc, make, fold, node.child(i), binders + more)?;
        children.push(child)?;
    }
    Ok(children)
}

/// Folds the bounds of a list of that number.
fn fold_bounds<M, F>(
    alloc: Global,
    make: &mut M,
    fold: &mut F,
    list: &[Pred],
    number: u32,
    binders: u32,
) -> Result<u32, Stop>
where
    M: Make,
    F: FnMut(&mut M, GenericArg, u32) -> Result<Option<GenericArg>, Stop>,
{
    let mut bounds = Vec::new(alloc);
    for i in 0..list.len() {
        make.cx().recall_well_formed();
        let bound = make.cx().pred(list[i]);
        let node = Node::Pred(bound);
        let children = fold_children(alloc, make, fold, &node, list[i].0, binders)?;
        bounds.push(bound.with_children(children.as_slice()))?;
    }
    Ok(make.mk_preds(bounds.as_slice())?.0)
}

/// Folds what a number stands for, which is no single bound of a `dyn` type.
pub(crate) fn fold_number<M, F>(
    alloc: Global,
    make: &mut M,
    fold: &mut F,
    number: u32,
    binders: u32,
) -> Result<u32, Stop>
where
    M: Make,
    F: FnMut(&mut M, GenericArg, u32) -> Result<Option<GenericArg>, Stop>,
{
    if let Some(answer) = answer_for(make, fold, number, binders)? {
        return Ok(answer);
    }
    make.cx().recall_well_formed();
    let node = make.cx().node(number).copy(alloc)?;
    match &node {
        Node::Region(_) => Ok(number),
        Node::Var(_) => Ok(number),
        Node::Vars(_) => {
            make.cx().recall_variables_are_leaves();
            Ok(number)
        }
        Node::Preds(list) => fold_bounds(alloc, make, fold, list.as_slice(), number, binders),
        Node::Pred(_) => unreachable!(),
        _ => {
            let children = fold_children(alloc, make, fold, &node, number, binders)?;
            if node.has_children(children.as_slice()) {
                return Ok(number);
            }
            let rebuilt = node.rebuilt(alloc, children.as_slice())?;
            add(make, &rebuilt)
        }
    }
}

/// The type, constant, list or whatever else it is, with what the closure answers in the place of what it is asked about.
///
/// It is asked about each type, constant and region, from the top and in order, with the number of
/// binders passed: an answer, which has to be of the same kind, stands in the place of what it was
/// asked about; without one the fold goes on into the children. A stop of the closure is the fold's.
/// Else `Stop::Memory` comes where a growth was refused, and `Stop::NodesFull` where no numbers are
/// left or what came of a part of the tree would be higher than 1,024.
///
/// A tree is walked as a tree, below what isn't answered. After a stop the nodes that were made stay.
pub fn fold<N, M, F>(alloc: Global, make: &mut M, value: N, mut ask: F) -> Result<N, Stop>
where
    N: Numbered,
    M: Make,
    F: FnMut(&mut M, GenericArg, u32) -> Result<Option<GenericArg>, Stop>,

    // Where its calls keep all else of the maker, and where its answers are a function.
{
    let number = fold_number(alloc, make, &mut ask, value.number(), 0)?;
    Ok(value.with_number(number))
}
