// Made of `crates/ir_trees/src/ir/marks.rt` by `bench/plain.py`: an edit of this file is lost.

//! Whether something marked stands anywhere in a tree. A walk goes once into each number without it, but for the first few, as far as
//! there is memory to note them.


use kit::{eprintln, format, prelude::*, print, println, vec};
use crate::ir::heads::{Flag, Marks};
use crate::ir::node::Node;
use crate::ir::trees::Trees;
use crate::ir::walked::Walked;

/// What some heads have and others don't; no list's head has it.
pub trait Mark: Sized {
    // The heads that have it.

    /// Whether the head of the node has it.
    fn is_on(&self, node: &Node) -> bool
        ;

    /// Whether something that has it may stand in a tree of which these marks are kept: after a no nothing does.
    fn may_stand(&self, kept: Marks) -> bool
    {
        let _ = kept;
        true
    }

    // No list has it.
}

impl Mark for Flag {

    fn is_on(&self, node: &Node) -> bool {
        node.head().has(*self)
    }

    fn may_stand(&self, kept: Marks) -> bool {
        kept.has(*self)
    }

}

/// The mark of the variable of a number, which may be of any kind.
#[derive(Debug)]
pub(crate) struct VariableNumber(pub(crate) u32);

impl Mark for VariableNumber {

    fn is_on(&self, node: &Node) -> bool {
        node.head().is_number(self.0)
    }

    fn may_stand(&self, kept: Marks) -> bool {
        kept.has_infer()
    }

}

/// The mark of a type's or a constant's placeholder of a universe above that one.
#[derive(Debug)]
pub(crate) struct PlaceholderAbove(pub(crate) u32);

impl Mark for PlaceholderAbove {

    fn is_on(&self, node: &Node) -> bool {
        node.head().is_placeholder_above(self.0)
    }

    fn may_stand(&self, kept: Marks) -> bool {
        kept.has_placeholder()
    }

}

/// The mark of what an evaluator makes: a variable of any kind, or a placeholder of a universe above the root's.
#[derive(Debug)]
pub struct Made;

impl Mark for Made {

    fn is_on(&self, node: &Node) -> bool {
        node.head().is_made()
    }

    fn may_stand(&self, kept: Marks) -> bool {
        kept.has_infer() || kept.has_placeholder()
    }

}

/// The mark of a variable to be solved, of any kind.
#[derive(Debug)]
pub struct Unsolved;

impl Mark for Unsolved {

    fn is_on(&self, node: &Node) -> bool {
        match node.head().variable_number() {
            Some(_) => true,
            None => false,
        }
    }

    fn may_stand(&self, kept: Marks) -> bool {
        kept.has_infer()
    }

}

/// Whether a marked head stands in a number's tree, where none stands in those of the noted numbers: a number without one is gone into
/// once, but for a few.
pub fn number_holds<T: Trees, M: Mark>(
    trees: &T,
    walked: &mut Walked<u32>,
    number: u32,
    mark: &M,
) -> bool
{
    if !mark.may_stand(trees.marks(number)) {
        return false;
    }
    let node = trees.node(number);
    if mark.is_on(node) {
        return true;
    }
    if walked.has(number) {
        return false;
    }
    for i in 0..node.child_count() {
        if number_holds(trees, walked, node.child(i), mark) {
            return true;
        }
    }
    walked.note(number, node.child_count());
    false
}
