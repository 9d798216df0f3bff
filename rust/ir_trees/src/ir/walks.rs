// Made of `crates/ir_trees/src/ir/walks.rt` by `bench/plain.py`: an edit of this file is lost.

//! Walks over the trees of numbers: whether a bound variable escapes, and what a number is among the children of another.


use kit::{eprintln, format, prelude::*, print, println, vec};
use crate::ir::quiet::holds_bound;
use crate::ir::trees::Trees;
use crate::ir::walked::Walked;

/// Whether a bound variable stands in the tree that neither one of the binders in it binds nor one of the binders passed, which are so
/// many, where none does in those of the noted numbers, with so many passed: a number without one is gone into once, but for a few.
fn escapes_unless_walked<T: Trees>(
    trees: &T,
    walked: &mut Walked<(u32, u32)>,
    number: u32,
    passed: u32,
) -> bool
{
    if !holds_bound(trees, number) {
        return false;
    }
    let node = trees.node(number);
    let head = node.head();
    if head.is_bound_beyond(passed) {
        return true;
    }
    if walked.has((number, passed)) {
        return false;
    }
    let more = head.binders();
    for i in 0..node.child_count() {
        if escapes_unless_walked(trees, walked, node.child(i), passed + more) {
            return true;
        }
    }
    walked.note((number, passed), node.child_count());
    false
}

/// Whether a bound variable stands in the tree that neither one of the binders in it binds nor one of the binders
/// passed, which are so many.
pub(crate) fn number_escapes<T: Trees>(trees: &T, number: u32, passed: u32) -> bool
{
    let mut walked = Walked::new(trees.allocator());
    escapes_unless_walked(trees, &mut walked, number, passed)
}

/// How many trees a number is among the children of another: a list is its members, all else is one.
pub(crate) fn width<T: Trees>(trees: &T, number: u32) -> usize
{
    let node = trees.node(number);
    if node.is_list() {
        node.child_count()
    } else {
        1
    }
}

/// The number of that place among those that a number is.
pub fn part<T: Trees>(trees: &T, number: u32, place: usize) -> u32
{
    let node = trees.node(number);
    if node.is_list() {
        node.child(place)
    } else {
        number
    }
}
