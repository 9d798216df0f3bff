// Made of `crates/ir_trees/src/ir/quiet.rt` by `bench/plain.py`: an edit of this file is lost.

//! Whether a tree has what a walk or a fold looks for, by what is kept of it: if it has none, nothing is walked and nothing
//! made anew.


use kit::{eprintln, format, prelude::*, print, println, vec};
use crate::ir::heads::Flag;
use crate::ir::trees::Trees;

/// Whether a parameter stands in the tree of a number.
pub fn holds_param<T: Trees>(trees: &T, number: u32) -> bool
{
    trees.marks(number).has(Flag::Param)
}

/// Whether a variable that some binder binds stands there, be the binder in it or around it.
pub fn holds_bound<T: Trees>(trees: &T, number: u32) -> bool
{
    trees.marks(number).has_bound()
}

/// Whether a parameter or a bound variable stands there.
pub fn holds_param_or_bound<T: Trees>(trees: &T, number: u32) -> bool
{
    holds_param(trees, number) || holds_bound(trees, number)
}
