// Made of `crates/ir_trees/src/ir/unify.rt` by `bench/plain.py`: an edit of this file is lost.

//! Quick rejection: whether two trees could be made equal, by their heads. A walk goes once into each pair of numbers that may be, but for
//! the first few: equal trees have one number, and may stand in many places. It notes these pairs as far as there is memory.


use kit::{eprintln, format, prelude::*, print, println, vec};
use crate::ir::heads::{Builtin, ConstHead, Flag, Head, VariableSort};
use crate::ir::trees::Trees;
use crate::ir::walked::Walked;

/// What stands on the right side of a comparison.
#[derive(Clone, Copy, Debug)]
pub enum RightSide {
    /// Types or constants as on the left: a parameter is itself alone.
    Plain,
    /// An impl header: any trees may stand in the place of its parameters.
    Header,
}

impl Head {
    /// Whether a tree with the head may be made equal to any other.
    pub(crate) fn meets_any(self) -> bool
    {
        match self {
            Head::Infer(var) => {
                matches!(var.sort, VariableSort::General | VariableSort::Constant)
            }
            Head::Alias(_, _) | Head::Bound(_) | Head::Error | Head::Region(_) => true,
            Head::Const(constant) => matches!(
                constant,
                ConstHead::Unevaluated(_) | ConstHead::Bound(_) | ConstHead::Error
            ),
            _ => false,
        }
    }

    /// Whether a tree with this head may be made equal to any other one, where it stands on that right side.
    pub(crate) fn meets_any_on_right(self, right: RightSide) -> bool
    {
        match right {
            RightSide::Plain => self.meets_any(),
            RightSide::Header => self.has(Flag::Param) || self.meets_any(),
        }
    }

    /// Whether it is a variable of that sort.
    pub(crate) fn is_variable_of(self, sort: VariableSort) -> bool
    {
        match self {
            Head::Infer(var) => var.sort == sort,
            _ => false,
        }
    }

    /// Whether an integer variable may have a value with the head.
    pub(crate) fn is_integer(self) -> bool
    {
        match self {
            Head::Builtin(builtin) => matches!(builtin, Builtin::Int(_) | Builtin::Uint(_)),
            Head::Infer(var) => matches!(var.sort, VariableSort::Integer),
            _ => false,
        }
    }

    /// Whether a floating-point variable may have a value with the head.
    pub(crate) fn is_float(self) -> bool
    {
        match self {
            Head::Builtin(builtin) => matches!(builtin, Builtin::Float(_)),
            Head::Infer(var) => matches!(var.sort, VariableSort::Floating),
            _ => false,
        }
    }

    /// Whether trees with these heads may be made equal, so far as the heads alone say it; else the
    /// heads are equal, and their children say it.
    fn may_unify(self, other: Head, right: RightSide) -> Option<bool>
    {
        if self.meets_any() || other.meets_any_on_right(right) {
            return Some(true);
        }
        if self.is_variable_of(VariableSort::Integer)
            || other.is_variable_of(VariableSort::Integer)
        {
            return Some(self.is_integer() && other.is_integer());
        }
        if self.is_variable_of(VariableSort::Floating)
            || other.is_variable_of(VariableSort::Floating)
        {
            return Some(self.is_float() && other.is_float());
        }
        if self.is_same(other) {
            None
        } else {
            Some(false)
        }
    }
}

/// Whether the trees of two numbers may be made equal, where those of each noted pair may: a pair that may is gone into once.
fn pair_may_unify<T: Trees>(
    trees: &T,
    walked: &mut Walked<(u32, u32)>,
    a: u32,
    b: u32,
    right: RightSide,
) -> bool
{
    if a == b {
        return true;
    }
    let first = trees.node(a);
    let second = trees.node(b);
    if let Some(said) = first.head().may_unify(second.head(), right) {
        return said;
    }
    let count = first.child_count();
    if count != second.child_count() {
        return false;
    }
    if walked.has((a, b)) {
        return true;
    }
    for i in 0..count {
        if !pair_may_unify(trees, walked, first.child(i), second.child(i), right) {
            return false;
        }
    }
    walked.note((a, b), count);
    true
}

/// Whether the trees of two numbers may be made equal. Each pair that may is gone into once, but for a few.
pub(crate) fn numbers_may_unify<T: Trees>(trees: &T, a: u32, b: u32, right: RightSide) -> bool
{
    let mut walked = Walked::new(trees.allocator());
    pair_may_unify(trees, &mut walked, a, b, right)
}
