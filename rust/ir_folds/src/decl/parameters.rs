// Made of `crates/ir_folds/src/decl/parameters.rt` by `bench/plain.py`: an edit of this file is lost.

//! Whether each parameter has an argument of its kind: the condition of a substitution.


use kit::{eprintln, format, prelude::*, print, println, vec};
use ir_context::decl::context::Cx;
use ir_trees::ir::heads::{ConstHead, Head};
use ir_trees::ir::kinds::{Args, VarKind};
use ir_trees::ir::numbered::Numbered;
use ir_trees::ir::quiet::holds_param;
use ir_trees::ir::trees::Trees;

/// Whether the list has an argument of that number which is of the kind.
fn has_argument(cx: &Cx, args: Args, index: u32, kind: VarKind) -> bool
{
    let list = cx.args(args);
    if index as usize >= list.len() {
        return false;
    }
    list[index as usize].is_of(kind)
}

/// Whether it is a parameter of which the list has no argument of its kind.
fn head_lacks(cx: &Cx, args: Args, head: Head) -> bool
{
    match head {
        Head::Param(index) => !has_argument(cx, args, index, VarKind::Ty),
        Head::Const(ConstHead::Param(index)) => !has_argument(cx, args, index, VarKind::Const),
        _ => false,
    }
}

/// Whether a parameter stands in a number's tree of which the list has no argument of its kind.
fn number_lacks(cx: &Cx, number: u32, args: Args) -> bool
{
    if !holds_param(cx, number) {
        return false;
    }
    let node = cx.node(number);
    if head_lacks(cx, args, node.head()) {
        return true;
    }
    for i in 0..node.child_count() {
        if number_lacks(cx, node.child(i), args) {
            return true;
        }
    }
    false
}

/// Whether the list has an argument for each parameter in it, of its kind.
///
/// That is what `subst` asks. A tree is walked as a tree, up to the first parameter without one, and what has no
/// parameter isn't walked; no memory is taken.
pub fn has_arguments<N: Numbered>(cx: &Cx, of: N, args: Args) -> bool
{
    debug_assert!(ir_trees::checks::is_sorted(&*cx, args), "ir_folds::decl::parameters::has_arguments: `args` is {:?}, no number of its sort in this context", args);
    !number_lacks(cx, of.number(), args)
}
