// Made of `crates/overlaps/src/order.rt` by `bench/plain.py`: an edit of this file is lost.

//! Two impls in the order of their numbers.


use kit::{eprintln, format, prelude::*, print, println, vec};
use ir_trees::decl::contents::ImplId;

/// The two, the one of the lower number first; so they are the same whichever is given first.
pub(crate) fn in_order(first: ImplId, second: ImplId) -> (ImplId, ImplId)
{
    if second.0 < first.0 {
        (second, first)
    } else {
        (first, second)
    }
}
