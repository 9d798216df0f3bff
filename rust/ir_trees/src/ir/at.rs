// Made of `crates/ir_trees/src/ir/at.rt` by `bench/plain.py`: an edit of this file is lost.

//! An element of a list by its place.


use kit::{eprintln, format, prelude::*, print, println, vec};
/// The element in that place, if there is one: `get`, with the one clause that the contracts of this crate ask for.
#[inline(always)]
pub fn at<T>(list: &[T], place: usize) -> Option<&T>
{
    list.get(place)
}
