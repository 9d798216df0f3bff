// Made of `crates/derivations/src/lib.rt` by `bench/plain.py`: an edit of this file is lost.

//! Derivations of goals, as data. The definitions are in `specs`; the functions do nothing but say laws of them.


use kit::{eprintln, format, prelude::*, print, println, vec};
/// Goals that are equal share derivations, each allowed instance of what is derived is, and what a table grants of which each Yes is derived. Where
/// what is declared is ordinary no object's own clause is assumed; and it is ordinary where it asks plainly.
pub fn derivations_keep<W>()
{}
