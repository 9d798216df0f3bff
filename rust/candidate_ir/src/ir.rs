// Made of `crates/candidate_ir/src/ir.rt` by `bench/plain.py`: an edit of this file is lost.

//! Types, constants and regions: their kinds, the heads of their trees, and the table that holds them.

use kit::{eprintln, format, prelude::*, print, println, vec};
pub use ir_trees::ir::{
    at, classes, flags, heads, kinds, making, marks, node, nodes, numbered, quiet, rebuild, seed,
    stop, trees, unify, walked, walks,
};
