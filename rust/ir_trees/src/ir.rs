// Made of `crates/ir_trees/src/ir.rt` by `bench/plain.py`: an edit of this file is lost.

//! Types, constants and regions: their kinds, the heads of their trees, and the table that holds them.

use kit::{eprintln, format, prelude::*, print, println, vec};
pub mod at;
pub mod classes;
pub mod flags;
pub mod heads;
pub mod kinds;
pub mod making;
pub mod marks;
pub mod node;
pub mod nodes;
pub mod numbered;
pub mod quiet;
pub mod rebuild;
pub mod seed;
pub mod stop;
pub mod trees;
pub mod unify;
pub mod walked;
pub mod walks;
