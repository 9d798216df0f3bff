// Made of `crates/ir_context/src/decl.rt` by `bench/plain.py`: an edit of this file is lost.

//! The context: declarations without a fault, what is looked up in them, and the types that are made over them.

use kit::{eprintln, format, prelude::*, print, println, vec};
pub mod context;
pub mod finished;
pub mod impls;
pub mod lookup;
pub mod make;
pub mod owned;
pub mod super_clause;
pub mod unify_count;

pub use context::Cx;
pub use finished::Decls;
pub use unify_count::UnifyCount;
