// Made of `crates/ir_trees/src/decl.rt` by `bench/plain.py`: an edit of this file is lost.

//! Declarations as data: what each definition and impl has, heads of impls, limits and faults.

use kit::{eprintln, format, prelude::*, print, println, vec};
pub mod arity;
pub mod contents;
pub mod definition;
pub mod fault;
pub mod heads;
pub mod held;
pub mod limits;
pub mod misplaced;

pub use contents::{
    AliasBoundKind, AssocValue, Destructor, ImplId, ImplPolarity, LangItem, Sizedness,
};
pub use definition::{AdtFlags, AdtShape, AliasShape, AssocKind, CrateId, FnFlags, TraitFlags};
pub use fault::DeclFault;
pub use held::Owner;
pub use limits::Limits;
