// Made of `crates/candidate_ir/src/decl.rt` by `bench/plain.py`: an edit of this file is lost.

//! Declarations: a builder that takes them, and the context that types are made in.

use kit::{eprintln, format, prelude::*, print, println, vec};
pub use ir_builder::decl::builder::DeclsBuilder;
pub use ir_builder::decl::fault_places::{DeclError, FaultPlace};
pub use ir_builder::decl::{builder, cycles, fault_places, faults, finishing, plain, supers};
pub use ir_context::decl::context::Cx;
pub use ir_context::decl::finished::Decls;
pub use ir_context::decl::unify_count::UnifyCount;
pub use ir_context::decl::{
    context, finished, impls, lookup, make, owned, super_clause, unify_count,
};
pub use ir_folds::decl::{answering, elaborate, fold, open, parameters, subst};
pub use ir_trees::decl::contents::{
    AliasBoundKind, AssocValue, Destructor, ImplId, ImplPolarity, LangItem, Sizedness,
};
pub use ir_trees::decl::definition::{
    AdtFlags, AdtShape, AliasShape, AssocKind, CrateId, FnFlags, TraitFlags,
};
pub use ir_trees::decl::fault::DeclFault;
pub use ir_trees::decl::held::Owner;
pub use ir_trees::decl::limits::Limits;
pub use ir_trees::decl::{arity, contents, definition, fault, heads, held, limits, misplaced};
