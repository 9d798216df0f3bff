// Made of `crates/ir_context/src/decl/finished.rt` by `bench/plain.py`: an edit of this file is lost.

//! Declarations that were found to be without a fault.

use kit::{eprintln, format, prelude::*, print, println, vec};
use kit::indexmap::IndexMap;
use ir_trees::decl::contents::{Contents, ImplId};
use ir_trees::decl::definition::{CrateId, Declaration};
use ir_trees::decl::heads::ImplList;
use ir_trees::decl::limits::Limits;
use ir_trees::ir::nodes::Nodes;
use kit::marker::Model;

/// Declarations without a fault.
#[derive(Debug)]
pub struct Decls {
    pub crates: u32,
    pub local: CrateId,
    pub limits: Limits,
    pub definitions: Vec<Declaration>,
    pub contents: Contents,
    pub nodes: Nodes,
    /// The impls of each trait, by what they are for.
    pub impl_lists: IndexMap<ImplList, Vec<(usize, ImplId)>>,
}

impl Model for Decls {




}
