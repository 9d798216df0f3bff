// Made of `crates/candidate_eval/src/structural.rt` by `bench/plain.py`: an edit of this file is lost.

//! The structural tables: the types that the builtin rules ask about, for each kind of type.

use kit::{eprintln, format, prelude::*, print, println, vec};
pub(crate) mod asked;
pub mod callable;
pub mod destruct;
pub(crate) mod making;
pub mod tables;

use ir_trees::decl::contents::Sizedness;
use ir_trees::ir::kinds::{Ty, Vars};

/// A column of the tables.
#[derive(Clone, Copy, Debug)]
pub enum Column {
    /// Auto traits.
    Auto,
    /// A sizedness trait.
    Sizedness(Sizedness),
    /// `Copy`, `Clone` and `TrivialClone`.
    CopyClone,
    Destruct,
}

/// Whether types stand under a binder.
#[derive(Clone, Copy, Debug)]
pub enum Under {
    NoBinder,
    Binder(Vars),
}

/// Types that a rule asks about, under one binder where they stand under one.
#[derive(Debug)]
pub struct Constituents {
    pub under: Under,
    pub types: Vec<Ty>,
}
