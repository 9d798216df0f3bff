// Made of `crates/ir_context/src/decl/super_clause.rt` by `bench/plain.py`: an edit of this file is lost.

//! The super clauses of a trait, in the place of a reference to it.


use kit::{eprintln, format, prelude::*, print, println, vec};
use crate::decl::context::Cx;
use ir_trees::ir::kinds::{Clause, TraitRef};

impl Cx {
    /// All super clauses are of the context.
    pub fn recall_supers_fit(&self)
    {
        let _ = self.contents.traits.len();
        self.recall_well_formed_table();
    }

    /// A super clause of the trait of a reference is of the context, and each of its parameters has an argument there.
    fn recall_super_clause_fits(&self, trait_ref: TraitRef, place: usize)
    {
        let _ = self.contents.traits.len();
        self.recall_well_formed_table();
    }

    /// The super clause in that place of the trait of a reference: each of its parameters has an argument there.
    pub fn super_clause(&self, trait_ref: TraitRef, place: usize) -> Option<Clause>
    {
        self.recall_super_clause_fits(trait_ref, place);
        self.super_clauses(trait_ref.def_id).get(place).copied()
    }
}
