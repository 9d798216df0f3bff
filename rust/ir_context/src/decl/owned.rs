// Made of `crates/ir_context/src/decl/owned.rt` by `bench/plain.py`: an edit of this file is lost.

//! What a definition holds, where arguments are given for its parameters: each parameter has one of its kind.


use kit::{eprintln, format, prelude::*, print, println, vec};
use crate::decl::context::Cx;
use ir_trees::decl::contents::{AliasBoundKind, Impl, ImplId, Sizedness};
use ir_trees::ir::kinds::{
    AdtId, AliasId, AliasTy, Args, AssocId, Binder, Clause, FnId, FnSig, TraitRef, Ty,
};

impl Cx {
    /// The types of the fields of the data type, in order, whose parameters have these arguments. No variable stands in
    /// them.
    pub fn fields_of(&self, adt: AdtId, args: Args) -> &[Ty]
    {
        let _ = (args, self.contents.adts.len());
        self.recall_well_formed_table();
        self.fields(adt)
    }

    /// The type that has to be sized, in this sense, for the data type to be, whose parameters have these arguments.
    pub fn constraint_of(&self, adt: AdtId, args: Args, sizedness: Sizedness) -> Option<Ty>
    {
        let _ = (args, self.contents.adts.len());
        self.recall_well_formed_table();
        self.sizedness_constraint(adt, sizedness)
    }

    /// The type that the opaque type hides, whose parameters have these arguments. No variable stands in it.
    pub fn hidden_type_of(&self, opaque: AliasId, args: Args) -> Option<Ty>
    {
        let _ = args;
        self.recall_well_formed_table();
        self.hidden_type(opaque)
    }

    /// The impl as it was declared, whose parameters have these arguments. No variable stands in it.
    pub fn impl_of(&self, of: ImplId, args: Args) -> Option<&Impl>
    {
        let _ = args;
        self.recall_well_formed_table();
        self.impl_contents(of)
    }

    /// What the impl says that the associated type is, if it says so, whose parameters have these arguments. No variable stands in it,
    /// and no bound variable escapes from it.
    pub fn assoc_value(&self, of: ImplId, args: Args, assoc: AssocId) -> Option<Ty>
    {
        match self.impl_of(of, args) {
            Some(contents) => contents.value(assoc),
            None => None,
        }
    }

    /// The super clauses of the reference's trait, in order, whose parameters have the reference's arguments. No variable stands
    /// in them.
    pub fn super_clauses_of(&self, reference: TraitRef) -> &[Clause]
    {
        let _ = self.contents.traits.len();
        self.recall_well_formed_table();
        self.super_clauses(reference.def_id)
    }

    /// The where clauses of the reference's trait, likewise.
    pub fn trait_where_clauses_of(&self, reference: TraitRef) -> &[Clause]
    {
        let _ = self.contents.traits.len();
        self.recall_well_formed_table();
        self.trait_where_clauses(reference.def_id)
    }

    /// The bounds of the alias, its own or those of what it is a projection of, in order, whose parameters have the alias's
    /// arguments. No variable stands in them.
    pub fn bounds_of(&self, alias: AliasTy, kind: AliasBoundKind) -> &[Clause]
    {
        let _ = self.contents.bounds.len();
        self.recall_well_formed_table();
        match kind {
            AliasBoundKind::SelfBounds => self.self_bounds(alias.id),
            AliasBoundKind::NonSelfBounds => self.non_self_bounds(alias.id),
        }
    }

    /// The signature of the function, under its binder, whose parameters have these arguments.
    pub fn fn_sig_of(&self, function: FnId, args: Args) -> Option<Binder<FnSig>>
    {
        let _ = args;
        self.recall_well_formed_table();
        self.fn_sig(function)
    }
}
