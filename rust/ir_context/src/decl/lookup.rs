// Made of `crates/ir_context/src/decl/lookup.rt` by `bench/plain.py`: an edit of this file is lost.

//! What is read of the declarations of a context: lists are lent. Of a number that isn't of the sort asked about there is
//! nothing.


use kit::{eprintln, format, prelude::*, print, println, vec};
use crate::decl::context::Cx;
use ir_trees::decl::contents::{
    AdtContents, Bounds, Destructor, Impl, ImplId, LangItem, Sizedness, TraitContents, adt_place,
    bounds_place, trait_place,
};
use ir_trees::decl::definition::{
    AdtFlags, AdtShape, AssocKind, DefinitionKind, FnFlags, TraitFlags,
};
use ir_trees::ir::at::at;
use ir_trees::ir::kinds::{
    AdtId, AliasId, AssocId, Binder, Clause, ClosureId, FnId, FnSig, TraitId, Ty, VarKind,
};
use kit::alloc::{AllocError, Global};

impl Cx {
    /// What the definition holds is there.
    fn recall_definition_given(&self, number: u32)
    {
        self.recall_well_formed_table();
    }

    fn recall_adt_given(&self, adt: AdtId)
    {
        let _ = self.contents.adts.len();
        self.recall_well_formed_table();
    }

    fn recall_trait_given(&self, of: TraitId)
    {
        let _ = self.contents.traits.len();
        self.recall_well_formed_table();
    }

    fn recall_bounds_given(&self, alias: AliasId)
    {
        let _ = self.contents.bounds.len();
        self.recall_well_formed_table();
    }

    fn recall_impl_given(&self, of: ImplId)
    {
        self.recall_well_formed_table();
    }

    fn definition(&self, number: u32) -> Option<DefinitionKind>
    {
        self.recall_definition_given(number);
        match at(self.definitions.as_slice(), number as usize) {
            Some(definition) => Some(definition.kind()),
            None => None,
        }
    }

    /// What the data type was declared as.
    pub fn adt_shape(&self, adt: AdtId) -> Option<AdtShape>
    {
        match self.definition(adt.0) {
            Some(DefinitionKind::Adt(shape, _, _)) => Some(shape),
            _ => None,
        }
    }

    /// The flags of the data type.
    pub fn adt_flags(&self, adt: AdtId) -> Option<AdtFlags>
    {
        match self.definition(adt.0) {
            Some(DefinitionKind::Adt(_, flags, _)) => Some(flags),
            _ => None,
        }
    }

    /// The flags of the trait.
    pub fn trait_flags(&self, of: TraitId) -> Option<TraitFlags>
    {
        match self.definition(of.0) {
            Some(DefinitionKind::Trait(flags, _)) => Some(flags),
            _ => None,
        }
    }

    /// The trait of the associated item.
    pub fn assoc_trait(&self, assoc: AssocId) -> Option<TraitId>
    {
        match self.definition(assoc.0) {
            Some(DefinitionKind::Assoc(of, _, _, _)) => Some(of),
            _ => None,
        }
    }

    /// What the associated item is.
    pub fn assoc_kind(&self, assoc: AssocId) -> Option<AssocKind>
    {
        match self.definition(assoc.0) {
            Some(DefinitionKind::Assoc(_, kind, _, _)) => Some(kind),
            _ => None,
        }
    }

    /// Whether the associated item requires that `Self` is sized.
    pub fn requires_sized_self(&self, assoc: AssocId) -> bool
    {
        match self.definition(assoc.0) {
            Some(DefinitionKind::Assoc(_, _, sized, _)) => sized,
            _ => false,
        }
    }

    /// The type that the opaque type hides.
    pub fn hidden_type(&self, opaque: AliasId) -> Option<Ty>
    {
        match self.definition(opaque.0) {
            Some(DefinitionKind::Opaque(hidden, _)) => Some(hidden),
            _ => None,
        }
    }

    /// The flags of the function.
    pub fn fn_flags(&self, function: FnId) -> Option<FnFlags>
    {
        match self.definition(function.0) {
            Some(DefinitionKind::Function(flags, _)) => Some(flags),
            _ => None,
        }
    }

    /// The signature of the function, under its binder.
    pub fn fn_sig(&self, function: FnId) -> Option<Binder<FnSig>>
    {
        match self.definition(function.0) {
            Some(DefinitionKind::Function(_, sig)) => Some(sig),
            _ => None,
        }
    }

    /// Whether the closure can be called where a constant is computed.
    pub fn closure_is_const(&self, closure: ClosureId) -> bool
    {
        match self.definition(closure.0) {
            Some(DefinitionKind::Closure(is_const)) => is_const,
            _ => false,
        }
    }

    fn adt(&self, adt: AdtId) -> Option<&AdtContents>
    {
        self.recall_adt_given(adt);
        let place = adt_place(self.definitions.as_slice(), adt);
        at(self.contents.adts.as_slice(), place)
    }

    fn trait_contents(&self, of: TraitId) -> Option<&TraitContents>
    {
        self.recall_trait_given(of);
        let place = trait_place(self.definitions.as_slice(), of);
        at(self.contents.traits.as_slice(), place)
    }

    fn bounds(&self, alias: AliasId) -> Option<&Bounds>
    {
        self.recall_bounds_given(alias);
        let place = bounds_place(self.definitions.as_slice(), alias);
        at(self.contents.bounds.as_slice(), place)
    }

    /// The impl as it was declared: its header, what it says of its trait, and its clauses, each list in order.
    pub fn impl_contents(&self, of: ImplId) -> Option<&Impl>
    {
        self.recall_impl_given(of);
        at(self.contents.impls.as_slice(), of.0 as usize)
    }

    /// The kinds of the impl's parameters, in order. The only error is a refused growth.
    pub fn impl_parameters(&self, alloc: Global, of: ImplId) -> Result<Vec<VarKind>, AllocError>
    {
        match self.impl_contents(of) {
            Some(contents) => contents.parameters.kinds(alloc),
            None => Ok(Vec::new(alloc)),
        }
    }

    /// The types of the fields of the data type, in order.
    pub fn fields(&self, adt: AdtId) -> &[Ty]
    {
        match self.adt(adt) {
            Some(contents) => contents.fields.as_slice(),
            None => &[],
        }
    }

    /// The type that has to be sized, in this sense, for the data type to be, if one was said.
    pub fn sizedness_constraint(&self, adt: AdtId, sizedness: Sizedness) -> Option<Ty>
    {
        match self.adt(adt) {
            Some(contents) => match sizedness {
                Sizedness::Sized => contents.sized,
                Sizedness::MetaSized => contents.meta_sized,
            },
            None => None,
        }
    }

    /// The destructor of the data type, if it has one of its own.
    pub fn destructor(&self, adt: AdtId) -> Option<Destructor>
    {
        match self.adt(adt) {
            Some(contents) => contents.destructor,
            None => None,
        }
    }

    /// The numbers of the parameters that change where the data type is unsized, as they were said.
    pub fn unsizing_parameters(&self, adt: AdtId) -> &[u32]
    {
        match self.adt(adt) {
            Some(contents) => contents.unsizing.as_slice(),
            None => &[],
        }
    }

    /// The super clauses of the trait, in order.
    pub fn super_clauses(&self, of: TraitId) -> &[Clause]
    {
        match self.trait_contents(of) {
            Some(contents) => contents.supers.as_slice(),
            None => &[],
        }
    }

    /// The where clauses of the trait, in order.
    pub fn trait_where_clauses(&self, of: TraitId) -> &[Clause]
    {
        match self.trait_contents(of) {
            Some(contents) => contents.wheres.as_slice(),
            None => &[],
        }
    }

    /// The associated items of the trait, in the order of their declaration.
    pub fn associated_items(&self, of: TraitId) -> &[AssocId]
    {
        match self.trait_contents(of) {
            Some(contents) => contents.items.as_slice(),
            None => &[],
        }
    }

    /// The impls of the trait, in the order of their declaration.
    pub fn impls_of(&self, of: TraitId) -> &[ImplId]
    {
        match self.trait_contents(of) {
            Some(contents) => contents.impls.as_slice(),
            None => &[],
        }
    }

    /// The bounds of the associated type or opaque type itself, in order.
    pub fn self_bounds(&self, alias: AliasId) -> &[Clause]
    {
        match self.bounds(alias) {
            Some(contents) => contents.self_bounds.as_slice(),
            None => &[],
        }
    }

    /// The bounds of the alias that it is a projection of, in order.
    pub fn non_self_bounds(&self, alias: AliasId) -> &[Clause]
    {
        match self.bounds(alias) {
            Some(contents) => contents.non_self_bounds.as_slice(),
            None => &[],
        }
    }

    /// The trait that is the lang item, if one is.
    pub fn lang_item(&self, item: LangItem) -> Option<TraitId>
    {
        self.contents.lang_items[item.number()]
    }
}
