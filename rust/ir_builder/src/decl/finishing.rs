// Made of `crates/ir_builder/src/decl/finishing.rt` by `bench/plain.py`: an edit of this file is lost.

//! What is wrong with all that was declared, and the end of declaring.


use kit::{eprintln, format, prelude::*, print, println, vec};
use crate::decl::builder::DeclsBuilder;
use crate::decl::cycles::has_supertrait_cycle;
use crate::decl::fault_places::DeclError;
use crate::decl::faults::{
    any_has_wrong_arity, any_has_wrong_value, any_impl_misnames, any_is_unknown,
    any_item_has_wrong_arity, any_item_misnames, any_lacks_tail, any_lacks_trait, any_unsizes_past,
};
use crate::decl::plain::all_are_plain;
use crate::decl::supers::any_has_wrong_super;
use ir_context::decl::finished::Decls;
use ir_trees::decl::arity::{any_names_unknown, impls_fit, nodes_fit};
use ir_trees::decl::fault::DeclFault;
use ir_trees::decl::heads::listed_impls;
use ir_trees::decl::held::{Held, all_held};
use ir_trees::decl::misplaced::{Misplaced, any_escapes, any_misplaces, any_not_given};

impl DeclsBuilder {
    fn declarations_misname(&self) -> bool
    {
        self.contents.misnamed
            || self.local.is_unknown(self.crates)
            || any_is_unknown(self.definitions.as_slice(), self.crates)
            || any_lacks_trait(self.definitions.as_slice())
    }

    fn contents_misname(&self) -> bool
    {
        let definitions = self.definitions.as_slice();
        any_impl_misnames(self.crates, definitions, self.contents.impls.as_slice())
            || any_item_misnames(definitions, &self.contents.lang_items)
    }

    fn has_unknown_id(&self, held: &[Held]) -> bool
    {
        self.declarations_misname()
            || self.contents_misname()
            || any_not_given(&self.nodes, held)
            || any_names_unknown(self.definitions.len(), &self.nodes)
    }

    /// Whether one look at what is held shows that nothing is misplaced there, and that no bound variable escapes.
    fn all_are_plain(&self, held: &[Held]) -> bool
    {
        let definitions = self.definitions.as_slice();
        let impls = self.contents.impls.as_slice();
        all_are_plain(&self.nodes, definitions, impls, held)
    }

    fn has_wrong_parameters(&self, held: &[Held], are_plain: bool) -> bool
    {
        let definitions = self.definitions.as_slice();
        let impls = self.contents.impls.as_slice();
        any_has_wrong_arity(definitions)
            || any_unsizes_past(definitions, &self.contents)
            || !are_plain && any_misplaces(&self.nodes, definitions, impls, Misplaced::Past, held)
    }

    fn arguments_fit(&self) -> bool
    {
        let definitions = self.definitions.as_slice();
        nodes_fit(definitions, &self.nodes)
            && impls_fit(definitions, &self.nodes, self.contents.impls.as_slice())
    }

    fn has_wrong_kind(&self, held: &[Held], are_plain: bool) -> bool
    {
        let definitions = self.definitions.as_slice();
        let impls = self.contents.impls.as_slice();
        !are_plain && any_misplaces(&self.nodes, definitions, impls, Misplaced::Stray, held)
            || !are_plain && any_escapes(&self.nodes, held)
            || any_has_wrong_super(&self.nodes, definitions, &self.contents)
            || any_has_wrong_value(definitions, impls)
    }

    /// The fault that a search for a supertrait cycle finds, or a refused growth.
    fn supertrait_fault(&self) -> Option<DeclFault>
    {
        let alloc = *self.definitions.allocator();
        let definitions = self.definitions.as_slice();
        match has_supertrait_cycle(alloc, &self.nodes, definitions, &self.contents) {
            Ok(true) => Some(DeclFault::SupertraitCycle),
            Ok(false) => None,
            Err(_) => Some(DeclFault::Memory),
        }
    }

    /// The fault with the lowest number, if there is one, or a refused growth.
    fn fault(&self, held: &[Held]) -> Option<DeclFault>
    {
        if self.has_unknown_id(held) {
            return Some(DeclFault::UnknownId);
        }
        let are_plain = self.all_are_plain(held);
        if self.has_wrong_parameters(held, are_plain) {
            return Some(DeclFault::WrongArity);
        }
        if !self.arguments_fit() {
            return Some(DeclFault::WrongArity);
        }
        if self.has_wrong_kind(held, are_plain) {
            return Some(DeclFault::WrongKind);
        }
        if let Some(fault) = self.supertrait_fault() {
            return Some(fault);
        }
        if any_lacks_tail(self.definitions.as_slice(), &self.contents) {
            return Some(DeclFault::NoTail);
        }
        if any_item_has_wrong_arity(self.definitions.as_slice(), &self.contents.lang_items) {
            return Some(DeclFault::LangArity);
        }
        if self.limits.is_bad() {
            return Some(DeclFault::BadLimit);
        }
        None
    }

    /// The declarations, if they have no fault; else the fault with the lowest number and whose content has it, or
    /// `DeclFault::Memory` where a growth was refused while they were looked at. The builder is spent in each case.
    ///
    /// Each node that was made counts, whether or not a declaration uses it: one that names a
    /// definition that was never given is `UnknownId`, and one whose arguments aren't those that its
    /// definition takes is `WrongArity`. A limit that is 0 is `BadLimit`, which comes after all others.
    pub fn finish(self) -> Result<Decls, DeclError>
    {
        let alloc = *self.definitions.allocator();
        let held = all_held(alloc, self.definitions.as_slice(), &self.contents)?;
        if let Some(fault) = self.fault(held.as_slice()) {
            return Err(self.error(fault, held.as_slice()));
        }
        let impl_lists = listed_impls(alloc, &self.nodes, &self.contents)?;
        let DeclsBuilder {
            crates,
            local,
            limits,
            definitions,
            contents,
            nodes,
        } = self;
        Ok(Decls {
            crates,
            local,
            limits,
            definitions,
            contents,
            nodes,
            impl_lists,
        })
    }
}
