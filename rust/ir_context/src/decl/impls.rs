// Made of `crates/ir_context/src/decl/impls.rt` by `bench/plain.py`: an edit of this file is lost.

//! The impls of a trait that may apply to a type.


use kit::{eprintln, format, prelude::*, print, println, vec};
use crate::decl::context::Cx;
use crate::decl::unify_count::UnifyCount;
use ir_trees::decl::contents::ImplId;
use ir_trees::decl::heads::{impl_self_ty, join};
use ir_trees::ir::classes::ImplClass;
use ir_trees::ir::kinds::{TraitId, Ty, TyKind};
use ir_trees::ir::stop::Stop;
use ir_trees::ir::trees::Trees;
use kit::alloc::AllocError;

impl Cx {
    /// The type that the impl is for: the first of its header's arguments.
    fn impl_self_ty(&self, of: ImplId) -> Option<Ty>
    {
        impl_self_ty(&self.nodes, self.contents.impls.as_slice(), of)
    }

    /// Whether the impl may be for the type, by a test that is counted. One for no type is for none.
    fn is_relevant(&self, of: ImplId, self_ty: Ty, count: &mut UnifyCount) -> bool
    {
        match self.impl_self_ty(of) {
            Some(ty) => count.test(self, self_ty, ty),
            None => false,
        }
    }

    /// Those of the impls that may be for the type.
    fn relevant_among(
        &self,
        impls: &[ImplId],
        self_ty: Ty,
        count: &mut UnifyCount,
    ) -> Result<Vec<ImplId>, AllocError>
    {
        let mut relevant = Vec::with_capacity(*self.definitions.allocator(), impls.len())?;
        for place in 0..impls.len() {
            if self.is_relevant(impls[place], self_ty, count) {
                relevant.push_reserved(impls[place]);
            }
        }
        Ok(relevant)
    }

    /// The impls of the trait that are listed there, and those for open types, joined.
    fn listed_with_open(&self, of: TraitId, class: ImplClass) -> Result<Vec<ImplId>, AllocError>
    {
        let alloc = *self.definitions.allocator();
        join(
            alloc,
            self.listed(of, class),
            self.listed(of, ImplClass::Open),
        )
    }

    fn has_self_ty(&self, of: ImplId) -> bool
    {
        self.impl_self_ty(of).is_some()
    }

    fn is_blanket(&self, of: ImplId) -> bool
    {
        match self.impl_self_ty(of) {
            Some(ty) => matches!(self.kind(ty), TyKind::Param(_)),
            None => false,
        }
    }

    /// The impls of the trait that may be for the type, in the order of their declaration: those whose
    /// own type may be equal to it by quick rejection (`may_unify`), where it is that of an impl header.
    /// Also `default` impls are listed, and of what is no trait there are none.
    ///
    /// They are found by the type's head: each impl that is listed by it, and each for types with
    /// several heads, is tested once. Where the type may be equal to any, no impl is tested.
    ///
    /// The only error is `Stop::Memory`, where a growth was refused.
    pub fn for_each_relevant_impl(
        &self,
        trait_id: TraitId,
        self_ty: Ty,
        count: &mut UnifyCount,
    ) -> Result<Vec<ImplId>, Stop>
    {
        debug_assert!(ir_trees::checks::is_sorted(&*self, self_ty), "ir_context::decl::impls::Cx::for_each_relevant_impl: `self_ty` is {:?}, no number of its sort in this context", self_ty);
        match self.head(self_ty.0).sought() {
            Some(class) => {
                let listed = self.listed_with_open(trait_id, class)?;
                Ok(self.relevant_among(listed.as_slice(), self_ty, count)?)
            }
            None => {
                let impls = self.impls_of(trait_id).iter().copied();
                let all = impls.filter(|of| self.has_self_ty(*of));
                Ok(all.kit_collect(*self.definitions.allocator())?)
            }
        }
    }

    /// The impls of the trait for types with the head of this one, in the order of their declaration: those whose own type has that head, is
    /// a number of the kind that the type's variable is for, or is one that may be equal to types with several heads. Where the type may be
    /// equal to any, they are all that are for a type. Also `default` impls are listed, and of what is no trait there are none.
    ///
    /// The rule is that of rustc's simplified types. The only error is `Stop::Memory`, where a growth was refused.
    pub fn for_each_impl_of_head(&self, trait_id: TraitId, self_ty: Ty) -> Result<Vec<ImplId>, Stop>
    {
        debug_assert!(ir_trees::checks::is_sorted(&*self, self_ty), "ir_context::decl::impls::Cx::for_each_impl_of_head: `self_ty` is {:?}, no number of its sort in this context", self_ty);
        match self.head(self_ty.0).sought() {
            Some(class) => Ok(self.listed_with_open(trait_id, class)?),
            None => {
                let impls = self.impls_of(trait_id).iter().copied();
                let all = impls.filter(|of| self.has_self_ty(*of));
                Ok(all.kit_collect(*self.definitions.allocator())?)
            }
        }
    }

    /// The impls of the trait for any type, in the order of their declaration: those whose own type is
    /// a parameter. Also `default` impls are listed, and of what is no trait there are none.
    ///
    /// The only error is `Stop::Memory`, where a growth was refused.
    pub fn for_each_blanket_impl(&self, trait_id: TraitId) -> Result<Vec<ImplId>, Stop>
    {
        let impls = self.impls_of(trait_id).iter().copied();
        let blanket = impls.filter(|of| self.is_blanket(*of));
        Ok(blanket.kit_collect(*self.definitions.allocator())?)
    }
}
