// Made of `crates/candidate_rounds/src/rounds/normal_forms.rt` by `bench/plain.py`: an edit of this file is lost.

//! Normal forms.


use kit::{eprintln, format, prelude::*, print, println, vec};
use crate::rounds::Rounds;
use ir_trees::ir::kinds::{Ty, TyKind};
use ir_trees::ir::trees::Trees;

impl Rounds {
    /// A listed alias's type, or the type itself.
    pub(crate) fn listed_or_itself(&self, ty: Ty) -> Ty
    {
        let TyKind::Alias(_) = self.cx.kind(ty) else {
            return ty;
        };
        match self.listed(ty) {
            Some(listed) => listed,
            None => ty,
        }
    }
}
