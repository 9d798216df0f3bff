// Made of `crates/ir_context/src/decl/unify_count.rt` by `bench/plain.py`: an edit of this file is lost.

//! How often quick rejection was asked, for contracts alone.


use kit::{eprintln, format, prelude::*, print, println, vec};
use crate::decl::context::Cx;
use ir_trees::ir::kinds::Ty;
use ir_trees::ir::trees::Trees;
use ir_trees::ir::unify::RightSide;
use kit::marker::Model;

/// A number of tests. It takes no bytes: contracts alone see it.
#[derive(Debug)]
pub struct UnifyCount {
}

impl Model for UnifyCount {
}

impl UnifyCount {
    /// No test.
    pub fn new() -> UnifyCount
    {
        UnifyCount {}
    }

    /// One test more.
    fn one_more(_before: &UnifyCount) -> UnifyCount
    {
        UnifyCount {}
    }

    /// Whether the type may be equal to that of an impl header, by quick rejection.
    pub fn test(&mut self, cx: &Cx, ty: Ty, header: Ty) -> bool
    {
        debug_assert!(ir_trees::checks::is_sorted(&*cx, ty), "ir_context::decl::unify_count::UnifyCount::test: `ty` is {:?}, no number of its sort in this context", ty);
        debug_assert!(ir_trees::checks::is_sorted(&*cx, header), "ir_context::decl::unify_count::UnifyCount::test: `header` is {:?}, no number of its sort in this context", header);
        *self = UnifyCount::one_more(self);
        cx.may_unify(ty, header, RightSide::Header)
    }
}
