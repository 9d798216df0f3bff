// Made of `crates/candidate_rounds/src/rounds/given.rt` by `bench/plain.py`: an edit of this file is lost.

//! What an evaluator may be given, by tests.


use kit::{eprintln, format, prelude::*, print, println, vec};
use crate::rounds::values::is_alias;
use ir_context::decl::context::Cx;
use ir_trees::ir::heads::Flag;
use ir_trees::ir::kinds::{AliasKind, AliasTy, GenericArg, Ty};
use ir_trees::ir::marks::{Made, Unsolved};
use ir_trees::ir::trees::Trees;

/// Whether the type means the same at every state, and has no error.
fn is_fixed(cx: &Cx, ty: Ty) -> bool
{
    !cx.has_escaping_bound_vars(ty)
        && (!cx.has_marked(ty, &Made) && (!cx.has(ty, Flag::Param) && !cx.has(ty, Flag::Error)))
}

/// Whether the alias may be listed with that type: no bound variable escapes from either, neither has a variable, a parameter, an
/// error or a placeholder of a universe above the root's, and the type has no alias. By an error every trait would hold of the type.
pub fn may_be_listed(cx: &Cx, alias: Ty, ty: Ty) -> bool
{
    debug_assert!(ir_trees::checks::is_sorted(&*cx, alias), "candidate_rounds::rounds::given::may_be_listed: `alias` is {:?}, no number of its sort in this context", alias);
    debug_assert!(ir_trees::checks::is_sorted(&*cx, ty), "candidate_rounds::rounds::given::may_be_listed: `ty` is {:?}, no number of its sort in this context", ty);
    is_fixed(cx, alias)
        && (is_fixed(cx, ty) && (!cx.has(ty, Flag::Alias) && is_alias(cx, GenericArg::Ty(alias))))
}

/// Whether the alias may be hidden behind a variable: it is an opaque type, no bound variable escapes from it, and it has no
/// variable and no parameter.
pub fn may_be_hidden(cx: &Cx, opaque: AliasTy) -> bool
{
    debug_assert!(ir_trees::checks::is_sorted(&*cx, opaque.args), "candidate_rounds::rounds::given::may_be_hidden: `opaque.args` is {:?}, no number of its sort in this context", opaque.args);
    match opaque.kind {
        AliasKind::Opaque => {
            !cx.has_escaping_bound_vars(opaque.args)
                && (!cx.has_marked(opaque.args, &Unsolved) && !cx.has(opaque.args, Flag::Param))
        }
        AliasKind::Projection | AliasKind::Inherent | AliasKind::Free => false,
    }
}
