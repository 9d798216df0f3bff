// Made of `crates/candidate_assembly/src/trait_goals/builtin.rt` by `bench/plain.py`: an edit of this file is lost.

//! Side conditions of the rules that the language has for some traits.


use kit::{eprintln, format, prelude::*, print, println, vec};
use candidate_eval::eval::clauses::self_ty;
use ir_context::decl::Cx;
use ir_trees::ir::heads::{Builtin, Head};
use ir_trees::ir::kinds::{PredicatePolarity, TraitPredicate};
use ir_trees::ir::trees::Trees;

pub(crate) fn is_positive(polarity: PredicatePolarity) -> bool
{
    matches!(polarity, PredicatePolarity::Positive)
}

/// The head of the type that the predicate is about.
pub(crate) fn self_head(cx: &Cx, predicate: TraitPredicate) -> Head
{
    cx.head(self_ty(cx, predicate.trait_ref).0)
}

pub(crate) fn is_tuple(head: Head) -> bool
{
    matches!(head, Head::Builtin(Builtin::Tuple))
}

fn is_fn_ptr(head: Head) -> bool
{
    matches!(head, Head::Builtin(Builtin::FnPtr(_)))
}

fn is_known_rigid(head: Head) -> bool
{
    !matches!(
        head,
        Head::Alias(_, _)
            | Head::Param(_)
            | Head::Placeholder(_)
            | Head::Bound(_)
            | Head::Infer(_)
            | Head::Error
    )
}

/// Whether a type with the head is a function pointer; for a negative goal, whether it surely is none.
pub(crate) fn fn_ptr_holds(polarity: PredicatePolarity, head: Head) -> bool
{
    match polarity {
        PredicatePolarity::Positive => is_fn_ptr(head),
        PredicatePolarity::Negative => is_known_rigid(head) && !is_fn_ptr(head),
    }
}
