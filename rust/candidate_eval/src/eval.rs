// Made of `crates/candidate_eval/src/eval.rt` by `bench/plain.py`: an edit of this file is lost.

//! What the layers above know of an evaluator.

use kit::{eprintln, format, prelude::*, print, println, vec};
pub mod ambiguity;
pub mod binders;
pub mod certainty;
pub mod clauses;
pub mod context;
pub mod knowing;
pub mod mode;
pub mod refusal;
pub mod resolving;
pub mod response;
pub mod source;
pub mod variable;


use ir_context::decl::Cx;
use ir_context::decl::make::Make;
use ir_trees::ir::kinds::Ty;

/// A context whose variables may have values.
pub trait InferCtxtLike: Make {
    // The type of what is seen of it.

    // What is seen of it: what it answers, and what a normaliser may answer by.

    // The tree with the value in place of a variable that is its root.

    /// The type with the value in place of a variable at its root; another type is its own answer.
    fn shallow_resolve(&self, ty: Ty) -> Ty
        ;

    // A tree whose root is no variable stays.
}

/// A context in which no variable has a value. All of it is seen.
impl InferCtxtLike for Cx {




    fn shallow_resolve(&self, ty: Ty) -> Ty {
        ty
    }
}
