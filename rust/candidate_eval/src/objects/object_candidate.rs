// Made of `crates/candidate_eval/src/objects/object_candidate.rt` by `bench/plain.py`: an edit of this file is lost.

//! What an object candidate asks for, besides that its trait reference fits.


use kit::{eprintln, format, prelude::*, print, println, vec};
use crate::eval::binders::instantiate_clause_with_infer;
use crate::eval::clauses::{goals, predicate_in, self_ty, trait_clause};
use crate::eval::context::EvalCtxt;
use crate::objects::object::AmbiguousOrStop;
use crate::objects::replacing::replaced;
use crate::objects::required::{own_bounds, requirements};
use ir_context::decl::make::Make;
use ir_trees::ir::kinds::{
    Binder, Clause, Goal, ParamEnv, PredicatePolarity, Preds, TraitPredicate, TraitRef, Ty,
};
use ir_trees::ir::stop::Stop;
use kit::alloc::Global;

/// The reference with fresh variables in the place of those of its binder.
fn instance<E: EvalCtxt>(
    alloc: Global,
    ecx: &mut E,
    trait_ref: Binder<TraitRef>,
) -> Result<TraitRef, Stop>
{
    let predicate = TraitPredicate {
        trait_ref: trait_ref.value,
        polarity: PredicatePolarity::Positive,
    };
    let clause = trait_clause(ecx, trait_ref.vars, predicate)?;
    let instance = instantiate_clause_with_infer(alloc, ecx, clause)?;
    match predicate_in(ecx.cx(), instance) {
        Some(predicate) => Ok(predicate.trait_ref),
        None => unreachable!(),
    }
}

/// The object's type, what its own bounds say of it, and what an object of its trait has to fulfil.
#[derive(Debug)]
struct Prepared {
    object: Ty,
    bounds: Vec<Clause>,
    required: Vec<Clause>,
}

/// All this of a reference, of which the binder is instantiated with fresh variables.
fn prepare<E: EvalCtxt>(
    alloc: Global,
    ecx: &mut E,
    trait_ref: Binder<TraitRef>,
    object_bounds: Preds,
) -> Result<Prepared, Stop>
{
    ecx.cx().recall_well_formed_table();
    let reference = instance(alloc, ecx, trait_ref)?;
    let object = self_ty(ecx.cx(), reference);
    let bounds = own_bounds(alloc, ecx, object, object_bounds)?;
    let required = requirements(alloc, ecx, reference)?;
    ecx.cx().recall_well_formed();
    Ok(Prepared {
        object,
        bounds,
        required,
    })
}

/// What an object candidate asks for, besides that its trait reference fits: what an object of the trait has to fulfil, in order,
/// as goals in the environment.
///
/// The reference's binder is instantiated with fresh variables. Required are the elaboration of the trait's super clauses and then
/// the bounds of its associated types, but of those that require `Self: Sized` (`requirements`). In these each projection whose
/// self type is the object's is replaced, where the object's type has a bound about the same associated type: by the term of the
/// only such bound that matches it, of which an instance is equated with the projection (`pick_bound`). The goals that these
/// equations leave are pending then, before the goals that are answered.
///
/// `Ambiguous` comes where none or two or more of the bounds match a projection, or where the equation of the only one is refused.
/// `Stop::Memory` comes where a growth was refused; other stops are the evaluator's, and those of making nodes. After an error
/// variables that were made and equations that were made before stay.
pub fn predicates_for_object_candidate<E: EvalCtxt>(
    alloc: Global,
    ecx: &mut E,
    env: ParamEnv,
    trait_ref: Binder<TraitRef>,
    object_bounds: Preds,
) -> Result<Vec<Goal<Clause>>, AmbiguousOrStop>
{
    debug_assert!(ir_trees::checks::is_sorted(ir_context::decl::make::Make::cx(&*ecx), env), "candidate_eval::objects::object_candidate::predicates_for_object_candidate: `env` is {:?}, no number of its sort in this context", env);
    let prepared = prepare(alloc, ecx, trait_ref, object_bounds)?;
    let (bounds, required) = (prepared.bounds.as_slice(), prepared.required.as_slice());
    let clauses = replaced(alloc, ecx, env, prepared.object, bounds, required)?;
    Ok(goals(alloc, env, clauses.as_slice())?)
}
