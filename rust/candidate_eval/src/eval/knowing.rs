// Made of `crates/candidate_eval/src/eval/knowing.rt` by `bench/plain.py`: an edit of this file is lost.

//! What an evaluator knows of the impls of a trait reference.


use kit::{eprintln, format, prelude::*, print, println, vec};
use crate::coherence::{Conflict, NormalizeErr, OrphanStop, knowable};
use crate::eval::context::EvalCtxt;
use crate::eval::refusal::NoSolutionOrStop;
use ir_trees::ir::kinds::{ParamEnv, TraitRef, Ty};
use ir_trees::ir::stop::Stop;
use kit::alloc::Global;

/// The evaluator's normal form of a type.
fn normal_form<E: EvalCtxt>(ecx: &mut E, env: ParamEnv, ty: Ty) -> Result<Ty, NormalizeErr<()>>
{
    match ecx.structurally_normalize_ty(env, ty) {
        Ok(ty) => Ok(ty),
        Err(NoSolutionOrStop::NoSolution) => Err(NormalizeErr::Failed(())),
        Err(NoSolutionOrStop::Stop(stop)) => Err(NormalizeErr::Stop(stop)),
    }
}

/// What may be known of the impls of a trait reference, where types are normalised as the evaluator
/// does in the environment.
///
/// `OrphanStop::Normalize` is a refused normal form. Where a parameter is met it stops with
/// `Unnameable`. After a stop of the evaluator nothing is said of its state.
pub fn is_knowable<E: EvalCtxt>(
    alloc: Global,
    ecx: &mut E,
    env: ParamEnv,
    trait_ref: TraitRef,
) -> Result<Result<(), Conflict>, OrphanStop<()>>
{
    debug_assert!(ir_trees::checks::is_sorted(ir_context::decl::make::Make::cx(&*ecx), env), "candidate_eval::eval::knowing::is_knowable: `env` is {:?}, no number of its sort in this context", env);
    debug_assert!(ir_trees::checks::is_sorted(ir_context::decl::make::Make::cx(&*ecx), trait_ref.args), "candidate_eval::eval::knowing::is_knowable: `trait_ref.args` is {:?}, no number of its sort in this context", trait_ref.args);
    let mut normalize = move |ecx: &mut E, ty: Ty| -> Result<Ty, NormalizeErr<()>>
    { normal_form(ecx, env, ty) };
    knowable(alloc, ecx, trait_ref, &mut normalize)
}
