// Made of `crates/candidate_eval/src/eval/clauses.rt` by `bench/plain.py`: an edit of this file is lost.

//! What is read of clauses, and clauses that are made.


use kit::{eprintln, format, prelude::*, print, println, vec};
use crate::eval::context::EvalCtxt;
use crate::structural::making::first_type;
use ir_context::decl::Cx;
use ir_context::decl::make::Make;
use ir_folds::decl::subst::subst;
use ir_trees::ir::kinds::{
    Args, Binder, Clause, ClauseKind, Goal, ParamEnv, TraitPredicate, TraitRef, Ty, Vars,
};
use ir_trees::ir::numbered::Numbered;
use ir_trees::ir::stop::Stop;
use ir_trees::ir::trees::Trees;
use kit::alloc::Global;

/// What the clause says of a trait, that it holds or that it does not; `None` if it says something else. The reference is the one that
/// stands under the clause's binder.
pub fn predicate_in(cx: &Cx, clause: Clause) -> Option<TraitPredicate>
{
    debug_assert!(ir_trees::checks::is_sorted(&*cx, clause), "candidate_eval::eval::clauses::predicate_in: `clause` is {:?}, no number of its sort in this context", clause);
    cx.recall_well_formed();
    match cx.clause(clause).value {
        ClauseKind::Trait(predicate) => Some(predicate),
        ClauseKind::Projection(_)
        | ClauseKind::TypeOutlives(_, _)
        | ClauseKind::RegionOutlives(_, _)
        | ClauseKind::AliasRelate(_, _)
        | ClauseKind::ConstEquate(_, _) => None,
    }
}

/// The self type of the reference: the first of its arguments.
pub fn self_ty(cx: &Cx, trait_ref: TraitRef) -> Ty
{
    debug_assert!(ir_trees::checks::is_sorted(&*cx, trait_ref.args), "candidate_eval::eval::clauses::self_ty: `trait_ref.args` is {:?}, no number of its sort in this context", trait_ref.args);
    match first_type(cx.args(trait_ref.args)) {
        Some(ty) => ty,
        None => unreachable!(),
    }
}

/// The clauses as goals in the environment. The only stop is `Stop::Memory`, where the list can't grow.
pub fn goals(alloc: Global, env: ParamEnv, clauses: &[Clause]) -> Result<Vec<Goal<Clause>>, Stop>
{
    let mut list = Vec::new(alloc);
    for clause in clauses {
        list.push(Goal {
            param_env: env,
            predicate: *clause,
        })?;
    }
    Ok(list)
}

/// The clause that says the predicate, under a binder of these variables. It stops as `mk_clause` does.
pub fn trait_clause<E: EvalCtxt>(
    ecx: &mut E,
    vars: Vars,
    predicate: TraitPredicate,
) -> Result<Clause, Stop>
{
    ecx.mk_clause(Binder {
        vars,
        value: ClauseKind::Trait(predicate),
    })
}

/// What is given, with the arguments in the place of the parameters, by `subst`; it stops as that does. The state stays.
pub fn substitute<N: Numbered, E: EvalCtxt>(
    alloc: Global,
    ecx: &mut E,
    of: N,
    args: Args,
) -> Result<N, Stop>

    // Laws; those of lists follow from `list` alike.
{
    debug_assert!(ir_trees::checks::is_sorted(ir_context::decl::make::Make::cx(&*ecx), args), "candidate_eval::eval::clauses::substitute: `args` is {:?}, no number of its sort in this context", args);
    subst(alloc, ecx, of, args)
}
