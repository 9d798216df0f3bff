// Made of `crates/candidate_assembly/src/trait_goals/unsizing.rt` by `bench/plain.py`: an edit of this file is lost.

//! Unsizing: how a value of one type becomes one of another whose size is known at run time alone.


use kit::{eprintln, format, prelude::*, print, println, vec};
use crate::assembly::steps::{nest_and_respond, with_head_usages};
use candidate_eval::eval::certainty::Certainty;
use candidate_eval::eval::clauses::self_ty;
use candidate_eval::eval::context::{EvalCtxt, ProbeKind};
use candidate_eval::eval::refusal::NoSolutionOrStop;
use candidate_eval::eval::response::Candidate;
use candidate_eval::eval::source::{BuiltinImplSource, CandidateSource};
use ir_context::decl::Cx;
use ir_context::decl::make::{Build, Make};
use ir_folds::decl::subst::subst;
use ir_trees::ir::kinds::{
    AdtId, Args, Binder, Clause, ClauseKind, GenericArg, GoalSource, ParamEnv, PredicatePolarity,
    TraitId, TraitPredicate, TraitRef, Ty, TyKind,
};
use ir_trees::ir::stop::Stop;
use ir_trees::ir::trees::Trees;
use kit::alloc::{AllocError, Global};

/// The candidate where two types are the same and the clauses hold. It is called in a probe.
fn try_equal<E: EvalCtxt>(
    alloc: Global,
    ecx: &mut E,
    env: ParamEnv,
    left: Ty,
    right: Ty,
    nested: &[Clause],
) -> Result<Candidate, NoSolutionOrStop>
{
    ecx.eq(env, GenericArg::Ty(left), GenericArg::Ty(right))?;
    let source = CandidateSource::BuiltinImpl(BuiltinImplSource::Misc);
    let nested_source = GoalSource::ImplWhereBound;
    nest_and_respond(
        alloc,
        ecx,
        env,
        nested_source,
        nested,
        source,
        Certainty::Yes,
    )
}

/// The candidate where two types are the same and the clauses hold, in a probe.
fn consider_equal<E: EvalCtxt>(
    alloc: Global,
    ecx: &mut E,
    env: ParamEnv,
    left: Ty,
    right: Ty,
    nested: &[Clause],
) -> Result<Candidate, NoSolutionOrStop>
{
    let probe = ecx.begin_probe(ProbeKind::Kept)?;
    let answer = try_equal(alloc, ecx, env, left, right, nested);
    let usages = ecx.end_probe(probe);
    with_head_usages(answer, usages)
}

/// The type of the elements of an array or a slice.
fn element(cx: &Cx, ty: Ty) -> Ty
{
    match cx.kind(ty) {
        TyKind::Array(element, _) | TyKind::Slice(element) => element,
        _ => unreachable!(),
    }
}

/// The goal's self type, an array, unsizes to the target, a slice in normal form: they have the same elements.
///
/// The state is left alike the one before. `NoSolution` comes where the elements can't be equated, and where the evaluator refuses; the stops
/// are the evaluator's.
pub(crate) fn unsize_array<E: EvalCtxt>(
    alloc: Global,
    ecx: &mut E,
    env: ParamEnv,
    predicate: TraitPredicate,
    target: Ty,
) -> Result<Candidate, NoSolutionOrStop>
{
    let ty = self_ty(ecx.cx(), predicate.trait_ref);
    let left = element(ecx.cx(), ty);
    let right = element(ecx.cx(), target);
    consider_equal(alloc, ecx, env, left, right, &[])
}

/// That the one type unsizes to the other, as a clause under an empty binder. `Stop::Memory` comes where a growth was refused,
/// `Stop::NodesFull` where a node was not made.
fn unsizes<M: Make>(make: &mut M, unsize: TraitId, from: Ty, to: Ty) -> Result<Clause, Stop>
{
    let args = make.mk_args(&[GenericArg::Ty(from), GenericArg::Ty(to)])?;
    let vars = make.mk_vars(&[])?;
    make.mk_clause(Binder {
        vars,
        value: ClauseKind::Trait(TraitPredicate {
            trait_ref: TraitRef {
                def_id: unsize,
                args,
            },
            polarity: PredicatePolarity::Positive,
        }),
    })
}

/// The type of the last field of the structure, as it is declared.
fn last_field(cx: &Cx, adt: AdtId, args: Args) -> Option<Ty>
{
    match cx.fields_of(adt, args) {
        [.., last] => Some(*last),
        [] => None,
    }
}

/// The type of the last field of the structure with these arguments; an error, where there is no field. `Stop::Memory` comes where a
/// growth was refused, `Stop::NodesFull` where a node was not made.
fn tail<M: Make>(alloc: Global, make: &mut M, adt: AdtId, args: Args) -> Result<Ty, Stop>
{
    match last_field(make.cx(), adt, args) {
        Some(ty) => subst(alloc, make, ty, args),
        None => make.mk_ty(TyKind::Error),
    }
}

/// That the last field of the structure with the one list of arguments unsizes to that with the other, as a clause under an empty binder.
/// It stops as `tail` and `unsizes` do.
fn tails_unsize<M: Make>(
    alloc: Global,
    make: &mut M,
    unsize: TraitId,
    adt: AdtId,
    from: Args,
    to: Args,
) -> Result<Clause, Stop>
{
    let left = tail(alloc, make, adt, from)?;
    let right = tail(alloc, make, adt, to)?;
    unsizes(make, unsize, left, right)
}

fn is_listed(numbers: &[u32], number: usize) -> bool
{
    numbers.iter().any(|listed| *listed as usize == number)
}

/// The first arguments, with those of these numbers from the second.
fn mixed_list(
    alloc: Global,
    changed: &[u32],
    first: &[GenericArg],
    second: &[GenericArg],
) -> Result<Vec<GenericArg>, AllocError>
{
    let mut list = Vec::new(alloc);
    for i in 0..first.len() {
        let arg = if is_listed(changed, i) {
            second[i]
        } else {
            first[i]
        };
        list.push(arg)?;
    }
    Ok(list)
}

/// The structure with the first arguments, but for the parameters that unsizing may change: their arguments are from the second.
/// `Stop::Memory` comes where a growth was refused, `Stop::NodesFull` where a node was not made.
fn mixed_type<M: Make>(
    alloc: Global,
    make: &mut M,
    adt: AdtId,
    first: Args,
    second: Args,
) -> Result<Ty, Stop>
{
    let cx = make.cx();
    let changed = cx.unsizing_parameters(adt);
    let list = mixed_list(alloc, changed, cx.args(first), cx.args(second))?;
    let args = make.mk_args(list.as_slice())?;
    make.mk_ty(TyKind::Adt(adt, args))
}

/// The structure by its unsizing parameters, and that its last field unsizes. It stops as `mixed_type` and `tails_unsize` do.
fn struct_parts<M: Make>(
    alloc: Global,
    make: &mut M,
    unsize: TraitId,
    adt: AdtId,
    from: Args,
    to: Args,
) -> Result<(Ty, Clause), Stop>
{
    let clause = tails_unsize(alloc, make, unsize, adt, from, to)?;
    let mixed = mixed_type(alloc, make, adt, from, to)?;
    Ok((mixed, clause))
}

/// The goal's self type, a structure with the first arguments, unsizes to the target, the same with the others: with the target's arguments
/// for its unsizing parameters it is the target, and its last field unsizes to the target's.
///
/// The state is left alike the one before. `NoSolution` comes where the structure has no unsizing parameters, where the types can't be
/// equated, and where the evaluator refuses; the stops are those of making nodes and lists, and the evaluator's.
pub(crate) fn unsize_struct<E: EvalCtxt>(
    alloc: Global,
    ecx: &mut E,
    env: ParamEnv,
    predicate: TraitPredicate,
    adt: AdtId,
    from: Args,
    to: Args,
    target: Ty,
) -> Result<Candidate, NoSolutionOrStop>
{
    if ecx.cx().unsizing_parameters(adt).is_empty() {
        return Err(NoSolutionOrStop::NoSolution);
    }
    let unsize = predicate.trait_ref.def_id;
    let (mixed, clause) = struct_parts(alloc, ecx, unsize, adt, from, to)?;
    consider_equal(alloc, ecx, env, mixed, target, &[clause])
}
