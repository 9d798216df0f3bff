// Made of `crates/candidate_assembly/src/trait_goals/parts.rt` by `bench/plain.py`: an edit of this file is lost.

//! Rules over the structural tables: the parts of a type meet the goal's trait.


use kit::{eprintln, format, prelude::*, print, println, vec};
use crate::assembly::steps::{nest_and_respond, with_head_usages};
use candidate_eval::eval::certainty::Certainty;
use candidate_eval::eval::clauses::self_ty;
use candidate_eval::eval::context::{EvalCtxt, ProbeKind};
use candidate_eval::eval::refusal::NoSolutionOrStop;
use candidate_eval::eval::response::Candidate;
use candidate_eval::eval::source::CandidateSource;
use candidate_eval::structural::tables::constituents;
use candidate_eval::structural::{Column, Under};
use ir_context::decl::Cx;
use ir_context::decl::make::{Build, Make};
use ir_folds::decl::open::{replace_bound_vars, variable_kinds};
use ir_trees::ir::kinds::{
    Args, Binder, Clause, ClauseKind, GenericArg, GoalSource, ParamEnv, TraitPredicate, TraitRef,
    Ty, VarKind,
};
use ir_trees::ir::stop::Stop;
use ir_trees::ir::trees::Trees;
use kit::alloc::Global;

/// The predicate with this self type. `Stop::Memory` comes where a growth was refused, `Stop::NodesFull` where the list was not made.
pub(crate) fn with_self_ty<M: Make>(
    alloc: Global,
    make: &mut M,
    predicate: TraitPredicate,
    self_ty: Ty,
) -> Result<TraitPredicate, Stop>
{
    let mut list = Vec::from_slice(alloc, make.cx().args(predicate.trait_ref.args))?;
    list[0] = GenericArg::Ty(self_ty);
    let args = make.mk_args(list.as_slice())?;
    Ok(TraitPredicate {
        trait_ref: TraitRef {
            def_id: predicate.trait_ref.def_id,
            args,
        },
        polarity: predicate.polarity,
    })
}

/// That what the predicate says of its self type holds of another type, as a clause under an empty binder. It stops as `with_self_ty`
/// does.
pub(crate) fn for_type<M: Make>(
    alloc: Global,
    make: &mut M,
    predicate: TraitPredicate,
    ty: Ty,
) -> Result<Clause, Stop>
{
    let predicate = with_self_ty(alloc, make, predicate, ty)?;
    let vars = make.mk_vars(&[])?;
    make.mk_clause(Binder {
        vars,
        value: ClauseKind::Trait(predicate),
    })
}

/// A part, with what stands for the variables of its binder, if it has one.
fn opened_part<M: Make>(
    alloc: Global,
    make: &mut M,
    under: Option<Args>,
    ty: Ty,
) -> Result<Ty, Stop>
{
    match under {
        Some(values) => replace_bound_vars(alloc, make, ty, values),
        None => Ok(ty),
    }
}

/// What the predicate says of its self type, said of a part.
fn push_part<M: Make>(
    alloc: Global,
    make: &mut M,
    list: &mut Vec<Clause>,
    predicate: TraitPredicate,
    under: Option<Args>,
    ty: Ty,
) -> Result<(), Stop>
{
    let ty = opened_part(alloc, make, under, ty)?;
    let clause = for_type(alloc, make, predicate, ty)?;
    list.push(clause)?;
    Ok(())
}

/// What the predicate says of its self type, said of each of the parts.
fn for_parts<M: Make>(
    alloc: Global,
    make: &mut M,
    predicate: TraitPredicate,
    under: Option<Args>,
    types: &[Ty],
) -> Result<Vec<Clause>, Stop>
{
    let mut list = Vec::new(alloc);
    for ty in types {
        push_part(alloc, make, &mut list, predicate, under, *ty)?;
    }
    Ok(list)
}

/// Placeholders of a fresh universe for the variables of a binder of these kinds; nothing, where there are none.
fn enter_kinds<E: EvalCtxt>(ecx: &mut E, kinds: &[VarKind]) -> Result<Option<Args>, Stop>
{
    if kinds.is_empty() {
        return Ok(None);
    }
    Ok(Some(ecx.placeholder_args(kinds)?))
}

/// The parts meet what the predicate says, with placeholders of a fresh universe for their binder's variables. It is called in a probe.
fn try_parts<E: EvalCtxt>(
    alloc: Global,
    ecx: &mut E,
    env: ParamEnv,
    predicate: TraitPredicate,
    kinds: &[VarKind],
    types: &[Ty],
    source: CandidateSource,
) -> Result<Candidate, NoSolutionOrStop>
{
    let under = enter_kinds(ecx, kinds)?;
    let clauses = for_parts(alloc, ecx, predicate, under, types)?;
    let nested = GoalSource::ImplWhereBound;
    nest_and_respond(
        alloc,
        ecx,
        env,
        nested,
        clauses.as_slice(),
        source,
        Certainty::Yes,
    )
}

/// The parts meet what the predicate says, in a probe.
fn probe_parts<E: EvalCtxt>(
    alloc: Global,
    ecx: &mut E,
    env: ParamEnv,
    predicate: TraitPredicate,
    kinds: &[VarKind],
    types: &[Ty],
    source: CandidateSource,
) -> Result<Candidate, NoSolutionOrStop>
{
    let probe = ecx.begin_probe(ProbeKind::Kept)?;
    let answer = try_parts(alloc, ecx, env, predicate, kinds, types, source);
    let usages = ecx.end_probe(probe);
    with_head_usages(answer, usages)
}

/// The kinds of the variables of a binder; none, where there is no binder. The only stop is `Stop::Memory`.
fn kinds_under(alloc: Global, cx: &Cx, under: Under) -> Result<Vec<VarKind>, Stop>
{
    match under {
        Under::Binder(vars) => Ok(variable_kinds(alloc, cx, vars)?),
        Under::NoBinder => Ok(Vec::new(alloc)),
    }
}

/// The rule over a column of the tables, where it applies: the parts that the cell of the goal's self type asks about meet the goal's trait.
///
/// The state is left alike the one before. `NoSolution` comes where the rule doesn't apply, where the cell is refused, and where the
/// evaluator refuses; the stops are those of making nodes and lists, and the evaluator's.
pub(crate) fn consider_column<E: EvalCtxt>(
    alloc: Global,
    ecx: &mut E,
    env: ParamEnv,
    predicate: TraitPredicate,
    applies: bool,
    column: Column,
    source: CandidateSource,
) -> Result<Candidate, NoSolutionOrStop>
{
    if !applies {
        return Err(NoSolutionOrStop::NoSolution);
    }
    let ty = self_ty(ecx.cx(), predicate.trait_ref);
    let parts = constituents(alloc, ecx, column, ty)?;
    let kinds = kinds_under(alloc, ecx.cx(), parts.under)?;
    let types = parts.types.as_slice();
    probe_parts(alloc, ecx, env, predicate, kinds.as_slice(), types, source)
}
