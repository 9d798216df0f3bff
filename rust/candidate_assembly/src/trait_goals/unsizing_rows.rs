// Made of `crates/candidate_assembly/src/trait_goals/unsizing_rows.rt` by `bench/plain.py`: an edit of this file is lost.

//! Which row a type unsizes by, and the candidates of that.


use kit::{eprintln, format, prelude::*, print, println, vec};
use crate::assembly::listing::{push_considered, recall_well_formed_table};
use crate::assembly::steps::forced_ambiguity;
use crate::trait_goals::builtin::{is_positive, self_head};
use crate::trait_goals::to_dyn::unsize_to_dyn;
use crate::trait_goals::unsizing::{unsize_array, unsize_struct};
use crate::trait_goals::upcasting::unsize_dyn_to_dyn;
use candidate_eval::eval::certainty::MaybeInfo;
use candidate_eval::eval::clauses::self_ty;
use candidate_eval::eval::context::{EvalCtxt, ProbeKind};
use candidate_eval::eval::refusal::NoSolutionOrStop;
use candidate_eval::eval::response::Candidate;
use ir_context::decl::Cx;
use ir_trees::decl::definition::AdtShape;
use ir_trees::ir::heads::{Builtin, Head, Variable, VariableSort};
use ir_trees::ir::kinds::{AdtId, Args, GenericArg, ParamEnv, TraitId, TraitPredicate, Ty, TyKind};
use ir_trees::ir::stop::Stop;
use ir_trees::ir::trees::Trees;
use kit::alloc::Global;

/// How a type unsizes to another.
#[derive(Clone, Copy, Debug)]
pub(crate) enum UnsizingRow {
    /// Too little is known of the target.
    Ambiguous,
    DynToDyn,
    /// Any other type to `dyn`.
    ToDyn,
    ArrayToSlice,
    /// Both are this data type, which unsizes if it is a structure.
    Struct(AdtId),
    Nothing,
}

fn is_array(head: Head) -> bool
{
    matches!(head, Head::Builtin(Builtin::Array))
}

fn is_dynamic(head: Head) -> bool
{
    matches!(head, Head::Dynamic)
}

/// The row to a data type: of the same data type alone.
fn row_to_adt(source: Head, to: AdtId) -> UnsizingRow
{
    match source {
        Head::Adt(from) => if from.0 == to.0 {
            UnsizingRow::Struct(from)
        } else {
            UnsizingRow::Nothing
        },
        _ => UnsizingRow::Nothing,
    }
}

/// The row by both heads.
fn unsizing_row(source: Head, target: Head) -> UnsizingRow
{
    match target {
        Head::Infer(
            Variable {
                sort: VariableSort::General,
                ..
            },
        ) => UnsizingRow::Ambiguous,
        Head::Dynamic => if is_dynamic(source) {
            UnsizingRow::DynToDyn
        } else {
            UnsizingRow::ToDyn
        },
        Head::Builtin(Builtin::Slice) => if is_array(source) {
            UnsizingRow::ArrayToSlice
        } else {
            UnsizingRow::Nothing
        },
        Head::Adt(to) => row_to_adt(source, to),
        _ => UnsizingRow::Nothing,
    }
}

fn is_struct(cx: &Cx, adt: AdtId) -> bool
{
    matches!(cx.adt_shape(adt), Some(AdtShape::Struct))
}

/// The arguments of a data type.
fn adt_args(cx: &Cx, ty: Ty, adt: AdtId) -> Args
{
    let _ = adt;
    cx.recall_well_formed();
    match cx.kind(ty) {
        TyKind::Adt(_, args) => args,
        _ => unreachable!(),
    }
}

/// The head of a type.
fn head_of(cx: &Cx, ty: Ty) -> Head
{
    cx.head(ty.0)
}

/// The goal's self type and the target, in normal form, are the same structure: the candidate. It answers and stops as `unsize_struct`. The
/// state is left alike the one before.
fn consider_struct<E: EvalCtxt>(
    alloc: Global,
    ecx: &mut E,
    env: ParamEnv,
    predicate: TraitPredicate,
    adt: AdtId,
    target: Ty,
) -> Result<Candidate, NoSolutionOrStop>
{
    let cx = ecx.cx();
    let from = adt_args(cx, self_ty(cx, predicate.trait_ref), adt);
    let to = adt_args(cx, target, adt);
    unsize_struct(alloc, ecx, env, predicate, adt, from, to, target)
}

/// Adds the candidate where the goal's self type and the target, in normal form, are the same data type, if that is a structure. It stops as
/// `unsize_struct`, and with `Stop::Memory` where the list can't grow. The state is left alike the one before.
fn unsize_same<E: EvalCtxt>(
    alloc: Global,
    ecx: &mut E,
    env: ParamEnv,
    predicate: TraitPredicate,
    adt: AdtId,
    target: Ty,
    candidates: &mut Vec<Candidate>,
) -> Result<(), Stop>
{
    if !is_struct(ecx.cx(), adt) {
        return Ok(());
    }
    let answer = consider_struct(alloc, ecx, env, predicate, adt, target);
    push_considered(candidates, answer)
}

/// Adds the candidates of the row for a target in normal form.
///
/// It stops at the first rule that stops, with that stop; else the stops are those of making nodes and lists, and the evaluator's. The state
/// is left alike the one before.
fn unsize_by_row<E: EvalCtxt>(
    alloc: Global,
    ecx: &mut E,
    env: ParamEnv,
    predicate: TraitPredicate,
    target: Ty,
    candidates: &mut Vec<Candidate>,
) -> Result<(), Stop>
{
    let cx = ecx.cx();
    match unsizing_row(self_head(cx, predicate), head_of(cx, target)) {
        UnsizingRow::Ambiguous => {
            let answer = forced_ambiguity(alloc, ecx, env, MaybeInfo::AMBIGUOUS);
            push_considered(candidates, answer)
        }
        UnsizingRow::DynToDyn => {
            unsize_dyn_to_dyn(alloc, ecx, env, predicate, target, candidates)
        }
        UnsizingRow::ToDyn => unsize_to_dyn(alloc, ecx, env, predicate, target, candidates),
        UnsizingRow::ArrayToSlice => {
            let answer = unsize_array(alloc, ecx, env, predicate, target);
            push_considered(candidates, answer)
        }
        UnsizingRow::Struct(adt) => {
            unsize_same(alloc, ecx, env, predicate, adt, target, candidates)
        }
        UnsizingRow::Nothing => Ok(()),
    }
}

/// The candidates of the row for a target in normal form. As `unsize_by_row`.
fn unsize_to<E: EvalCtxt>(
    alloc: Global,
    ecx: &mut E,
    env: ParamEnv,
    predicate: TraitPredicate,
    target: Ty,
) -> Result<Vec<Candidate>, Stop>
{
    let mut candidates = Vec::new(alloc);
    unsize_by_row(alloc, ecx, env, predicate, target, &mut candidates)?;
    Ok(candidates)
}

/// The candidates for the target's normal form, with which there are none where that is refused. It is called in a probe.
fn unsize_normalized<E: EvalCtxt>(
    alloc: Global,
    ecx: &mut E,
    env: ParamEnv,
    predicate: TraitPredicate,
    target: Ty,
) -> Result<Vec<Candidate>, Stop>
{
    recall_well_formed_table(ecx.cx());
    match ecx.structurally_normalize_ty(env, target) {
        Ok(target) => {
            recall_well_formed_table(ecx.cx());
            unsize_to(alloc, ecx, env, predicate, target)
        }
        Err(NoSolutionOrStop::NoSolution) => Ok(Vec::new(alloc)),
        Err(NoSolutionOrStop::Stop(stop)) => Err(stop),
    }
}

/// The trait for unsizing takes a type.
fn recall_trait_takes_a_type(cx: &Cx, trait_id: TraitId)
{
    let _ = trait_id;
    cx.recall_well_formed_table();
}

/// The type that the goal's self type is to become: the trait's one argument.
fn unsizing_target(cx: &Cx, predicate: TraitPredicate) -> Ty
{
    match cx.args(predicate.trait_ref.args)[1] {
        GenericArg::Ty(ty) => ty,
        _ => unreachable!(),
    }
}

/// The candidates by unsizing: the target's normal form is asked for in a probe, and the first row that applies gives the rules. A negative
/// goal has none, nor has one whose target has no normal form.
///
/// It stops at the first rule that stops, with that stop; else the stops are those of making nodes and lists, and the evaluator's. The state
/// is left alike the one before.
pub(crate) fn consider_unsizing<E: EvalCtxt>(
    alloc: Global,
    ecx: &mut E,
    env: ParamEnv,
    predicate: TraitPredicate,
) -> Result<Vec<Candidate>, Stop>
{
    recall_well_formed_table(ecx.cx());
    if !is_positive(predicate.polarity) {
        return Ok(Vec::new(alloc));
    }
    recall_trait_takes_a_type(ecx.cx(), predicate.trait_ref.def_id);
    let target = unsizing_target(ecx.cx(), predicate);
    let probe = ecx.begin_probe(ProbeKind::Kept)?;
    let answer = unsize_normalized(alloc, ecx, env, predicate, target);
    let _usages = ecx.end_probe(probe);
    answer
}
