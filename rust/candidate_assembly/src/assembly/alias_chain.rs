// Made of `crates/candidate_assembly/src/assembly/alias_chain.rt` by `bench/plain.py`: an edit of this file is lost.

//! The chain of aliases that a goal's self type begins: the alias, what it is a projection of, and so on, whose bounds may prove the goal.


use kit::{eprintln, format, prelude::*, print, println, vec};
use crate::assembly::alias_bounds::{consider_alias_bounds, consider_behind_variable};
use crate::assembly::kind::GoalKind;
use crate::assembly::listing::{push_considered, recall_well_formed_table};
use candidate_eval::eval::context::{EvalCtxt, ProbeKind};
use candidate_eval::eval::refusal::NoSolutionOrStop;
use candidate_eval::eval::response::Candidate;
use ir_context::decl::Cx;
use ir_trees::decl::contents::AliasBoundKind;
use ir_trees::ir::kinds::{AliasKind, AliasTy, GenericArg, InferTy, ParamEnv, Ty, TyKind};
use ir_trees::ir::stop::Stop;
use ir_trees::ir::trees::Trees;
use kit::alloc::Global;

/// The alias that the type is, if it is one that has bounds: a projection, or an opaque type.
fn bounded_alias(cx: &Cx, ty: Ty) -> Option<AliasTy>
{
    cx.recall_well_formed();
    match cx.kind(ty) {
        TyKind::Alias(alias) => match alias.kind {
            AliasKind::Projection | AliasKind::Opaque => Some(alias),
            AliasKind::Inherent | AliasKind::Free => None,
        },
        _ => None,
    }
}

/// The first of the arguments, if it is a type.
fn first_type(list: &[GenericArg]) -> Option<Ty>
{
    match list {
        [GenericArg::Ty(ty), ..] => Some(*ty),
        _ => None,
    }
}

/// The type that the alias, a projection, is one of: the first of its arguments.
fn self_ty_of(cx: &Cx, alias: AliasTy) -> Ty
{
    match first_type(cx.args(alias.args)) {
        Some(ty) => ty,
        None => unreachable!(),
    }
}

/// Where the chain goes on: at the normal form of the type that the alias is a projection of. It ends at an opaque type, and where the
/// normal form is refused. The stops are those of the evaluator.
fn next_in_chain<E: EvalCtxt>(
    ecx: &mut E,
    env: ParamEnv,
    alias: AliasTy,
) -> Result<Option<Ty>, Stop>
{
    if !matches!(alias.kind, AliasKind::Projection) {
        return Ok(None);
    }
    let self_ty = self_ty_of(ecx.cx(), alias);
    match ecx.structurally_normalize_ty(env, self_ty) {
        Ok(ty) => Ok(Some(ty)),
        Err(NoSolutionOrStop::NoSolution) => Ok(None),
        Err(NoSolutionOrStop::Stop(stop)) => Err(stop),
    }
}

/// Adds the candidates by one alias of the chain: by those of its bounds that count, and then by what the kind of goals adds.
///
/// It stops at the first rule that stops, with that stop; `Stop::Memory` comes where a list can't grow, `Stop::NodesFull` where a bound was
/// not made. The state is left alike the one before.
fn consider_alias<E: EvalCtxt, G: GoalKind<E>>(
    alloc: Global,
    ecx: &mut E,
    env: ParamEnv,
    predicate: G,
    alias: AliasTy,
    kind: AliasBoundKind,
    candidates: &mut Vec<Candidate>,
) -> Result<(), Stop>
{
    recall_well_formed_table(ecx.cx());
    consider_alias_bounds(alloc, ecx, env, predicate, alias, kind, candidates)?;
    let mut more = G::consider_additional_alias_assumptions(alloc, ecx, env, predicate, alias)?;
    candidates.append(&mut more)?;
    Ok(())
}

/// How a chain ends.
#[derive(Clone, Copy, Debug)]
enum ChainEnd {
    /// With nothing more.
    Done,
    /// At an alias that has no bounds and that no normal form is.
    Misplaced,
    /// At a general variable, behind which further aliases may stand.
    AtVariable,
}

/// How the chain ends at the type, which is no alias with bounds. The self type itself is no variable, as goals about one are answered
/// otherwise.
fn chain_end(cx: &Cx, ty: Ty, kind: AliasBoundKind) -> ChainEnd
{
    match (cx.kind(ty), kind) {
        (TyKind::Infer(InferTy::TyVar(_)), AliasBoundKind::NonSelfBounds) => ChainEnd::AtVariable,
        (TyKind::Alias(_), _) => ChainEnd::Misplaced,
        _ => ChainEnd::Done,
    }
}

/// Adds what the chain's end gives, a type that is no alias with bounds. What stands behind a general variable isn't known, so the goal is
/// ambiguous there; but a self type that is one is answered otherwise. Of another alias in normal form a fault is noted. All else gives
/// nothing.
///
/// The stops are those of the evaluator; `Stop::Memory` comes where the list can't grow. The state is left alike the one before. A call that
/// stops notes no fault.
fn consider_chain_end<E: EvalCtxt, G: GoalKind<E>>(
    alloc: Global,
    ecx: &mut E,
    env: ParamEnv,
    predicate: G,
    ty: Ty,
    kind: AliasBoundKind,
    candidates: &mut Vec<Candidate>,
) -> Result<(), Stop>
{
    match chain_end(ecx.cx(), ty, kind) {
        ChainEnd::Done => Ok(()),
        ChainEnd::Misplaced => ecx.delay_bug("a normal form is an alias without bounds"),
        ChainEnd::AtVariable => {
            let answer = consider_behind_variable(alloc, ecx, env, predicate);
            push_considered(candidates, answer)
        }
    }
}

/// Adds the candidates by the chain of aliases that the goal's self type begins: by its own bounds, and then by the other bounds of what it
/// is a projection of, in normal form, and so on. It is called in a probe, as normalising changes the state.
///
/// It stops at the first rule that stops, with that stop; `Stop::AliasDepth` comes where the chain has more aliases than the declared limit.
/// Other stops are those of the evaluator and of making nodes and lists. What is put off is what the chain's end says.
fn walk_chain<E: EvalCtxt, G: GoalKind<E>>(
    alloc: Global,
    ecx: &mut E,
    env: ParamEnv,
    predicate: G,
    candidates: &mut Vec<Candidate>,
) -> Result<(), Stop>
{
    let mut ty = G::self_ty(ecx.cx(), env, predicate);
    let mut kind = AliasBoundKind::SelfBounds;
    let mut left = ecx.cx().limits().alias_chain;
    while let Some(alias) = bounded_alias(ecx.cx(), ty) {
        if left == 0 {
            return Err(Stop::AliasDepth);
        }
        consider_alias(alloc, ecx, env, predicate, alias, kind, candidates)?;
        match next_in_chain(ecx, env, alias)? {
            Some(next) => ty = next,
            None => return Ok(()),
        }
        kind = AliasBoundKind::NonSelfBounds;
        left -= 1;
    }
    consider_chain_end(alloc, ecx, env, predicate, ty, kind, candidates)
}

/// Adds the candidates by the bounds of the goal's self type as an alias, and by those of what it is a projection of, and so on along the
/// chain, in a probe. They are as each earlier context has them. The goal stands at a state whose values make sense.
///
/// It stops at the first rule that stops, with that stop; `Stop::AliasDepth` comes where the chain has more aliases than the declared limit;
/// `Stop::Memory` comes where a list can't grow, `Stop::NodesFull` where a bound was not made. Other stops are the evaluator's. The state
/// is left alike the one before.
pub(crate) fn assemble_alias_bound_candidates<E: EvalCtxt, G: GoalKind<E>>(
    alloc: Global,
    ecx: &mut E,
    env: ParamEnv,
    predicate: G,
    candidates: &mut Vec<Candidate>,
) -> Result<(), Stop>
{
    recall_well_formed_table(ecx.cx());
    let probe = ecx.begin_probe(ProbeKind::Kept)?;
    let answer = walk_chain(alloc, ecx, env, predicate, candidates);
    let _usages = ecx.end_probe(probe);
    answer
}
