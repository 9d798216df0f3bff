// Made of `crates/candidate_assembly/src/assembly/opaques.rt` by `bench/plain.py`: an edit of this file is lost.

//! Goals whose self type is a general variable: what is said by the opaque types that may be hidden behind it.


use kit::{eprintln, format, prelude::*, print, println, vec};
use crate::assembly::alias_bounds::bounds_with_arguments;
use crate::assembly::kind::GoalKind;
use crate::assembly::listing::{is_default_impl, push_considered, recall_well_formed_table};
use crate::assembly::steps::forced_ambiguity;
use candidate_eval::eval::certainty::{Certainty, MaybeCause, MaybeInfo, OpaqueTypesJank};
use candidate_eval::eval::context::EvalCtxt;
use candidate_eval::eval::mode::TypingMode;
use candidate_eval::eval::refusal::NoSolutionOrStop;
use candidate_eval::eval::response::{Candidate, CanonicalResponse};
use candidate_eval::eval::source::CandidateSource;
use ir_context::decl::Cx;
use ir_context::decl::make::Make;
use ir_folds::decl::answering::{PureFolder, fold_answers};
use ir_trees::decl::contents::{AliasBoundKind, ImplId};
use ir_trees::ir::heads::{Flag, Marks};
use ir_trees::ir::kinds::{AliasTy, Clause, GenericArg, ParamEnv, TraitId, Ty, TyKind};
use ir_trees::ir::stop::Stop;
use ir_trees::ir::trees::Trees;
use kit::alloc::Global;

/// Which candidates are looked for.
#[derive(Clone, Copy, Debug, PartialEq, Eq)]
pub enum AssembleCandidatesFrom {
    /// All.
    All,
    /// Those by the environment and by the bounds of aliases alone, and not those by impls and by rules of the language: where a where-bound
    /// proved the goal of the trait, no impl says what its associated types are. Asking impls could also lead back to a type that is
    /// being inferred.
    EnvAndBounds,
}

/// The candidate by a clause that is said of the goal's self type, a variable, as it is of an opaque type that may be hidden behind it: since
/// that isn't known, it is ambiguous.
///
/// `NoSolution` comes where the clause isn't matched, and where the evaluator refuses the response; the stops are those of the match and of
/// the evaluator. The state is left alike the one before.
fn consider_opaque_bound<E: EvalCtxt, G: GoalKind<E>>(
    alloc: Global,
    ecx: &mut E,
    env: ParamEnv,
    predicate: G,
    clause: Clause,
) -> Result<Candidate, NoSolutionOrStop>
{
    G::probe_and_match_goal_against_assumption(
        alloc,
        ecx,
        CandidateSource::AliasBound(AliasBoundKind::SelfBounds),
        env,
        predicate,
        clause,
        |ecx: &mut E| -> Result<CanonicalResponse, NoSolutionOrStop>
        { ecx.evaluate_added_goals_and_make_canonical_response(Certainty::AMBIGUOUS) },
    )
}

/// The response with at most that certainty, where the type still resolves to a general variable; else it is refused.
fn respond_if_general<E: EvalCtxt>(
    ecx: &mut E,
    ty: Ty,
    certainty: Certainty,
) -> Result<CanonicalResponse, NoSolutionOrStop>
{
    let resolved = ecx.shallow_resolve(ty);
    if !ecx.cx().kind(resolved).is_ty_var() {
        return Err(NoSolutionOrStop::NoSolution);
    }
    ecx.evaluate_added_goals_and_make_canonical_response(certainty)
}

/// The candidate by an impl for any type, with at most an ambiguous response: it serves, if it leaves open what the goal's self type, a
/// variable, is.
///
/// `NoSolution` comes where the impl doesn't serve the goal, where it gives the variable a value, and where the evaluator refuses its header
/// or the response; the stops are the evaluator's and those of making nodes and lists. The state is left alike the one before.
fn consider_blanket_impl<E: EvalCtxt, G: GoalKind<E>>(
    alloc: Global,
    ecx: &mut E,
    env: ParamEnv,
    predicate: G,
    of: ImplId,
) -> Result<Candidate, NoSolutionOrStop>
{
    let self_ty = G::self_ty(ecx.cx(), env, predicate);
    G::consider_impl_candidate(
        alloc,
        ecx,
        env,
        predicate,
        of,
        |ecx: &mut E, certainty: Certainty| -> Result<CanonicalResponse, NoSolutionOrStop>
        { respond_if_general(ecx, self_ty, certainty.and(Certainty::AMBIGUOUS)) },
    )
}

/// Adds the candidates by clauses that are said of the goal's self type, a variable, in their order. No parameter stands in the clauses, and
/// they and the goal mention only the state's variables.
///
/// It stops at the first clause whose rule stops, with that stop; `Stop::Memory` comes where the list can't grow. The state is left alike the
/// one before.
fn consider_opaque_bounds<E: EvalCtxt, G: GoalKind<E>>(
    alloc: Global,
    ecx: &mut E,
    env: ParamEnv,
    predicate: G,
    clauses: &[Clause],
    candidates: &mut Vec<Candidate>,
) -> Result<(), Stop>
{
    for clause in clauses {
        let answer = consider_opaque_bound(alloc, ecx, env, predicate, *clause);
        push_considered(candidates, answer)?;
    }
    Ok(())
}

/// The impls for any type, in the order of their declaration, but for those that others specialise. The only stop is `Stop::Memory`.
fn blanket_impls(alloc: Global, cx: &Cx, of: TraitId) -> Result<Vec<ImplId>, Stop>
{
    let blanket = cx.for_each_blanket_impl(of)?;
    let impls = blanket.as_slice().iter().copied();
    let proper = impls.filter(|of| !is_default_impl(cx, *of));
    Ok(proper.kit_collect(alloc)?)
}

/// Adds the candidates by the impls for any type, in the order of their declaration, but for those that others specialise. The goal mentions
/// only the state's variables.
///
/// It stops at the first impl whose rule stops, with that stop; `Stop::Memory` comes where a list can't grow. The state is left alike the one
/// before.
fn assemble_blanket_impls<E: EvalCtxt, G: GoalKind<E>>(
    alloc: Global,
    ecx: &mut E,
    env: ParamEnv,
    predicate: G,
    candidates: &mut Vec<Candidate>,
) -> Result<(), Stop>
{
    recall_well_formed_table(ecx.cx());
    let cx = ecx.cx();
    let impls = blanket_impls(alloc, cx, G::trait_def_id(cx, env, predicate))?;
    for of in &impls {
        let answer = consider_blanket_impl(alloc, ecx, env, predicate, *of);
        push_considered(candidates, answer)?;
    }
    Ok(())
}

/// The one type, where the argument is the other.
fn type_for(cx: &Cx, old: Ty, new: Ty, arg: GenericArg) -> Option<GenericArg>
{
    match arg {
        GenericArg::Ty(ty) => {
            if cx.same(ty, old) {
                Some(GenericArg::Ty(new))
            } else {
                None
            }
        }
        GenericArg::Const(_) | GenericArg::Region(_) => None,
    }
}

/// Answers one type where another one stands.
#[derive(Clone, Copy, Debug)]
struct TypeFor {
    old: Ty,
    new: Ty,
}

impl<M: Make> PureFolder<M> for TypeFor {



    fn may_answer(&self, _: Marks) -> bool {
        true
    }

    fn answer(
        &self,
        _: Global,
        make: &mut M,
        arg: GenericArg,
        _: u32,
    ) -> Result<Option<GenericArg>, Stop> {
        Ok(type_for(make.cx(), self.old, self.new, arg))
    }

    fn recall_laws(&self) {}
}

/// The clause with one type in the place of another, which is an alias: where no alias stands, it stays as it is.
///
/// `Stop::Memory` comes where a growth was refused, `Stop::NodesFull` where no numbers are left, or the clause would be higher than 1,024.
/// After a stop the nodes that were made stay.
pub fn with_type_for<M: Make>(
    alloc: Global,
    make: &mut M,
    old: Ty,
    new: Ty,
    clause: Clause,
) -> Result<Clause, Stop>
{
    debug_assert!(ir_trees::checks::is_sorted(ir_context::decl::make::Make::cx(&*make), old), "candidate_assembly::assembly::opaques::with_type_for: `old` is {:?}, no number of its sort in this context", old);
    debug_assert!(ir_trees::checks::is_sorted(ir_context::decl::make::Make::cx(&*make), new), "candidate_assembly::assembly::opaques::with_type_for: `new` is {:?}, no number of its sort in this context", new);
    debug_assert!(ir_trees::checks::is_sorted(ir_context::decl::make::Make::cx(&*make), clause), "candidate_assembly::assembly::opaques::with_type_for: `clause` is {:?}, no number of its sort in this context", clause);
    if !make.cx().has(clause, Flag::Alias) {
        return Ok(clause);
    }
    fold_answers(alloc, make, clause, &TypeFor { old, new })
}

/// The opaque types that may be hidden behind the type: they are looked for where hidden types are being found out. The stops are the
/// evaluator's and those of lists.
fn opaques_behind<E: EvalCtxt>(alloc: Global, ecx: &mut E, ty: Ty) -> Result<Vec<AliasTy>, Stop>
{
    match ecx.typing_mode() {
        TypingMode::Analysis => ecx.opaques_with_sub_unified_hidden_type(ty),
        TypingMode::Coherence
        | TypingMode::Borrowck
        | TypingMode::PostBorrowckAnalysis
        | TypingMode::PostAnalysis => Ok(Vec::new(alloc)),
    }
}

/// The clauses with one type in the place of another, which is an alias, in their order.
///
/// `Stop::Memory` comes where a growth was refused, `Stop::NodesFull` where a clause was not made, as by `with_type_for`. After a stop the
/// nodes that were made stay.
fn each_with_type_for<M: Make>(
    alloc: Global,
    make: &mut M,
    old: Ty,
    new: Ty,
    clauses: &[Clause],
) -> Result<Vec<Clause>, Stop>
{
    let mut list = Vec::new(alloc);
    for clause in clauses {
        let clause = with_type_for(alloc, make, old, new, *clause)?;
        list.push(clause)?;
    }
    Ok(list)
}

/// The bounds of the opaque type itself, in their order, said of another type: with the opaque type's arguments in the place of parameters,
/// and then the other type in the place of the opaque type. No variable stands in them as they are declared.
///
/// `Stop::Memory` comes where a growth was refused, `Stop::NodesFull` where a node was not made. After a stop the nodes that were made
/// stay.
fn bounds_said<M: Make>(
    alloc: Global,
    make: &mut M,
    opaque: AliasTy,
    ty: Ty,
) -> Result<Vec<Clause>, Stop>
{
    let bounds = bounds_with_arguments(alloc, make, opaque, AliasBoundKind::SelfBounds)?;
    let opaque_ty = make.mk_ty(TyKind::Alias(opaque))?;
    each_with_type_for(alloc, make, opaque_ty, ty, bounds.as_slice())
}

/// The bounds of the opaque types themselves, of one after the other, said of another type. No variable stands in them as they are
/// declared.
///
/// `Stop::Memory` comes where a growth was refused, `Stop::NodesFull` where a node was not made. After a stop the nodes that were made
/// stay.
fn all_bounds_said<M: Make>(
    alloc: Global,
    make: &mut M,
    opaques: &[AliasTy],
    ty: Ty,
) -> Result<Vec<Clause>, Stop>
{
    recall_well_formed_table(make.cx());
    let mut clauses = Vec::new(alloc);
    for opaque in opaques {
        let mut said = bounds_said(alloc, make, *opaque, ty)?;
        clauses.append(&mut said)?;
    }
    Ok(clauses)
}

/// Adds the candidates by the impls for any type, where all candidates are looked for; else none. It stops as `assemble_blanket_impls`. The
/// state is left alike the one before.
fn assemble_open_impls<E: EvalCtxt, G: GoalKind<E>>(
    alloc: Global,
    ecx: &mut E,
    env: ParamEnv,
    predicate: G,
    from: AssembleCandidatesFrom,
    candidates: &mut Vec<Candidate>,
) -> Result<(), Stop>
{
    match from {
        AssembleCandidatesFrom::All => {
            assemble_blanket_impls(alloc, ecx, env, predicate, candidates)
        }
        AssembleCandidatesFrom::EnvAndBounds => Ok(()),
    }
}

/// The candidates by what the opaque types say that may be hidden behind the goal's self type, a variable: by their own bounds, of one
/// after the other, and then by the impls for any type, where all candidates are looked for. The goal mentions only the state's variables.
///
/// It stops at the first rule that stops, with that stop; `Stop::Memory` comes where a list can't grow, `Stop::NodesFull` where a node was
/// not made. The state is left alike the one before.
fn consider_opaques<E: EvalCtxt, G: GoalKind<E>>(
    alloc: Global,
    ecx: &mut E,
    env: ParamEnv,
    predicate: G,
    opaques: &[AliasTy],
    from: AssembleCandidatesFrom,
) -> Result<Vec<Candidate>, Stop>
{
    recall_well_formed_table(ecx.cx());
    let self_ty = G::self_ty(ecx.cx(), env, predicate);
    let clauses = all_bounds_said(alloc, ecx, opaques, self_ty)?;
    let mut candidates = Vec::new(alloc);
    consider_opaque_bounds(
        alloc,
        ecx,
        env,
        predicate,
        clauses.as_slice(),
        &mut candidates,
    )?;
    assemble_open_impls(alloc, ecx, env, predicate, from, &mut candidates)?;
    Ok(candidates)
}

/// The one candidate where a goal says too little, with what is known of that; none where the evaluator refuses its response.
///
/// The stops are those of the evaluator; `Stop::Memory` comes where the list can't grow. The state is left alike the one before.
fn list_ambiguity<E: EvalCtxt>(
    alloc: Global,
    ecx: &mut E,
    env: ParamEnv,
    maybe: MaybeInfo,
) -> Result<Vec<Candidate>, Stop>
{
    let mut candidates = Vec::new(alloc);
    let answer = forced_ambiguity(alloc, ecx, env, maybe);
    push_considered(&mut candidates, answer)?;
    Ok(candidates)
}

/// The candidates for a goal whose self type is a general variable: by what the opaque types say that may be hidden behind it, and by the
/// impls for any type, where all candidates are looked for. Where no opaque type may be hidden the goal is ambiguous; and so it is where
/// nothing said anything, as an error should the variable become a rigid type. The goal mentions only the state's variables.
///
/// It stops at the first rule that stops, with that stop; `Stop::Memory` comes where a list can't grow, `Stop::NodesFull` where a node was
/// not made. Other stops are the evaluator's. The state is left alike the one before.
pub(crate) fn assemble_opaque_candidates<E: EvalCtxt, G: GoalKind<E>>(
    alloc: Global,
    ecx: &mut E,
    env: ParamEnv,
    predicate: G,
    from: AssembleCandidatesFrom,
) -> Result<Vec<Candidate>, Stop>
{
    let self_ty = G::self_ty(ecx.cx(), env, predicate);
    let behind = opaques_behind(alloc, ecx, self_ty)?;
    let opaques = behind.as_slice();
    if opaques.is_empty() {
        return list_ambiguity(alloc, ecx, env, MaybeInfo::AMBIGUOUS);
    }
    let candidates = consider_opaques(alloc, ecx, env, predicate, opaques, from)?;
    if candidates.as_slice().is_empty() {
        let maybe = MaybeInfo {
            cause: MaybeCause::Ambiguity,
            opaque_types_jank: OpaqueTypesJank::ErrorIfRigidSelfTy,
        };
        return list_ambiguity(alloc, ecx, env, maybe);
    }
    Ok(candidates)
}
