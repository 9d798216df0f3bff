// Made of `crates/candidate_eval/src/eval/context.rt` by `bench/plain.py`: an edit of this file is lost.

//! What generic code knows of an evaluator.


use kit::{eprintln, format, prelude::*, print, println, vec};
use crate::eval::InferCtxtLike;
use crate::eval::certainty::Certainty;
use crate::eval::mode::TypingMode;
use crate::eval::refusal::NoSolutionOrStop;
use crate::eval::response::{CandidateHeadUsages, CanonicalResponse};
use ir_trees::ir::kinds::{
    AliasTy, Args, Clause, Const, GenericArg, Goal, GoalSource, ParamEnv, Region, Ty, VarKind,
};
use ir_trees::ir::stop::Stop;

/// What a probe begins with.
#[derive(Clone, Copy, Debug, PartialEq, Eq)]
pub enum ProbeKind {
    /// What is pending.
    Kept,
    /// Nothing pending: what was is set aside until the probe ends.
    SetAside,
}

/// An evaluator.
///
/// A call that answers a stop leaves a state alike the one before: the same universes, values, regions and pending goals. The evaluator
/// accounts for each of its stops (`stops`); they are `Memory`, `NodesFull`, or `EvaluatorLimit`. No call but `delay_bug` puts a fault off.
pub trait EvalCtxt: InferCtxtLike {
    /// What `begin_probe` gives and `end_probe` takes. It is not `Drop`, so it must be spent.
    type Probe;

    // The type of what stays fixed.

    // What stays fixed.

    // The answers that follow from it.

    // The state.

    // The states at which the open probes began, the newest first.

    // Its account of its stops: why a call stopped that left it so, when it was asked that at the state.

    /// What goals are asked for.
    fn typing_mode(&self) -> TypingMode
        ;

    /// The type, with all values put in.
    fn resolve_ty_if_possible(&mut self, ty: Ty) -> Result<Ty, Stop>
        ;

    /// The constant, with all values put in.
    fn resolve_const_if_possible(&mut self, constant: Const) -> Result<Const, Stop>
        ;

    /// The list, with all values put in.
    fn resolve_args_if_possible(&mut self, list: Args) -> Result<Args, Stop>
        ;

    /// The clause, with all values put in.
    fn resolve_clause_if_possible(&mut self, clause: Clause) -> Result<Clause, Stop>
        ;

    /// The region with its value in its place, if it is a variable that has one.
    fn eager_resolve_region(&self, region: Region) -> Region
        ;

    /// The type in normal form. A refusal leaves the state as it was, a stop one alike.
    fn structurally_normalize_ty(&mut self, env: ParamEnv, ty: Ty) -> Result<Ty, NoSolutionOrStop>
        ;

    /// The constant in normal form. A refusal leaves the state as it was, a stop one alike.
    fn structurally_normalize_const(
        &mut self,
        env: ParamEnv,
        constant: Const,
    ) -> Result<Const, NoSolutionOrStop>
        ;

    /// Fresh variables of the newest universe, in the place of parameters of these kinds.
    fn fresh_args_for_item(&mut self, kinds: &[VarKind]) -> Result<Args, Stop>
        ;

    /// Placeholders of a fresh universe, in the place of a binder's variables of these kinds. Without variables there is none.
    fn placeholder_args(&mut self, kinds: &[VarKind]) -> Result<Args, Stop>
        ;

    /// Two lists are made equal, argument by argument. The goals that this leaves become pending.
    fn eq_args(&mut self, env: ParamEnv, a: Args, b: Args) -> Result<(), NoSolutionOrStop>
        ;

    /// Two types, constants or regions are made equal. The goals that this leaves become pending.
    fn eq(&mut self, env: ParamEnv, a: GenericArg, b: GenericArg) -> Result<(), NoSolutionOrStop>
        ;

    /// Two types, constants or regions are made equal. The goals that this leaves are answered, each with its source, and don't
    /// become pending.
    fn eq_and_get_goals(
        &mut self,
        env: ParamEnv,
        a: GenericArg,
        b: GenericArg,
    ) -> Result<Vec<(GoalSource, Goal<Clause>)>, NoSolutionOrStop>
        ;

    /// A goal becomes pending, after all others.
    fn add_goal(&mut self, source: GoalSource, goal: Goal<Clause>) -> Result<(), Stop>
        ;

    /// Goals become pending, in order, after all others; none where it stops.
    fn add_goals(&mut self, source: GoalSource, goals: &[Goal<Clause>]) -> Result<(), Stop>
        ;

    /// How sure what is pending is, together. What is settled is pending no more.
    fn try_evaluate_added_goals(&mut self) -> Result<Certainty, NoSolutionOrStop>
        ;

    /// The response, with at most that certainty. Nothing is said of the state that it leaves: it is asked for in a probe.
    fn evaluate_added_goals_and_make_canonical_response(
        &mut self,
        certainty: Certainty,
    ) -> Result<CanonicalResponse, NoSolutionOrStop>
        ;

    /// Begins a probe.
    fn begin_probe(&mut self, kind: ProbeKind) -> Result<Self::Probe, Stop>
        ;

    /// Ends the newest probe. The state is then alike the one at which it began, what was pending there included.
    fn end_probe(&mut self, probe: Self::Probe) -> CandidateHeadUsages
        ;

    /// The opaque types that may be hidden behind the type.
    fn opaques_with_sub_unified_hidden_type(&mut self, ty: Ty) -> Result<Vec<AliasTy>, Stop>
        ;

    /// Forgets which goals a candidate has used.
    fn ignore_candidate_head_usages(&mut self, usages: CandidateHeadUsages)
        ;

    /// Puts off a fault.
    fn delay_bug(&mut self, text: &str) -> Result<(), Stop>
        ;

    // It accounts for its own stops alone: others come of walks that no evaluator takes.

    // The judge keeps the laws.

    // Its world and local crate are those that are declared.

    // Its limits are those that are declared: it walks as deep as the code.

    // What a variable resolves to is its value in the state.

    // What is seen is the state, of what is fixed.

    // Making a node changes nothing of it.
}
