// Made of `crates/candidate_assembly/src/assembly/kind.rt` by `bench/plain.py`: an edit of this file is lost.

//! Kinds of goals.


use kit::{eprintln, format, prelude::*, print, println, vec};
use crate::assembly::language::LanguageRule;
use crate::assembly::matching::{match_and_characterize, with_usages};
use crate::assembly::steps::with_source;
use candidate_eval::eval::certainty::Certainty;
use candidate_eval::eval::context::{EvalCtxt, ProbeKind};
use candidate_eval::eval::refusal::NoSolutionOrStop;
use candidate_eval::eval::response::{Candidate, CandidateHeadUsages, CanonicalResponse};
use candidate_eval::eval::source::CandidateSource;
use ir_context::decl::Cx;
use ir_trees::decl::contents::ImplId;
use ir_trees::ir::kinds::{AliasTy, Clause, ParamEnv, TraitId, TraitRef, Ty};
use ir_trees::ir::stop::Stop;
use kit::alloc::Global;

/// A clause doesn't pass quick rejection.
#[derive(Clone, Copy, Debug, PartialEq, Eq)]
pub struct NoSolution;

/// A kind of goals: what is to hold in an environment.
///
/// What a kind gives is data (`rules`), of which its calls say what they do. A goal is one of the context, with the arguments that its
/// trait takes, and neither a parameter nor an escaping bound variable stands in it.
///
/// Each `consider_*` answers the candidate of its one rule, or `NoSolution` where the rule's side condition doesn't hold or the evaluator
/// refuses it, and leaves a state alike the one before. Its stops are the evaluator's and those of making nodes and lists. The self type of
/// its goal is neither a general variable nor a bound type.
pub trait GoalKind<E: EvalCtxt>: Copy {
    // What its goals are, and what it says of them.

    /// The type that the goal is about.
    fn self_ty(cx: &Cx, env: ParamEnv, predicate: Self) -> Ty
        ;

    /// The trait reference that it is about.
    fn trait_ref(cx: &Cx, env: ParamEnv, predicate: Self) -> TraitRef
        ;

    /// The trait of that reference.
    fn trait_def_id(cx: &Cx, env: ParamEnv, predicate: Self) -> TraitId
    {
        Self::trait_ref(cx, env, predicate).def_id
    }

    /// Whether it holds an error.
    fn holds_error(cx: &Cx, env: ParamEnv, predicate: Self) -> bool
        ;

    /// The predicate with this self type. Where neither a parameter nor an escaping bound variable stands in that, it is a goal's again.
    fn with_replaced_self_ty(
        alloc: Global,
        ecx: &mut E,
        env: ParamEnv,
        predicate: Self,
        self_ty: Ty,
    ) -> Result<Self, Stop>
        ;

    /// The predicate with all values put in, for an environment in which they are put in already. It is a goal's again where the state's
    /// values make sense.
    fn resolve_vars_if_possible(
        ecx: &mut E,
        env: ParamEnv,
        predicate: Self,
        resolved_env: ParamEnv,
    ) -> Result<Self, Stop>
        ;

    /// Whether a clause passes quick rejection: what it is about may be what the goal is about.
    fn fast_reject_assumption(
        cx: &Cx,
        env: ParamEnv,
        predicate: Self,
        assumption: Clause,
    ) -> Result<(), NoSolution>
        ;

    /// Matches a clause that passes quick rejection, and answers what the closure answers then. What stood under the clause's binder is
    /// instantiated with fresh variables. The state is changed, so it is called in a probe.
    fn match_assumption<R, F: FnOnce(&mut E) -> Result<R, NoSolutionOrStop>>(
        alloc: Global,
        ecx: &mut E,
        env: ParamEnv,
        predicate: Self,
        assumption: Clause,
        then: F,
    ) -> Result<R, NoSolutionOrStop>
        ;

    /// Whether an object has to fulfil what its trait asks for, where a bound of its own is to prove a goal. Where it hasn't, a match is enough.
    fn asks_of_objects() -> bool
        ;

    /// The rule of an impl: its steps in a probe, and then what the closure answers, which is given the certainty that the impl gives.
    ///
    /// The state is left alike the one before. `NoSolution` comes where the impl doesn't serve the goal, where the evaluator refuses its
    /// header, and where the closure answers it; the stops are the evaluator's, those of making nodes and lists, and the closure's.
    fn consider_impl_candidate<
        F: FnOnce(&mut E, Certainty) -> Result<CanonicalResponse, NoSolutionOrStop>,
    >(
        alloc: Global,
        ecx: &mut E,
        env: ParamEnv,
        predicate: Self,
        of: ImplId,
        then: F,
    ) -> Result<Candidate, NoSolutionOrStop>
        ;

    /// What the kind adds at an alias, beside its bounds. No parameter stands in the alias, and it and the goal mention only the state's
    /// variables. The state is left alike the one before.
    fn consider_additional_alias_assumptions(
        alloc: Global,
        ecx: &mut E,
        env: ParamEnv,
        predicate: Self,
        alias: AliasTy,
    ) -> Result<Vec<Candidate>, Stop>
        ;

    /// The candidates by unsizing, for a goal of the trait for that. The goal stands at a state whose values make sense. The state is left
    /// alike the one before.
    fn consider_structural_builtin_unsize_candidates(
        alloc: Global,
        ecx: &mut E,
        env: ParamEnv,
        predicate: Self,
    ) -> Result<Vec<Candidate>, Stop>
        ;

    /// The candidate by the rule of that name that the language has, for errors or for some traits. The self type of the goal is neither a
    /// general variable nor a bound type.
    ///
    /// `NoSolution` comes where the rule doesn't apply to the goal, and where the evaluator refuses it; the stops are those of making nodes
    /// and lists, and the evaluator's. The state is left alike the one before.
    fn consider_builtin_candidate(
        alloc: Global,
        ecx: &mut E,
        env: ParamEnv,
        predicate: Self,
        rule: LanguageRule,
    ) -> Result<Candidate, NoSolutionOrStop>
        ;

    // A goal says the same where a context has grown.

    // The environment of a goal is the one that is given.

    // Its rules mention no other variables than the goal, and stay where a context grows; a goal with other trees holds these; and the
    // arguments of its reference fit.

    /// The candidate of a source by a clause: in a probe the clause is matched, and the closure called then.
    ///
    /// `NoSolution` comes where the clause doesn't pass quick rejection or isn't matched, and where the closure answers it; the stops
    /// are those of the match and of the closure. The state is left alike the one before.
    fn probe_and_match_goal_against_assumption<
        F: FnOnce(&mut E) -> Result<CanonicalResponse, NoSolutionOrStop>,
    >(
        alloc: Global,
        ecx: &mut E,
        source: CandidateSource,
        env: ParamEnv,
        predicate: Self,
        clause: Clause,
        then: F,
    ) -> Result<Candidate, NoSolutionOrStop>
    {
        debug_assert!(ir_trees::checks::is_sorted(ir_context::decl::make::Make::cx(&*ecx), clause), "candidate_assembly::assembly::kind::GoalKind::probe_and_match_goal_against_assumption: `clause` is {:?}, no number of its sort in this context", clause);
        if Self::fast_reject_assumption(ecx.cx(), env, predicate, clause).is_err() {
            return Err(NoSolutionOrStop::NoSolution);
        }
        let probe = ecx.begin_probe(ProbeKind::Kept)?;
        let answer = Self::match_assumption(alloc, ecx, env, predicate, clause, then);
        let usages = ecx.end_probe(probe);
        with_source(source, answer, usages)
    }

    /// The candidate by a clause of the environment: in a probe the clause is matched and what is pending evaluated; then the clause is
    /// characterised, of which the source and the highest certainty come. It has what its probe has used.
    ///
    /// Where there is none, which goals above were used until then: the clause doesn't pass quick rejection or isn't matched, or the
    /// evaluator refuses what is pending, a normal form or a response. The stops are those of the match, of the evaluator and of
    /// `characterize_param_env_assumption`. The state is left alike the one before.
    fn probe_and_consider_param_env_candidate(
        alloc: Global,
        ecx: &mut E,
        env: ParamEnv,
        predicate: Self,
        clause: Clause,
    ) -> Result<Result<Candidate, CandidateHeadUsages>, Stop>
    {
        debug_assert!(ir_trees::checks::is_sorted(ir_context::decl::make::Make::cx(&*ecx), clause), "candidate_assembly::assembly::kind::GoalKind::probe_and_consider_param_env_candidate: `clause` is {:?}, no number of its sort in this context", clause);
        if Self::fast_reject_assumption(ecx.cx(), env, predicate, clause).is_err() {
            return Ok(Err(CandidateHeadUsages::new(alloc)));
        }
        let probe = ecx.begin_probe(ProbeKind::Kept)?;
        let answer = match_and_characterize(alloc, ecx, env, predicate, clause);
        let usages = ecx.end_probe(probe);
        with_usages(answer, usages)
    }
}
