// Made of `crates/candidate_assembly/src/trait_goals/kind.rt` by `bench/plain.py`: an edit of this file is lost.

//! Goals of traits as a kind of goals.


use kit::{eprintln, format, prelude::*, print, println, vec};
use crate::assembly::kind::{GoalKind, NoSolution};
use crate::assembly::language::LanguageRule;
use crate::trait_goals::impls::consider_impl;
use crate::trait_goals::language::consider_rule;
use crate::trait_goals::matching::{fast_reject, match_clause};
use crate::trait_goals::parts::with_self_ty;
use crate::trait_goals::unsizing_rows::consider_unsizing;
use candidate_eval::eval::certainty::Certainty;
use candidate_eval::eval::clauses::self_ty;
use candidate_eval::eval::context::EvalCtxt;
use candidate_eval::eval::refusal::NoSolutionOrStop;
use candidate_eval::eval::response::{Candidate, CanonicalResponse};
use ir_context::decl::Cx;
use ir_trees::decl::contents::ImplId;
use ir_trees::ir::heads::Flag;
use ir_trees::ir::kinds::{AliasTy, Clause, ParamEnv, TraitPredicate, TraitRef, Ty};
use ir_trees::ir::stop::Stop;
use ir_trees::ir::trees::Trees;
use kit::alloc::Global;

impl<E: EvalCtxt> GoalKind<E> for TraitPredicate {




    fn self_ty(cx: &Cx, _env: ParamEnv, predicate: Self) -> Ty {
        self_ty(cx, predicate.trait_ref)
    }

    fn trait_ref(_cx: &Cx, _env: ParamEnv, predicate: Self) -> TraitRef {
        predicate.trait_ref
    }

    fn holds_error(cx: &Cx, _env: ParamEnv, predicate: Self) -> bool {
        cx.has(predicate.trait_ref.args, Flag::Error)
    }

    fn with_replaced_self_ty(
        alloc: Global,
        ecx: &mut E,
        env: ParamEnv,
        predicate: Self,
        self_ty: Ty,
    ) -> Result<Self, Stop> {
        let _ = env;
        let other = with_self_ty(alloc, ecx, predicate, self_ty)?;
        Ok(other)
    }

    fn resolve_vars_if_possible(
        ecx: &mut E,
        _env: ParamEnv,
        predicate: Self,
        _resolved_env: ParamEnv,
    ) -> Result<Self, Stop> {
        let args = ecx.resolve_args_if_possible(predicate.trait_ref.args)?;
        Ok(TraitPredicate {
            trait_ref: TraitRef {
                def_id: predicate.trait_ref.def_id,
                args,
            },
            polarity: predicate.polarity,
        })
    }

    fn fast_reject_assumption(
        cx: &Cx,
        env: ParamEnv,
        predicate: Self,
        assumption: Clause,
    ) -> Result<(), NoSolution> {
        let _ = env;
        fast_reject(cx, predicate, assumption)
    }

    fn match_assumption<R, F: FnOnce(&mut E) -> Result<R, NoSolutionOrStop>>(
        alloc: Global,
        ecx: &mut E,
        env: ParamEnv,
        predicate: Self,
        assumption: Clause,
        then: F,
    ) -> Result<R, NoSolutionOrStop> {
        match_clause(alloc, ecx, env, predicate, assumption, then)
    }

    fn asks_of_objects() -> bool {
        true
    }

    fn consider_impl_candidate<
        F: FnOnce(&mut E, Certainty) -> Result<CanonicalResponse, NoSolutionOrStop>,
    >(
        alloc: Global,
        ecx: &mut E,
        env: ParamEnv,
        predicate: Self,
        of: ImplId,
        then: F,
    ) -> Result<Candidate, NoSolutionOrStop> {
        consider_impl(alloc, ecx, env, predicate, of, then)
    }

    fn consider_additional_alias_assumptions(
        alloc: Global,
        _ecx: &mut E,
        _env: ParamEnv,
        _predicate: Self,
        _alias: AliasTy,
    ) -> Result<Vec<Candidate>, Stop> {
        Ok(Vec::new(alloc))
    }

    fn consider_structural_builtin_unsize_candidates(
        alloc: Global,
        ecx: &mut E,
        env: ParamEnv,
        predicate: Self,
    ) -> Result<Vec<Candidate>, Stop> {
        consider_unsizing(alloc, ecx, env, predicate)
    }

    fn consider_builtin_candidate(
        alloc: Global,
        ecx: &mut E,
        env: ParamEnv,
        predicate: Self,
        rule: LanguageRule,
    ) -> Result<Candidate, NoSolutionOrStop> {
        consider_rule(alloc, ecx, env, predicate, rule)
    }
}
