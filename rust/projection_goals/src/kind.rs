// Made of `crates/projection_goals/src/kind.rt` by `bench/plain.py`: an edit of this file is lost.

//! Goals that a projection is a term, as a kind of goals.


use kit::{eprintln, format, prelude::*, print, println, vec};
use crate::impls::consider_impl;
use crate::language::consider_rule;
use crate::matching::{fast_reject, match_clause};
use candidate_assembly::assembly::kind::{GoalKind, NoSolution};
use candidate_assembly::assembly::language::LanguageRule;
use candidate_eval::eval::certainty::Certainty;
use candidate_eval::eval::clauses::self_ty;
use candidate_eval::eval::context::EvalCtxt;
use candidate_eval::eval::refusal::NoSolutionOrStop;
use candidate_eval::eval::response::{Candidate, CanonicalResponse};
use ir_context::decl::Cx;
use ir_trees::decl::contents::ImplId;
use ir_trees::ir::heads::Flag;
use ir_trees::ir::kinds::{
    AliasTy, AssocId, Clause, ParamEnv, PredicatePolarity, TraitId, TraitPredicate, TraitRef, Ty,
};
use ir_trees::ir::stop::Stop;
use ir_trees::ir::trees::Trees;
use kit::alloc::Global;

/// That a projection is a term: the associated type of its arguments is this type.
#[derive(Clone, Copy, PartialEq, Eq, Debug)]
pub struct NormalizesTo {
    pub alias: AliasTy,
    pub term: Ty,
}

/// The trait that the associated type is of; of the number of what is none, the trait of number 0.
pub fn trait_of(cx: &Cx, item: AssocId) -> TraitId
{
    match cx.assoc_trait(item) {
        Some(of) => of,
        None => TraitId(0),
    }
}

/// The reference to the projection's trait, with the projection's arguments.
pub(crate) fn reference(cx: &Cx, env: ParamEnv, predicate: NormalizesTo) -> TraitRef
{
    let _ = env;
    TraitRef {
        def_id: trait_of(cx, AssocId(predicate.alias.id.0)),
        args: predicate.alias.args,
    }
}

/// Whether an error stands in the projection's arguments or in the term.
pub(crate) fn holds_error(cx: &Cx, env: ParamEnv, predicate: NormalizesTo) -> bool
{
    let _ = env;
    cx.has(predicate.alias.args, Flag::Error) || cx.has(predicate.term, Flag::Error)
}

impl<E: EvalCtxt> GoalKind<E> for NormalizesTo {




    fn self_ty(cx: &Cx, env: ParamEnv, predicate: Self) -> Ty {
        self_ty(cx, reference(cx, env, predicate))
    }

    fn trait_ref(cx: &Cx, env: ParamEnv, predicate: Self) -> TraitRef {
        reference(cx, env, predicate)
    }

    fn holds_error(cx: &Cx, env: ParamEnv, predicate: Self) -> bool {
        holds_error(cx, env, predicate)
    }

    fn with_replaced_self_ty(
        alloc: Global,
        ecx: &mut E,
        env: ParamEnv,
        predicate: Self,
        self_ty: Ty,
    ) -> Result<Self, Stop> {
        let of = TraitPredicate {
            trait_ref: reference(ecx.cx(), env, predicate),
            polarity: PredicatePolarity::Positive,
        };
        let other = TraitPredicate::with_replaced_self_ty(alloc, ecx, env, of, self_ty)?;
        let alias = AliasTy {
            kind: predicate.alias.kind,
            id: predicate.alias.id,
            args: other.trait_ref.args,
        };
        Ok(NormalizesTo {
            alias,
            term: predicate.term,
        })
    }

    fn resolve_vars_if_possible(
        ecx: &mut E,
        _env: ParamEnv,
        predicate: Self,
        _resolved_env: ParamEnv,
    ) -> Result<Self, Stop> {
        let args = ecx.resolve_args_if_possible(predicate.alias.args)?;
        let term = ecx.resolve_ty_if_possible(predicate.term)?;
        let alias = AliasTy {
            kind: predicate.alias.kind,
            id: predicate.alias.id,
            args,
        };
        Ok(NormalizesTo { alias, term })
    }

    fn fast_reject_assumption(
        cx: &Cx,
        env: ParamEnv,
        predicate: Self,
        assumption: Clause,
    ) -> Result<(), NoSolution> {
        let _ = env;
        fast_reject(cx, predicate, assumption)
    }

    fn match_assumption<R, F: FnOnce(&mut E) -> Result<R, NoSolutionOrStop>>(
        alloc: Global,
        ecx: &mut E,
        env: ParamEnv,
        predicate: Self,
        assumption: Clause,
        then: F,
    ) -> Result<R, NoSolutionOrStop> {
        match_clause(alloc, ecx, env, predicate, assumption, then)
    }

    fn asks_of_objects() -> bool {
        false
    }

    fn consider_impl_candidate<
        F: FnOnce(&mut E, Certainty) -> Result<CanonicalResponse, NoSolutionOrStop>,
    >(
        alloc: Global,
        ecx: &mut E,
        env: ParamEnv,
        predicate: Self,
        of: ImplId,
        then: F,
    ) -> Result<Candidate, NoSolutionOrStop> {
        consider_impl(alloc, ecx, env, predicate, of, then)
    }

    fn consider_additional_alias_assumptions(
        alloc: Global,
        _ecx: &mut E,
        _env: ParamEnv,
        _predicate: Self,
        _alias: AliasTy,
    ) -> Result<Vec<Candidate>, Stop> {
        Ok(Vec::new(alloc))
    }

    fn consider_structural_builtin_unsize_candidates(
        alloc: Global,
        _ecx: &mut E,
        _env: ParamEnv,
        _predicate: Self,
    ) -> Result<Vec<Candidate>, Stop> {
        Ok(Vec::new(alloc))
    }

    fn consider_builtin_candidate(
        alloc: Global,
        ecx: &mut E,
        env: ParamEnv,
        predicate: Self,
        rule: LanguageRule,
    ) -> Result<Candidate, NoSolutionOrStop> {
        consider_rule(alloc, ecx, env, predicate, rule)
    }
}
