//! Rows that ask an evaluator about objects and their bounds.

use crate::context::lookups::listed_answer;
use crate::evaluator::eval::Operands;
use crate::evaluator::refusals::or_refusal;
use crate::notation::answers::{node, Answer, Item, Items};
use crate::notation::parts::clause_fits;
use crate::notation::reader::Reader;
use crate::notation::refusals::Refusal;
use crate::notation::rows::Row;
use crate::notation::typed::{args_at, clause_at, env_at, ty_at, vars_at};
use candidate_eval::eval::binders::{
    enter_binder, enter_clause, instantiate_binder_with_infer, instantiate_clause_with_infer,
};
use candidate_eval::eval::context::EvalCtxt;
use candidate_eval::objects::object::{bound_matches, matching_bounds, pick_bound};
use candidate_eval::objects::object_candidate::predicates_for_object_candidate;
use candidate_ir::decl::context::Cx;
use candidate_ir::decl::make::Make;
use candidate_ir::ir::kinds::{
    AliasTerm, AssocId, Binder, Clause, ClauseKind, Goal, ParamEnv, PredicatePolarity, Preds,
    TraitPredicate, TraitRef, TyKind,
};
use candidate_ir::ir::trees::Trees;
use kit::alloc::Global;
use kit::prelude::*;

/// The reference that the clause says to hold, behind its binder, with the arguments that it takes; else a `Refusal::Condition` comes.
fn reference_at(cx: &Cx, clause: u32) -> Result<Binder<TraitRef>, Refusal> {
    let Binder { vars, value } = cx.clause(clause_at(cx, clause)?);
    let ClauseKind::Trait(TraitPredicate { trait_ref, .. }) = value else {
        return Err(Refusal::Condition);
    };
    let polarity = PredicatePolarity::Positive;
    let value = ClauseKind::Trait(TraitPredicate {
        trait_ref,
        polarity,
    });
    let holds = Binder { vars, value };
    if !clause_fits(cx, holds) || !cx.clause_args_fit(holds) {
        return Err(Refusal::Condition);
    }
    let value = trait_ref;
    Ok(Binder { vars, value })
}

/// The bounds of the object's type.
fn bounds_at(cx: &Cx, object: u32) -> Result<Preds, Refusal> {
    match cx.kind(ty_at(cx, object)?) {
        TyKind::Dynamic(bounds, _) => Ok(bounds),
        _ => Err(Refusal::Condition),
    }
}

/// The goals, each of a clause and its environment.
fn listed_goals(alloc: Global, goals: &[Goal<Clause>]) -> Result<Answer, Refusal> {
    let mut items = Items::new(alloc);
    for goal in goals {
        items.push(Item::Node(goal.predicate.0));
        items.push(Item::Node(goal.param_env.0));
    }
    items.list()
}

/// What an object candidate asks for, for the reference that a clause says to hold.
fn asked<E: EvalCtxt>(alloc: Global, ecx: &mut E, of: Operands) -> Result<Answer, Refusal> {
    let env = env_at(ecx.cx(), of.left)?;
    let reference = reference_at(ecx.cx(), of.right)?;
    let bounds = bounds_at(ecx.cx(), of.third)?;
    let outcome = predicates_for_object_candidate(alloc, ecx, env, reference, bounds);
    listed_goals(alloc, or_refusal(outcome)?.as_slice())
}

/// An environment, and the associated type of a list.
fn projection_at(
    cx: &Cx,
    env: u32,
    def_id: AssocId,
    args: u32,
) -> Result<(ParamEnv, AliasTerm), Refusal> {
    let env = env_at(cx, env)?;
    let args = args_at(cx, args)?;
    Ok((env, AliasTerm { def_id, args }))
}

/// The clauses of the environment of that number.
fn clauses_at(alloc: Global, cx: &Cx, env: u32) -> Result<Vec<Clause>, Refusal> {
    Ok(Vec::from_slice(alloc, cx.param_env(env_at(cx, env)?))?)
}

/// Which of the bounds match the associated type of the list, or the term that the only one gives it.
fn of_bounds<E: EvalCtxt>(
    alloc: Global,
    ecx: &mut E,
    verb: &str,
    def_id: AssocId,
    of: Operands,
) -> Result<Answer, Refusal> {
    let (env, projection) = projection_at(ecx.cx(), of.left, def_id, of.third)?;
    let bounds = clauses_at(alloc, ecx.cx(), of.right)?;
    if verb == "pick" {
        let outcome = pick_bound(alloc, ecx, env, bounds.as_slice(), projection);
        return node(or_refusal(outcome));
    }
    let found = matching_bounds(alloc, ecx, env, bounds.as_slice(), projection);
    listed_answer(alloc, found)
}

/// Whether the bound matches the associated type of the list.
fn matches<E: EvalCtxt>(
    alloc: Global,
    ecx: &mut E,
    def_id: AssocId,
    of: Operands,
) -> Result<Answer, Refusal> {
    let (env, projection) = projection_at(ecx.cx(), of.left, def_id, of.third)?;
    let bound = clause_at(ecx.cx(), of.right)?;
    let is_match = bound_matches(alloc, ecx, env, bound, projection)?;
    Ok(Answer::One(Item::Truth(is_match)))
}

/// What stands under the clause's own binder, with fresh variables, or with placeholders where it is entered.
fn opened_clause<E: EvalCtxt>(
    alloc: Global,
    ecx: &mut E,
    enters: bool,
    clause: u32,
) -> Result<Answer, Refusal> {
    let clause = clause_at(ecx.cx(), clause)?;
    if enters {
        node(enter_clause(alloc, ecx, clause))
    } else {
        node(instantiate_clause_with_infer(alloc, ecx, clause))
    }
}

/// The type under the binder, with fresh variables, or with placeholders where it is entered.
fn opened_type<E: EvalCtxt>(
    alloc: Global,
    ecx: &mut E,
    enters: bool,
    ty: u32,
    vars: u32,
) -> Result<Answer, Refusal> {
    let value = ty_at(ecx.cx(), ty)?;
    let vars = vars_at(ecx.cx(), vars)?;
    let binder = Binder { vars, value };
    if enters {
        node(enter_binder(alloc, ecx, binder))
    } else {
        node(instantiate_binder_with_infer(alloc, ecx, binder))
    }
}

/// What the row asks, if it is one of these rows.
pub fn answer<E: EvalCtxt>(
    reader: &Reader<'_>,
    ecx: &mut E,
    row: Row<'_>,
    of: Operands,
) -> Result<Answer, Refusal> {
    let alloc = reader.alloc;
    let def_id = AssocId(reader.number(row.first));
    let enters = row.verb == "enter";
    match row.verb {
        "object" => asked(alloc, ecx, of),
        "instantiate" | "enter" if row.right.is_empty() => {
            opened_clause(alloc, ecx, enters, of.left)
        }
        "instantiate" | "enter" => opened_type(alloc, ecx, enters, of.left, of.right),
        "matching" | "pick" => of_bounds(alloc, ecx, row.verb, def_id, of),
        "matches" => matches(alloc, ecx, def_id, of),
        _ => Err(Refusal::Condition),
    }
}
