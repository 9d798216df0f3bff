// Made of `crates/assembly_text/src/refusals.rt` by `bench/plain.py`: an edit of this file is lost.

//! Why a goal is refused, as far as declarations say it; and reasons behind answers that have none of their own.


use kit::{eprintln, format, prelude::*, print, println, vec};
use crate::asking::{Asking, Query};
use crate::checking::read_effort_alone;
use crate::telling::name_of_impl;
use assembly_notation::faults::Fault;
use assembly_notation::types::Scope;
use assembly_notation::words::Words;
use candidate_eval::eval::clauses::{predicate_in, self_ty};
use ir_context::decl::UnifyCount;
use ir_context::decl::context::Cx;
use ir_trees::decl::contents::{ImplId, ImplPolarity, LangItem};
use ir_trees::ir::heads::Flag;
use ir_trees::ir::kinds::{Args, Clause, ClauseKind, PredicatePolarity, TraitId, TraitPredicate};
use ir_trees::ir::stop::Stop;
use ir_trees::ir::trees::Trees;
use ir_trees::ir::unify::RightSide;

/// Why a goal is refused.
#[derive(Clone, Copy, Debug)]
enum Refusal {
    /// An impl that may be for it says the opposite.
    OppositeImpl(ImplId),
    /// An alias stands in it, by which an impl may be for it that says the opposite.
    Alias,
    /// Impls may be for it, and none holds.
    NoImplHolds,
    /// The language knows the trait, and has no rule that holds, nor is there an impl.
    NoRule,
    /// No impl may be for it.
    NoImpl,
}

/// What the impl says of its trait, if its header may be equal to these arguments.
fn polarity_for(cx: &Cx, of: ImplId, args: Args) -> Option<ImplPolarity>
{
    let contents = cx.impl_contents(of)?;
    if cx.args_may_unify(args, contents.trait_ref.args, RightSide::Header) {
        Some(contents.polarity)
    } else {
        None
    }
}

/// Whether an impl that says this of its trait says the opposite of a goal.
fn is_opposite(polarity: PredicatePolarity, declared: ImplPolarity) -> bool {
    match polarity {
        PredicatePolarity::Positive => matches!(declared, ImplPolarity::Negative),
        PredicatePolarity::Negative => matches!(declared, ImplPolarity::Positive),
    }
}

/// Whether an impl that says this of its trait says what a goal does.
fn is_same(polarity: PredicatePolarity, declared: ImplPolarity) -> bool {
    match polarity {
        PredicatePolarity::Positive => matches!(declared, ImplPolarity::Positive),
        PredicatePolarity::Negative => matches!(declared, ImplPolarity::Negative),
    }
}

/// The first declared impl that may be for the goal and says what it does.
fn serving_impl(cx: &Cx, goal: TraitPredicate) -> Result<Option<ImplId>, Stop>
{
    let of = goal.trait_ref;
    let relevant = cx.for_each_relevant_impl(of.def_id, self_ty(cx, of), &mut UnifyCount::new())?;
    for number in 0..relevant.len() {
        if let Some(polarity) = polarity_for(cx, relevant[number], of.args) {
            if is_same(goal.polarity, polarity) {
                return Ok(Some(relevant[number]));
            }
        }
    }
    Ok(None)
}

/// Adds which declared impl may be for what the clause says of a trait, if one may.
pub(crate) fn print_serving(
    scope: &Scope<'_, Cx>,
    clause: Clause,
    text: &mut String,
) -> Result<(), Stop>
{
    let Some(goal) = predicate_in(&scope.maker, clause) else {
        return Ok(());
    };
    if let Some(of) = serving_impl(&scope.maker, goal)? {
        text.push_str(", and impl ")?;
        text.push_str(name_of_impl(scope, of))?;
        text.push_str(" may hold")?;
    }
    Ok(())
}

/// Whether one of the clauses says what an associated type is.
fn say_of_projection(cx: &Cx, clauses: &[Clause]) -> bool
{
    for number in 0..clauses.len() {
        if let ClauseKind::Projection(_) = cx.clause(clauses[number]).value {
            return true;
        }
    }
    false
}

/// Whether a where clause of the impl says what an associated type is.
fn asks_for_type(cx: &Cx, of: ImplId) -> bool {
    match cx.impl_contents(of) {
        Some(contents) => say_of_projection(cx, contents.wheres.as_slice()),
        None => false,
    }
}

/// Adds that the first declared impl which may be for what the clause says of a trait asks what an associated type is, if it does. No goal finds
/// that out, so what the clause says may stay open.
pub(crate) fn print_asking(
    scope: &Scope<'_, Cx>,
    clause: Clause,
    text: &mut String,
) -> Result<(), Stop>
{
    let Some(goal) = predicate_in(&scope.maker, clause) else {
        return Ok(());
    };
    if let Some(of) = serving_impl(&scope.maker, goal)? {
        if asks_for_type(&scope.maker, of) {
            text.push_str(" because impl ")?;
            text.push_str(name_of_impl(scope, of))?;
            text.push_str(" asks what an associated type is")?;
        }
    }
    Ok(())
}

/// Whether the trait is that item.
fn is_lang_item(cx: &Cx, item: LangItem, of: TraitId) -> bool {
    match cx.lang_item(item) {
        Some(found) => found == of,
        None => false,
    }
}

/// Whether the trait is an auto trait.
fn is_auto(cx: &Cx, of: TraitId) -> bool {
    match cx.trait_flags(of) {
        Some(flags) => flags.auto,
        None => false,
    }
}

/// Whether the language knows the trait: by its name, or as an auto trait.
fn is_known_to_language(cx: &Cx, of: TraitId) -> bool {
    for item in &LangItem::ALL {
        if is_lang_item(cx, *item, of) {
            return true;
        }
    }
    is_auto(cx, of)
}

/// Why the goal is refused, by its trait and the headers of impls.
fn refusal_of(cx: &Cx, goal: TraitPredicate) -> Result<Refusal, Stop>
{
    let of = goal.trait_ref;
    let relevant = cx.for_each_relevant_impl(of.def_id, self_ty(cx, of), &mut UnifyCount::new())?;
    let mut has_impl = false;
    for number in 0..relevant.len() {
        if let Some(polarity) = polarity_for(cx, relevant[number], of.args) {
            if is_opposite(goal.polarity, polarity) {
                return Ok(if cx.has(of.args, Flag::Alias) {
                    Refusal::Alias
                } else {
                    Refusal::OppositeImpl(relevant[number])
                });
            }
            has_impl = true;
        }
    }
    if has_impl {
        Ok(Refusal::NoImplHolds)
    } else if is_known_to_language(cx, of.def_id) {
        Ok(Refusal::NoRule)
    } else {
        Ok(Refusal::NoImpl)
    }
}

/// Adds why what the clause says of a trait is refused.
pub(crate) fn print_refusal(
    scope: &Scope<'_, Cx>,
    clause: Clause,
    text: &mut String,
) -> Result<(), Stop>
{
    let Some(goal) = predicate_in(&scope.maker, clause) else {
        return Ok(());
    };
    let words = match refusal_of(&scope.maker, goal)? {
        Refusal::OppositeImpl(of) => return print_opposite(scope, goal.polarity, of, text),
        Refusal::Alias => " because an alias isn't known",
        Refusal::NoImplHolds => " because no impl holds",
        Refusal::NoRule => " because no impl and no rule of the language holds",
        Refusal::NoImpl => " because no impl",
    };
    Ok(text.push_str(words)?)
}

/// Adds that the impl says the opposite of a goal.
fn print_opposite(
    scope: &Scope<'_, Cx>,
    polarity: PredicatePolarity,
    of: ImplId,
    text: &mut String,
) -> Result<(), Stop> {
    text.push_str(match polarity {
        PredicatePolarity::Positive => " because a negative impl ",
        PredicatePolarity::Negative => " because a positive impl ",
    })?;
    Ok(text.push_str(name_of_impl(scope, of))?)
}

impl<'a> Asking<'a> {
    /// Adds to the answer of a line why it is so, where that is asked for and the answer doesn't say it.
    pub(crate) fn add_reasons_of<'b>(
        self,
        query: Query,
        words: Words<'b>,
    ) -> (Asking<'a>, Result<Result<(), Stop>, Fault<'b>>) {
        if !self.reasons {
            return (self, Ok(Ok(())));
        }
        match query {
            Query::Solve | Query::Answer | Query::Candidates => self.add_why(words),
            Query::Overlap => self.add_why_overlap(words),
            Query::Check => self.add_why_of_pairs(words),
            Query::Orphan | Query::Knowable | Query::Normalize | Query::Why => {
                (self, Ok(Ok(())))
            }
        }
    }

    /// Adds why the goal of the line comes to what it does.
    fn add_why<'b>(
        mut self,
        mut words: Words<'b>,
    ) -> (Asking<'a>, Result<Result<(), Stop>, Fault<'b>>) {
        match self.goal(&mut words) {
            Ok((effort, predicate)) => {
                let (asking, made) = self.add_reasons_of_goal(predicate, effort);
                (asking, Ok(made))
            }
            Err(fault) => (self, Err(fault)),
        }
    }

    /// Adds why the two impls of the line overlap or not.
    fn add_why_overlap<'b>(
        self,
        mut words: Words<'b>,
    ) -> (Asking<'a>, Result<Result<(), Stop>, Fault<'b>>) {
        match self.two_impls(&mut words) {
            Ok((effort, first, second)) => {
                let (asking, made) = self.add_reasons(first, second, effort);
                (asking, Ok(made))
            }
            Err(fault) => (self, Err(fault)),
        }
    }

    /// Adds why impls may overlap of which the line's answer says so.
    fn add_why_of_pairs<'b>(
        self,
        mut words: Words<'b>,
    ) -> (Asking<'a>, Result<Result<(), Stop>, Fault<'b>>) {
        match read_effort_alone(&mut words) {
            Ok(effort) => {
                let (asking, made) = self.add_reasons_of_pairs(effort);
                (asking, Ok(made))
            }
            Err(fault) => (self, Err(fault)),
        }
    }
}
