//! Rows that ask the rules by which goals of traits are proved.

use crate::candidates::aliases;
use crate::evaluator::eval::Operands;
use crate::evaluator::merging::{certainty, push_certainty, push_response};
use crate::evaluator::refusals::{or_refusal, Reason};
use crate::notation::answers::{Answer, Item, Items};
use crate::notation::reader::Reader;
use crate::notation::refusals::Refusal;
use crate::notation::rows::Row;
use crate::notation::tables::{value_of, word_for, UNNAMED};
use crate::notation::typed::{clause_at, env_at, ty_at};
use candidate_assembly::assembly::candidates::FailedCandidateInfo;
use candidate_assembly::assembly::characterize::characterize_param_env_assumption;
use candidate_assembly::assembly::kind::GoalKind;
use candidate_assembly::assembly::language::LanguageRule;
use candidate_assembly::assembly::listing::consider_impl_and_respond;
use candidate_assembly::assembly::matching::probe_and_consider_implied_clause;
use candidate_assembly::assembly::steps::forced_ambiguity;
use candidate_eval::eval::certainty::Certainty;
use candidate_eval::eval::clauses::{predicate_in, self_ty};
use candidate_eval::eval::context::EvalCtxt;
use candidate_eval::eval::response::{Candidate, CandidateHeadUsages};
use candidate_eval::eval::source::{BuiltinImplSource, CandidateSource, ParamEnvSource};
use candidate_eval::structural::callable::has_callable_cell;
use candidate_ir::decl::contents::{AliasBoundKind, ImplId, Sizedness};
use candidate_ir::decl::context::Cx;
use candidate_ir::decl::make::Make;
use candidate_ir::ir::heads::Flag;
use candidate_ir::ir::kinds::{Clause, ClosureKind, GoalSource, ParamEnv, TraitPredicate};
use candidate_ir::ir::trees::Trees;
use kit::alloc::{AllocError, Global};
use kit::prelude::*;

/// The words of rules.
const RULES: [(&str, LanguageRule); 15] = [
    ("error", LanguageRule::Error),
    ("auto", LanguageRule::AutoTrait),
    ("alias", LanguageRule::TraitAlias),
    ("sized", LanguageRule::Sizedness(Sizedness::Sized)),
    ("meta_sized", LanguageRule::Sizedness(Sizedness::MetaSized)),
    ("copy", LanguageRule::CopyClone),
    ("fn_ptr", LanguageRule::FnPtrTrait),
    ("fn", LanguageRule::FnTrait(ClosureKind::Fn)),
    ("fn_mut", LanguageRule::FnTrait(ClosureKind::FnMut)),
    ("fn_once", LanguageRule::FnTrait(ClosureKind::FnOnce)),
    ("tuple", LanguageRule::Tuple),
    ("pointee", LanguageRule::Pointee),
    ("discriminant", LanguageRule::DiscriminantKind),
    ("destruct", LanguageRule::Destruct),
    ("no_drop", LanguageRule::NoDrop),
];

/// The words of sources that have no number.
const SOURCES: [(&str, CandidateSource); 7] = [
    (
        "trivial",
        CandidateSource::BuiltinImpl(BuiltinImplSource::Trivial),
    ),
    (
        "misc",
        CandidateSource::BuiltinImpl(BuiltinImplSource::Misc),
    ),
    ("global", CandidateSource::ParamEnv(ParamEnvSource::Global)),
    (
        "non_global",
        CandidateSource::ParamEnv(ParamEnvSource::NonGlobal),
    ),
    (
        "self_bound",
        CandidateSource::AliasBound(AliasBoundKind::SelfBounds),
    ),
    (
        "other_bound",
        CandidateSource::AliasBound(AliasBoundKind::NonSelfBounds),
    ),
    ("unknowable", CandidateSource::CoherenceUnknowable),
];

/// The source that the row names: a word, or one of `impl`, `object` and `upcasting` with a name or a number behind it.
pub(crate) fn source_of(reader: &Reader<'_>, row: Row<'_>) -> Option<CandidateSource> {
    let number = reader.number(row.second);
    let source = match row.first {
        "impl" => CandidateSource::Impl(ImplId(number)),
        "object" => CandidateSource::BuiltinImpl(BuiltinImplSource::Object(number as usize)),
        "upcasting" => {
            CandidateSource::BuiltinImpl(BuiltinImplSource::TraitUpcasting(number as usize))
        }
        word => return value_of(&SOURCES, word),
    };
    Some(source)
}

/// Adds what is printed for a source: an impl's name, or a word, behind which stands the number of a supertrait.
pub fn push_source(items: &mut Items, source: CandidateSource) {
    let (word, number) = match source {
        CandidateSource::Impl(id) => {
            items.push(Item::Impl(id));
            return;
        }
        CandidateSource::BuiltinImpl(BuiltinImplSource::Object(number)) => ("object", number),
        CandidateSource::BuiltinImpl(BuiltinImplSource::TraitUpcasting(number)) => {
            ("upcasting", number)
        }
        source => {
            let word = word_for(&SOURCES, source).unwrap_or(UNNAMED);
            items.push(Item::Word(word));
            return;
        }
    };
    items.push(Item::Word(word));
    items.push(Item::Count(number));
}

/// Adds the source of the candidate, and its response.
fn push_candidate(items: &mut Items, candidate: &Candidate) {
    push_source(items, candidate.source);
    push_response(items, &candidate.result);
}

/// The candidate, if there is one.
fn found<E: Reason>(alloc: Global, outcome: Result<Candidate, E>) -> Result<Answer, Refusal> {
    let mut items = Items::new(alloc);
    push_candidate(&mut items, &or_refusal(outcome)?);
    items.row()
}

/// The candidates, each with its source and its response.
pub fn found_rows(alloc: Global, list: &[Candidate]) -> Result<Answer, Refusal> {
    let mut items = Items::new(alloc);
    for (place, candidate) in list.iter().enumerate() {
        if place > 0 {
            items.push(Item::Next);
        }
        push_candidate(&mut items, candidate);
    }
    items.rows()
}

/// Adds the numbers of what was used.
fn push_usages(items: &mut Items, usages: &CandidateHeadUsages) {
    for number in usages.heads() {
        items.push(Item::Count(*number as usize));
    }
}

/// The candidates, each with its source and what it has used; and at the end what each clause of the environment has used that was refused.
pub(crate) fn used_rows(
    alloc: Global,
    list: &[Candidate],
    failed: &FailedCandidateInfo,
) -> Result<Answer, Refusal> {
    let mut items = Items::new(alloc);
    for candidate in list {
        push_source(&mut items, candidate.source);
        push_usages(&mut items, &candidate.head_usages);
        items.push(Item::Next);
    }
    items.push(Item::Word("refused"));
    for usages in failed.param_env_head_usages.as_slice() {
        push_usages(&mut items, usages);
    }
    items.rows()
}

/// The goal that the clause says, in the environment. `Refusal::Condition` comes where it says nothing of a trait, and where a parameter
/// or an escaping bound variable stands in what it says.
pub fn goal_at(cx: &Cx, env: u32, clause: u32) -> Result<(ParamEnv, TraitPredicate), Refusal> {
    let env = env_at(cx, env)?;
    let clause = clause_at(cx, clause)?;
    let predicate = predicate_in(cx, clause).ok_or(Refusal::Condition)?;
    let trait_ref = predicate.trait_ref;
    if cx.has_param(trait_ref) || cx.has_escaping_bound_vars(trait_ref.args) {
        return Err(Refusal::Condition);
    }
    Ok((env, predicate))
}

/// That the goal's self type is neither a general variable nor a bound type; that it is one is a `Refusal::Condition`.
fn expect_typed(cx: &Cx, env: ParamEnv, predicate: TraitPredicate) -> Result<(), Refusal> {
    if !has_callable_cell(cx, self_ty(cx, predicate.trait_ref)) {
        return Err(Refusal::Condition);
    }
    Ok(())
}

/// The clause of that number, in which no parameter may stand.
fn plain_clause_at(cx: &Cx, number: u32) -> Result<Clause, Refusal> {
    let clause = clause_at(cx, number)?;
    if cx.has(clause, Flag::Param) {
        return Err(Refusal::Condition);
    }
    Ok(clause)
}

/// The candidate by a clause of the environment.
fn by_clause<E: EvalCtxt>(
    alloc: Global,
    ecx: &mut E,
    env: ParamEnv,
    predicate: TraitPredicate,
    clause: u32,
) -> Result<Answer, Refusal> {
    let clause = plain_clause_at(ecx.cx(), clause)?;
    let outcome =
        TraitPredicate::probe_and_consider_param_env_candidate(alloc, ecx, env, predicate, clause);
    match outcome {
        Ok(outcome) => found(alloc, outcome),
        Err(stop) => Err(Refusal::Stop(stop)),
    }
}

/// The candidate by a clause that implies the goal where another one holds, if the row names one.
fn by_implied_clause<E: EvalCtxt>(
    alloc: Global,
    ecx: &mut E,
    env: ParamEnv,
    predicate: TraitPredicate,
    clause: u32,
    required: Option<u32>,
) -> Result<Answer, Refusal> {
    let clause = plain_clause_at(ecx.cx(), clause)?;
    let source = CandidateSource::BuiltinImpl(BuiltinImplSource::Misc);
    let outcome = match required {
        None => probe_and_consider_implied_clause(alloc, ecx, source, env, predicate, clause, &[]),
        Some(required) => {
            let required = plain_clause_at(ecx.cx(), required)?;
            probe_and_consider_implied_clause(
                alloc,
                ecx,
                source,
                env,
                predicate,
                clause,
                &[(GoalSource::Misc, required)],
            )
        }
    };
    found(alloc, outcome)
}

/// The candidate of the language's rule of that word.
fn by_rule<E: EvalCtxt>(
    alloc: Global,
    ecx: &mut E,
    env: ParamEnv,
    predicate: TraitPredicate,
    word: &str,
) -> Result<Answer, Refusal> {
    let rule = value_of(&RULES, word).ok_or(Refusal::Condition)?;
    expect_typed(ecx.cx(), env, predicate)?;
    let outcome = TraitPredicate::consider_builtin_candidate(alloc, ecx, env, predicate, rule);
    found(alloc, outcome)
}

/// The candidate that is as sure as the row says, whatever the goal.
fn forced<E: EvalCtxt>(
    alloc: Global,
    ecx: &mut E,
    row: Row<'_>,
    env: u32,
) -> Result<Answer, Refusal> {
    let env = env_at(ecx.cx(), env)?;
    let (_, words) = row.words.split_once(' ').unwrap_or((row.words, ""));
    let Some(Certainty::Maybe(maybe)) = certainty(words) else {
        return Err(Refusal::Condition);
    };
    let outcome = forced_ambiguity(alloc, ecx, env, maybe);
    found(alloc, outcome)
}

/// Whether the clause is global, and how sure its candidate is at most.
fn characterized<E: EvalCtxt>(
    alloc: Global,
    ecx: &mut E,
    env: u32,
    clause: u32,
) -> Result<Answer, Refusal> {
    let env = env_at(ecx.cx(), env)?;
    let clause = clause_at(ecx.cx(), clause)?;
    let outcome = characterize_param_env_assumption(alloc, ecx, env, clause);
    let (source, certainty) = or_refusal(outcome)?;
    let mut items = Items::new(alloc);
    push_source(&mut items, CandidateSource::ParamEnv(source));
    push_certainty(&mut items, certainty);
    items.row()
}

/// The goal's reference with all values put in, in the environment of that number.
fn resolved<E: EvalCtxt>(
    ecx: &mut E,
    env: ParamEnv,
    predicate: TraitPredicate,
    resolved_env: u32,
) -> Result<Answer, Refusal> {
    let resolved_env = env_at(ecx.cx(), resolved_env)?;
    let goal = GoalKind::resolve_vars_if_possible(ecx, env, predicate, resolved_env)?;
    Ok(Answer::One(Item::Reference(goal.trait_ref)))
}

/// The goal's reference with the type of that number as its self type.
fn with_self_type<E: EvalCtxt>(
    alloc: Global,
    ecx: &mut E,
    env: ParamEnv,
    predicate: TraitPredicate,
    self_ty: u32,
) -> Result<Answer, Refusal> {
    let self_ty = ty_at(ecx.cx(), self_ty)?;
    let goal = GoalKind::with_replaced_self_ty(alloc, ecx, env, predicate, self_ty)?;
    Ok(Answer::One(Item::Reference(goal.trait_ref)))
}

/// What the goal is about, by the word, or whether it holds an error.
fn about<E: EvalCtxt>(
    cx: &Cx,
    env: ParamEnv,
    predicate: TraitPredicate,
    word: &str,
) -> Result<Answer, Refusal> {
    let item = match word {
        "type" => Item::Node(GoalKind::<E>::self_ty(cx, env, predicate).0),
        "reference" => Item::Reference(GoalKind::<E>::trait_ref(cx, env, predicate)),
        "trait" => Item::Definition(GoalKind::<E>::trait_def_id(cx, env, predicate).0),
        _ => Item::Truth(GoalKind::<E>::holds_error(cx, env, predicate)),
    };
    Ok(Answer::One(item))
}

/// Whether the clause of that number passes the goal's quick rejection.
fn passes<E: EvalCtxt>(
    cx: &Cx,
    env: ParamEnv,
    predicate: TraitPredicate,
    clause: u32,
) -> Result<Answer, Refusal> {
    let clause = clause_at(cx, clause)?;
    let answer = GoalKind::<E>::fast_reject_assumption(cx, env, predicate, clause);
    Ok(Answer::One(Item::Truth(answer.is_ok())))
}

/// What the row asks of the goal of the first two operands; `named` is the number of what its second word names.
fn of_goal<E: EvalCtxt>(
    alloc: Global,
    ecx: &mut E,
    row: Row<'_>,
    of: Operands,
    named: u32,
) -> Result<Answer, Refusal> {
    let (env, predicate) = goal_at(ecx.cx(), of.left, of.right)?;
    match row.verb {
        "consider" => match row.first {
            "where" => by_clause(alloc, ecx, env, predicate, of.third),
            "implied" => {
                let required = (!row.second.is_empty()).then_some(named);
                by_implied_clause(alloc, ecx, env, predicate, of.third, required)
            }
            "impl" => {
                let outcome = consider_impl_and_respond(alloc, ecx, env, predicate, ImplId(named));
                found(alloc, outcome)
            }
            word => by_rule(alloc, ecx, env, predicate, word),
        },
        "about" => match row.first {
            "resolved" => resolved(ecx, env, predicate, of.third),
            "other" => with_self_type(alloc, ecx, env, predicate, of.third),
            word => about::<E>(ecx.cx(), env, predicate, word),
        },
        _ => passes::<E>(ecx.cx(), env, predicate, of.third),
    }
}

/// What the row asks, if it is one of these rows.
pub fn answer<E: EvalCtxt>(
    reader: &Reader<'_>,
    ecx: &mut E,
    row: Row<'_>,
    of: Operands,
) -> Result<Answer, Refusal> {
    let alloc = reader.alloc;
    match row.verb {
        "forced" => forced(alloc, ecx, row, of.left),
        "characterize" => characterized(alloc, ecx, of.left, of.right),
        "additional" => aliases::additional(alloc, ecx, of),
        _ => of_goal(alloc, ecx, row, of, reader.number(row.second)),
    }
}
