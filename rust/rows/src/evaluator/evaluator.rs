//! Rows that ask any evaluator.

use crate::context::ir::bugs;
use crate::context::lookups::listed_answer;
use crate::evaluator::eval::Operands;
use crate::evaluator::merging::{certainty, responded, sure};
use crate::evaluator::objects;
use crate::evaluator::refusals::or_refusal;
use crate::notation::answers::{done, node, Answer, Item};
use crate::notation::reader::{kinds, Reader};
use crate::notation::refusals::Refusal;
use crate::notation::rows::Row;
use crate::notation::tables::{value_of, word_for, UNNAMED};
use crate::notation::terms::{term_at, Term};
use crate::notation::typed::{arg_at, args_at, clause_at, env_at, ty_at};
use candidate_eval::eval::ambiguity::{bail_with_ambiguity, flounder};
use candidate_eval::eval::certainty::Certainty;
use candidate_eval::eval::context::EvalCtxt;
use candidate_eval::eval::mode::TypingMode;
use candidate_eval::eval::resolving::resolve_env_if_possible;
use candidate_eval::eval::response::CandidateHeadUsages;
use candidate_eval::eval::variable::VariableKind;
use candidate_eval::eval::InferCtxtLike;
use candidate_ir::decl::context::Cx;
use candidate_ir::decl::make::Make;
use candidate_ir::ir::heads::VariableSort;
use candidate_ir::ir::kinds::{
    Args, Clause, Const, GenericArg, Goal, GoalSource, ParamEnv, Region, Ty,
};
use candidate_ir::ir::numbered::Numbered;
use candidate_ir::ir::trees::Trees;
use kit::alloc::Global;
use kit::prelude::*;

/// The words of modes.
pub const MODES: [(&str, TypingMode); 5] = [
    ("coherence", TypingMode::Coherence),
    ("analysis", TypingMode::Analysis),
    ("borrowck", TypingMode::Borrowck),
    ("post_borrowck", TypingMode::PostBorrowckAnalysis),
    ("post_analysis", TypingMode::PostAnalysis),
];

/// The words of the kinds of variables.
pub const VARIABLES: [(&str, VariableKind); 5] = [
    ("general", VariableKind::Term(VariableSort::General)),
    ("integer", VariableKind::Term(VariableSort::Integer)),
    ("floating", VariableKind::Term(VariableSort::Floating)),
    ("constant", VariableKind::Term(VariableSort::Constant)),
    ("region", VariableKind::Region),
];

/// The words of the sources of goals.
const SOURCES: [(&str, GoalSource); 2] = [
    ("misc", GoalSource::Misc),
    ("where", GoalSource::ImplWhereBound),
];

/// What a row asks an evaluator about.
#[derive(Clone, Copy)]
enum Subject {
    State,
    Instance,
    Response,
    Resolved,
    Normal,
    Hidden,
    EqualArgs,
    Equal,
    Goals,
}

/// The verbs, and what each asks about; others ask about objects.
const SUBJECTS: [(&str, Subject); 18] = [
    ("mode", Subject::State),
    ("delay", Subject::State),
    ("bugs", Subject::State),
    ("settle", Subject::State),
    ("ignore", Subject::State),
    ("fresh", Subject::Instance),
    ("placeholders", Subject::Instance),
    ("bail", Subject::Response),
    ("flounder", Subject::Response),
    ("respond", Subject::Response),
    ("resolve", Subject::Resolved),
    ("normalize", Subject::Normal),
    ("hidden", Subject::Hidden),
    ("eq_args", Subject::EqualArgs),
    ("eq", Subject::Equal),
    ("eq_goals", Subject::Equal),
    ("goal", Subject::Goals),
    ("goals", Subject::Goals),
];

/// Fresh variables, or placeholders, for parameters of the kinds of the letters.
fn instantiated<E: EvalCtxt>(alloc: Global, ecx: &mut E, row: Row<'_>) -> Result<Answer, Refusal> {
    let kinds = kinds(alloc, row.first)?;
    if row.verb == "fresh" {
        node(ecx.fresh_args_for_item(kinds.as_slice()))
    } else {
        node(ecx.placeholder_args(kinds.as_slice()))
    }
}

/// Asks for the mode, for how sure what is pending is, and puts off faults.
fn state<E: EvalCtxt>(alloc: Global, ecx: &mut E, row: Row<'_>) -> Result<Answer, Refusal> {
    match row.verb {
        "mode" => {
            let word = word_for(&MODES, ecx.typing_mode()).unwrap_or(UNNAMED);
            Ok(Answer::One(Item::Word(word)))
        }
        "delay" => done(ecx.delay_bug(row.first)),
        "bugs" => bugs(alloc, ecx.cx()),
        "settle" => sure(alloc, ecx.try_evaluate_added_goals()),
        _ => {
            ecx.ignore_candidate_head_usages(CandidateHeadUsages::new(alloc));
            Ok(Answer::One(Item::Done))
        }
    }
}

/// Asks for a response.
fn respond<E: EvalCtxt>(alloc: Global, ecx: &mut E, row: Row<'_>) -> Result<Answer, Refusal> {
    match row.verb {
        "bail" => responded(alloc, bail_with_ambiguity(ecx)),
        "flounder" => responded(alloc, flounder(ecx, &[])),
        _ => {
            let asked = certainty(row.first).unwrap_or(Certainty::Yes);
            let outcome = ecx.evaluate_added_goals_and_make_canonical_response(asked);
            responded(alloc, outcome)
        }
    }
}

/// The node with all values put in.
fn resolve<E: EvalCtxt>(alloc: Global, ecx: &mut E, number: u32) -> Result<Answer, Refusal> {
    match term_at(ecx.cx(), number).ok_or(Refusal::Condition)? {
        Term::Ty(ty) => node(ecx.resolve_ty_if_possible(ty)),
        Term::Const(constant) => node(ecx.resolve_const_if_possible(constant)),
        Term::Args(list) => node(ecx.resolve_args_if_possible(list)),
        Term::Clause(clause) => node(ecx.resolve_clause_if_possible(clause)),
        Term::Env(env) => node(resolve_env_if_possible(alloc, ecx, env)),
        Term::Region(region) => {
            let region = ecx.eager_resolve_region(region);
            Ok(Answer::One(Item::Node(region.0)))
        }
    }
}

/// The type or the constant in normal form.
fn normalize<E: EvalCtxt>(ecx: &mut E, env: u32, number: u32) -> Result<Answer, Refusal> {
    let env = env_at(ecx.cx(), env)?;
    match term_at(ecx.cx(), number) {
        Some(Term::Ty(ty)) => node(or_refusal(ecx.structurally_normalize_ty(env, ty))),
        Some(Term::Const(constant)) => {
            node(or_refusal(ecx.structurally_normalize_const(env, constant)))
        }
        _ => Err(Refusal::Condition),
    }
}

/// The opaque types that may be hidden behind the type.
fn hidden<E: EvalCtxt>(alloc: Global, ecx: &mut E, number: u32) -> Result<Answer, Refusal> {
    let ty = ty_at(ecx.cx(), number)?;
    listed_answer(alloc, ecx.opaques_with_sub_unified_hidden_type(ty))
}

/// The environment of an equation, and its two sides.
pub fn sides_at(cx: &Cx, of: Operands) -> Result<(ParamEnv, GenericArg, GenericArg), Refusal> {
    let env = env_at(cx, of.left)?;
    let left = arg_at(cx, of.right)?;
    Ok((env, left, arg_at(cx, of.third)?))
}

/// Makes both lists equal.
fn equate_args<E: EvalCtxt>(ecx: &mut E, of: Operands) -> Result<Answer, Refusal> {
    let env = env_at(ecx.cx(), of.left)?;
    let left = args_at(ecx.cx(), of.right)?;
    let right = args_at(ecx.cx(), of.third)?;
    done(or_refusal(ecx.eq_args(env, left, right)))
}

/// Makes both sides equal, and lists the goals that this leaves where they don't become pending.
fn equate<E: EvalCtxt>(
    alloc: Global,
    ecx: &mut E,
    verb: &str,
    of: Operands,
) -> Result<Answer, Refusal> {
    let (env, left, right) = sides_at(ecx.cx(), of)?;
    if verb == "eq" {
        return done(or_refusal(ecx.eq(env, left, right)));
    }
    let outcome = ecx.eq_and_get_goals(env, left, right);
    listed_answer(alloc, or_refusal(outcome))
}

/// A goal: an environment and a clause.
fn goal_of(cx: &Cx, env: u32, clause: u32) -> Result<Goal<Clause>, Refusal> {
    Ok(Goal {
        param_env: env_at(cx, env)?,
        predicate: clause_at(cx, clause)?,
    })
}

/// The goal becomes pending, or two goals do, or none.
fn add<E: EvalCtxt>(ecx: &mut E, row: Row<'_>, of: Operands) -> Result<Answer, Refusal> {
    let source = value_of(&SOURCES, row.first).ok_or(Refusal::Condition)?;
    if row.right.is_empty() {
        return done(ecx.add_goals(source, &[]));
    }
    let first = goal_of(ecx.cx(), of.left, of.right)?;
    if row.verb == "goal" {
        return done(ecx.add_goal(source, first));
    }
    let second = goal_of(ecx.cx(), of.left, of.third)?;
    done(ecx.add_goals(source, &[first, second]))
}

/// What the row asks of any evaluator, in a probe or outside of one.
pub fn answer<E: EvalCtxt>(
    reader: &Reader<'_>,
    ecx: &mut E,
    row: Row<'_>,
    of: Operands,
) -> Result<Answer, Refusal> {
    let alloc = reader.alloc;
    match value_of(&SUBJECTS, row.verb) {
        Some(Subject::State) => state(alloc, ecx, row),
        Some(Subject::Instance) => instantiated(alloc, ecx, row),
        Some(Subject::Response) => respond(alloc, ecx, row),
        Some(Subject::Resolved) => resolve(alloc, ecx, of.left),
        Some(Subject::Normal) => normalize(ecx, of.left, of.right),
        Some(Subject::Hidden) => hidden(alloc, ecx, of.left),
        Some(Subject::EqualArgs) => equate_args(ecx, of),
        Some(Subject::Equal) => equate(alloc, ecx, row.verb, of),
        Some(Subject::Goals) => add(ecx, row, of),
        None => objects::answer(reader, ecx, row, of),
    }
}
