// Made of `crates/assembly_text/src/solving.rt` by `bench/plain.py`: an edit of this file is lost.

//! What a goal comes to under what is given.


use kit::{eprintln, format, prelude::*, print, println, vec};
use assembly_notation::given::Given;
use candidate_eval::eval::context::EvalCtxt;
use candidate_eval::eval::mode::TypingMode;
use candidate_eval::eval::refusal::NoSolutionOrStop;
use candidate_eval::eval::response::CanonicalResponse;
use candidate_eval::eval::variable::VariableKind;
use candidate_rounds::rounds::Rounds;
use candidate_rounds::rounds::effort::Effort;
use candidate_rounds::rounds::given::may_be_listed;
use candidate_rounds::rounds::goals::Verdict;
use candidate_rounds::rounds::normalizing::trait_predicate;
use ir_context::decl::context::Cx;
use ir_context::decl::make::{Build, Make};
use ir_trees::decl::contents::ImplId;
use ir_trees::ir::heads::VariableSort;
use ir_trees::ir::kinds::{
    AliasTy, Args, Binder, Clause, ClauseKind, Goal, GoalSource, InferTy, ParamEnv, TraitPredicate,
    Ty, TyKind,
};
use ir_trees::ir::marks::Unsolved;
use ir_trees::ir::stop::Stop;
use ir_trees::ir::trees::Trees;
use overlaps::negation::kept_apart_by_negation;
use overlaps::overlap::{Overlap, WhereClause, impls_overlap, impls_overlap_anyway};
use overlaps::specializing::{Specialization, specializes};
use overlaps::together::kept_apart_by_clauses;
use kit::alloc::Global;

/// As many variables as a text can spell.
const VARIABLES: u16 = 256;

/// What a goal comes to, and which variables stand for something then, by their numbers.
#[derive(Debug)]
pub struct Solved {
    pub verdict: Option<Verdict>,
    pub values: Vec<(u32, Ty)>,
}

/// The aliases of what is given that may be listed, each with its type. A text gives no others.
fn which_may_be_listed(alloc: Global, cx: &Cx, given: &Given) -> Result<Vec<(Ty, Ty)>, Stop>
{
    let mut list = Vec::new(alloc);
    for i in 0..given.normal_forms.len() {
        let (alias, ty) = given.normal_forms[i];
        if may_be_listed(cx, alias, ty) {
            list.push((alias, ty))?;
        }
    }
    Ok(list)
}

/// What is given, with those of its aliases alone that may be listed. They are tested once for all evaluators. The only stop is `Stop::Memory`.
pub(crate) fn with_listed_alone(alloc: Global, cx: &Cx, given: Given) -> Result<Given, Stop>
{
    let normal_forms = which_may_be_listed(alloc, cx, &given)?;
    let Given {
        clauses,
        mode,
        specialization,
        negative,
        ..
    } = given;
    Ok(Given {
        clauses,
        normal_forms,
        mode,
        specialization,
        negative,
    })
}

/// The aliases of what is given, each with its type. Each may be listed.
fn normal_forms(alloc: Global, cx: &Cx, given: &Given) -> Result<Vec<(Ty, Ty)>, Stop>
{
    let _ = cx;
    Ok(Vec::from_slice(alloc, given.normal_forms.as_slice())?)
}

/// A new evaluator over the context, in the given mode; or the context and a stop, where memory was refused.
pub(crate) fn evaluator(alloc: Global, cx: Cx, given: &Given) -> Result<Rounds, (Cx, Stop)>
{
    match normal_forms(alloc, &cx, given) {
        Ok(normal) => {
            let opaques = Vec::new(alloc);
            let rounds = Rounds::new(alloc, cx, given.mode, normal, opaques);
            Ok(rounds)
        }
        Err(stop) => Err((cx, stop)),
    }
}

/// A new evaluator over the context, in whose coherence an alias that isn't listed may be any type.
pub(crate) fn open_evaluator(alloc: Global, cx: Cx, given: &Given) -> Result<Rounds, (Cx, Stop)>
{
    match normal_forms(alloc, &cx, given) {
        Ok(normal) => {
            let opaques = Vec::new(alloc);
            let rounds = Rounds::with_open_aliases(alloc, cx, given.mode, normal, opaques);
            Ok(rounds)
        }
        Err(stop) => Err((cx, stop)),
    }
}

/// The context of an evaluator that ends.
pub(crate) fn context_of(rounds: Rounds) -> Cx
{
    let (cx, _, _) = rounds.into_parts();
    cx
}

/// Root variables for all that a text can spell.
fn add_variables(rounds: &mut Rounds) -> Result<(), Stop>
{
    for _made in 0..VARIABLES {
        rounds.new_root_var(VariableKind::Term(VariableSort::General))?;
    }
    Ok(())
}

/// Root variables, if a variable stands in the list.
fn add_roots(rounds: &mut Rounds, args: Args) -> Result<(), Stop>
{
    if !rounds.cx().has_marked(args, &Unsolved) {
        return Ok(());
    }
    add_variables(rounds)
}

/// What the goal comes to in so many rounds at most. Nothing is answered where it may not be run, as no goal of a text is.
pub(crate) fn run(
    alloc: Global,
    rounds: &mut Rounds,
    env: ParamEnv,
    predicate: TraitPredicate,
    effort: Effort,
) -> Result<Option<Verdict>, Stop>
{
    if !rounds.may_be_run(alloc, env, predicate)? {
        return Ok(None);
    }
    Ok(Some(rounds.run_by(alloc, env, predicate, effort)?))
}

/// One step for the goal, of those that are done as long as needed. Whether no more is needed is answered, as it is where the goal may not
/// be run.
pub(crate) fn step(
    alloc: Global,
    rounds: &mut Rounds,
    env: ParamEnv,
    predicate: TraitPredicate,
) -> Result<bool, Stop>
{
    if !rounds.may_be_run(alloc, env, predicate)? {
        return Ok(true);
    }
    rounds.run_step(alloc, env, predicate)
}

/// The environment of these clauses, with root variables made if the goal has variables; `None` where a bound variable escapes from the goal.
pub(crate) fn environment(
    rounds: &mut Rounds,
    clauses: &[Clause],
    predicate: TraitPredicate,
) -> Result<Option<ParamEnv>, Stop>
{
    if rounds
        .cx()
        .has_escaping_bound_vars(predicate.trait_ref.args)
    {
        return Ok(None);
    }
    let env = rounds.mk_param_env(clauses)?;
    add_roots(rounds, predicate.trait_ref.args)?;
    Ok(Some(env))
}

/// What the goal comes to under these clauses in so many rounds at most.
fn ask(
    alloc: Global,
    rounds: &mut Rounds,
    clauses: &[Clause],
    predicate: TraitPredicate,
    effort: Effort,
) -> Result<Option<Verdict>, Stop>
{
    match environment(rounds, clauses, predicate)? {
        Some(env) => run(alloc, rounds, env, predicate, effort),
        None => Ok(None),
    }
}

/// What the variables that a text can spell stand for, by their numbers, where they stand for anything.
fn values(alloc: Global, rounds: &mut Rounds) -> Result<Vec<(u32, Ty)>, Stop>
{
    let mut values = Vec::new(alloc);
    for number in 0..u32::from(VARIABLES) {
        let variable = rounds.mk_ty(TyKind::Infer(InferTy::TyVar(number)))?;
        let ty = rounds.resolve_ty_if_possible(variable)?;
        if ty != variable {
            values.push((number, ty))?;
        }
    }
    Ok(values)
}

/// What the variables that a text can spell stand for, where a goal is granted under these clauses that a run has answered with Yes. What its
/// answer gives is known then. What is refused shows nothing.
fn found(
    alloc: Global,
    rounds: &mut Rounds,
    clauses: &[Clause],
    predicate: TraitPredicate,
) -> Result<Vec<(u32, Ty)>, Stop>
{
    if !rounds.cx().has_marked(predicate.trait_ref.args, &Unsolved) {
        return Ok(Vec::new(alloc));
    }
    let param_env = rounds.mk_param_env(clauses)?;
    let vars = rounds.mk_vars(&[])?;
    let predicate = rounds.mk_clause(Binder {
        vars,
        value: ClauseKind::Trait(predicate),
    })?;
    rounds.add_goal(
        GoalSource::Misc,
        Goal {
            param_env,
            predicate,
        },
    )?;
    match rounds.try_evaluate_added_goals() {
        Err(NoSolutionOrStop::Stop(stop)) => Err(stop),
        Ok(_) | Err(NoSolutionOrStop::NoSolution) => values(alloc, rounds),
    }
}

/// What a goal comes to in a new evaluator, in so many rounds at most; and the context, with the nodes that were made meanwhile. Nothing
/// is answered where the goal may not be run, as none of a text is. It stops as `Rounds::run` does.
pub fn solve(
    alloc: Global,
    cx: Cx,
    given: &Given,
    predicate: TraitPredicate,
    effort: Effort,
) -> (Cx, Result<Option<Verdict>, Stop>)
{
    match evaluator(alloc, cx, given) {
        Ok(mut rounds) => {
            let clauses = given.clauses.as_slice();
            let verdict = ask(alloc, &mut rounds, clauses, predicate, effort);
            (context_of(rounds), verdict)
        }
        Err((cx, stop)) => (cx, Err(stop)),
    }
}

/// What a goal comes to under these clauses, and what the variables that a text can spell stand for where it is a Yes.
fn ask_for_values(
    alloc: Global,
    rounds: &mut Rounds,
    clauses: &[Clause],
    predicate: TraitPredicate,
    effort: Effort,
) -> Result<Solved, Stop>
{
    let verdict = ask(alloc, rounds, clauses, predicate, effort)?;
    let values = match verdict {
        Some(Verdict::Yes(_, _)) => found(alloc, rounds, clauses, predicate)?,
        _ => Vec::new(alloc),
    };
    Ok(Solved { verdict, values })
}

/// What a goal comes to as `solve` has it, and, where that is a Yes, what its variables stand for: each that stands for something, by its
/// number. New variables have the numbers from 256 on.
pub fn solve_for_values(
    alloc: Global,
    cx: Cx,
    given: &Given,
    predicate: TraitPredicate,
    effort: Effort,
) -> (Cx, Result<Solved, Stop>)
{
    match evaluator(alloc, cx, given) {
        Ok(mut rounds) => {
            let clauses = given.clauses.as_slice();
            let solved = ask_for_values(alloc, &mut rounds, clauses, predicate, effort);
            (context_of(rounds), solved)
        }
        Err((cx, stop)) => (cx, Err(stop)),
    }
}

/// What a projection comes to.
#[derive(Debug)]
pub enum Normal {
    /// It may not be asked, as none of a text.
    Unasked,
    /// The goal of its trait is a Maybe, and only an answer counts that no further round takes back.
    Open,
    /// No type, as far as the rules go.
    Refused,
    /// What a response says. The last of its values is the projection's type.
    Answered(CanonicalResponse),
}

/// What the evaluator answers of the projection in that many rounds at most. It stops as `Rounds::normalize` does.
fn normal_after(
    alloc: Global,
    rounds: &mut Rounds,
    env: ParamEnv,
    alias: AliasTy,
    effort: Effort,
) -> Result<Normal, Stop>
{
    match rounds.normalize(alloc, env, alias, effort)? {
        Some(response) => Ok(Normal::Answered(response)),
        None => Ok(Normal::Refused),
    }
}

/// The same where only an answer counts that no further round takes back: the goal of the projection's trait is run first, and has to be final.
fn settled_normal(
    alloc: Global,
    rounds: &mut Rounds,
    env: ParamEnv,
    alias: AliasTy,
    effort: Effort,
) -> Result<Normal, Stop>
{
    let predicate = trait_predicate(rounds.cx(), alias);
    match rounds.run_by(alloc, env, predicate, effort)? {
        Verdict::Maybe(_, _) => Ok(Normal::Open),
        Verdict::Refused => Ok(Normal::Refused),
        Verdict::Yes(_, _) => normal_after(alloc, rounds, env, alias, effort),
    }
}

/// What the projection comes to in so many rounds at most; if it `waits`, only an answer counts that no further round takes back. Nothing is
/// answered where it may not be asked, as none of a text is.
fn run_normal(
    alloc: Global,
    rounds: &mut Rounds,
    env: ParamEnv,
    alias: AliasTy,
    effort: Effort,
    waits: bool,
) -> Result<Normal, Stop>
{
    let predicate = trait_predicate(rounds.cx(), alias);
    if !rounds.may_be_run(alloc, env, predicate)? {
        return Ok(Normal::Unasked);
    }
    if waits {
        return settled_normal(alloc, rounds, env, alias, effort);
    }
    normal_after(alloc, rounds, env, alias, effort)
}

/// What the projection comes to under these clauses, as `run_normal` has it.
fn ask_normal(
    alloc: Global,
    rounds: &mut Rounds,
    clauses: &[Clause],
    alias: AliasTy,
    effort: Effort,
    waits: bool,
) -> Result<Normal, Stop>
{
    if rounds.cx().has_escaping_bound_vars(alias.args) {
        return Ok(Normal::Unasked);
    }
    let under = rounds.mk_param_env(clauses)?;
    add_roots(rounds, alias.args)?;
    run_normal(alloc, rounds, under, alias, effort, waits)
}

/// What a projection comes to in a new evaluator, in so many rounds at most; and the context, with the nodes that were made meanwhile.
/// If it `waits`, only an answer counts that no further round takes back: while the goal of its trait is a Maybe, the projection is open.
/// Nothing is answered where it may not be asked, as none of a text is. It stops as `Rounds::normalize` does.
pub fn normalize(
    alloc: Global,
    cx: Cx,
    given: &Given,
    alias: AliasTy,
    effort: Effort,
    waits: bool,
) -> (Cx, Result<Normal, Stop>)
{
    match evaluator(alloc, cx, given) {
        Ok(mut rounds) => {
            let clauses = given.clauses.as_slice();
            let normal = ask_normal(alloc, &mut rounds, clauses, alias, effort, waits);
            (context_of(rounds), normal)
        }
        Err((cx, stop)) => (cx, Err(stop)),
    }
}

/// Whether two impls overlap, asked of a new evaluator in so many rounds for each where clause; and the context, with the nodes that were
/// made meanwhile. It stops as `impls_overlap` does.
pub fn overlap(
    alloc: Global,
    cx: Cx,
    given: &Given,
    first: ImplId,
    second: ImplId,
    effort: Effort,
) -> (Cx, Result<Overlap, Stop>)
{
    match open_evaluator(alloc, cx, given) {
        Ok(mut rounds) => {
            let overlap = impls_overlap(alloc, &mut rounds, first, second, effort);
            (context_of(rounds), overlap)
        }
        Err((cx, stop)) => (cx, Err(stop)),
    }
}

/// Whether two impls overlap, whatever lines declare of them, by `impls_overlap_anyway`.
pub fn overlap_anyway(
    alloc: Global,
    cx: Cx,
    given: &Given,
    first: ImplId,
    second: ImplId,
    effort: Effort,
) -> (Cx, Result<Overlap, Stop>)
{
    match open_evaluator(alloc, cx, given) {
        Ok(mut rounds) => {
            let overlap = impls_overlap_anyway(alloc, &mut rounds, first, second, effort);
            (context_of(rounds), overlap)
        }
        Err((cx, stop)) => (cx, Err(stop)),
    }
}

/// Whether the where clauses of the two impls can't hold together, asked of a new evaluator as `overlap` has it, in so many rounds for each
/// where clause; and the context, with the nodes that were made meanwhile. It stops as `kept_apart_by_clauses` does.
pub fn apart_by_clauses(
    alloc: Global,
    cx: Cx,
    given: &Given,
    first: ImplId,
    second: ImplId,
    effort: Effort,
) -> (Cx, Result<bool, Stop>)
{
    match open_evaluator(alloc, cx, given) {
        Ok(mut rounds) => {
            let apart = kept_apart_by_clauses(alloc, &mut rounds, first, second, effort);
            (context_of(rounds), apart)
        }
        Err((cx, stop)) => (cx, Err(stop)),
    }
}

/// A new evaluator that asks goals outside coherence, as whether an impl specialises another one is asked in each mode.
fn tester(alloc: Global, cx: Cx, given: &Given) -> Result<Rounds, (Cx, Stop)>
{
    match normal_forms(alloc, &cx, given) {
        Ok(normal) => {
            let opaques = Vec::new(alloc);
            let mode = TypingMode::PostAnalysis;
            Ok(Rounds::new(alloc, cx, mode, normal, opaques))
        }
        Err(stop) => Err((cx, stop)),
    }
}

/// Whether the first impl specialises the second one, asked of such an evaluator in so many rounds for each where clause; and the context,
/// with the nodes that were made meanwhile. It stops as `specializes` does.
pub fn test_specialization(
    alloc: Global,
    cx: Cx,
    given: &Given,
    special: ImplId,
    general: ImplId,
    effort: Effort,
) -> (Cx, Result<Specialization, Stop>)
{
    match tester(alloc, cx, given) {
        Ok(mut rounds) => {
            let answer = specializes(alloc, &mut rounds, special, general, effort);
            (context_of(rounds), answer)
        }
        Err((cx, stop)) => (cx, Err(stop)),
    }
}

/// Which where clause of the two impls can't hold where the other one does, asked of such an evaluator in so many rounds for each where
/// clause; and the context, with the nodes that were made meanwhile. It stops as `kept_apart_by_negation` does.
pub fn negated_clause(
    alloc: Global,
    cx: Cx,
    given: &Given,
    first: ImplId,
    second: ImplId,
    effort: Effort,
) -> (Cx, Result<Option<WhereClause>, Stop>)
{
    match tester(alloc, cx, given) {
        Ok(mut rounds) => {
            let clause = kept_apart_by_negation(alloc, &mut rounds, first, second, effort);
            (context_of(rounds), clause)
        }
        Err((cx, stop)) => (cx, Err(stop)),
    }
}
