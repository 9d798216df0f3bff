// Made of `crates/candidate_rounds/src/rounds/settling.rt` by `bench/plain.py`: an edit of this file is lost.

//! Pending goals are evaluated.


use kit::{eprintln, format, prelude::*, print, println, vec};
use crate::rounds::Rounds;
use crate::rounds::inference::Entry;
use crate::rounds::table::Found;
use candidate_eval::eval::certainty::Certainty;
use candidate_eval::eval::context::EvalCtxt;
use candidate_eval::eval::refusal::NoSolutionOrStop;
use ir_context::decl::make::Build;
use ir_folds::decl::open::{binder_kinds, open_clause};
use ir_trees::ir::heads::Flag;
use ir_trees::ir::kinds::{
    AliasTy, Clause, ClauseKind, GenericArg, Goal, GoalSource, ParamEnv, ProjectionPredicate, Ty,
    TyKind, VarKind,
};
use ir_trees::ir::stop::Stop;
use ir_trees::ir::trees::Trees;
use kit::alloc::Global;

impl Rounds {
    /// Records a region constraint. The only stop is `Stop::Memory`; nothing is recorded then.
    pub(crate) fn record_region(&mut self, region: Clause) -> Result<(), Stop>
    {
        self.inference.record_region(region)
    }

    /// The clause under an empty binder, with placeholders of a fresh universe for the variables of its own, which are of these
    /// kinds.
    fn instantiate(
        &mut self,
        alloc: Global,
        clause: Clause,
        kinds: &[VarKind],
    ) -> Result<Clause, Stop>
    {
        let values = self.placeholder_args(kinds)?;
        open_clause(alloc, &mut self.cx, clause, values)
    }

    /// Where all values are put in, the type that is listed for an alias is made equal to the term, and the answer is true; no
    /// type is listed where it is false.
    fn try_alias(&mut self, alloc: Global, alias: Ty, term: Ty) -> Result<bool, NoSolutionOrStop>
    {
        self.recall_well_kept();
        let resolved = self.resolve_ty_if_possible(alias)?;
        let Some(listed) = self.listed(resolved) else {
            return Ok(false);
        };
        self.try_listed(alloc, listed, term)
    }

    /// A listed type is made equal to the term of its alias, unless aliases are open and one stands in the term that isn't listed. The
    /// answer says whether they were.
    fn try_listed(&mut self, alloc: Global, listed: Ty, term: Ty) -> Result<bool, NoSolutionOrStop>
    {
        self.recall_well_kept();
        if self.stays_open(alloc, GenericArg::Ty(term))? {
            return Ok(false);
        }
        self.equate(alloc, GenericArg::Ty(listed), GenericArg::Ty(term))?;
        Ok(true)
    }

    /// Whether aliases are open and one stands in the argument that isn't listed, once all values are put in. It stops as `value_for` does.
    fn stays_open(&mut self, alloc: Global, arg: GenericArg) -> Result<bool, Stop>
    {
        if !self.opens_aliases() {
            return Ok(false);
        }
        self.has_unlisted(alloc, arg)
    }

    /// Whether an alias stands in the argument that isn't listed, once all values are put in. It stops as `value_for` does.
    fn has_unlisted(&mut self, alloc: Global, arg: GenericArg) -> Result<bool, Stop>
    {
        let value = self.value_for(alloc, &[], arg)?;
        Ok(self.cx.has(value, Flag::Alias))
    }

    /// Two arguments that are to be one are made equal, once no alias stands in them that isn't listed. The answer says whether they
    /// were.
    fn try_related(
        &mut self,
        alloc: Global,
        left: GenericArg,
        right: GenericArg,
    ) -> Result<bool, NoSolutionOrStop>
    {
        self.recall_well_kept();
        let first = self.has_unlisted(alloc, left)?;
        let second = self.has_unlisted(alloc, right)?;
        if first {
            return Ok(false);
        }
        if second {
            return Ok(false);
        }
        self.equate(alloc, left, right)?;
        Ok(true)
    }

    /// The type that is listed for the alias of a projection is made equal to its term. The answer says whether one is listed.
    fn try_projection(
        &mut self,
        alloc: Global,
        projection: ProjectionPredicate,
    ) -> Result<bool, NoSolutionOrStop>
    {
        self.recall_well_kept();
        let alias = projection.projection_term;
        let kind = TyKind::Alias(AliasTy::projection(alias.def_id, alias.args));
        let alias = self.cx.mk_ty(kind)?;
        self.try_alias(alloc, alias, projection.term)
    }
}

/// What is left of a goal's clause: where its binder has variables, of these kinds, its instance.
fn left_clause(kinds: &[VarKind], clause: Clause, instance: Clause) -> Clause
{
    if kinds.is_empty() { clause } else { instance }
}

/// Puts a goal, if there is one, at a list's end. The only stop is `Stop::Memory`.
fn push_some(
    list: &mut Vec<(GoalSource, Goal<Clause>)>,
    goal: Option<(GoalSource, Goal<Clause>)>,
) -> Result<(), Stop>
{
    if let Some(goal) = goal {
        list.push(goal)?;
    }
    Ok(())
}

/// Whether a value came where there was none.
fn got_one(before: Option<GenericArg>, after: Option<GenericArg>) -> bool
{
    before.is_none() && after.is_some()
}

/// Whether a variable that had no value has one now. There may be new variables.
fn gave_a_value(before: &[Entry], after: &[Entry]) -> bool
{
    for i in 0..before.len() {
        if i >= after.len() {
            return false;
        }
        if got_one(before[i].value, after[i].value) {
            return true;
        }
    }
    false
}

/// How often goals that stay pending are evaluated at most.
pub(crate) const MAX_PASSES: u32 = 8;

impl Rounds {
    /// What the clause says, without its binder.
    fn under_binder(&self, clause: Clause) -> ClauseKind
    {
        self.cx.recall_well_formed();
        self.cx.clause(clause).value
    }

    /// The kinds of the variables of a clause's binder. The only stop is `Stop::Memory`.
    fn bound_kinds(&self, alloc: Global, clause: Clause) -> Result<Vec<VarKind>, Stop>
    {
        Ok(binder_kinds(alloc, &self.cx, clause)?)
    }

    /// A goal of a trait is looked up in the table: a refusal refuses it, what a Yes says is given, and else it stays. Where the table
    /// doesn't have the goal, a round asks for it. The answer is whether nothing stays of it.
    fn try_trait(&mut self, alloc: Global, goal: Goal<Clause>) -> Result<bool, NoSolutionOrStop>
    {
        self.recall_well_kept();
        let asked = self.key_of(alloc, goal)?;
        match self.lookup(&asked.key) {
            Found::Missing => {
                self.request(alloc, asked.key)?;
                Ok(false)
            }
            Found::Open => {
                self.note_look_up(&asked.key);
                Ok(false)
            }
            Found::Refused => Err(NoSolutionOrStop::NoSolution),
            Found::Yes(place) => {
                let leaks = self.leaks_at(place);
                let response = self.yes_at(&asked.key, place)?;
                self.give(alloc, &asked.key, asked.numbers.as_slice(), &response)?;
                self.note_leak(leaks);
                Ok(true)
            }
        }
    }

    /// An instance, under an empty binder, is evaluated under an environment; the answer is whether nothing stays of it. What is recorded
    /// of a region constraint is the clause beside it.
    fn try_instance(
        &mut self,
        alloc: Global,
        env: ParamEnv,
        instance: Clause,
        clause: Clause,
    ) -> Result<bool, NoSolutionOrStop>
    {
        match self.under_binder(instance) {
            ClauseKind::Trait(_) => self.try_trait(
                alloc,
                Goal {
                    param_env: env,
                    predicate: instance,
                },
            ),
            ClauseKind::Projection(projection) => self.try_projection(alloc, projection),
            ClauseKind::TypeOutlives(_, _) | ClauseKind::RegionOutlives(_, _) => {
                self.record_region(clause)?;
                Ok(true)
            }
            ClauseKind::AliasRelate(left, right) => {
                self.try_related(alloc, GenericArg::Ty(left), GenericArg::Ty(right))
            }
            ClauseKind::ConstEquate(left, right) => {
                self.try_related(alloc, GenericArg::Const(left), GenericArg::Const(right))
            }
        }
    }

    /// A goal is evaluated: what stays of it is the answer.
    fn try_goal(
        &mut self,
        alloc: Global,
        source: GoalSource,
        goal: Goal<Clause>,
    ) -> Result<Option<(GoalSource, Goal<Clause>)>, NoSolutionOrStop>
    {
        self.recall_well_kept();
        let kinds = self.bound_kinds(alloc, goal.predicate)?;
        let instance = self.instantiate(alloc, goal.predicate, kinds.as_slice())?;
        let predicate = left_clause(kinds.as_slice(), goal.predicate, instance);
        if self.try_instance(alloc, goal.param_env, instance, predicate)? {
            return Ok(None);
        }
        let param_env = goal.param_env;
        Ok(Some((
            source,
            Goal {
                param_env,
                predicate,
            },
        )))
    }

    /// The goals that are pending. The only stop is `Stop::Memory`.
    pub(crate) fn pending(&self, alloc: Global) -> Result<Vec<(GoalSource, Goal<Clause>)>, Stop>
    {
        Ok(Vec::from_slice(alloc, self.inference.pending())?)
    }

    /// The goals are evaluated in order: what stays of them is the answer.
    fn try_goals(
        &mut self,
        alloc: Global,
        goals: &[(GoalSource, Goal<Clause>)],
    ) -> Result<Vec<(GoalSource, Goal<Clause>)>, NoSolutionOrStop>
    {
        self.recall_well_kept();
        let mut staying = Vec::new(alloc);
        for i in 0..goals.len() {
            let left = self.try_goal(alloc, goals[i].0, goals[i].1)?;
            push_some(&mut staying, left)?;
        }
        Ok(staying)
    }

    /// Nothing is pending from now on. The only stop is `Stop::Memory`, here and in the next two; here nothing is changed then.
    pub(crate) fn set_aside(&mut self) -> Result<(), Stop>
    {
        self.inference.set_aside()
    }

    /// The goal is pending, after all others.
    fn push_pending(&mut self, source: GoalSource, goal: Goal<Clause>) -> Result<(), Stop>
    {
        self.inference.add(source, goal)
    }

    /// The goals are pending, after all others.
    pub(crate) fn leave(&mut self, goals: &[(GoalSource, Goal<Clause>)]) -> Result<(), Stop>
    {
        for i in 0..goals.len() {
            self.push_pending(goals[i].0, goals[i].1)?;
        }
        Ok(())
    }

    /// From now on these goals are pending, and no others.
    fn set_pending(&mut self, goals: &[(GoalSource, Goal<Clause>)]) -> Result<(), Stop>
    {
        self.set_aside()?;
        for i in 0..goals.len() {
            self.push_pending(goals[i].0, goals[i].1)?;
        }
        Ok(())
    }

    /// All pending goals are evaluated once; what stays of them is pending then.
    fn settle_once(&mut self, alloc: Global) -> Result<(), NoSolutionOrStop>
    {
        let goals = self.pending(alloc)?;
        let staying = self.try_goals(alloc, goals.as_slice())?;
        self.set_pending(staying.as_slice())?;
        Ok(())
    }

    /// The variables as they are. The only stop is `Stop::Memory`.
    fn variables_now(&self, alloc: Global) -> Result<Vec<Entry>, Stop>
    {
        Ok(Vec::from_slice(alloc, self.inference.variables())?)
    }

    /// Whether a variable that had no value, where these were the variables, has one now.
    fn gave_since(&self, before: &[Entry]) -> bool
    {
        gave_a_value(before, self.inference.variables())
    }

    /// What is pending is evaluated so many times at most, and again only while the last time gave a variable a value.
    pub(crate) fn settle(&mut self, alloc: Global, most: u32) -> Result<(), NoSolutionOrStop>
    {
        self.recall_well_kept();
        for _pass in 0..most {
            let before = self.variables_now(alloc)?;
            self.settle_once(alloc)?;
            if !self.gave_since(before.as_slice()) {
                return Ok(());
            }
        }
        Ok(())
    }

    /// Sure, if nothing is pending.
    pub(crate) fn certainty(&self) -> Certainty
    {
        if self.inference.pending().is_empty() {
            Certainty::Yes
        } else {
            Certainty::AMBIGUOUS
        }
    }
}
