// Made of `crates/candidate_rounds/src/rounds/running.rt` by `bench/plain.py`: an edit of this file is lost.

//! Rounds over the table of goals: a round computes each goal that isn't final, and then writes what they came to.


use kit::{eprintln, format, prelude::*, print, println, vec};
use crate::rounds::Rounds;
use crate::rounds::effort::Effort;
use crate::rounds::goals::{GoalKey, MAX_GOALS, Slot, Verdict, new_slot};
use crate::rounds::inference::Inference;
use crate::rounds::keys::{Asked, may_be_asked, may_be_read, newest_of};
use crate::rounds::writing::Written;
use candidate_assembly::assembly::merging::TraitGoalProvenVia;
use candidate_assembly::trait_goals::compute::compute_trait_goal;
use candidate_eval::eval::certainty::Certainty;
use candidate_eval::eval::clauses::predicate_in;
use candidate_eval::eval::mode::TypingMode;
use candidate_eval::eval::refusal::NoSolutionOrStop;
use candidate_eval::eval::response::CanonicalResponse;
use ir_context::decl::context::Cx;
use ir_context::decl::make::Build;
use ir_trees::ir::kinds::{Binder, Clause, ClauseKind, Goal, ParamEnv, TraitPredicate};
use ir_trees::ir::stop::Stop;
use ir_trees::ir::trees::Trees;
use kit::alloc::Global;

/// As many steps as `run_settled` does at most.
pub(crate) const MAX_STEPS: u16 = 65_535;

/// What was known before a goal is computed, put aside meanwhile.
#[derive(Debug)]
pub(crate) struct Suspended {
    mode: TypingMode,
    inference: Inference,
    probes: Vec<usize>,
}

/// What a round leaves.
#[derive(Debug)]
struct Rounded {
    /// What is written for the goal that is asked.
    verdict: Verdict,
    /// Whether the table is as it was.
    is_still: bool,
}

/// What a goal is computed from: what is known there, and the goal.
#[derive(Debug)]
pub(crate) struct Start {
    pub inference: Inference,
    pub param_env: ParamEnv,
    pub predicate: TraitPredicate,
}

/// What the goal of a key says of a trait.
pub(crate) fn predicate_of(cx: &Cx, key: &GoalKey) -> TraitPredicate
{
    match predicate_in(cx, key.goal.predicate) {
        Some(predicate) => predicate,
        None => unreachable!(),
    }
}

/// Where the goal of a key is computed: its variables are there, and nothing else is known. `Stop::Memory` comes where a growth was
/// refused, `Stop::NodesFull` where a node has more children than can be counted.
pub(crate) fn start_of(alloc: Global, cx: &Cx, key: &GoalKey) -> Result<Start, Stop>
{
    let newest = newest_of(alloc, cx, key)?;
    let inference = Inference::at(alloc, newest, key.variables.as_slice())?;
    Ok(Start {
        inference,
        param_env: key.goal.param_env,
        predicate: predicate_of(cx, key),
    })
}

/// A refusal is an answer, too.
fn answered(
    answer: Result<(CanonicalResponse, Option<TraitGoalProvenVia>), NoSolutionOrStop>,
) -> Result<Option<(CanonicalResponse, Option<TraitGoalProvenVia>)>, Stop>
{
    match answer {
        Ok(answer) => Ok(Some(answer)),
        Err(NoSolutionOrStop::NoSolution) => Ok(None),
        Err(NoSolutionOrStop::Stop(stop)) => Err(stop),
    }
}

/// The verdict of an answer.
fn verdict_of(answer: Option<(CanonicalResponse, Option<TraitGoalProvenVia>)>) -> Verdict
{
    match answer {
        Some((response, way)) => match response.certainty {
            Certainty::Yes => Verdict::Yes(response, way),
            Certainty::Maybe(_) => Verdict::Maybe(response, way),
        },
        None => Verdict::Refused,
    }
}

/// Whether it stays for good.
pub(crate) fn is_final(verdict: &Option<Verdict>) -> bool
{
    match verdict {
        Some(Verdict::Yes(_, _) | Verdict::Refused) => true,
        Some(Verdict::Maybe(_, _)) | None => false,
    }
}

/// The verdict again. The error comes where a growth was refused.
fn copied(verdict: &Verdict) -> Result<Verdict, Stop>
{
    match verdict {
        Verdict::Yes(response, way) => Ok(Verdict::Yes(response.copied()?, *way)),
        Verdict::Maybe(response, way) => Ok(Verdict::Maybe(response.copied()?, *way)),
        Verdict::Refused => Ok(Verdict::Refused),
    }
}

/// A copy of what a round has for that place.
fn copy_at(written: &[Option<Written>], place: usize) -> Result<Verdict, Stop>
{
    match written.get(place) {
        Some(Some(written)) => copied(&written.verdict),
        _ => unreachable!(),
    }
}

/// The goal of an environment and a predicate, which stands under a binder without variables.
fn goal_in(
    cx: &mut Cx,
    param_env: ParamEnv,
    predicate: TraitPredicate,
) -> Result<Goal<Clause>, Stop>
{
    let vars = cx.mk_vars(&[])?;
    let predicate = cx.mk_clause(Binder {
        vars,
        value: ClauseKind::Trait(predicate),
    })?;
    Ok(Goal {
        param_env,
        predicate,
    })
}

impl Rounds {
    /// What is known is put aside: that is known from now on, and no probe is open. Nothing is noted of leaks yet.
    pub(crate) fn suspend_state(&mut self, alloc: Global, inference: Inference) -> Suspended
    {
        self.above = inference.newest_universe();
        self.leaks = false;
        Suspended {
            mode: self.mode,
            inference: kit::mem::replace(&mut self.inference, inference),
            probes: kit::mem::replace(&mut self.probes, Vec::new(alloc)),
        }
    }

    /// What was put aside is known again.
    pub(crate) fn restore_state(&mut self, aside: Suspended)
    {
        self.mode = aside.mode;
        self.inference = aside.inference;
        self.probes = aside.probes;
    }

    /// What a goal of a trait comes to at what is known, by `compute_trait_goal`.
    fn compute_here(
        &mut self,
        alloc: Global,
        param_env: ParamEnv,
        predicate: TraitPredicate,
    ) -> Result<(CanonicalResponse, Option<TraitGoalProvenVia>), NoSolutionOrStop>
    {
        compute_trait_goal(alloc, self, param_env, predicate)
    }

    /// The goal of that place, computed where nothing else is known. What is known stays. It stops as `compute_trait_goal` does, or where
    /// a growth was refused or a node has more children than can be counted.
    fn compute(
        &mut self,
        alloc: Global,
        place: usize,
    ) -> Result<Option<(CanonicalResponse, Option<TraitGoalProvenVia>)>, Stop>
    {
        self.recall_well_kept();
        self.cx.recall_well_formed_table();
        let start = start_of(alloc, &self.cx, self.goals.entry_at(place).0)?;
        let aside = self.suspend_state(alloc, start.inference);
        let answer = self.compute_here(alloc, start.param_env, start.predicate);
        self.recall_well_kept();
        self.restore_state(aside);
        answered(answer)
    }

    /// Whether goals that ask may read the verdict of the goal of that place.
    fn may_be_read(&self, alloc: Global, place: usize, verdict: &Verdict) -> Result<bool, Stop>
    {
        self.recall_well_kept();
        may_be_read(alloc, &self.cx, self.goals.entry_at(place).0, verdict)
    }

    /// What a round has for the goal of that place, which is computed.
    fn computed(&mut self, alloc: Global, place: usize) -> Result<Written, Stop>
    {
        let answer = self.compute(alloc, place)?;
        let verdict = verdict_of(answer);
        let is_readable = self.may_be_read(alloc, place, &verdict)?;
        Ok(Written {
            verdict,
            is_readable,
            leaks: self.leaks,
        })
    }

    /// Whether what is written for the goal of that place stays for good.
    fn is_final_at(&self, place: usize) -> bool
    {
        is_final(&self.goals.entry_at(place).1.verdict)
    }

    /// What a round has for that place: nothing where what is there stays for good.
    fn written_at(&mut self, alloc: Global, place: usize) -> Result<Option<Written>, Stop>
    {
        if self.is_final_at(place) {
            return Ok(None);
        }
        self.set_reader(place);
        Ok(Some(self.computed(alloc, place)?))
    }

    /// The goal of that place is computed from now on: it looks up what is noted.
    fn set_reader(&mut self, place: usize)
    {
        self.goals.set_reader(place);
    }

    /// What a round has for all places of the table.
    fn all_written(&mut self, alloc: Global) -> Result<Vec<Option<Written>>, Stop>
    {
        let mut list = Vec::new(alloc);
        for place in 0..self.goals.len() {
            list.push(self.written_at(alloc, place)?)?;
        }
        Ok(list)
    }

    /// What a step has for that place: nothing where its goal isn't due, or what is there stays for good.
    fn due_written_at(&mut self, alloc: Global, place: usize) -> Result<Option<Written>, Stop>
    {
        if !self.goals.is_due(place) {
            return Ok(None);
        }
        self.written_at(alloc, place)
    }

    /// What a step has for all places of the table.
    fn due_written(&mut self, alloc: Global) -> Result<Vec<Option<Written>>, Stop>
    {
        let mut list = Vec::new(alloc);
        for place in 0..self.goals.len() {
            list.push(self.due_written_at(alloc, place)?)?;
        }
        Ok(list)
    }

    /// Every tree fits what is declared, of which the lists are no longer than a machine counts: said to a caller that needs it. Nothing is
    /// done.
    pub(crate) fn recall_trees_fit(&self)
    {
        self.cx.recall_well_formed();
        self.cx.recall_counted();
    }

    /// Whether the table stays as it is, where a round has this for its places: all of it is there, and no goal was asked for.
    fn is_still(&self, written: &[Option<Written>]) -> bool
    {
        self.cx.recall_distinct();
        self.goals.is_still(written)
    }

    /// One round: all goals that aren't final are computed, and then what they came to is written. It answers a copy of what is written
    /// for the goal of that place, which isn't final, and whether nothing changed. Where it stops the table stays as it was.
    fn round(&mut self, alloc: Global, place: usize) -> Result<Rounded, Stop>
    {
        self.recall_well_kept();
        self.recall_trees_fit();
        let written = self.all_written(alloc)?;
        let verdict = copy_at(written.as_slice(), place)?;
        let is_still = self.is_still(written.as_slice());
        self.goals.write(written);
        Ok(Rounded { verdict, is_still })
    }

    /// One step: the goals that are due are computed, and then what they came to is written. Where it stops the table stays as it was.
    fn step_of_due(&mut self, alloc: Global) -> Result<(), Stop>
    {
        self.recall_well_kept();
        self.recall_trees_fit();
        let written = self.due_written(alloc)?;
        self.goals.write(written);
        Ok(())
    }

    /// What goals look up is noted, until it is said anew whether goals are asked for. No goal is due yet.
    fn note_look_ups(&mut self)
    {
        self.goals.note_look_ups();
    }

    /// What goals look up is noted as before, until it is said anew whether goals are asked for.
    fn go_on_noting(&mut self)
    {
        self.goals.go_on_noting();
    }

    /// Chooses which goals are due, and answers whether some are.
    fn choose_due(&mut self) -> bool
    {
        self.goals.choose_due()
    }

    /// One step of the goals that are due, or one round of all where none is. It answers whether that is the last: the goal of that place
    /// is final by it, or the round left the table as it was. Where it stops the table stays as it was.
    fn next_step(&mut self, alloc: Global, place: usize) -> Result<bool, Stop>
    {
        if self.choose_due() {
            self.step_of_due(alloc)?;
            return Ok(self.is_final_at(place));
        }
        let whole = self.round(alloc, place)?;
        if whole.is_still {
            return Ok(true);
        }
        Ok(self.is_final_at(place))
    }

    /// Enters a goal that isn't there, with what is known of it, after all others, and answers its place. `Stop::EvaluatorLimit` comes where
    /// there are 65,536 goals, `Stop::Memory` where a growth was refused.
    pub(crate) fn enter_known(&mut self, key: GoalKey, slot: Slot) -> Result<usize, Stop>
    {
        self.recall_well_kept();
        self.cx.recall_distinct();
        let place = self.goals.len();
        if place >= MAX_GOALS {
            return Err(Stop::EvaluatorLimit);
        }
        self.goals.enter(key, slot)?;
        Ok(place)
    }

    /// Enters a goal that isn't there, after all others, and answers its place. `Stop::EvaluatorLimit` comes where there are 65,536 goals,
    /// `Stop::Memory` where a growth was refused.
    fn enter_key(&mut self, key: GoalKey) -> Result<usize, Stop>
    {
        self.recall_well_kept();
        self.enter_known(key, new_slot())
    }

    /// The goal's key at what is known. It stops as `asked_for` does.
    pub(crate) fn key_for(
        &mut self,
        alloc: Global,
        param_env: ParamEnv,
        predicate: TraitPredicate,
    ) -> Result<GoalKey, Stop>
    {
        let asked = self.asked_for(alloc, param_env, predicate)?;
        Ok(asked.key)
    }

    /// The goal's key at what is known, with the numbers of the key's variables. It stops as `mk_clause` and `key_of` do.
    pub(crate) fn asked_for(
        &mut self,
        alloc: Global,
        param_env: ParamEnv,
        predicate: TraitPredicate,
    ) -> Result<Asked, Stop>
    {
        self.recall_well_kept();
        let goal = self.goal_in(param_env, predicate)?;
        self.key_of(alloc, goal)
    }

    /// The goal of an environment and a predicate: nodes are made, and nothing else.
    fn goal_in(
        &mut self,
        param_env: ParamEnv,
        predicate: TraitPredicate,
    ) -> Result<Goal<Clause>, Stop>
    {
        goal_in(&mut self.cx, param_env, predicate)
    }

    /// The place of the goal in the table, in which it is entered if it isn't there.
    fn enter_goal(
        &mut self,
        alloc: Global,
        param_env: ParamEnv,
        predicate: TraitPredicate,
    ) -> Result<usize, Stop>
    {
        self.recall_well_kept();
        let key = self.key_for(alloc, param_env, predicate)?;
        if let Some(place) = self.place_of(&key) {
            return Ok(place);
        }
        self.enter_key(key)
    }

    /// Goals are asked for from now on, or aren't. None has been asked for.
    pub(crate) fn set_asking(&mut self, asks: bool)
    {
        self.goals.set_asking(asks);
    }

    /// A copy of what is written for that place, where something is.
    fn verdict_at(&self, place: usize) -> Result<Verdict, Stop>
    {
        self.recall_well_kept();
        match &self.goals.entry_at(place).1.verdict {
            Some(verdict) => copied(verdict),
            None => unreachable!(),
        }
    }

    /// Rounds until the goal of that place is final, or so many, which ask for goals; one that leaves the table as it was is the last.
    fn rounds(&mut self, alloc: Global, place: usize, rounds: u16) -> Result<Verdict, Stop>
    {
        if self.is_final_at(place) {
            return self.verdict_at(place);
        }
        for _next in 1..rounds {
            let left = self.round(alloc, place)?;
            if left.is_still {
                return Ok(left.verdict);
            }
            if self.is_final_at(place) {
                return Ok(left.verdict);
            }
        }
        let left = self.round(alloc, place)?;
        Ok(left.verdict)
    }

    /// Steps until the goal of that place is final or the table is still, but 65,535 at most. The first one is a round of all goals, and so is
    /// each one before which no goal is due.
    fn settle_table(&mut self, alloc: Global, place: usize) -> Result<Verdict, Stop>
    {
        if self.is_final_at(place) {
            return self.verdict_at(place);
        }
        let first = self.round(alloc, place)?;
        if first.is_still {
            return Ok(first.verdict);
        }
        if self.is_final_at(place) {
            return Ok(first.verdict);
        }
        for _next in 1..MAX_STEPS {
            if self.next_step(alloc, place)? {
                return self.verdict_at(place);
            }
        }
        self.verdict_at(place)
    }

    /// Rounds for a goal, which is entered in the table if it isn't there, until it is final, but so many at most. It answers what is
    /// written for the goal then.
    ///
    /// A round computes all goals of the table that aren't final, each where nothing but its own variables is known, and as it reads the
    /// table that the last round left; then it writes what they came to. Goals that were first asked for meanwhile come after them. A
    /// round that leaves the table as it was is the last, since each further one may come to the same.
    ///
    /// Where it stops the table is that of the last whole round, with the goal, if it was entered. What is known, what is pending and the
    /// open probes stay in each case. `Stop::EvaluatorLimit` comes where there are 65,536 goals already, or where computing a goal comes
    /// to it; `Stop::Memory` where a growth was refused; `Stop::NodesFull` where no numbers are left, a tree would be higher than 1,024,
    /// or the variables or the children of a node are too many; and others where the rules for a goal come to them.
    pub fn run(
        &mut self,
        alloc: Global,
        param_env: ParamEnv,
        predicate: TraitPredicate,
        rounds: u16,
    ) -> Result<Verdict, Stop>
    {
        debug_assert!(ir_trees::checks::is_sorted(ir_context::decl::make::Make::cx(&*self), param_env), "candidate_rounds::rounds::running::Rounds::run: `param_env` is {:?}, no number of its sort in this context", param_env);
        debug_assert!(ir_trees::checks::is_sorted(ir_context::decl::make::Make::cx(&*self), predicate.trait_ref.args), "candidate_rounds::rounds::running::Rounds::run: `predicate.trait_ref.args` is {:?}, no number of its sort in this context", predicate.trait_ref.args);
        self.recall_well_kept();
        self.set_asking(false);
        let place = self.enter_goal(alloc, param_env, predicate)?;
        self.set_asking(true);
        let answer = self.rounds(alloc, place, rounds);
        self.set_asking(false);
        self.recall_well_kept();
        answer
    }

    /// Computes goals until the goal is final or no further round changes the table, but in 65,535 steps at most. The goal is entered in the
    /// table if it isn't there. It answers what is written for the goal then.
    ///
    /// A step computes some goals of the table that aren't final, and else does what a round of `run` does. Its goals are those that were
    /// first asked for in the last step, and those that looked up a goal which the last step made final. Where there are none, all goals
    /// that aren't final are computed: if that leaves the table as it was, it was the last step. So a goal that waits for another one isn't
    /// computed again before that one is final. For example a chain of 400 goals takes some 800 computations here, and 80,000 in `run`.
    ///
    /// Where it stops the table is that of the last whole step, with the goal, if it was entered. What is known, what is pending and the
    /// open probes stay in each case. It stops as `run` does.
    pub fn run_settled(
        &mut self,
        alloc: Global,
        param_env: ParamEnv,
        predicate: TraitPredicate,
    ) -> Result<Verdict, Stop>
    {
        debug_assert!(ir_trees::checks::is_sorted(ir_context::decl::make::Make::cx(&*self), param_env), "candidate_rounds::rounds::running::Rounds::run_settled: `param_env` is {:?}, no number of its sort in this context", param_env);
        debug_assert!(ir_trees::checks::is_sorted(ir_context::decl::make::Make::cx(&*self), predicate.trait_ref.args), "candidate_rounds::rounds::running::Rounds::run_settled: `predicate.trait_ref.args` is {:?}, no number of its sort in this context", predicate.trait_ref.args);
        self.recall_well_kept();
        self.set_asking(false);
        let place = self.enter_goal(alloc, param_env, predicate)?;
        self.set_asking(true);
        self.note_look_ups();
        let answer = self.settle_table(alloc, place);
        self.set_asking(false);
        self.recall_well_kept();
        answer
    }

    /// One step for the goal of that place, unless it is final. It answers whether no more is needed. Where it stops the table stays as it
    /// was.
    fn step_unless_final(&mut self, alloc: Global, place: usize) -> Result<bool, Stop>
    {
        if self.is_final_at(place) {
            return Ok(true);
        }
        self.next_step(alloc, place)
    }

    /// One step as `run_settled` does them, unless the goal is final, which is entered in the table if it isn't there. It answers whether
    /// no more is needed: the goal is final, or a round left the table as it was.
    ///
    /// Its goals are those that are due by the steps before, as `run_settled` has them; where none is, and in a new evaluator, all that
    /// aren't final. So one sees the table behind each step, and waits no longer than by `run_settled`.
    ///
    /// Where it stops the table is as it was, with the goal, if it was entered. What is known, what is pending and the open probes stay in
    /// each case. It stops as `run` does.
    pub fn run_step(
        &mut self,
        alloc: Global,
        param_env: ParamEnv,
        predicate: TraitPredicate,
    ) -> Result<bool, Stop>
    {
        debug_assert!(ir_trees::checks::is_sorted(ir_context::decl::make::Make::cx(&*self), param_env), "candidate_rounds::rounds::running::Rounds::run_step: `param_env` is {:?}, no number of its sort in this context", param_env);
        debug_assert!(ir_trees::checks::is_sorted(ir_context::decl::make::Make::cx(&*self), predicate.trait_ref.args), "candidate_rounds::rounds::running::Rounds::run_step: `predicate.trait_ref.args` is {:?}, no number of its sort in this context", predicate.trait_ref.args);
        self.recall_well_kept();
        self.set_asking(false);
        let place = self.enter_goal(alloc, param_env, predicate)?;
        self.set_asking(true);
        self.go_on_noting();
        let answer = self.step_unless_final(alloc, place);
        self.set_asking(false);
        self.recall_well_kept();
        answer
    }

    /// The same as `run` or `run_settled` does, by the effort. It stops as they do.
    pub fn run_by(
        &mut self,
        alloc: Global,
        param_env: ParamEnv,
        predicate: TraitPredicate,
        effort: Effort,
    ) -> Result<Verdict, Stop>
    {
        debug_assert!(ir_trees::checks::is_sorted(ir_context::decl::make::Make::cx(&*self), param_env), "candidate_rounds::rounds::running::Rounds::run_by: `param_env` is {:?}, no number of its sort in this context", param_env);
        debug_assert!(ir_trees::checks::is_sorted(ir_context::decl::make::Make::cx(&*self), predicate.trait_ref.args), "candidate_rounds::rounds::running::Rounds::run_by: `predicate.trait_ref.args` is {:?}, no number of its sort in this context", predicate.trait_ref.args);
        match effort {
            Effort::Rounds(rounds) => self.run(alloc, param_env, predicate, rounds),
            Effort::AsNeeded => self.run_settled(alloc, param_env, predicate),
        }
    }

    /// Whether the goal may be run: with all values put in its trees are closed trees of variables, without parameters. Each goal that
    /// stands at what is known is such a goal. Nodes are made, and nothing else is changed; it stops as `entry` does.
    pub fn may_be_run(
        &mut self,
        alloc: Global,
        param_env: ParamEnv,
        predicate: TraitPredicate,
    ) -> Result<bool, Stop>
    {
        debug_assert!(ir_trees::checks::is_sorted(ir_context::decl::make::Make::cx(&*self), param_env), "candidate_rounds::rounds::running::Rounds::may_be_run: `param_env` is {:?}, no number of its sort in this context", param_env);
        debug_assert!(ir_trees::checks::is_sorted(ir_context::decl::make::Make::cx(&*self), predicate.trait_ref.args), "candidate_rounds::rounds::running::Rounds::may_be_run: `predicate.trait_ref.args` is {:?}, no number of its sort in this context", predicate.trait_ref.args);
        self.recall_well_kept();
        let key = self.key_for(alloc, param_env, predicate)?;
        self.may_be_asked(alloc, &key)
    }

    /// Whether the goal of that key may be asked for.
    pub(crate) fn may_be_asked(&self, alloc: Global, key: &GoalKey) -> Result<bool, Stop>
    {
        may_be_asked(alloc, &self.cx, key)
    }

    /// What was last written for the goal, if anything was. Nodes are made, and nothing else is changed. `Stop::Memory` comes where a
    /// growth was refused, `Stop::NodesFull` where no numbers are left, a tree would be higher than 1,024, or the variables or the
    /// children of a node are too many.
    pub fn entry(
        &mut self,
        alloc: Global,
        param_env: ParamEnv,
        predicate: TraitPredicate,
    ) -> Result<Option<Verdict>, Stop>
    {
        debug_assert!(ir_trees::checks::is_sorted(ir_context::decl::make::Make::cx(&*self), param_env), "candidate_rounds::rounds::running::Rounds::entry: `param_env` is {:?}, no number of its sort in this context", param_env);
        debug_assert!(ir_trees::checks::is_sorted(ir_context::decl::make::Make::cx(&*self), predicate.trait_ref.args), "candidate_rounds::rounds::running::Rounds::entry: `predicate.trait_ref.args` is {:?}, no number of its sort in this context", predicate.trait_ref.args);
        self.recall_well_kept();
        let key = self.key_for(alloc, param_env, predicate)?;
        match self.place_of(&key) {
            Some(place) => self.copied_at(place),
            None => Ok(None),
        }
    }

    /// Whether what was last written for the goal may rest on a region that leaks. Nodes are made, and nothing else is changed. It stops as
    /// `entry` does.
    pub fn entry_leaks(
        &mut self,
        alloc: Global,
        param_env: ParamEnv,
        predicate: TraitPredicate,
    ) -> Result<bool, Stop>
    {
        debug_assert!(ir_trees::checks::is_sorted(ir_context::decl::make::Make::cx(&*self), param_env), "candidate_rounds::rounds::running::Rounds::entry_leaks: `param_env` is {:?}, no number of its sort in this context", param_env);
        debug_assert!(ir_trees::checks::is_sorted(ir_context::decl::make::Make::cx(&*self), predicate.trait_ref.args), "candidate_rounds::rounds::running::Rounds::entry_leaks: `predicate.trait_ref.args` is {:?}, no number of its sort in this context", predicate.trait_ref.args);
        self.recall_well_kept();
        let key = self.key_for(alloc, param_env, predicate)?;
        match self.place_of(&key) {
            Some(place) => Ok(self.leaks_at(place)),
            None => Ok(false),
        }
    }

    /// How many goals the table has.
    pub fn goal_count(&self) -> usize
    {
        self.goals.len()
    }

    /// The goal of that place in the table, in the order in which goals were entered, and what was last written for it, if anything was.
    pub fn goal_at(&self, place: usize) -> (&GoalKey, Option<&Verdict>)
    {
        self.recall_well_kept();
        let (key, slot) = self.goals.entry_at(place);
        (key, slot.verdict.as_ref())
    }

    /// Each Yes of the table has a derivation by what is declared, said to a caller that needs it. Nothing is done.
    pub fn recall_derived(&self)
    {
        self.recall_well_kept();
    }

    /// A copy of what is written for that place, if anything is.
    fn copied_at(&self, place: usize) -> Result<Option<Verdict>, Stop>
    {
        self.recall_well_kept();
        match &self.goals.entry_at(place).1.verdict {
            Some(verdict) => Ok(Some(copied(verdict)?)),
            None => Ok(None),
        }
    }
}
