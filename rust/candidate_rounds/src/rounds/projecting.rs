// Made of `crates/candidate_rounds/src/rounds/projecting.rt` by `bench/plain.py`: an edit of this file is lost.

//! The type that a projection is gets known, by the response that `Rounds::normalize` answers; and the goals that are pending are taken.


use kit::{eprintln, format, prelude::*, print, println, vec};
use crate::rounds::Rounds;
use crate::rounds::goals::GoalKey;
use crate::rounds::keys::newest_of;
use crate::rounds::normalizing::{TERM, add_term, term, trait_predicate};
use candidate_eval::eval::refusal::NoSolutionOrStop;
use candidate_eval::eval::response::CanonicalResponse;
use candidate_eval::eval::variable::CanonicalVar;
use ir_trees::ir::kinds::{AliasTy, Clause, Goal, GoalSource, ParamEnv, Ty};
use ir_trees::ir::stop::Stop;
use kit::alloc::Global;

/// The key of the goal of a projection's trait, with one more variable, the last, that stands for the type that the projection is.
#[derive(Debug)]
struct TermKey {
    key: GoalKey,
    /// The numbers of the key's variables.
    numbers: Vec<u32>,
    /// The number of the last one.
    term: u32,
}

impl Rounds {
    /// The goals that are pending, in order; none is pending then. The only stop is `Stop::Memory`; nothing is changed then.
    pub fn take_pending(&mut self, alloc: Global) -> Result<Vec<(GoalSource, Goal<Clause>)>, Stop>
    {
        self.recall_well_kept();
        let goals = self.pending(alloc)?;
        self.set_aside()?;
        Ok(goals)
    }

    /// A new variable that stands for the type of a projection, of the newest universe of the key, which is that of its trait's goal, and
    /// whose variables have these numbers. `Stop::Memory` comes where a growth was refused, `Stop::NodesFull` where no number is left, or a
    /// node has more children than can be counted.
    fn open_term(
        &mut self,
        alloc: Global,
        mut key: GoalKey,
        mut numbers: Vec<u32>,
    ) -> Result<TermKey, Stop>
    {
        let newest = newest_of(alloc, &self.cx, &key)?;
        add_term(&mut key, newest)?;
        let term = self.open_variable(CanonicalVar {
            kind: TERM,
            universe: newest,
        })?;
        numbers.push(term)?;
        Ok(TermKey { key, numbers, term })
    }

    /// The key of the goal that the projection's trait holds, at what is known, with a new variable for the projection's type.
    fn key_with_term(
        &mut self,
        alloc: Global,
        param_env: ParamEnv,
        alias: AliasTy,
    ) -> Result<TermKey, Stop>
    {
        let predicate = trait_predicate(&self.cx, alias);
        let asked = self.asked_for(alloc, param_env, predicate)?;
        self.open_term(alloc, asked.key, asked.numbers)
    }

    /// The general variable of that number: nodes are made, and nothing else. It stops as `mk_ty` does.
    fn term_at(&mut self, number: u32) -> Result<Ty, Stop>
    {
        term(&mut self.cx, number)
    }

    /// The type that a projection is, as the response of a key says it that `Rounds::normalize` answers for the projection at what is known: a
    /// new variable, whose value is the type. What the response says of the goal's variables is known then, and its constraints are recorded.
    /// It is refused where that can't be. Nothing is promised of what is known after a refusal or a stop: a caller probes.
    ///
    /// `Stop::Memory` comes where a growth was refused, `Stop::NodesFull` where no numbers or universes are left, a tree would be higher than
    /// 1,024, or a node has more children than can be counted.
    pub fn give_normal(
        &mut self,
        alloc: Global,
        param_env: ParamEnv,
        alias: AliasTy,
        response: &CanonicalResponse,
    ) -> Result<Ty, NoSolutionOrStop>
    {
        self.recall_well_kept();
        let asked = self.key_with_term(alloc, param_env, alias)?;
        self.give(alloc, &asked.key, asked.numbers.as_slice(), response)?;
        Ok(self.term_at(asked.term)?)
    }
}
