// Made of `crates/candidate_rounds/src/rounds/inference.rt` by `bench/plain.py`: an edit of this file is lost.

//! What is known so far: the variables with their values, the regions recorded, the goals pending; and how each change is taken
//! back.


use kit::{eprintln, format, prelude::*, print, println, vec};
use crate::rounds::fresh::variable_kind;
use candidate_eval::eval::variable::{CanonicalVar, VariableKind};
use ir_trees::ir::kinds::{Clause, GenericArg, Goal, GoalSource, VarKind};
use ir_trees::ir::stop::Stop;
use kit::alloc::Global;
use kit::marker::Model;

/// A variable.
#[derive(Clone, Copy, Debug)]
pub(crate) struct Entry {
    pub kind: VariableKind,
    /// The newest universe whose placeholders its value may name.
    pub universe: u32,
    /// Its value, in which no variable has a value.
    pub value: Option<GenericArg>,
    /// Whether the goal came with it.
    pub is_root: bool,
}

/// A change, with what it takes to undo it.
#[derive(Clone, Copy, Debug)]
pub(crate) enum Change {
    /// A variable was added.
    Variable,
    /// The variable of that number got another value than it had.
    Value(u32, Option<GenericArg>),
    /// The universe of a variable fell from what it was.
    Universe(u32, u32),
    /// There are newer universes than that one, which was the newest.
    NewestUniverse(u32),
    /// A region constraint was recorded.
    Region,
    /// A goal was added.
    Goal,
    /// The goals that are pending begin further on; before they began here.
    Pending(usize),
    /// Values in which a variable stands were of variables of these numbers alone.
    Open(u32, u32),
}

/// What is known so far. Each change is the last of a trail, from which it can be undone.
#[derive(Debug)]
pub(crate) struct Inference {
    newest_universe: u32,
    variables: Vec<Entry>,
    regions: Vec<Clause>,
    /// The goals that were added, with their sources. Those from `first_pending` on are pending.
    goals: Vec<(GoalSource, Goal<Clause>)>,
    first_pending: usize,
    /// Values in which a variable stands are of variables from the one number on, up to below the other.
    first_open: u32,
    end_open: u32,
    trail: Vec<Change>,
}

impl Model for Inference {


}

/// How many variables and universes there may be.
const MAX_NUMBER: u32 = 0xffff_ffff;

impl Inference {
    /// Nothing is known.
    pub(crate) fn new(alloc: Global) -> Inference
    {
        Inference {
            newest_universe: 0,
            variables: Vec::new(alloc),
            regions: Vec::new(alloc),
            goals: Vec::new(alloc),
            first_pending: 0,
            first_open: MAX_NUMBER,
            end_open: 0,
            trail: Vec::new(alloc),
        }
    }

    /// These variables are known, of their universes, all of them roots and without values. The only stop is `Stop::Memory`.
    pub(crate) fn at(
        alloc: Global,
        newest: u32,
        variables: &[CanonicalVar],
    ) -> Result<Inference, Stop>
    {
        let mut list = Vec::new(alloc);
        for i in 0..variables.len() {
            list.push(Entry {
                kind: variables[i].kind,
                universe: variables[i].universe,
                value: None,
                is_root: true,
            })?;
        }
        Ok(Inference {
            newest_universe: newest,
            variables: list,
            regions: Vec::new(alloc),
            goals: Vec::new(alloc),
            first_pending: 0,
            first_open: MAX_NUMBER,
            end_open: 0,
            trail: Vec::new(alloc),
        })
    }

    /// How many changes there are to undo.
    pub(crate) fn changes(&self) -> usize
    {
        self.trail.len()
    }

    /// The newest universe.
    pub(crate) fn newest_universe(&self) -> u32
    {
        self.newest_universe
    }

    /// The number of the next variable. `Stop::NodesFull` comes where no more can be numbered.
    pub(crate) fn next_variable(&self) -> Result<u32, Stop>
    {
        let number = self.variables.len();
        if number >= MAX_NUMBER as usize {
            return Err(Stop::NodesFull);
        }
        Ok(number as u32)
    }

    /// What is known of the variable of that number, if there is one.
    pub(crate) fn entry(&self, number: u32) -> Option<Entry>
    {
        self.variables.get(number as usize).copied()
    }

    /// The region constraints that were recorded, in their order.
    pub(crate) fn regions(&self) -> &[Clause]
    {
        self.regions.as_slice()
    }

    /// The variables, by their numbers.
    pub(crate) fn variables(&self) -> &[Entry]
    {
        self.variables.as_slice()
    }

    /// The goals that are pending, in their order.
    pub(crate) fn pending(&self) -> &[(GoalSource, Goal<Clause>)]
    {
        let goals = self.goals.as_slice();
        &goals[self.first_pending.min(goals.len())..]
    }

    /// The number of the first of so many more variables. `Stop::NodesFull` comes where they can't all be numbered.
    pub(crate) fn next_variables(&self, count: usize) -> Result<u32, Stop>
    {
        let number = self.variables.len();
        if number > MAX_NUMBER as usize || count > MAX_NUMBER as usize - number {
            return Err(Stop::NodesFull);
        }
        Ok(number as u32)
    }

    /// The universe that comes next. `Stop::NodesFull` comes where no more can be told apart.
    pub(crate) fn next_universe(&self) -> Result<u32, Stop>
    {
        if self.newest_universe >= MAX_NUMBER {
            return Err(Stop::NodesFull);
        }
        Ok(self.newest_universe + 1)
    }

    /// Notes a change that is about to be made.
    fn note(&mut self, change: Change) -> Result<(), Stop>
    {
        self.trail.push(change)?;
        Ok(())
    }

    /// Forgets the change that was noted last.
    fn unnote(&mut self)
    {
        self.trail.pop();
    }

    /// A variable without a value, of the newest universe, or, where it is a root, of the root's. Besides `Stop::Memory`,
    /// `Stop::NodesFull` comes where no more can be numbered.
    pub(crate) fn add_variable(&mut self, kind: VariableKind, is_root: bool) -> Result<u32, Stop>
    {
        let number = self.next_variable()?;
        let universe = if is_root { 0 } else { self.newest_universe };
        self.note(Change::Variable)?;
        let added = self.variables.push(Entry {
            kind,
            universe,
            value: None,
            is_root,
        });
        if added.is_err() {
            self.unnote();
            return Err(Stop::Memory);
        }
        Ok(number)
    }

    /// A variable without a value, which is no root, of that universe, or of the newest, if that is lower. It stops as `add_variable`
    /// does.
    pub(crate) fn open_variable(&mut self, kind: VariableKind, universe: u32) -> Result<u32, Stop>
    {
        let number = self.next_variable()?;
        let universe = universe.min(self.newest_universe);
        self.note(Change::Variable)?;
        let added = self.variables.push(Entry {
            kind,
            universe,
            value: None,
            is_root: false,
        });
        if added.is_err() {
            self.unnote();
            return Err(Stop::Memory);
        }
        Ok(number)
    }

    /// The variable of that number gets the value. `Stop::Memory` is the only stop, here and below where nothing else is said.
    pub(crate) fn assign(&mut self, number: u32, value: GenericArg) -> Result<(), Stop>
    {
        let before = self.variables[number as usize].value;
        self.note(Change::Value(number, before))?;
        self.set_value(number, Some(value));
        Ok(())
    }

    fn set_value(&mut self, number: u32, value: Option<GenericArg>)
    {
        let number = number as usize;
        if number < self.variables.len() {
            let entry = self.variables[number];
            self.variables[number] = Entry { value, ..entry };
        }
    }

    fn set_universe(&mut self, number: u32, universe: u32)
    {
        let number = number as usize;
        if number < self.variables.len() {
            let entry = self.variables[number];
            self.variables[number] = Entry { universe, ..entry };
        }
    }

    /// The universe of the variable of that number falls.
    pub(crate) fn lower(&mut self, number: u32, universe: u32) -> Result<(), Stop>
    {
        let before = self.variables[number as usize].universe;
        self.note(Change::Universe(number, before))?;
        self.set_universe(number, universe);
        Ok(())
    }

    /// From which number on variables have values in which a variable stands, and up to below which.
    pub(crate) fn open_values(&self) -> (u32, u32)
    {
        (self.first_open, self.end_open)
    }

    /// The variable of that number may get a value in which a variable stands. Besides `Stop::Memory`, `Stop::NodesFull` comes where the
    /// number is too large to be noted; no variable has such a number.
    pub(crate) fn widen(&mut self, number: u32) -> Result<(), Stop>
    {
        if number >= MAX_NUMBER {
            return Err(Stop::NodesFull);
        }
        self.note(Change::Open(self.first_open, self.end_open))?;
        self.first_open = self.first_open.min(number);
        self.end_open = self.end_open.max(number + 1);
        Ok(())
    }

    /// There is a newer universe. Besides `Stop::Memory`, `Stop::NodesFull` comes where no more can be told apart.
    pub(crate) fn enter(&mut self) -> Result<(), Stop>
    {
        if self.newest_universe >= MAX_NUMBER {
            return Err(Stop::NodesFull);
        }
        self.note(Change::NewestUniverse(self.newest_universe))?;
        self.newest_universe += 1;
        Ok(())
    }

    /// There are so many more universes. Besides `Stop::Memory`, `Stop::NodesFull` comes where they can't all be told apart.
    pub(crate) fn add_universes(&mut self, count: u32) -> Result<(), Stop>
    {
        if count > MAX_NUMBER - self.newest_universe {
            return Err(Stop::NodesFull);
        }
        self.note(Change::NewestUniverse(self.newest_universe))?;
        self.newest_universe += count;
        Ok(())
    }

    /// Records a region constraint.
    pub(crate) fn record_region(&mut self, region: Clause) -> Result<(), Stop>
    {
        self.note(Change::Region)?;
        if self.regions.push(region).is_err() {
            self.unnote();
            return Err(Stop::Memory);
        }
        Ok(())
    }

    /// Adds a goal, after all that are pending.
    pub(crate) fn add(&mut self, source: GoalSource, goal: Goal<Clause>) -> Result<(), Stop>
    {
        self.note(Change::Goal)?;
        if self.goals.push((source, goal)).is_err() {
            self.unnote();
            return Err(Stop::Memory);
        }
        Ok(())
    }

    /// Variables without values, of the newest universe, in the place of parameters of these kinds; none, where it stops.
    pub(crate) fn add_variables(&mut self, kinds: &[VarKind]) -> Result<(), Stop>
    {
        let changes = self.changes();
        for i in 0..kinds.len() {
            if let Err(stop) = self.add_variable(variable_kind(kinds[i]), false) {
                self.undo_to(changes);
                return Err(stop);
            }
        }
        Ok(())
    }

    /// Adds goals, after all that are pending; none, where it stops.
    pub(crate) fn add_all(&mut self, source: GoalSource, goals: &[Goal<Clause>]) -> Result<(), Stop>
    {
        let changes = self.changes();
        for i in 0..goals.len() {
            if let Err(stop) = self.add(source, goals[i]) {
                self.undo_to(changes);
                return Err(stop);
            }
        }
        Ok(())
    }

    /// Of the goals only those are pending that are added from now on.
    pub(crate) fn set_aside(&mut self) -> Result<(), Stop>
    {
        self.note(Change::Pending(self.first_pending))?;
        self.first_pending = self.goals.len();
        Ok(())
    }

    /// Undoes a change that is the last of the trail no more.
    fn undo(&mut self, change: Change)
    {
        match change {
            Change::Variable => {
                self.variables.pop();
            }
            Change::Value(number, value) => self.set_value(number, value),
            Change::Universe(number, universe) => self.set_universe(number, universe),
            Change::NewestUniverse(newest) => self.newest_universe = newest,
            Change::Region => {
                self.regions.pop();
            }
            Change::Goal => {
                self.goals.pop();
            }
            Change::Pending(first) => self.first_pending = first,
            Change::Open(first, end) => {
                self.first_open = first;
                self.end_open = end;
            }
        }
    }

    /// Undoes all changes but the first so many.
    pub(crate) fn undo_to(&mut self, changes: usize)
    {
        while self.trail.len() > changes {
            if let Some(change) = self.trail.pop() {
                self.undo(change);
            }
        }
    }
}
