// Made of `crates/candidate_rounds/src/rounds/table.rt` by `bench/plain.py`: an edit of this file is lost.

//! What the table says of a key, and the goals that a round asks for.


use kit::{eprintln, format, prelude::*, print, println, vec};
use crate::rounds::Rounds;
use crate::rounds::goals::{GoalKey, Verdict};
use crate::rounds::keys::may_be_asked;
use candidate_eval::eval::response::CanonicalResponse;
use ir_trees::ir::stop::Stop;
use ir_trees::ir::trees::Trees;
use kit::alloc::Global;

/// What the table says of a goal.
#[derive(Clone, Copy, Debug)]
pub(crate) enum Found {
    /// It doesn't have the goal.
    Missing,
    /// It has the goal, of which nothing is known for sure.
    Open,
    /// The goal of that place holds.
    Yes(usize),
    Refused,
}

/// What the verdict of the goal of that place says.
fn lookup_of(verdict: &Option<Verdict>, place: usize) -> Found
{
    match verdict {
        None | Some(Verdict::Maybe(_, _)) => Found::Open,
        Some(Verdict::Yes(_, _)) => Found::Yes(place),
        Some(Verdict::Refused) => Found::Refused,
    }
}

impl Rounds {
    /// The place of the goal with that key, if there is one, which is the only one.
    pub(crate) fn place_of(&self, key: &GoalKey) -> Option<usize>
    {
        self.recall_well_kept();
        self.cx.recall_distinct();
        self.goals.place_of(key)
    }

    /// What the goal of that place says of its key.
    fn lookup_at(&self, place: usize) -> Found
    {
        self.recall_well_kept();
        let (_, slot) = self.goals.entry_at(place);
        if slot.is_readable {
            lookup_of(&slot.verdict, place)
        } else {
            Found::Open
        }
    }

    /// What the table says of the key. A verdict that may not be read says nothing.
    pub(crate) fn lookup(&self, key: &GoalKey) -> Found
    {
        match self.place_of(key) {
            Some(place) => self.lookup_at(place),
            None => Found::Missing,
        }
    }

    /// A goal that the table doesn't have is asked for by the round that is being done, if it may be computed and isn't asked for yet.
    /// `Stop::EvaluatorLimit` comes where there are 65,536 goals, `Stop::Memory` where a growth was refused, `Stop::NodesFull` where a
    /// node has more children than can be counted.
    pub(crate) fn request(&mut self, alloc: Global, key: GoalKey) -> Result<(), Stop>
    {
        self.recall_well_kept();
        if !self.goals.asks {
            return Ok(());
        }
        if !may_be_asked(alloc, &self.cx, &key)? {
            return Ok(());
        }
        self.cx.recall_distinct();
        self.goals.ask(key)
    }

    /// The goal of that key was looked up, and nothing is known of it for sure.
    pub(crate) fn note_look_up(&mut self, key: &GoalKey)
    {
        self.goals.note_look_up(key);
    }

    /// A copy of what the Yes of that place says of the key. The only stop is `Stop::Memory`.
    pub(crate) fn yes_at(&self, key: &GoalKey, place: usize) -> Result<CanonicalResponse, Stop>
    {
        match &self.goals.entry_at(place).1.verdict {
            Some(Verdict::Yes(response, _)) => Ok(response.copied()?),
            _ => unreachable!(),
        }
    }
}
