// Made of `crates/candidate_rounds/src/rounds/due.rt` by `bench/plain.py`: an edit of this file is lost.

//! Which goals are due: goals that were first asked for in the last step, and goals that looked up what became final in it. This settles
//! nothing but which goals are computed next.

use kit::{eprintln, format, prelude::*, print, println, vec};
use crate::rounds::goals::{GoalKey, Slot};
use crate::rounds::running::is_final;
use kit::indexmap::IndexMap;
use kit::alloc::Global;

/// A goal looked up another one, of which nothing was known for sure.
#[derive(Clone, Copy, Debug)]
struct LookUp {
    /// The place of the goal that was computed.
    reader: usize,
    /// The place of the goal that was looked up.
    place: usize,
}

/// What goals looked up while they were computed, and which goals are due by that.
///
/// For example `Vec<u8>: Clone` is computed, and nothing is known for sure of `u8: Clone`. Once that is final `Vec<u8>: Clone` is due.
/// Where a growth was refused nothing is due. Then all goals are computed next, and what they look up is noted anew.
#[derive(Debug)]
pub(crate) struct LookUps {
    /// Whether they are noted.
    are_noted: bool,
    /// The place of the goal that is being computed.
    reader: usize,
    /// What was looked up, each goal when it was last computed.
    list: Vec<LookUp>,
    /// Whether one of them isn't there, since a growth was refused.
    lacks: bool,
    /// How many goals there were when it was last chosen which are due.
    count: usize,
    /// Of each place whether its goal is due.
    due: Vec<bool>,
}

impl LookUps {
    /// None, and none is noted.
    pub(crate) fn new(alloc: Global) -> LookUps {
        LookUps {
            are_noted: false,
            reader: 0,
            list: Vec::new(alloc),
            lacks: false,
            count: 0,
            due: Vec::new(alloc),
        }
    }

    /// They are noted from now on. There are so many goals, of which none is due.
    pub(crate) fn start(&mut self, count: usize) {
        self.are_noted = true;
        self.list.truncate(0);
        self.lacks = false;
        self.count = count;
    }

    /// They are noted from now on, beside those that are there.
    pub(crate) fn go_on(&mut self) {
        self.are_noted = true;
    }

    /// None is noted from now on.
    pub(crate) fn stop(&mut self) {
        self.are_noted = false;
    }

    /// The goal of that place is computed from now on.
    pub(crate) fn set_reader(&mut self, reader: usize) {
        self.reader = reader;
    }

    /// The goal of that place was looked up, if there is one, and nothing is known of it for sure.
    pub(crate) fn note(&mut self, place: Option<usize>) {
        if !self.are_noted {
            return;
        }
        if let Some(place) = place {
            let reader = self.reader;
            if self.list.push(LookUp { reader, place }).is_err() {
                self.lacks = true;
            }
        }
    }

    /// Whether the goal of that place is due.
    pub(crate) fn is_due(&self, place: usize) -> bool {
        self.due.get(place) == Some(&true)
    }

    /// Chooses which goals are due, and answers whether some are. Where none is, all goals are to be computed.
    pub(crate) fn choose(&mut self, entries: &IndexMap<GoalKey, Slot>) -> bool {
        let known = kit::mem::replace(&mut self.count, entries.len());
        let lacks = kit::mem::replace(&mut self.lacks, false);
        if lacks || !self.mark(entries, known) {
            self.list.truncate(0);
            return false;
        }
        self.drop_all_but_waiting(entries);
        true
    }

    /// Marks the goals that are due: those that are none of the first so many, and those that aren't final and looked up one that is. It
    /// answers whether there are some; there are none where a growth was refused.
    fn mark(&mut self, entries: &IndexMap<GoalKey, Slot>, known: usize) -> bool {
        self.due.truncate(0);
        for place in 0..entries.len() {
            if self.due.push(place >= known).is_err() {
                return false;
            }
        }
        let mut some = known < entries.len();
        for i in 0..self.list.len() {
            if let Some(look_up) = self.list.get(i) {
                if is_final_at(entries, look_up.place) && !is_final_at(entries, look_up.reader) {
                    if let Some(is_due) = self.due.get_mut(look_up.reader) {
                        *is_due = true;
                        some = true;
                    }
                }
            }
        }
        some
    }

    /// Drops the look-ups of goals that are final or due: these never look up anything again, or note it anew.
    fn drop_all_but_waiting(&mut self, entries: &IndexMap<GoalKey, Slot>) {
        let mut kept: usize = 0;
        for i in 0..self.list.len() {
            let look_up = match self.list.get(i) {
                Some(look_up) => *look_up,
                None => return,
            };
            if !self.is_due(look_up.reader) && !is_final_at(entries, look_up.reader) {
                if let Some(slot) = self.list.get_mut(kept) {
                    *slot = look_up;
                }
                kept = kept.saturating_add(1);
            }
        }
        self.list.truncate(kept);
    }
}

/// Whether something final is written for the goal of that place.
fn is_final_at(entries: &IndexMap<GoalKey, Slot>, place: usize) -> bool {
    match entries.get_index(place) {
        Some((_, slot)) => is_final(&slot.verdict),
        None => false,
    }
}
