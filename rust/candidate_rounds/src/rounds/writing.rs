// Made of `crates/candidate_rounds/src/rounds/writing.rt` by `bench/plain.py`: an edit of this file is lost.

//! What a round writes into the table.


use kit::{eprintln, format, prelude::*, print, println, vec};
use crate::rounds::goals::{GoalKey, Slot, Verdict};
use candidate_eval::eval::response::CanonicalResponse;
use kit::indexmap::IndexMap;

/// What a round has for a goal of the table.
#[derive(Debug)]
pub(crate) struct Written {
    pub verdict: Verdict,
    pub is_readable: bool,
    pub leaks: bool,
}

/// Whether the responses are the same in all their parts.
pub(crate) fn is_same_response(a: &CanonicalResponse, b: &CanonicalResponse) -> bool
{
    a.values == b.values
        && (a.certainty == b.certainty
            && (a.vars.as_slice() == b.vars.as_slice()
                && a.regions.as_slice() == b.regions.as_slice()))
}

/// Whether the verdicts are the same.
fn is_same_verdict(a: &Verdict, b: &Verdict) -> bool
{
    match (a, b) {
        (Verdict::Yes(a, way), Verdict::Yes(b, other)) => way == other && is_same_response(a, b),
        (Verdict::Maybe(a, way), Verdict::Maybe(b, other)) => {
            way == other && is_same_response(a, b)
        }
        (Verdict::Refused, Verdict::Refused) => true,
        _ => false,
    }
}

/// Whether a round has nothing for a goal, or what is written for it already.
fn is_there(slot: &Slot, written: &Option<Written>) -> bool
{
    match written {
        None => true,
        Some(written) => match &slot.verdict {
            Some(verdict) => is_same_verdict(&written.verdict, verdict),
            None => false,
        },
    }
}

/// Whether that holds of all goals.
pub(crate) fn are_there(entries: &IndexMap<GoalKey, Slot>, written: &[Option<Written>]) -> bool
{
    for i in 0..entries.len() {
        if !is_there(&entries[i], &written[i]) {
            return false;
        }
    }
    true
}

/// Writes what a round has for a goal.
fn write_verdict(slot: &mut Slot, written: Option<Written>)
{
    if let Some(written) = written {
        slot.verdict = Some(written.verdict);
        slot.is_readable = written.is_readable;
        slot.leaks = written.leaks;
    }
}

/// Writes what a round has for the goals, one after another.
pub(crate) fn put_all_in(entries: &mut IndexMap<GoalKey, Slot>, written: Vec<Option<Written>>)
{
    let mut place = 0;
    for written in written {
        if place < entries.len() {
            write_verdict(&mut entries[place], written);
            place += 1;
        }
    }
}
