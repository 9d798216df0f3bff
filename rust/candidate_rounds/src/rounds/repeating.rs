// Made of `crates/candidate_rounds/src/rounds/repeating.rt` by `bench/plain.py`: an edit of this file is lost.

//! Pairs of numbers that meet again: what a look at them would do is done already, unless it changes the state each time.


use kit::{eprintln, format, prelude::*, print, println, vec};
use crate::rounds::Rounds;
use crate::rounds::inference::Inference;
use crate::rounds::resolving::{kept_value, resolved_arg};
use crate::rounds::values::normalized;
use candidate_eval::eval::variable::VariableKind;
use kit::indexmap::IndexSet;
use ir_context::decl::context::Cx;
use ir_trees::ir::heads::Head;
use ir_trees::ir::kinds::{GenericArg, RegionKind, Ty};
use ir_trees::ir::numbered::Numbered;
use ir_trees::ir::trees::Trees;
use ir_trees::ir::walked::Walked;
use kit::alloc::Global;

/// So many pairs aren't noted, so that a small equation takes no memory.
const SPARED: u32 = 16;

/// After pairs that weren't one, no more than twice so many that met again aren't looked at closer.
const MAX_LEFT_OUT: u32 = 128;

/// Two numbers that meet.
#[derive(Clone, Copy, PartialEq, Eq, Hash, Debug)]
struct Meeting {
    left: u32,
    right: u32,
}

/// The pairs of numbers that have met, but for the first few; and how often it pays to look closer at those that meet again.
#[derive(Debug)]
pub(crate) struct Met {
    pairs: IndexSet<Meeting>,
    /// How many weren't noted.
    spared: u32,
    /// How many that meet again aren't looked at closer, after one that wasn't one.
    left_out: u32,
    /// How many of them are still to come.
    waiting: u32,
}

impl Met {
    /// No pair.
    pub(crate) fn new(alloc: Global) -> Met {
        Met {
            pairs: IndexSet::new(alloc),
            spared: 0,
            left_out: 0,
            waiting: 0,
        }
    }

    /// Notes that two numbers meet, unless they are among the first few or a growth is refused. Says whether they are noted already.
    fn note(&mut self, left: u32, right: u32) -> bool {
        if self.spared < SPARED {
            self.spared += 1;
            return false;
        }
        match self.pairs.insert(Meeting { left, right }) {
            Ok(is_new) => !is_new,
            Err(_) => false,
        }
    }

    /// Notes that two numbers meet, as `note` does; says whether they have met and are to be looked at closer.
    pub(crate) fn meet_again(&mut self, left: u32, right: u32) -> bool {
        if !self.note(left, right) {
            return false;
        }
        if self.waiting > 0 {
            self.waiting -= 1;
            return false;
        }
        true
    }

    /// Learns whether those that were looked at closer were one: after each that wasn't, twice as many are left out, so that looks
    /// at trees that stay different don't cost more than to walk them.
    pub(crate) fn learn(&mut self, were_one: bool) {
        if were_one {
            self.left_out = 0;
        } else if self.left_out < MAX_LEFT_OUT {
            self.left_out += self.left_out + 1;
        }
        self.waiting = self.left_out;
    }
}

/// Whether the binder of a number, which is its first child, has variables.
pub(crate) fn has_variables(cx: &Cx, number: u32) -> bool
{
    match cx.child(number, 0) {
        Some(binder) => cx.child(binder, 0).is_some(),
        None => false,
    }
}

/// Whether the root of a number stirs.
fn root_stirs(cx: &Cx, inference: &Inference, number: u32) -> bool
{
    let head = cx.head(number);
    if head.binders() == 1 {
        return has_variables(cx, number);
    }
    match head {
        Head::Region(RegionKind::Var(variable)) => {
            kept_value(inference, VariableKind::Region, variable).is_some()
        }
        _ => false,
    }
}

/// Whether something stirs in a number's tree, where nothing does in those of the noted numbers; none, where a node has more
/// children than can be counted. It may be that nothing does, after a yes.
fn number_stirs(
    cx: &Cx,
    inference: &Inference,
    walked: &mut Walked<u32>,
    number: u32,
) -> Option<bool>
{
    if walked.has(number) {
        return Some(false);
    }
    if root_stirs(cx, inference, number) {
        return Some(true);
    }
    for place in 0..usize::MAX {
        let Some(child) = cx.child(number, place) else {
            walked.note(number, place);
            return Some(false);
        };
        if number_stirs(cx, inference, walked, child)? {
            return Some(true);
        }
    }
    None
}

/// Whether nothing stirs in the tree of that number. After a no something may, or a node has more children than can be counted.
fn nothing_stirs(alloc: Global, cx: &Cx, inference: &Inference, number: u32) -> bool
{
    let mut walked = Walked::new(alloc);
    match number_stirs(cx, inference, &mut walked, number) {
        Some(stirs) => !stirs,
        None => false,
    }
}

/// Whether the third argument has the root of the first one, and nothing stirs in any.
fn keeps_state(
    alloc: Global,
    cx: &Cx,
    inference: &Inference,
    arg: GenericArg,
    resolved: GenericArg,
    listed: GenericArg,
) -> bool
{
    cx.head(listed.number()) == cx.head(arg.number())
        && (nothing_stirs(alloc, cx, inference, arg.number())
            && (nothing_stirs(alloc, cx, inference, resolved.number())
                && nothing_stirs(alloc, cx, inference, listed.number())))
}

/// The argument with all values put in, and that with listed types in the place of their aliases; none, where one stops.
fn put_in(
    alloc: Global,
    cx: &mut Cx,
    inference: &Inference,
    normal: &[(Ty, Ty)],
    arg: GenericArg,
) -> Option<(GenericArg, GenericArg)>
{
    let Ok(resolved) = resolved_arg(alloc, cx, inference, arg) else {
        return None;
    };
    let Ok(listed) = normalized(alloc, cx, normal, resolved) else {
        return None;
    };
    Some((resolved, listed))
}

/// The type or constant of a number that is no variable.
fn term_at(cx: &Cx, number: u32) -> Option<GenericArg>
{
    if cx.head(number).variable_number().is_some() {
        return None;
    }
    cx.argument(number)
}

/// What a number is with all values and listed types put in, if it keeps its root and nothing stirs in it; none also where that stops.
fn ready_in(
    alloc: Global,
    cx: &mut Cx,
    inference: &Inference,
    normal: &[(Ty, Ty)],
    number: u32,
) -> Option<GenericArg>
{
    let arg = term_at(cx, number)?;
    let (resolved, listed) = put_in(alloc, cx, inference, normal, arg)?;
    if !keeps_state(alloc, cx, inference, arg, resolved, listed) {
        return None;
    }
    Some(listed)
}

impl Rounds {
    /// What a number is with all values and listed types put in, if no look below it changes the state; none also where that stops.
    fn ready(&mut self, alloc: Global, number: u32) -> Option<GenericArg>
    {
        ready_in(
            alloc,
            &mut self.cx,
            &self.inference,
            self.normal.as_slice(),
            number,
        )
    }

    /// Whether what is below two numbers is one with all values and listed types put in, and no look there changes the state. After a no it may
    /// be so all the same.
    pub(crate) fn are_one(&mut self, alloc: Global, left: u32, right: u32) -> bool
    {
        self.recall_well_kept();
        let Some(left) = self.ready(alloc, left) else {
            return false;
        };
        let Some(right) = self.ready(alloc, right) else {
            return false;
        };
        left.number() == right.number()
    }
}
