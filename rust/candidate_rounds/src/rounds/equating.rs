// Made of `crates/candidate_rounds/src/rounds/equating.rt` by `bench/plain.py`: an edit of this file is lost.

//! Trees are made equal: what is first on both sides is looked at, and then what is left.


use kit::{eprintln, format, prelude::*, print, println, vec};
use crate::rounds::Rounds;
use crate::rounds::repeating::{Met, has_variables};
use crate::rounds::resolving::variable_at;
use crate::rounds::walking::is_passive;
use candidate_eval::eval::refusal::NoSolutionOrStop;
use ir_context::decl::context::Cx;
use ir_trees::ir::heads::Head;
use ir_trees::ir::kinds::{Args, GenericArg, Region};
use ir_trees::ir::numbered::Numbered;
use ir_trees::ir::stop::Stop;
use ir_trees::ir::trees::Trees;
use kit::alloc::Global;

/// Two nodes of which what stands below is still to be made equal, from a place on.
#[derive(Clone, Copy, Debug)]
pub(crate) struct Frame {
    left: u32,
    right: u32,
    place: usize,
    /// How many of the binders that were entered are around them.
    binders: usize,
    /// True only where both are lists of arguments.
    are_lists: bool,
}

/// What is left of an equation.
#[derive(Debug)]
pub(crate) struct Rest {
    /// What comes next stands last.
    frames: Vec<Frame>,
    /// For each binder that was entered, the universe of the placeholders that stand for its variables; the innermost last.
    universes: Vec<u32>,
    /// The nodes of frames that came next.
    met: Met,
}

impl Rest {
    /// What is left of an equation of which nothing was looked at yet.
    fn new(alloc: Global) -> Rest
    {
        Rest {
            frames: Vec::new(alloc),
            universes: Vec::new(alloc),
            met: Met::new(alloc),
        }
    }

    /// How many binders were entered.
    fn binders(&self) -> usize
    {
        self.universes.len()
    }

    /// A frame comes next. The only stop is `Stop::Memory`.
    fn push(&mut self, frame: Frame) -> Result<(), Stop>
    {
        Ok(self.frames.push(frame)?)
    }
}

/// The number of the tree of that place below a number, from 0 on, if there are so many. A list of arguments isn't walked to the
/// place.
fn child_at(cx: &Cx, number: u32, place: usize, is_list: bool) -> Option<u32>
{
    if !is_list {
        return cx.child(number, place);
    }
    let list = cx.args(Args(number));
    if place >= list.len() {
        return None;
    }
    Some(list[place].number())
}

impl Rounds {
    /// The second number is offered as its value to the first, if that is a variable, which has none. Says whether it takes it. It stops
    /// as `bind` does.
    fn offered(
        &mut self,
        alloc: Global,
        universes: &[u32],
        to: u32,
        number: u32,
    ) -> Result<bool, Stop>
    {
        self.recall_well_kept();
        let Some(variable) = variable_at(&self.cx, to) else {
            return Ok(false);
        };
        let Some(arg) = self.cx.argument(number) else {
            return Ok(false);
        };
        let value = self.value_for(alloc, universes, arg)?;
        if !self.may_take(variable, value) {
            return Ok(false);
        }
        self.bind(alloc, variable, value)?;
        Ok(true)
    }

    /// Two regions are recorded as equal, under the binders that were entered.
    fn equal_regions(&mut self, universes: &[u32], left: Region, right: Region) -> Result<(), Stop>
    {
        let left = self.placed_region(universes, left)?;
        let right = self.placed_region(universes, right)?;
        self.record_equal_regions(left, right)
    }

    /// Enters the binder of a number, with a fresh universe if it has variables. Says what the newest universe is then. It stops as
    /// `enter` does.
    fn enter_binder(&mut self, number: u32) -> Result<u32, Stop>
    {
        if has_variables(&self.cx, number) {
            self.enter()?;
        }
        Ok(self.inference.newest_universe())
    }

    /// What is below two numbers of one head is left, before all else; a binder is entered, with a fresh universe if it has
    /// variables. It stops as `enter` does.
    fn enter_below(&mut self, rest: &mut Rest, left: u32, right: u32) -> Result<(), Stop>
    {
        if self.cx.head(left).binders() == 1 {
            let universe = self.enter_binder(left)?;
            rest.universes.push(universe)?;
        }
        let binders = rest.binders();
        rest.push(Frame {
            left,
            right,
            place: 0,
            binders,
            are_lists: false,
        })
    }

    /// The regions of two numbers, if both are of regions.
    fn regions(&self, left: u32, right: u32) -> Option<(Region, Region)>
    {
        match (self.cx.head(left), self.cx.head(right)) {
            (Head::Region(_), Head::Region(_)) => Some((Region(left), Region(right))),
            _ => None,
        }
    }

    /// Whether two numbers have one head.
    fn have_one_head(&self, left: u32, right: u32) -> bool
    {
        self.cx.head(left) == self.cx.head(right)
    }

    /// Two regions are recorded as equal, and two numbers of one head leave what is below them; others can't be made equal.
    fn matched(&mut self, rest: &mut Rest, left: u32, right: u32) -> Result<(), NoSolutionOrStop>
    {
        if let Some((left, right)) = self.regions(left, right) {
            return Ok(self.equal_regions(rest.universes.as_slice(), left, right)?);
        }
        if !self.have_one_head(left, right) {
            return Err(NoSolutionOrStop::NoSolution);
        }
        Ok(self.enter_below(rest, left, right)?)
    }

    /// What a number is at the state: see `current`. What is no type, constant or region is itself.
    fn current_number(&mut self, alloc: Global, number: u32) -> Result<u32, Stop>
    {
        match self.cx.argument(number) {
            Some(arg) => Ok(self.current(alloc, arg)?.number()),
            None => Ok(number),
        }
    }

    /// Two trees meet, of which none is a variable with a value: the left one's variable goes before the right one's, and where neither
    /// takes the other they have to match.
    fn meet(
        &mut self,
        alloc: Global,
        rest: &mut Rest,
        left: u32,
        right: u32,
    ) -> Result<(), NoSolutionOrStop>
    {
        self.recall_well_kept();
        if self.offered(alloc, rest.universes.as_slice(), left, right)? {
            return Ok(());
        }
        if self.offered(alloc, rest.universes.as_slice(), right, left)? {
            return Ok(());
        }
        self.matched(rest, left, right)
    }

    /// Two trees meet as they are at the state.
    fn meet_current(
        &mut self,
        alloc: Global,
        rest: &mut Rest,
        left: u32,
        right: u32,
    ) -> Result<(), NoSolutionOrStop>
    {
        self.recall_well_kept();
        let left = self.current_number(alloc, left)?;
        let right = self.current_number(alloc, right)?;
        self.meet(alloc, rest, left, right)
    }

    /// Looks at what is first on both sides of a frame, which is taken off what is left. Besides what stops `meet_current`,
    /// `Stop::NodesFull` comes where a place can't be counted.
    fn visit(
        &mut self,
        alloc: Global,
        rest: &mut Rest,
        frame: Frame,
    ) -> Result<(), NoSolutionOrStop>
    {
        let left = child_at(&self.cx, frame.left, frame.place, frame.are_lists);
        let right = child_at(&self.cx, frame.right, frame.place, frame.are_lists);
        match (left, right) {
            (None, None) => Ok(()),
            (Some(left), Some(right)) => {
                let Some(place) = frame.place.checked_add(1) else {
                    return Err(NoSolutionOrStop::Stop(Stop::NodesFull));
                };
                rest.push(Frame { place, ..frame })?;
                self.meet_current(alloc, rest, left, right)
            }
            _ => Err(NoSolutionOrStop::NoSolution),
        }
    }

    /// Whether a frame may be passed over: one node is on both sides, and nothing is active below it. Looks there would leave the state as
    /// it is, once for each place in which a part stands.
    fn may_pass_over(&self, alloc: Global, frame: Frame) -> bool
    {
        frame.left == frame.right
            && (frame.place == 0 && is_passive(alloc, &self.cx, &self.inference, frame.left))
    }

    /// Whether the nodes of a frame, types or constants at which nothing was looked yet, have met before, and what is below them is one by
    /// now. All looks there would leave the state as it is then.
    fn is_repeated(&mut self, alloc: Global, rest: &mut Rest, frame: Frame) -> bool
    {
        if frame.place != 0 || self.cx.argument(frame.left).is_none() {
            return false;
        }
        if !rest.met.meet_again(frame.left, frame.right) {
            return false;
        }
        let is_one = self.are_one(alloc, frame.left, frame.right);
        rest.met.learn(is_one);
        is_one
    }

    /// One look: what is first on both sides of a frame, which stood last, under the binders that are around it; or all looks at a frame
    /// that may be passed over. Whatever stops what is left then is among what stops all that was left.
    fn look(&mut self, alloc: Global, rest: &mut Rest, frame: Frame) -> Result<(), NoSolutionOrStop>
    {
        self.recall_well_kept();
        rest.universes.truncate(frame.binders);
        if self.may_pass_over(alloc, frame) {
            return Ok(());
        }
        if self.is_repeated(alloc, rest, frame) {
            return Ok(());
        }
        self.visit(alloc, rest, frame)
    }

    /// Looks at what is left until nothing is.
    fn unify(&mut self, alloc: Global, rest: &mut Rest) -> Result<(), NoSolutionOrStop>
    {
        while let Some(frame) = rest.frames.pop() {
            self.look(alloc, rest, frame)?;
        }
        Ok(())
    }

    /// Two types, constants or regions are made equal. Where they can't be, and where it stops, what is known is what it was. Besides
    /// `Stop::Memory`, `Stop::NodesFull` comes where no numbers are left, a tree would be higher than 1,024, or a node has more children
    /// than can be counted.
    pub(crate) fn equate(
        &mut self,
        alloc: Global,
        a: GenericArg,
        b: GenericArg,
    ) -> Result<(), NoSolutionOrStop>
    {
        self.recall_well_kept();
        let changes = self.inference.changes();
        let result = self.equate_numbers(alloc, a.number(), b.number());
        if result.is_err() {
            self.undo_to(changes);
        }
        result
    }

    /// Two lists are made equal, member by member; what is said of `equate` holds here, too.
    pub(crate) fn equate_args(
        &mut self,
        alloc: Global,
        a: Args,
        b: Args,
    ) -> Result<(), NoSolutionOrStop>
    {
        self.recall_well_kept();
        let changes = self.inference.changes();
        let result = self.equate_below(alloc, a, b);
        if result.is_err() {
            self.undo_to(changes);
        }
        result
    }

    /// The members of two lists are made equal. After a refusal or a stop some changes may be left.
    fn equate_below(&mut self, alloc: Global, a: Args, b: Args) -> Result<(), NoSolutionOrStop>
    {
        let mut rest = Rest::new(alloc);
        rest.push(Frame {
            left: a.0,
            right: b.0,
            place: 0,
            binders: 0,
            are_lists: true,
        })?;
        self.unify(alloc, &mut rest)
    }

    /// The trees of two numbers are made equal. After a refusal or a stop some changes may be left.
    fn equate_numbers(&mut self, alloc: Global, a: u32, b: u32) -> Result<(), NoSolutionOrStop>
    {
        self.recall_well_kept();
        let mut rest = Rest::new(alloc);
        self.meet_current(alloc, &mut rest, a, b)?;
        self.unify(alloc, &mut rest)
    }
}
