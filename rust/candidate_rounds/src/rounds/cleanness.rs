// Made of `crates/candidate_rounds/src/rounds/cleanness.rt` by `bench/plain.py`: an edit of this file is lost.

//! Whether a region that is an error stands in goals: derivations say nothing of those in which one does.


use kit::{eprintln, format, prelude::*, print, println, vec};
use crate::rounds::Rounds;
use crate::rounds::goals::{GoalKey, Goals};
use crate::rounds::walking::has_marked;
use ir_context::decl::context::Cx;
use ir_trees::ir::heads::{Flag, Marks};
use ir_trees::ir::kinds::{RegionKind, Ty};
use ir_trees::ir::marks::Mark;
use ir_trees::ir::node::Node;
use ir_trees::ir::walked::Walked;
use kit::alloc::Global;

/// The mark of a region that is an error.
#[derive(Debug)]
struct ErrorRegion;

impl Mark for ErrorRegion {

    fn is_on(&self, node: &Node) -> bool {
        match node {
            Node::Region(RegionKind::Error) => true,
            _ => false,
        }
    }

    fn may_stand(&self, kept: Marks) -> bool {
        kept.has(Flag::Error)
    }

}

/// Whether a region that is an error stands in what the goal of a key says.
pub(crate) fn has_error_region(alloc: Global, cx: &Cx, key: &GoalKey) -> bool
{
    let mut walked = Walked::new(alloc);
    has_marked(cx, &mut walked, key.goal.predicate, &ErrorRegion)
}

/// Whether a region that is an error stands in the type that is listed for an alias.
fn type_has_error_region(alloc: Global, cx: &Cx, pair: &(Ty, Ty)) -> bool
{
    let mut walked = Walked::new(alloc);
    has_marked(cx, &mut walked, pair.1, &ErrorRegion)
}

/// Whether one stands in one of these types.
fn types_have_error_region(alloc: Global, cx: &Cx, pairs: &[(Ty, Ty)]) -> bool
{
    for i in 0..pairs.len() {
        if type_has_error_region(alloc, cx, &pairs[i]) {
            return true;
        }
    }
    false
}

/// Whether one stands in what a goal of the table says.
fn goals_have_error_region(alloc: Global, cx: &Cx, goals: &Goals) -> bool
{
    for place in 0..goals.len() {
        let (key, _) = goals.entry_at(place);
        if has_error_region(alloc, cx, key) {
            return true;
        }
    }
    false
}

impl Rounds {
    /// Whether a region that is an error stands in what a goal of the table says, or in a listed type. Where none does each Yes of the table
    /// has a derivation. No growth has to be granted: where one is refused, trees are looked at more than once.
    pub fn has_error_regions(&self, alloc: Global) -> bool
    {
        self.recall_well_kept();
        self.recall_trees_fit();
        types_have_error_region(alloc, &self.cx, self.normal.as_slice())
            || goals_have_error_region(alloc, &self.cx, &self.goals)
    }
}
