// Made of `crates/ir_builder/src/decl/cycles.rt` by `bench/plain.py`: an edit of this file is lost.

//! Whether a trait is its own supertrait.


use kit::{eprintln, format, prelude::*, print, println, vec};
use ir_trees::decl::contents::Contents;
use ir_trees::decl::definition::{Declaration, DefinitionKind};
use ir_trees::decl::misplaced::is_clause;
use ir_trees::ir::at::at;
use ir_trees::ir::heads::ClauseHead;
use ir_trees::ir::kinds::{Clause, PredicatePolarity, TraitId};
use ir_trees::ir::nodes::Nodes;
use ir_trees::ir::trees::Trees;
use kit::alloc::{AllocError, Global};
use kit::marker::Model;

/// How far a search is with a definition.
#[derive(Clone, Copy, Debug)]
enum Visit {
    Unseen,
    /// It stands on the stack.
    Open,
    Done,
}

/// A trait whose super clauses are looked at, and how many were.
#[derive(Clone, Copy, Debug)]
struct Frame {
    number: usize,
    looked: usize,
}

/// A search from traits to their supertraits, depth first.
#[derive(Debug)]
struct Search {
    visits: Vec<Visit>,
    stack: Vec<Frame>,
}

impl Model for Search {


}

/// The trait that the clause says to hold.
fn clause_trait(head: ClauseHead) -> Option<TraitId>
{
    match head {
        ClauseHead::Trait(of, PredicatePolarity::Positive) => Some(of),
        _ => None,
    }
}

/// The trait that the clause makes a supertrait.
fn clause_supertrait(nodes: &Nodes, clause: Clause) -> Option<TraitId>
{
    if !is_clause(nodes, clause) {
        return None;
    }
    clause_trait(nodes.clause(clause).head())
}

/// The super clauses of the definition of that number.
fn declared_supers<'a>(
    definitions: &[Declaration],
    contents: &'a Contents,
    number: usize,
) -> &'a [Clause]
{
    let Some(definition) = at(definitions, number) else {
        return &[];
    };
    let DefinitionKind::Trait(_, place) = definition.kind() else {
        return &[];
    };
    match at(contents.traits.as_slice(), place as usize) {
        Some(of) => of.supers.as_slice(),
        None => &[],
    }
}

impl Search {
    /// A search of so many definitions that hasn't begun.
    fn new(alloc: Global, count: usize) -> Result<Self, AllocError>
    {
        Ok(Search {
            visits: vec![in alloc; Visit::Unseen; count]?,
            stack: Vec::new(alloc),
        })
    }

    /// Puts a frame on top.
    fn push(&mut self, frame: Frame) -> Result<(), AllocError>
    {
        self.stack.push(frame)?;
        Ok(())
    }

    /// The last frame, taken off.
    fn pop(&mut self) -> Option<Frame>
    {
        self.stack.pop()
    }

    /// Enters a trait.
    fn enter(&mut self, number: usize) -> Result<(), AllocError>
    {
        self.visits[number] = Visit::Open;
        self.push(Frame { number, looked: 0 })
    }

    /// Leaves a trait whose super clauses were all looked at.
    fn leave(&mut self, number: usize)
    {
        self.visits[number] = Visit::Done;
    }

    /// Whether the search is in the trait already; one that isn't seen yet is entered.
    fn meet(&mut self, number: usize) -> Result<bool, AllocError>
    {
        let Some(visit) = at(self.visits.as_slice(), number) else {
            return Ok(false);
        };
        match *visit {
            Visit::Unseen => {
                self.enter(number)?;
                Ok(false)
            }
            Visit::Open => Ok(true),
            Visit::Done => Ok(false),
        }
    }

    /// One step from the frame that was taken off last: whether it comes back to a trait that the search is in.
    fn step(
        &mut self,
        nodes: &Nodes,
        definitions: &[Declaration],
        contents: &Contents,
        frame: Frame,
    ) -> Result<bool, AllocError>
    {
        let supers = declared_supers(definitions, contents, frame.number);
        let Some(clause) = supers.get(frame.looked) else {
            self.leave(frame.number);
            return Ok(false);
        };
        self.push(Frame {
            number: frame.number,
            looked: frame.looked + 1,
        })?;
        match clause_supertrait(nodes, *clause) {
            Some(of) => self.meet(of.0 as usize),
            None => Ok(false),
        }
    }

    /// All steps until the search is in no trait any more, or comes back to one that it is in.
    fn run(
        &mut self,
        nodes: &Nodes,
        definitions: &[Declaration],
        contents: &Contents,
    ) -> Result<bool, AllocError>
    {
        while let Some(frame) = self.pop() {
            if self.step(nodes, definitions, contents, frame)? {
                return Ok(true);
            }
        }
        Ok(false)
    }
}

/// Whether some trait is its own supertrait, by the positive trait clauses among super clauses.
///
/// The only error is a refused growth.
pub(crate) fn has_supertrait_cycle(
    alloc: Global,
    nodes: &Nodes,
    definitions: &[Declaration],
    contents: &Contents,
) -> Result<bool, AllocError>
{
    let mut search = Search::new(alloc, definitions.len())?;
    for number in 0..definitions.len() {
        if search.meet(number)? || search.run(nodes, definitions, contents)? {
            return Ok(true);
        }
    }
    Ok(false)
}
