// Made of `crates/ir_folds/src/decl/answering.rt` by `bench/plain.py`: an edit of this file is lost.

//! Folds by answers that are a function, which go once over each number.


use kit::{eprintln, format, prelude::*, print, println, vec};
use crate::decl::fold::fold_number;
use kit::indexmap::IndexMap;
use ir_context::decl::make::Make;
use ir_trees::ir::heads::Marks;
use ir_trees::ir::kinds::GenericArg;
use ir_trees::ir::numbered::Numbered;
use ir_trees::ir::stop::Stop;
use ir_trees::ir::trees::Trees;
use kit::alloc::Global;

/// What stands in the place of types, constants and regions, by their trees and by the binders passed.
pub trait PureFolder<M: Make> {
    // What stands in the place of a tree, by the trees of a context.

    // Whether what it puts there is of a context.

    // Why trees with its answers can't be made, where so many numbers are given.

    /// Whether something may be answered in a tree of which these marks are kept: after a no nothing is.
    fn may_answer(&self, marks: Marks) -> bool
        ;

    /// What stands for the argument under so many binders, if anything does.
    fn answer(
        &self,
        alloc: Global,
        make: &mut M,
        arg: GenericArg,
        binders: u32,
    ) -> Result<Option<GenericArg>, Stop>
        ;

    /// Its answers stay the same while nodes are made, nothing stands in the place of lists and of parts of nodes, and what stops an
    /// answer stops all that it stands in.
    fn recall_laws(&self)
        ;
}

/// A number, under so many binders.
#[derive(Clone, Copy, PartialEq, Eq, Hash, Debug)]
pub struct Place {
    pub number: u32,
    pub binders: u32,
}

/// The numbers of what came of others.
#[derive(Debug)]
pub(crate) struct Results {
    numbers: IndexMap<Place, u32>,
}

impl Results {
    pub fn new(alloc: Global) -> Self
    {
        Results {
            numbers: IndexMap::new(alloc),
        }
    }

    /// What came of it, if that is noted.
    fn of(&self, place: Place) -> Option<u32>
    {
        self.numbers.get(&place).copied()
    }

    /// Notes what came of it. The only error is a refused growth.
    fn note(&mut self, place: Place, number: u32) -> Result<(), Stop>
    {
        self.numbers.insert(place, number)?;
        Ok(())
    }
}

/// What stands for a part of what a number stands for. Of that itself, and of what isn't answered and has a number as high, nothing is
/// said, so that the fold goes on into its children.
fn fold_part<M, A>(
    alloc: Global,
    make: &mut M,
    answering: &A,
    results: &mut Results,
    whole: u32,
    arg: GenericArg,
    binders: u32,
) -> Result<Option<GenericArg>, Stop>
where
    M: Make,
    A: PureFolder<M>,
{
    answering.recall_laws();
    let number = arg.number();
    if !answering.may_answer(make.cx().marks(number)) {
        return Ok(Some(arg));
    }
    if let Some(answer) = answering.answer(alloc, make, arg, binders)? {
        return Ok(Some(answer));
    }
    if number >= whole || number > u32::MAX - binders {
        return Ok(None);
    }
    let made = fold_noted(alloc, make, answering, results, number, binders)?;
    Ok(Some(arg.with_number(made)))
}

/// What a number stands for under so many binders, with the answers put in. What came of a part is noted, and no part is folded twice.
fn fold_noted<M, A>(
    alloc: Global,
    make: &mut M,
    answering: &A,
    results: &mut Results,
    number: u32,
    binders: u32,
) -> Result<u32, Stop>
where
    M: Make,
    A: PureFolder<M>,
{
    let place = Place { number, binders };
    if let Some(made) = results.of(place) {
        return Ok(made);
    }
    answering.recall_laws();
    let made = fold_number(
        alloc,
        make,
        &mut |make: &mut M, arg: GenericArg, binders: u32| -> Result<Option<GenericArg>, Stop>
        { fold_part(alloc, make, answering, results, number, arg, binders) },
        number,
        binders,
    )?;
    results.note(place, made)?;
    Ok(made)
}

/// What a number stands for, with the answers put in. Each number is folded once under so many binders, so that trees that share parts
/// cost no more than they have numbers.
pub(crate) fn fold_once<M, A>(
    alloc: Global,
    make: &mut M,
    answering: &A,
    number: u32,
) -> Result<u32, Stop>
where
    M: Make,
    A: PureFolder<M>,
{
    fold_noted(alloc, make, answering, &mut Results::new(alloc), number, 0)
}

/// The type, constant, list or whatever else it is, with the answers put in from the top: `fold` does the same by a closure, and goes
/// as often into each number as it stands there. `Stop::Memory` comes where a growth was refused, `Stop::NodesFull` where no numbers
/// are left or the tree would be higher than 1,024, and else the answers' stops. After a stop the nodes that were made stay.
pub fn fold_answers<N, M, A>(
    alloc: Global,
    make: &mut M,
    value: N,
    answering: &A,
) -> Result<N, Stop>
where
    N: Numbered,
    M: Make,
    A: PureFolder<M>,
{
    answering.recall_laws();
    let number = fold_once(alloc, make, answering, value.number())?;
    Ok(value.with_number(number))
}
