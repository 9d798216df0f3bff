// Made of `crates/ir_builder/src/decl/fault_places.rt` by `bench/plain.py`: an edit of this file is lost.

//! Whose content has a fault of declarations.


use kit::{eprintln, format, prelude::*, print, println, vec};
use crate::decl::builder::DeclsBuilder;
use crate::decl::faults::{has_wrong_value, impl_misnames, lacks_tail, unsizes_past};
use crate::decl::supers::{first_no_super, has_wrong_super};
use ir_trees::decl::arity::first_unfit;
use ir_trees::decl::contents::Impl;
use ir_trees::decl::definition::Declaration;
use ir_trees::decl::fault::DeclFault;
use ir_trees::decl::held::{Held, Owner};
use ir_trees::decl::misplaced::{Misplaced, held_escapes, held_misplaces, is_not_given};
use ir_trees::ir::at::at;
use kit::alloc::{AllocError, AllocFailed};
use kit::fmt;

/// Whose content has a fault.
#[derive(Clone, Copy, Debug, PartialEq, Eq)]
pub struct FaultPlace {
    /// The definition or the impl.
    pub owner: Owner,
    /// The number, from 0 on, of what it holds that has the fault; `None` where it has the fault itself.
    ///
    /// A data type holds its fields, and then the types that are to be `Sized` and `MetaSized` where it is; a trait its super clauses, and
    /// then its where clauses; an associated item its bounds, those of itself first; an opaque type its hidden type, and then such bounds;
    /// a function its binder, inputs and output; an impl the arguments of its header, its where clauses, its outlives clauses, and the
    /// types that it says its trait's associated types to be.
    pub part: Option<usize>,
}

/// Why `finish` refused declarations.
#[derive(Clone, Copy, Debug, PartialEq, Eq)]
pub struct DeclError {
    /// The fault with the lowest number.
    pub fault: DeclFault,
    /// Whose content has it: the first definition that has it itself, else the first of what definitions and impls hold, else the first impl.
    /// `None` where it is of none of them: a node's that a declaration may use or not, a lang item's, a limit's, of a crate or a number that
    /// a call named, of several traits that are supertraits of one another, or a refused growth.
    pub place: Option<FaultPlace>,
}

impl From<AllocError> for DeclError {

    fn from(_: AllocError) -> Self {
        DeclError::without_place(DeclFault::Memory)
    }
}

impl<T: Drop> From<AllocFailed<T>> for DeclError {

    fn from(_: AllocFailed<T>) -> Self {
        DeclError::without_place(DeclFault::Memory)
    }
}

impl From<DeclError> for DeclFault {

    fn from(error: DeclError) -> Self {
        error.fault
    }
}

/// The fault, in words.
impl fmt::Display for DeclError {
    fn fmt(&self, f: &mut fmt::Formatter<'_>) -> fmt::Result {
        fmt::Display::fmt(&self.fault, f)
    }
}

impl DeclError {
    fn without_place(fault: DeclFault) -> Self
    {
        DeclError { fault, place: None }
    }
}

/// Whether the owners are the same.
fn is_same(owner: Owner, other: Owner) -> bool
{
    match owner {
        Owner::Definition(number) => match other {
            Owner::Definition(other) => number == other,
            Owner::Impl(_) => false,
        },
        Owner::Impl(number) => match other {
            Owner::Definition(_) => false,
            Owner::Impl(other) => number == other,
        },
    }
}

/// The definition or the impl itself.
fn place_itself(owner: Owner) -> FaultPlace
{
    FaultPlace { owner, part: None }
}

/// The number of the first thing that the owner holds, among all that is held.
fn first_of(held: &[Held], owner: Owner) -> Option<usize>
{
    held.iter().position(|held| is_same(held.owner, owner))
}

/// Where that is of which the number among all that is held is this.
fn place_of_part(held: &[Held], number: usize) -> Option<FaultPlace>
{
    let owner = at(held, number)?.owner;
    let first = first_of(held, owner)?;
    Some(FaultPlace {
        owner,
        part: Some(number.saturating_sub(first)),
    })
}

impl DeclsBuilder {
    /// Whether the definition has the fault by what it is said to be, or by a super clause.
    fn definition_has(&self, fault: DeclFault, definition: &Declaration) -> bool
    {
        match fault {
            DeclFault::UnknownId => {
                definition.krate().is_unknown(self.crates)
                    || definition.lacks_trait(self.definitions.as_slice())
            }
            DeclFault::WrongArity => {
                definition.has_wrong_arity() || unsizes_past(&self.contents, definition)
            }
            DeclFault::WrongKind => {
                has_wrong_super(&self.nodes, &self.contents, definition.kind())
            }
            DeclFault::NoTail => lacks_tail(&self.contents, definition.kind()),
            _ => false,
        }
    }

    fn misplaces(&self, what: Misplaced, held: Held) -> bool
    {
        let definitions = self.definitions.as_slice();
        let impls = self.contents.impls.as_slice();
        held_misplaces(&self.nodes, definitions, impls, what, held)
    }

    /// Whether what is held has the fault, where it is a node of its sort.
    fn node_has(&self, fault: DeclFault, held: Held) -> bool
    {
        match fault {
            DeclFault::WrongArity => self.misplaces(Misplaced::Past, held),
            DeclFault::WrongKind => {
                self.misplaces(Misplaced::Stray, held) || held_escapes(&self.nodes, held)
            }
            _ => false,
        }
    }

    /// Whether what is held has the fault.
    fn part_has(&self, fault: DeclFault, held: Held) -> bool
    {
        if is_not_given(&self.nodes, held) {
            return matches!(fault, DeclFault::UnknownId);
        }
        self.node_has(fault, held)
    }

    /// Whether the impl has the fault by what it is said to be, or by what it says that associated types are.
    fn impl_has(&self, fault: DeclFault, of: &Impl) -> bool
    {
        let definitions = self.definitions.as_slice();
        match fault {
            DeclFault::UnknownId => {
                impl_misnames(self.crates, definitions, self.contents.impls.len(), of)
            }
            DeclFault::WrongKind => has_wrong_value(definitions, of),
            _ => false,
        }
    }

    fn faulty_definition(&self, fault: DeclFault) -> Option<usize>
    {
        self.definitions
            .iter()
            .position(|definition| self.definition_has(fault, definition))
    }

    fn faulty_part(&self, fault: DeclFault, held: &[Held]) -> Option<usize>
    {
        held.iter().position(|held| self.part_has(fault, *held))
    }

    fn faulty_impl(&self, fault: DeclFault) -> Option<usize>
    {
        self.contents
            .impls
            .iter()
            .position(|of| self.impl_has(fault, of))
    }

    /// The number of the super clause that is at fault, if one is.
    fn definition_part(&self, fault: DeclFault, number: usize) -> Option<usize>
    {
        let definition = at(self.definitions.as_slice(), number)?;
        match fault {
            DeclFault::WrongKind => {
                first_no_super(&self.nodes, &self.contents, definition.kind())
            }
            _ => None,
        }
    }

    /// Whose content has the fault: the first definition's, else the first of what is held, else the first impl's.
    fn fault_place(&self, fault: DeclFault, held: &[Held]) -> Option<FaultPlace>
    {
        if let Some(number) = self.faulty_definition(fault) {
            return Some(FaultPlace {
                owner: Owner::Definition(number),
                part: self.definition_part(fault, number),
            });
        }
        if let Some(number) = self.faulty_part(fault, held) {
            return place_of_part(held, number);
        }
        let number = self.faulty_impl(fault)?;
        Some(place_itself(Owner::Impl(number)))
    }

    /// The first impl whose header's arguments aren't those that its trait takes.
    fn unfit_impl(&self) -> Option<FaultPlace>
    {
        let definitions = self.definitions.as_slice();
        let number = first_unfit(definitions, &self.nodes, self.contents.impls.as_slice())?;
        Some(place_itself(Owner::Impl(number)))
    }

    /// Whose content has the fault, where it is that of none in the order above.
    fn other_place(&self, fault: DeclFault) -> Option<FaultPlace>
    {
        match fault {
            DeclFault::WrongArity => self.unfit_impl(),
            _ => None,
        }
    }

    /// The error that the fault is.
    pub(crate) fn error(&self, fault: DeclFault, held: &[Held]) -> DeclError
    {
        if matches!(fault, DeclFault::Memory) {
            return DeclError::without_place(fault);
        }
        match self.fault_place(fault, held) {
            Some(place) => DeclError {
                fault,
                place: Some(place),
            },
            None => DeclError {
                fault,
                place: self.other_place(fault),
            },
        }
    }
}
