// Made of `crates/assembly_notation/src/numbering.rt` by `bench/plain.py`: an edit of this file is lost.

//! The regions that binders bind: those that occur, in the order of their first occurrence.

use kit::{eprintln, format, prelude::*, print, println, vec};
use crate::notation::{Binders, MAX_BOUND};
use ir_trees::ir::kinds::{BoundVar, RegionKind};
use kit::alloc::{AllocError, Global};

/// The regions of a binder that occurred so far, in the order of their first occurrence.
#[derive(Clone, Copy, Debug)]
struct Occurred {
    regions: [u32; MAX_BOUND as usize],
    count: u16,
}

impl Occurred {
    /// None of them.
    fn none() -> Occurred {
        Occurred {
            regions: [0; MAX_BOUND as usize],
            count: 0,
        }
    }

    /// How many others occurred before the region first did, which is noted where it does now. It is none where a binder binds no more regions.
    fn number(&mut self, region: u32) -> Option<u32> {
        for place in 0..self.count {
            if self.regions.get(usize::from(place)) == Some(&region) {
                return Some(u32::from(place));
            }
        }
        let number = self.count;
        self.count = number.checked_add(1)?;
        *self.regions.get_mut(usize::from(number))? = region;
        Some(u32::from(number))
    }
}

/// Which numbers regions have in the binders around what is read.
#[derive(Debug)]
pub struct Numbering {
    /// What occurred of each binder, the innermost last.
    occurred: Vec<Occurred>,
}

impl Numbering {
    /// Under no binder.
    pub fn new(alloc: Global) -> Numbering {
        Numbering {
            occurred: Vec::new(alloc),
        }
    }

    /// One more binder stands around what is read from now on. The error comes where a growth was refused.
    pub fn enter(&mut self) -> Result<(), AllocError> {
        self.occurred.push(Occurred::none())?;
        Ok(())
    }

    /// How many regions the innermost binder binds, whose words end here: those that occurred, or as many as were written where words are passed over.
    pub fn leave(&mut self, binders: Binders) -> u16 {
        let occurred = self.occurred.pop();
        if binders.is_passed() {
            return binders.innermost();
        }
        match occurred {
            Some(occurred) => occurred.count,
            None => 0,
        }
    }

    /// The region as it is made, where it occurs as that. Where words are passed over, it is the same.
    pub fn number(&mut self, kind: RegionKind, binders: Binders) -> RegionKind {
        match kind {
            RegionKind::Bound(variable) if !binders.is_passed() => {
                RegionKind::Bound(self.numbered(variable).unwrap_or(variable))
            }
            _ => kind,
        }
    }

    /// The variable with the number that it has among those of its binder, if it stands around.
    fn numbered(&mut self, variable: BoundVar) -> Option<BoundVar> {
        let inner = usize::try_from(variable.depth).ok()?;
        let place = self.occurred.len().checked_sub(inner)?.checked_sub(1)?;
        let index = self.occurred.get_mut(place)?.number(variable.index)?;
        Some(BoundVar { index, ..variable })
    }
}
