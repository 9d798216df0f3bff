// Made of `crates/overlaps/src/instance.rt` by `bench/plain.py`: an edit of this file is lost.

//! What is an instance of the headers of two impls.


use kit::{eprintln, format, prelude::*, print, println, vec};
use crate::opening::Opened;
use candidate_eval::eval::context::EvalCtxt;
use candidate_rounds::rounds::Rounds;
use ir_trees::ir::kinds::TraitRef;
use ir_trees::ir::stop::Stop;
use kit::alloc::Global;
use kit::fmt;

/// A reference that is an instance of the headers of two impls, as far as is known.
#[derive(Clone, Copy, PartialEq, Eq)]
pub struct CommonInstance {
    /// The header of the impl of the lower number, with all values of the headers' equation put in. Its variables have the numbers from 0
    /// on, in the order in which they first occur. Where an alias stands in one of the headers, and aliases aren't open, it is that
    /// header as it is.
    pub trait_ref: TraitRef,
    /// Whether both impls are known to hold of it: no alias stands in the headers, their equation leaks no region, and each where clause
    /// of both is answered by a Yes that gives no variable a value, save those of what outlives what, which are assumed. It isn't certain
    /// where a region leaks in what such a Yes rests on, where a clause is of a projection, or its trait may lead to an auto trait with an impl for some types of a head alone.
    pub is_certain: bool,
    /// Whether the headers' equation leaks a region that a binder of them binds. It isn't certain then.
    pub leaks: bool,
}

/// The trait, the number of the arguments' list, and whether it is certain.
impl fmt::Debug for CommonInstance {
    fn fmt(&self, f: &mut fmt::Formatter<'_>) -> fmt::Result {
        let TraitRef { def_id, args } = self.trait_ref;
        write!(f, "{def_id:?} of {}, certain: {}", args.0, self.is_certain)
    }
}

/// The reference of an open impl's header at what is known.
pub(crate) fn common_instance(
    alloc: Global,
    rounds: &mut Rounds,
    first: &Opened,
    is_certain: bool,
) -> Result<CommonInstance, Stop>
{
    let args = rounds.resolve_args_if_possible(first.header)?;
    let args = rounds.canonical_args(alloc, args)?;
    let trait_ref = TraitRef {
        def_id: first.def_id,
        args,
    };
    Ok(CommonInstance {
        trait_ref,
        is_certain,
        leaks: false,
    })
}
