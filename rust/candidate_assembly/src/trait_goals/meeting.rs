// Made of `crates/candidate_assembly/src/trait_goals/meeting.rt` by `bench/plain.py`: an edit of this file is lost.

//! Clauses that a trait without parameters holds of a type.


use kit::{eprintln, format, prelude::*, print, println, vec};
use ir_context::decl::Cx;
use ir_context::decl::make::{Build, Make};
use ir_trees::decl::contents::LangItem;
use ir_trees::ir::kinds::{
    Binder, Clause, ClauseKind, GenericArg, PredicatePolarity, TraitId, TraitPredicate, TraitRef,
    Ty,
};
use ir_trees::ir::stop::Stop;

/// The trait that is the lang item has no parameters.
pub fn recall_item_has_no_parameters(cx: &Cx, item: LangItem)
{
    let _ = item;
    cx.recall_well_formed_table();
}

/// That a trait without parameters holds of the type, as a clause under an empty binder. `Stop::Memory` comes where a growth was refused,
/// `Stop::NodesFull` where a node was not made.
pub(crate) fn meets_trait<M: Make>(make: &mut M, trait_id: TraitId, ty: Ty) -> Result<Clause, Stop>
{
    let args = make.mk_args(&[GenericArg::Ty(ty)])?;
    let vars = make.mk_vars(&[])?;
    make.mk_clause(Binder {
        vars,
        value: ClauseKind::Trait(TraitPredicate {
            trait_ref: TraitRef {
                def_id: trait_id,
                args,
            },
            polarity: PredicatePolarity::Positive,
        }),
    })
}
