//! What contexts say of definitions.

use crate::context::declaring::{lang_item, sizedness};
use crate::notation::answers::{Answer, Item, Items};
use crate::notation::refusals::Refusal;
use crate::notation::rows::Row;
use crate::notation::tables::value_of;
use candidate_ir::decl::contents::{AssocValue, Destructor, Impl, ImplId, ImplPolarity};
use candidate_ir::decl::context::Cx;
use candidate_ir::decl::definition::{AdtShape, AssocKind};
use candidate_ir::ir::kinds::{
    AdtId, AliasId, AliasTy, AssocId, Clause, ClosureId, FnId, Goal, GoalSource, TraitId, TraitRef,
    Ty, VarKind,
};
use kit::alloc::Global;
use kit::prelude::*;

/// What stands in a list that is answered.
pub trait Member: Copy {
    fn item(self) -> Item;
}

impl Member for Ty {
    fn item(self) -> Item {
        Item::Node(self.0)
    }
}

impl Member for Clause {
    fn item(self) -> Item {
        Item::Node(self.0)
    }
}

impl Member for ImplId {
    fn item(self) -> Item {
        Item::Impl(self)
    }
}

impl Member for TraitId {
    fn item(self) -> Item {
        Item::Definition(self.0)
    }
}

impl Member for AssocId {
    fn item(self) -> Item {
        Item::Definition(self.0)
    }
}

impl Member for VarKind {
    fn item(self) -> Item {
        match self {
            VarKind::Ty => Item::Word("type"),
            VarKind::Const => Item::Word("constant"),
            VarKind::Region => Item::Word("region"),
        }
    }
}

impl Member for AliasTy {
    fn item(self) -> Item {
        Item::Definition(self.id.0)
    }
}

/// The clause of a goal.
impl Member for (GoalSource, Goal<Clause>) {
    fn item(self) -> Item {
        Item::Node(self.1.predicate.0)
    }
}

impl Member for TraitRef {
    fn item(self) -> Item {
        Item::Reference(self)
    }
}

/// The type that the associated type is.
impl Member for AssocValue {
    fn item(self) -> Item {
        Item::Node(self.ty.0)
    }
}

impl Member for u32 {
    fn item(self) -> Item {
        Item::Count(self as usize)
    }
}

/// The list as it is answered.
pub fn listed<M: Member>(alloc: Global, list: &[M]) -> Result<Answer, Refusal> {
    let mut items = Items::new(alloc);
    for member in list {
        items.push(member.item());
    }
    items.list()
}

/// The list that a call answers, if it does.
pub fn listed_answer<M: Member, E>(
    alloc: Global,
    outcome: Result<Vec<M>, E>,
) -> Result<Answer, Refusal>
where
    Refusal: From<E>,
{
    listed(alloc, outcome?.as_slice())
}

/// The list of the impl that the verb asks for; what is no impl has none.
fn impl_list(alloc: Global, verb: &str, of: Option<&Impl>) -> Result<Answer, Refusal> {
    let Some(of) = of else {
        return Ok(Answer::List(Vec::new(alloc)));
    };
    match verb {
        "impl_wheres" => listed(alloc, of.wheres.as_slice()),
        "impl_super_outlives" => listed(alloc, of.super_outlives.as_slice()),
        "impl_values" => listed(alloc, of.values.as_slice()),
        _ => listed(alloc, of.specializes.as_slice()),
    }
}

/// The kinds of the impl's parameters.
fn impl_parameters(alloc: Global, cx: &Cx, of: ImplId) -> Result<Answer, Refusal> {
    listed_answer(alloc, cx.impl_parameters(alloc, of))
}

/// The four limits.
fn limits(alloc: Global, cx: &Cx) -> Result<Answer, Refusal> {
    let limits = cx.limits();
    listed(
        alloc,
        &[
            u32::from(limits.orphan_walk),
            u32::from(limits.alias_chain),
            u32::from(limits.const_depth),
            u32::from(limits.recursion),
        ],
    )
}

/// The list that something holds that was declared, if the verb asks for one.
pub(crate) fn held(alloc: Global, cx: &Cx, verb: &str, of: u32) -> Option<Result<Answer, Refusal>> {
    match verb {
        "limits" => Some(limits(alloc, cx)),
        "supers" => Some(listed(alloc, cx.super_clauses(TraitId(of)))),
        "wheres" => Some(listed(alloc, cx.trait_where_clauses(TraitId(of)))),
        "bounds" => Some(listed(alloc, cx.self_bounds(AliasId(of)))),
        "other_bounds" => Some(listed(alloc, cx.non_self_bounds(AliasId(of)))),
        "impls_of" => Some(listed(alloc, cx.impls_of(TraitId(of)))),
        "fields" => Some(listed(alloc, cx.fields(AdtId(of)))),
        "items" => Some(listed(alloc, cx.associated_items(TraitId(of)))),
        "unsizing" => Some(listed(alloc, cx.unsizing_parameters(AdtId(of)))),
        "impl_parameters" => Some(impl_parameters(alloc, cx, ImplId(of))),
        "impl_wheres" | "impl_super_outlives" | "impl_values" | "specialized" => {
            Some(impl_list(alloc, verb, cx.impl_contents(ImplId(of))))
        }
        _ => None,
    }
}

/// Whether the definition has the flag of the word, if it is of the sort that the verb asks about.
fn flag(cx: &Cx, row: Row<'_>, of: u32) -> Option<bool> {
    let word = row.second;
    match row.verb {
        "adt_flag" => {
            let flags = cx.adt_flags(AdtId(of))?;
            let list = [
                ("fundamental", flags.fundamental),
                ("phantom_data", flags.phantom_data),
                ("manually_drop", flags.manually_drop),
                ("unsafe_fields", flags.unsafe_fields),
            ];
            value_of(&list, word)
        }
        "trait_flag" => {
            let flags = cx.trait_flags(TraitId(of))?;
            let list = [
                ("auto", flags.auto),
                ("alias", flags.alias),
                ("unsafe", flags.unsafe_),
                ("fundamental", flags.fundamental),
                ("dyn_compatible", flags.dyn_compatible),
                ("default", flags.default),
                ("by_head", flags.by_head),
                ("marker", flags.marker),
            ];
            value_of(&list, word)
        }
        "fn_flag" => {
            let flags = cx.fn_flags(FnId(of))?;
            let list = [
                ("const", flags.is_const),
                ("target_features", flags.target_features),
            ];
            value_of(&list, word)
        }
        _ => None,
    }
}

/// The word of what a definition or impl is, if the verb asks for one.
fn word_of(cx: &Cx, verb: &str, of: u32) -> Option<&'static str> {
    match verb {
        "destructor" => match cx.destructor(AdtId(of))? {
            Destructor::Const => Some("const"),
            Destructor::NotConst => Some("not_const"),
        },
        "shape" => match cx.adt_shape(AdtId(of))? {
            AdtShape::Struct => Some("struct"),
            AdtShape::Enum => Some("enum"),
            AdtShape::Union => Some("union"),
        },
        "item_kind" => match cx.assoc_kind(AssocId(of))? {
            AssocKind::Type => Some("type"),
            AssocKind::Const => Some("const"),
        },
        "polarity" => match cx.impl_contents(ImplId(of))?.polarity {
            ImplPolarity::Positive => Some("positive"),
            ImplPolarity::Negative => Some("negative"),
            ImplPolarity::Reservation => Some("reservation"),
        },
        _ => None,
    }
}

/// Whether it holds of the definition or impl, if the verb asks that.
fn truth_of(cx: &Cx, row: Row<'_>, of: u32) -> Option<bool> {
    match row.verb {
        "needs_sized" => Some(cx.requires_sized_self(AssocId(of))),
        "is_default" => Some(cx.impl_contents(ImplId(of))?.is_default),
        "is_const_closure" => Some(cx.closure_is_const(ClosureId(of))),
        "is_local" => Some(cx.is_local(of)),
        "is_fundamental" => Some(cx.is_fundamental(of)),
        _ => flag(cx, row, of),
    }
}

/// What is said of the definition or impl, if there is something that the verb asks for.
pub(crate) fn said_of(cx: &Cx, row: Row<'_>, of: u32) -> Option<Item> {
    let item = match row.verb {
        "constraint" => Item::Node(cx.sizedness_constraint(AdtId(of), sizedness(row))?.0),
        "hidden" => Item::Node(cx.hidden_type(AliasId(of))?.0),
        "item_trait" => Item::Definition(cx.assoc_trait(AssocId(of))?.0),
        "impl_ref" => Item::Reference(cx.impl_contents(ImplId(of))?.trait_ref),
        "lang_item" => Item::Definition(cx.lang_item(lang_item(row.first)?)?.0),
        verb => match word_of(cx, verb, of) {
            Some(word) => Item::Word(word),
            None => Item::Truth(truth_of(cx, row, of)?),
        },
    };
    Some(item)
}
