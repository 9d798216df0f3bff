//! Rows that declare.

use crate::context::words::refuse_unknown_declaring;
use crate::notation::answers::{Answer, Item};
use crate::notation::leaves::number_in;
use crate::notation::names::{named, Name, Sort, SORTS};
use crate::notation::parts::{make, Part};
use crate::notation::reader::{kinds, Reader};
use crate::notation::refusals::{Refusal, WordPlace};
use crate::notation::rows::Row;
use crate::notation::tables::value_of;
use crate::notation::values::Value;
use candidate_ir::decl::builder::{DeclFault, DeclsBuilder};
use candidate_ir::decl::contents::{
    AliasBoundKind, Destructor, ImplId, ImplPolarity, LangItem, Sizedness,
};
use candidate_ir::decl::definition::{
    AdtFlags, AdtShape, AliasShape, AssocKind, CrateId, FnFlags, TraitFlags,
};
use candidate_ir::decl::limits::Limits;
use candidate_ir::decl::make::Build;
use candidate_ir::ir::kinds::{
    AdtId, AliasId, AssocId, Binder, Clause, ClauseKind, GenericArg, PredicatePolarity, TraitId,
    TraitPredicate, TraitRef, Ty, TyKind, VarKind,
};
use kit::prelude::*;

/// The words of lang items.
const LANG_ITEMS: [(&str, LangItem); 16] = [
    ("sized", LangItem::Sized),
    ("meta_sized", LangItem::MetaSized),
    ("copy", LangItem::Copy),
    ("clone", LangItem::Clone),
    ("trivial_clone", LangItem::TrivialClone),
    ("fn", LangItem::Fn),
    ("fn_mut", LangItem::FnMut),
    ("fn_once", LangItem::FnOnce),
    ("fn_ptr_trait", LangItem::FnPtrTrait),
    ("tuple", LangItem::Tuple),
    ("pointee_trait", LangItem::PointeeTrait),
    ("discriminant_kind", LangItem::DiscriminantKind),
    ("destruct", LangItem::Destruct),
    ("drop", LangItem::Drop),
    (
        "bikeshed_guaranteed_no_drop",
        LangItem::BikeshedGuaranteedNoDrop,
    ),
    ("unsize", LangItem::Unsize),
];

/// The lang item of the word, if it is the word of one.
pub(crate) fn lang_item(word: &str) -> Option<LangItem> {
    value_of(&LANG_ITEMS, word)
}

/// Which types have to be sized, and in which sense: where nothing else is said, when the program is compiled.
pub fn sizedness(row: Row<'_>) -> Sizedness {
    if row.has("meta_sized") {
        Sizedness::MetaSized
    } else {
        Sizedness::Sized
    }
}

/// Does what the row says, and answers the number of what it declares.
pub fn declare<'a>(
    reader: &mut Reader<'a>,
    builder: &mut DeclsBuilder,
    row: Row<'a>,
) -> Result<Answer, Refusal> {
    refuse_unknown_declaring(row)?;
    let (first, second) = (reader.number(row.first), reader.number(row.second));
    let done = match row.verb {
        "let" => return reader.name_node(builder, row),
        "local" => {
            builder.set_local(CrateId(first));
            Ok(())
        }
        "limits" => {
            builder.set_limits(limits(row));
            Ok(())
        }
        "destructor" => {
            let destructor = if row.has("const") {
                Destructor::Const
            } else {
                Destructor::NotConst
            };
            builder.set_destructor(AdtId(first), destructor);
            Ok(())
        }
        "default" => {
            builder.set_default(ImplId(first));
            Ok(())
        }
        "lang" => {
            let item = lang_item(row.first).ok_or(Refusal::UnknownWord(WordPlace::Row(1)))?;
            builder.lang_item(item, TraitId(second));
            Ok(())
        }
        "unsizing" => builder.push_unsizing(AdtId(first), second),
        "specializes" => builder.specializes(ImplId(first), ImplId(second)),
        "chain" | "fan" => return declare_traits(builder, first, row.verb == "fan"),
        "field" | "constraint" | "super" | "where" | "bound" | "iwhere" | "super_outlives"
        | "value" => {
            return fill(reader, builder, row, first);
        }
        _ => return define(reader, builder, row, first),
    };
    match done {
        Ok(()) => Ok(Answer::One(Item::Done)),
        Err(fault) => Err(Refusal::from(fault)),
    }
}

/// The limits of the row's four words.
fn limits(row: Row<'_>) -> Limits {
    Limits {
        orphan_walk: limit(row.word(1)),
        alias_chain: limit(row.word(2)),
        const_depth: limit(row.word(3)),
        recursion: limit(row.word(4)),
    }
}

/// The number of the word, the greatest of a limit where it is greater or no number.
fn limit(word: &str) -> u16 {
    number_in(word).min(u32::from(u16::MAX)) as u16
}

/// Gives the definition or impl of the number the type or the clause.
fn fill<'a>(
    reader: &mut Reader<'a>,
    builder: &mut DeclsBuilder,
    row: Row<'a>,
    of: u32,
) -> Result<Answer, Refusal> {
    let number = reader.operand(builder, row.left)?.node();
    let (ty, clause) = (Ty(number), Clause(number));
    let (own, other) = (AliasBoundKind::SelfBounds, AliasBoundKind::NonSelfBounds);
    let done = match row.verb {
        "field" => builder.push_field(AdtId(of), ty),
        "constraint" => {
            builder.set_constraint(AdtId(of), sizedness(row), ty);
            Ok(())
        }
        "super" => builder.push_super(TraitId(of), clause),
        "where" => builder.push_where(TraitId(of), clause),
        "iwhere" => builder.push_impl_where(ImplId(of), clause),
        "super_outlives" => builder.push_super_outlives(ImplId(of), clause),
        "value" => {
            let assoc = AssocId(reader.number(row.second));
            builder.push_assoc_value(ImplId(of), assoc, ty)
        }
        _ if row.has("other") => builder.push_bound(AliasId(of), other, clause),
        _ => builder.push_bound(AliasId(of), own, clause),
    };
    match done {
        Ok(()) => Ok(Answer::One(Item::Done)),
        Err(fault) => Err(Refusal::from(fault)),
    }
}

/// Declares what the row says, and gives it its name; behind the name stand the kinds of its parameters. The number that the row
/// begins with is that of a crate, or that of the trait that an item is of.
fn define<'a>(
    reader: &mut Reader<'a>,
    builder: &mut DeclsBuilder,
    row: Row<'a>,
    of: u32,
) -> Result<Answer, Refusal> {
    let value = reader.operand(builder, row.left)?;
    let (word, letters) = row.second.split_once(':').unwrap_or((row.second, ""));
    reader.kinds = kinds(reader.alloc, letters)?;
    // Where there is no room for the name, nothing is declared yet, so that asking once more declares it once.
    reader.names.reserve(1)?;
    let (sort, parameters) = (value_of(&SORTS, row.verb), reader.kinds.as_slice());
    let arity = match named(reader.names.as_slice(), row.first) {
        Some(name) => name.arity,
        None => parameters.len(),
    };
    let number = match sort {
        Some(Sort::Trait) => {
            builder
                .add_trait(CrateId(of), parameters, trait_flags(row))?
                .0
        }
        Some(Sort::AssociatedType) => {
            let is_sized = row.has("sized");
            builder.add_assoc(TraitId(of), AssocKind::Type, is_sized)?.0
        }
        Some(Sort::AssociatedConst) => {
            let is_sized = row.has("sized");
            builder
                .add_assoc(TraitId(of), AssocKind::Const, is_sized)?
                .0
        }
        _ => define_other(builder, row, parameters, value)?,
    };
    let arity = match sort {
        Some(Sort::Trait) => arity.saturating_add(1),
        _ => arity,
    };
    if let Some(sort) = sort {
        reader.names.push(Name {
            word,
            sort,
            number,
            arity,
        })?;
    }
    Ok(Answer::One(Item::Count(number as usize)))
}

fn trait_flags(row: Row<'_>) -> TraitFlags {
    TraitFlags {
        auto: row.has("auto"),
        alias: row.has("alias"),
        unsafe_: row.has("unsafe"),
        fundamental: row.has("fundamental"),
        dyn_compatible: row.has("dyn_compatible"),
        default: row.has("default"),
        by_head: row.has("by_head"),
        marker: row.has("marker"),
    }
}

/// Declares a crate, or a data type of the crate that the row names.
fn define_adt(
    builder: &mut DeclsBuilder,
    row: Row<'_>,
    parameters: &[VarKind],
) -> Result<u32, DeclFault> {
    let flags = AdtFlags {
        fundamental: row.has("fundamental"),
        phantom_data: row.has("phantom_data"),
        manually_drop: row.has("manually_drop"),
        unsafe_fields: row.has("unsafe_fields"),
    };
    let shape = match (row.has("enum"), row.has("union")) {
        (true, _) => AdtShape::Enum,
        (_, true) => AdtShape::Union,
        _ => AdtShape::Struct,
    };
    let krate = CrateId(number_in(row.first));
    Ok(builder.add_adt(krate, shape, parameters, flags)?.0)
}

/// Declares a crate, or of the crate that the row names what is neither a trait nor an item: an opaque type with the type that it
/// hides, a function with its signature, an impl with its reference.
fn define_other(
    builder: &mut DeclsBuilder,
    row: Row<'_>,
    parameters: &[VarKind],
    value: Value,
) -> Result<u32, Refusal> {
    let krate = CrateId(number_in(row.first));
    Ok(match (row.verb, value) {
        ("crate", _) => builder.add_crate()?.0,
        ("adt", _) => define_adt(builder, row, parameters)?,
        ("foreign", _) => builder.add_foreign(krate)?.0,
        ("closure", _) => {
            let is_const = row.has("const");
            builder.add_closure(krate, parameters, is_const)?.0
        }
        ("inherent", _) => {
            let shape = AliasShape::Inherent;
            builder.add_alias(krate, shape, parameters)?.0
        }
        ("free", _) => {
            let shape = AliasShape::Free;
            builder.add_alias(krate, shape, parameters)?.0
        }
        ("opaque", Value::Node(hidden)) => {
            let hidden = Ty(hidden);
            builder.add_opaque(krate, parameters, hidden)?.0
        }
        ("fn", Value::Signature(sig)) => {
            let flags = FnFlags {
                is_const: row.has("const"),
                target_features: row.has("target_features"),
            };
            builder.add_fn(krate, parameters, flags, sig)?.0
        }
        ("impl", Value::Reference(reference)) => {
            let polarity = match (row.has("negative"), row.has("reservation")) {
                (true, _) => ImplPolarity::Negative,
                (_, true) => ImplPolarity::Reservation,
                _ => ImplPolarity::Positive,
            };
            let added = builder.add_impl(krate, parameters, reference, polarity)?;
            added.0
        }
        _ => return Err(Refusal::Condition),
    })
}

/// Declares traits with one parameter, with the numbers from 0 to the last one: each a direct supertrait of the one before, or in a
/// fan all of the first.
fn declare_traits(builder: &mut DeclsBuilder, last: u32, is_fan: bool) -> Result<Answer, Refusal> {
    for _ in 0..last.saturating_add(1) {
        builder.add_trait(CrateId(0), &[VarKind::Ty], TraitFlags::default())?;
    }
    let ty = builder.mk_ty(TyKind::Param(0))?;
    let list = [GenericArg::Ty(ty), GenericArg::Ty(ty)];
    let args = builder.mk_args(&list)?;
    let vars = builder.mk_vars(&[])?;
    for number in 0..last {
        let def_id = TraitId(number + 1);
        let predicate = TraitPredicate {
            trait_ref: TraitRef { def_id, args },
            polarity: PredicatePolarity::Positive,
        };
        let value = ClauseKind::Trait(predicate);
        let part = Part::Clause(Binder { vars, value });
        let clause = Clause(make(builder, &part)?);
        let of = if is_fan { 0 } else { number };
        builder.push_super(TraitId(of), clause)?;
    }
    Ok(Answer::One(Item::Done))
}
