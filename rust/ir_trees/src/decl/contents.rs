// Made of `crates/ir_trees/src/decl/contents.rt` by `bench/plain.py`: an edit of this file is lost.

//! What definitions hold besides their parameters and flags, and the impls.


use kit::{eprintln, format, prelude::*, print, println, vec};
use crate::decl::definition::{AssocKind, CrateId, Declaration, DefinitionKind, Parameters};
use crate::ir::at::at;
use crate::ir::kinds::{AdtId, AliasId, AssocId, Clause, TraitId, TraitRef, Ty};
use kit::alloc::Global;
use kit::marker::Model;

/// An impl of a trait, numbered from 0 in the order in which impls are added.
#[derive(Clone, Copy, Debug, PartialEq, Eq)]
pub struct ImplId(pub u32);

/// The two traits that say whether a type's size is known.
#[derive(Clone, Copy, Debug)]
pub enum Sizedness {
    /// When the program is compiled.
    Sized,
    /// From a pointer's metadata at the latest.
    MetaSized,
}

/// How a type is dropped that has a destructor of its own.
#[derive(Clone, Copy, Debug)]
pub enum Destructor {
    /// Only where the program runs.
    NotConst,
    /// Where a constant is computed, too.
    Const,
}

/// Which bounds of an alias a bound is among.
#[derive(Clone, Copy, Debug, PartialEq, Eq)]
pub enum AliasBoundKind {
    /// Those of the alias itself.
    SelfBounds,
    /// Those of the alias that this one is a projection of.
    NonSelfBounds,
}

/// What an impl says of its trait.
#[derive(Clone, Copy, Debug)]
pub enum ImplPolarity {
    /// The trait holds.
    Positive,
    /// The trait doesn't hold, for good.
    Negative,
    /// Whether it holds is left open.
    Reservation,
}

/// A trait that the language itself knows.
#[derive(Clone, Copy, Debug)]
pub enum LangItem {
    Sized,
    MetaSized,
    Copy,
    Clone,
    TrivialClone,
    Fn,
    FnMut,
    FnOnce,
    FnPtrTrait,
    Tuple,
    PointeeTrait,
    DiscriminantKind,
    Destruct,
    Drop,
    BikeshedGuaranteedNoDrop,
    Unsize,
}

impl LangItem {
    /// All of them, in their order.
    pub const ALL: [LangItem; 16] = [
        LangItem::Sized,
        LangItem::MetaSized,
        LangItem::Copy,
        LangItem::Clone,
        LangItem::TrivialClone,
        LangItem::Fn,
        LangItem::FnMut,
        LangItem::FnOnce,
        LangItem::FnPtrTrait,
        LangItem::Tuple,
        LangItem::PointeeTrait,
        LangItem::DiscriminantKind,
        LangItem::Destruct,
        LangItem::Drop,
        LangItem::BikeshedGuaranteedNoDrop,
        LangItem::Unsize,
    ];

    /// Whether its trait has one parameter after `Self`, a type; those of the others have none.
    pub fn takes_a_type(self) -> bool
    {
        matches!(
            self,
            LangItem::Fn | LangItem::FnMut | LangItem::FnOnce | LangItem::Unsize
        )
    }

    /// The place of the item in the list of those that are declared, from 0 on.
    pub fn number(self) -> usize
    {
        self as usize
    }
}

/// What an algebraic data type holds.
#[derive(Debug)]
pub struct AdtContents {
    pub fields: Vec<Ty>,
    /// The types that have to be sized for it to be.
    pub sized: Option<Ty>,
    pub meta_sized: Option<Ty>,
    pub destructor: Option<Destructor>,
    /// The parameters that change where it is unsized, by their numbers.
    pub unsizing: Vec<u32>,
}

impl Model for AdtContents {


}

/// What a trait holds.
#[derive(Debug)]
pub struct TraitContents {
    pub supers: Vec<Clause>,
    pub wheres: Vec<Clause>,
    pub items: Vec<AssocId>,
    pub impls: Vec<ImplId>,
}

impl Model for TraitContents {


}

/// The bounds of an associated type or of an opaque type.
#[derive(Debug)]
pub struct Bounds {
    pub self_bounds: Vec<Clause>,
    pub non_self_bounds: Vec<Clause>,
}

impl Model for Bounds {


}

/// What an impl says that an associated type is.
#[derive(Clone, Copy, Debug)]
pub struct AssocValue {
    pub assoc: AssocId,
    pub ty: Ty,
}

/// An impl as it was declared.
#[derive(Debug)]
pub struct Impl {
    pub krate: CrateId,
    pub parameters: Parameters,
    pub trait_ref: TraitRef,
    pub polarity: ImplPolarity,
    pub is_default: bool,
    pub wheres: Vec<Clause>,
    pub super_outlives: Vec<Clause>,
    /// The impls that it specialises.
    pub specializes: Vec<ImplId>,
    /// What the associated types of its trait are.
    pub values: Vec<AssocValue>,
}

impl Model for Impl {


}

/// The contents of all definitions, each sort by itself, and the impls.
#[derive(Debug)]
pub struct Contents {
    pub adts: Vec<AdtContents>,
    pub traits: Vec<TraitContents>,
    pub bounds: Vec<Bounds>,
    pub impls: Vec<Impl>,
    /// The trait that is each lang item.
    pub lang_items: [Option<TraitId>; 16],
    /// Whether a call has named what was never given.
    pub misnamed: bool,
}

impl AdtContents {
    /// No field, no constraint and no destructor.
    pub fn new(alloc: Global) -> Self
    {
        AdtContents {
            fields: Vec::new(alloc),
            sized: None,
            meta_sized: None,
            destructor: None,
            unsizing: Vec::new(alloc),
        }
    }
}

impl TraitContents {
    /// No clause, no item and no impl.
    pub fn new(alloc: Global) -> Self
    {
        TraitContents {
            supers: Vec::new(alloc),
            wheres: Vec::new(alloc),
            items: Vec::new(alloc),
            impls: Vec::new(alloc),
        }
    }
}

impl Bounds {
    /// No bound, on the alias itself or on others.
    pub fn new(alloc: Global) -> Self
    {
        Bounds {
            self_bounds: Vec::new(alloc),
            non_self_bounds: Vec::new(alloc),
        }
    }
}

impl Impl {
    /// An impl of that header of which nothing else is said: it has no where clause and no value, and specialises none.
    pub fn new(
        alloc: Global,
        krate: CrateId,
        parameters: Parameters,
        trait_ref: TraitRef,
        polarity: ImplPolarity,
    ) -> Self
    {
        Impl {
            krate,
            parameters,
            trait_ref,
            polarity,
            is_default: false,
            wheres: Vec::new(alloc),
            super_outlives: Vec::new(alloc),
            specializes: Vec::new(alloc),
            values: Vec::new(alloc),
        }
    }

    /// What it says that the associated type is, if it says so.
    pub fn value(&self, assoc: AssocId) -> Option<Ty>
    {
        let value = self.values.iter().find(|value| value.assoc == assoc)?;
        Some(value.ty)
    }
}

impl Contents {
    /// What declarations hold before the first: nothing.
    pub fn new(alloc: Global) -> Self
    {
        Contents {
            adts: Vec::new(alloc),
            traits: Vec::new(alloc),
            bounds: Vec::new(alloc),
            impls: Vec::new(alloc),
            lang_items: [None; 16],
            misnamed: false,
        }
    }
}

/// The place of what has no contents of the sort asked for; no list is so long.
const NO_PLACE: usize = usize::MAX;

/// Where the contents of the algebraic data type stand.
pub fn adt_place(definitions: &[Declaration], adt: AdtId) -> usize
{
    match at(definitions, adt.0 as usize) {
        Some(definition) => match definition.kind {
            DefinitionKind::Adt(_, _, place) => place as usize,
            _ => NO_PLACE,
        },
        None => NO_PLACE,
    }
}

/// Where the contents of the trait stand.
pub fn trait_place(definitions: &[Declaration], of: TraitId) -> usize
{
    match at(definitions, of.0 as usize) {
        Some(definition) => match definition.kind {
            DefinitionKind::Trait(_, place) => place as usize,
            _ => NO_PLACE,
        },
        None => NO_PLACE,
    }
}

/// Where the bounds of the associated type or of the opaque type stand.
pub fn bounds_place(definitions: &[Declaration], alias: AliasId) -> usize
{
    match at(definitions, alias.0 as usize) {
        Some(definition) => match definition.kind {
            DefinitionKind::Assoc(_, AssocKind::Type, _, place) => place as usize,
            DefinitionKind::Opaque(_, place) => place as usize,
            _ => NO_PLACE,
        },
        None => NO_PLACE,
    }
}
