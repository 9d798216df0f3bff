// Made of `crates/assembly_notation/src/reading.rt` by `bench/plain.py`: an edit of this file is lost.

//! What lines say of the declarations, as their words are read.
//!
//! The errors are the faults of the words, and `Fault::Stop` where a type can't be made.

use kit::{eprintln, format, prelude::*, print, println, vec};
use crate::faults::Fault;
use crate::making::Draft;
use crate::names::{NamedTrait, Names, Parameters};
use crate::notation::Binders;
use crate::types::{MAX_DEPTH, Scope};
use crate::words::{Words, number_in};
use ir_trees::decl::contents::{AliasBoundKind, ImplId, ImplPolarity, LangItem, Sizedness};
use ir_trees::decl::definition::{AdtFlags, AdtShape, CrateId, TraitFlags};
use ir_trees::ir::kinds::{AdtId, AliasId, AssocId, Clause, TraitId, TraitRef, Ty};

/// How many crates there are.
pub const CRATES: u16 = 256;

/// What has a crate and a name of its own.
#[derive(Clone, Copy, Debug)]
pub enum DefinitionKind {
    Adt,
    Foreign,
    Trait,
    Opaque,
    Impl,
}

/// What is said of something that was declared.
#[derive(Clone, Copy, Debug)]
pub enum ContentKind {
    Field,
    Constraint(Sizedness),
    Clause(ClausePlace),
    Value,
    Plain(PlainKind),
}

/// What is said without a type.
#[derive(Clone, Copy, Debug)]
pub enum PlainKind {
    Local,
    Unsizing,
    Default,
    Specializes,
    Lang,
}

/// Where a clause is put.
#[derive(Clone, Copy, Debug)]
pub enum ClausePlace {
    Super,
    Where,
    Bound(AliasBoundKind),
    ImplWhere,
}

/// Something new, with its name.
#[derive(Clone, Copy, Debug)]
pub struct New<'a> {
    pub name: &'a str,
    /// The parameters of its own.
    pub parameters: Parameters,
    pub definition: Definition,
}

/// What something new is.
#[derive(Clone, Copy, Debug)]
pub enum Definition {
    Adt(CrateId, AdtShape, AdtFlags),
    Foreign(CrateId),
    Trait(CrateId, TraitFlags),
    /// An associated type of the trait, and whether it is one for sized types alone.
    Assoc(NamedTrait, bool),
    /// With the type that it hides.
    Opaque(CrateId, Ty),
    Impl(CrateId, ImplPolarity, TraitRef),
}

/// What a line says of something that was declared.
#[derive(Clone, Copy, Debug)]
pub enum Content {
    Local(CrateId),
    Field(AdtId, Ty),
    Constraint(AdtId, Sizedness, Ty),
    Unsizing(AdtId, u32),
    Clause(Owner, Clause),
    /// The impl says that the associated type is this type.
    Value(ImplId, AssocId, Ty),
    Default(ImplId),
    Specializes(ImplId, ImplId),
    Lang(LangItem, TraitId),
}

/// To what a clause is given.
#[derive(Clone, Copy, Debug)]
pub enum Owner {
    Super(TraitId),
    Where(TraitId),
    Bound(AliasBoundKind, AliasId),
    Impl(ImplId),
}

const POLARITIES: [(&str, ImplPolarity); 3] = [
    ("+", ImplPolarity::Positive),
    ("-", ImplPolarity::Negative),
    ("reservation", ImplPolarity::Reservation),
];

const LANG_ITEMS: [(&str, LangItem); 16] = [
    ("Sized", LangItem::Sized),
    ("MetaSized", LangItem::MetaSized),
    ("Copy", LangItem::Copy),
    ("Clone", LangItem::Clone),
    ("TrivialClone", LangItem::TrivialClone),
    ("Fn", LangItem::Fn),
    ("FnMut", LangItem::FnMut),
    ("FnOnce", LangItem::FnOnce),
    ("FnPtrTrait", LangItem::FnPtrTrait),
    ("Tuple", LangItem::Tuple),
    ("PointeeTrait", LangItem::PointeeTrait),
    ("DiscriminantKind", LangItem::DiscriminantKind),
    ("Destruct", LangItem::Destruct),
    ("Drop", LangItem::Drop),
    (
        "BikeshedGuaranteedNoDrop",
        LangItem::BikeshedGuaranteedNoDrop,
    ),
    ("Unsize", LangItem::Unsize),
];

impl<'a> Scope<'a, Draft> {
    /// Something new in a crate.
    pub fn read_definition(
        &mut self,
        kind: DefinitionKind,
        words: &mut Words<'a>,
    ) -> Result<New<'a>, Fault<'a>> {
        let krate = crate_id(words)?;
        let name = self.names.unused(words.word()?)?;
        let parameters = match kind {
            DefinitionKind::Foreign => Parameters::types(0),
            _ => parameters(words)?,
        };
        let definition = self.read_rest(kind, krate, words)?;
        Ok(New {
            name,
            parameters,
            definition,
        })
    }

    /// What follows the crate, the name and the parameters.
    fn read_rest(
        &mut self,
        kind: DefinitionKind,
        krate: CrateId,
        words: &mut Words<'a>,
    ) -> Result<Definition, Fault<'a>> {
        Ok(match kind {
            DefinitionKind::Adt => {
                let (shape, flags) = adt_flags(words)?;
                Definition::Adt(krate, shape, flags)
            }
            DefinitionKind::Foreign => Definition::Foreign(krate),
            DefinitionKind::Trait => Definition::Trait(krate, trait_flags(words)?),
            DefinitionKind::Opaque => Definition::Opaque(
                krate,
                self.read_type(words, Binders::none(), MAX_DEPTH)?,
            ),
            DefinitionKind::Impl => {
                let polarity = words.flag(&POLARITIES)?;
                Definition::Impl(krate, polarity, self.read_trait_ref(words)?)
            }
        })
    }

    /// What is said of something that was declared.
    pub fn read_content(
        &mut self,
        kind: ContentKind,
        words: &mut Words<'a>,
    ) -> Result<Content, Fault<'a>> {
        match kind {
            ContentKind::Field => {
                let adt = self.names.next_named(words)?;
                Ok(Content::Field(adt, self.read_type(words, Binders::none(), MAX_DEPTH)?))
            }
            ContentKind::Constraint(sizedness) => {
                let adt = self.names.next_named(words)?;
                let ty = self.read_type(words, Binders::none(), MAX_DEPTH)?;
                Ok(Content::Constraint(adt, sizedness, ty))
            }
            ContentKind::Clause(place) => {
                let owner = clause_owner(&self.names, place, words)?;
                Ok(Content::Clause(owner, self.read_clause(words)?))
            }
            ContentKind::Value => {
                let of = self.names.next_named(words)?;
                let assoc = self.names.next_named(words)?;
                Ok(Content::Value(
                    of,
                    assoc,
                    self.read_type(words, Binders::none(), MAX_DEPTH)?,
                ))
            }
            ContentKind::Plain(kind) => plain_content(&self.names, kind, words),
        }
    }
}

/// What is said without a type.
fn plain_content<'a>(
    names: &Names<'a>,
    kind: PlainKind,
    words: &mut Words<'a>,
) -> Result<Content, Fault<'a>> {
    Ok(match kind {
        PlainKind::Local => Content::Local(crate_id(words)?),
        PlainKind::Unsizing => {
            let adt = names.next_named(words)?;
            Content::Unsizing(adt, u32::from(words.number(0, u16::MAX)?))
        }
        PlainKind::Default => Content::Default(names.next_named(words)?),
        PlainKind::Specializes => {
            let of = names.next_named(words)?;
            Content::Specializes(of, names.next_named(words)?)
        }
        PlainKind::Lang => {
            let item = words.flag(&LANG_ITEMS)?;
            Content::Lang(item, names.next_named(words)?)
        }
    })
}

/// The trait that gets a supertrait. `Fault::SuperOfAlias` comes of a trait alias: what that asks for are its `where` clauses alone.
fn super_owner<'a>(names: &Names<'a>, words: &mut Words<'a>) -> Result<TraitId, Fault<'a>> {
    let of: NamedTrait = names.next_named(words)?;
    if of.is_alias {
        return Err(Fault::SuperOfAlias);
    }
    Ok(of.id)
}

/// What the line gives a clause to.
fn clause_owner<'a>(
    names: &Names<'a>,
    place: ClausePlace,
    words: &mut Words<'a>,
) -> Result<Owner, Fault<'a>> {
    Ok(match place {
        ClausePlace::Super => Owner::Super(super_owner(names, words)?),
        ClausePlace::Where => Owner::Where(names.next_named(words)?),
        ClausePlace::Bound(kind) => Owner::Bound(kind, names.next_named(words)?),
        ClausePlace::ImplWhere => Owner::Impl(names.next_named(words)?),
    })
}

/// A new associated type.
pub fn read_assoc<'a>(names: &Names<'a>, words: &mut Words<'a>) -> Result<New<'a>, Fault<'a>> {
    let of = names.next_named(words)?;
    let name = names.unused(words.word()?)?;
    let requires_sized_self = assoc_flag(words)?;
    Ok(New {
        name,
        parameters: Parameters::types(0),
        definition: Definition::Assoc(of, requires_sized_self),
    })
}

/// The next word, which says what parameters there are: how many types, or a letter for each.
fn parameters<'a>(words: &mut Words<'a>) -> Result<Parameters, Fault<'a>> {
    let word = words.word()?;
    match Parameters::of_letters(word) {
        Some(parameters) => Ok(parameters),
        None => Ok(Parameters::types(number_in(word, word, u64::from(u16::MAX))? as u16)),
    }
}

fn crate_id<'a>(words: &mut Words<'a>) -> Result<CrateId, Fault<'a>> {
    Ok(CrateId(u32::from(words.number(0, CRATES - 1)?)))
}

fn adt_flags<'a>(words: &mut Words<'a>) -> Result<(AdtShape, AdtFlags), Fault<'a>> {
    let mut shape = AdtShape::Struct;
    let mut flags = AdtFlags::default();
    for _ in 0..u64::MAX {
        let Some(word) = words.next_word() else {
            break;
        };
        match word {
            "fundamental" => flags.fundamental = true,
            "phantom" => flags.phantom_data = true,
            "manually_drop" => flags.manually_drop = true,
            "unsafe_fields" => flags.unsafe_fields = true,
            "enum" => shape = AdtShape::Enum,
            "union" => shape = AdtShape::Union,
            _ => return Err(Fault::BadFlag(word)),
        }
    }
    Ok((shape, flags))
}

/// Whether the flag `sized_self` stands in the words.
fn assoc_flag<'a>(words: &mut Words<'a>) -> Result<bool, Fault<'a>> {
    let mut requires_sized_self = false;
    for _ in 0..u64::MAX {
        let Some(word) = words.next_word() else {
            break;
        };
        match word {
            "sized_self" => requires_sized_self = true,
            _ => return Err(Fault::BadFlag(word)),
        }
    }
    Ok(requires_sized_self)
}

fn trait_flags<'a>(words: &mut Words<'a>) -> Result<TraitFlags, Fault<'a>> {
    let mut flags = TraitFlags::default();
    for _ in 0..u64::MAX {
        let Some(word) = words.next_word() else {
            break;
        };
        match word {
            "auto" => flags.auto = true,
            "alias" => flags.alias = true,
            "unsafe" => flags.unsafe_ = true,
            "fundamental" => flags.fundamental = true,
            "dyn" => flags.dyn_compatible = true,
            "default" => flags.default = true,
            "by_head" => flags.by_head = true,
            "marker" => flags.marker = true,
            _ => return Err(Fault::BadFlag(word)),
        }
    }
    Ok(flags)
}
