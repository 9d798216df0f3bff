// Made of `crates/assembly_notation/src/names.rt` by `bench/plain.py`: an edit of this file is lost.

//! The names that were declared.


use kit::{eprintln, format, prelude::*, print, println, vec};
use crate::faults::Fault;
use crate::notation::fixed_head;
use crate::words::{Words, is_word};
use ir_trees::decl::contents::ImplId;
use ir_trees::decl::definition::CrateId;
use ir_trees::ir::kinds::{AdtId, AliasId, AssocId, ForeignId, TraitId, VarKind};
use kit::alloc::{AllocError, Global};
use kit::collections::BTreeMap;

/// The greatest length of a name, and of each that a path joins.
const MAX_NAME_LENGTH: usize = 64;

/// In how many trees names are kept.
const TREES: u64 = 1021;

/// The parameters of a definition. All are types, but for the first 32, which may be constants and regions, too.
#[derive(Clone, Copy, Debug)]
pub struct Parameters {
    /// How many there are.
    pub count: u16,
    /// A bit for each that is a constant: the lowest bit for the first one.
    constants: u32,
    /// A bit for each that is a region, in the same order.
    regions: u32,
}

impl Parameters {
    /// So many types.
    pub fn types(count: u16) -> Parameters {
        Parameters {
            count,
            constants: 0,
            regions: 0,
        }
    }

    /// A parameter for each letter of the word: `t` for a type, `c` for a constant, `r` for a region. It is none where the word has
    /// other letters, or more than 32.
    pub fn of_letters(word: &str) -> Option<Parameters> {
        let mut parameters = Parameters::types(u16::try_from(word.len()).ok()?);
        let mut bit: u32 = 1;
        for letter in word.bytes() {
            if bit == 0 {
                return None;
            }
            match letter {
                b't' => {}
                b'c' => parameters.constants |= bit,
                b'r' => parameters.regions |= bit,
                _ => return None,
            }
            bit = bit.wrapping_shl(1);
        }
        Some(parameters)
    }

    /// The kind of the one at that place, counted from 0.
    pub fn kind(self, place: u32) -> VarKind {
        if is_set(self.constants, place) {
            VarKind::Const
        } else if is_set(self.regions, place) {
            VarKind::Region
        } else {
            VarKind::Ty
        }
    }

    /// Whether all are types.
    pub fn are_types(self) -> bool {
        self.constants == 0 && self.regions == 0
    }
}

/// Whether the bit at that place is set, counted from the lowest one, which is 0.
fn is_set(bits: u32, place: u32) -> bool {
    match bits.checked_shr(place) {
        Some(bits) => bits & 1 == 1,
        None => false,
    }
}

/// A trait that was declared.
#[derive(Clone, Copy, Debug)]
pub struct NamedTrait {
    pub id: TraitId,
    /// What it takes after `Self`.
    pub parameters: Parameters,
    pub is_auto: bool,
    pub is_alias: bool,
}

/// What a name stands for.
#[derive(Clone, Copy, Debug)]
pub enum Item {
    /// A data type, with what it takes.
    Adt(AdtId, Parameters),
    Foreign(ForeignId),
    Trait(NamedTrait),
    /// An associated type, with what it takes after `Self`.
    Assoc(AssocId, Parameters),
    /// An opaque type, with what it takes.
    Opaque(AliasId, Parameters),
    Impl(ImplId),
}

/// A kind of what names stand for.
pub trait Named: Sized {
    /// The item, if it is of this kind.
    fn of(item: Item) -> Option<Self>;
}

impl Named for NamedTrait {
    fn of(item: Item) -> Option<Self> {
        match item {
            Item::Trait(found) => Some(found),
            _ => None,
        }
    }
}

impl Named for TraitId {
    fn of(item: Item) -> Option<Self> {
        match item {
            Item::Trait(found) => Some(found.id),
            _ => None,
        }
    }
}

impl Named for AdtId {
    fn of(item: Item) -> Option<Self> {
        match item {
            Item::Adt(id, _) => Some(id),
            _ => None,
        }
    }
}

impl Named for ImplId {
    fn of(item: Item) -> Option<Self> {
        match item {
            Item::Impl(id) => Some(id),
            _ => None,
        }
    }
}

impl Named for AssocId {
    fn of(item: Item) -> Option<Self> {
        match item {
            Item::Assoc(id, _) => Some(id),
            _ => None,
        }
    }
}

/// An associated type or opaque type.
impl Named for AliasId {
    fn of(item: Item) -> Option<Self> {
        match item {
            Item::Assoc(id, _) => Some(AliasId(id.0)),
            Item::Opaque(id, _) => Some(id),
            _ => None,
        }
    }
}

/// Where a name is declared.
#[derive(Clone, Copy, Debug)]
pub enum Origin {
    /// In the prelude.
    Prelude,
    /// In the text's line of that number.
    Line(u64),
}

/// What an impl is called in the text, and where it is declared.
#[derive(Clone, Copy, Debug)]
pub struct NamedImpl<'a> {
    pub name: &'a str,
    pub origin: Origin,
}

/// What a name stands for, and where it is declared.
#[derive(Clone, Copy, Debug)]
struct Entry {
    item: Item,
    origin: Origin,
}

/// Some of the names. They are told apart by their numbers, and by all of their letters where several have one number.
#[derive(Debug)]
struct NameTree<'a> {
    /// The first name of each number.
    first: BTreeMap<u64, (&'a str, Entry)>,
    others: BTreeMap<&'a str, Entry>,
}

impl<'a> NameTree<'a> {
    fn new(alloc: Global) -> Self {
        NameTree {
            first: BTreeMap::new(alloc),
            others: BTreeMap::new(alloc),
        }
    }

    /// What the word is the name of, which has that number.
    fn get(&self, number: u64, word: &str) -> Option<Entry> {
        match self.first.get(&number) {
            Some((name, entry)) if *name == word => Some(*entry),
            Some(_) => self.others.get(word).copied(),
            None => None,
        }
    }

    /// Lets the name of that number, which isn't there, stand for that.
    fn add(&mut self, number: u64, name: &'a str, entry: Entry) -> Result<(), AllocError> {
        if self.first.get(&number).is_some() {
            self.others.insert(name, entry)?;
        } else {
            self.first.insert(number, (name, entry))?;
        }
        Ok(())
    }
}

/// The names declared so far, which are words of the text.
#[derive(Debug)]
pub struct Names<'a> {
    /// What was declared, each in the tree that the number of its name picks. Most trees have few names, and one that many
    /// names pick is still an ordered one.
    trees: Vec<NameTree<'a>>,
    /// The names of the definitions, by their numbers. Impls are none.
    definitions: Vec<&'a str>,
    /// The impls, by their numbers.
    pub impls: Vec<NamedImpl<'a>>,
    /// The crate that is said to be the local one.
    pub local_crate: CrateId,
}

impl<'a> Names<'a> {
    /// No names.
    pub fn new(alloc: Global) -> Result<Self, AllocError> {
        let mut trees = Vec::new(alloc);
        for _ in 0..TREES {
            trees.push(NameTree::new(alloc))?;
        }
        Ok(Names {
            trees,
            definitions: Vec::new(alloc),
            impls: Vec::new(alloc),
            local_crate: CrateId(0),
        })
    }

    /// The word, if it can be the name of something new.
    ///
    /// `Fault::BadName` comes if it can't be a name, `Fault::NameTwice` if it is taken.
    pub fn unused<'b>(&self, word: &'b str) -> Result<&'b str, Fault<'b>>
    {
        if !is_path(word) {
            return Err(Fault::BadName(word));
        }
        if self.item(word).is_ok() {
            return Err(Fault::NameTwice(word));
        }
        Ok(word)
    }

    /// What the word is the name of, else `Fault::UnknownName`.
    pub fn item<'b>(&self, word: &'b str) -> Result<Item, Fault<'b>>
    {
        let Some(entry) = self.entry(word) else {
            return Err(Fault::UnknownName(word));
        };
        Ok(entry.item)
    }

    /// Where the word is declared as a name.
    pub fn origin(&self, word: &str) -> Option<Origin> {
        Some(self.entry(word)?.origin)
    }

    fn entry(&self, word: &str) -> Option<Entry> {
        let number = number_of(word);
        self.trees.get((number % TREES) as usize)?.get(number, word)
    }

    /// What of that kind the word is the name of, else `Fault::UnknownName`.
    pub fn named<'b, T: Named>(&self, word: &'b str) -> Result<T, Fault<'b>>
    {
        match T::of(self.item(word)?) {
            Some(found) => Ok(found),
            None => Err(Fault::UnknownName(word)),
        }
    }

    /// What of that kind the next word is the name of. Its errors are `Fault::ShortLine` and `Fault::UnknownName`.
    pub fn next_named<'b, T: Named>(&self, words: &mut Words<'b>) -> Result<T, Fault<'b>>
    {
        self.named(words.word()?)
    }

    /// Lets the name stand for the item, which is declared there. It is the name of the next impl or of the next other definition. The
    /// error comes where a growth was refused.
    pub fn add(&mut self, name: &'a str, item: Item, origin: Origin) -> Result<(), AllocError> {
        if matches!(item, Item::Impl(_)) {
            self.impls.push(NamedImpl { name, origin })?;
        } else {
            self.definitions.push(name)?;
        }
        let number = number_of(name);
        if let Some(tree) = self.trees.get_mut((number % TREES) as usize) {
            tree.add(number, name, Entry { item, origin })?;
        }
        Ok(())
    }

    /// The names of all definitions but impls, in the order of their declarations.
    pub fn definitions(&self) -> &[&'a str] {
        self.definitions.as_slice()
    }

    /// What the impl is called, and where it is declared.
    pub fn named_impl(&self, of: ImplId) -> Option<NamedImpl<'a>>
    {
        self.impls.get(of.0 as usize).copied()
    }

    /// The name of the definition of that number, which is one word.
    pub fn definition(&self, number: u32) -> Option<&'a str>
    {
        let name = self.definitions.get(number as usize).copied()?;
        if is_word(name) { Some(name) } else { None }
    }
}

/// The last eight bytes of a name as a number, which tells most names apart.
fn number_of(name: &str) -> u64 {
    if let Some(last) = name.as_bytes().last_chunk::<8>() {
        return u64::from_be_bytes(*last);
    }
    let mut number = 0;
    for byte in name.bytes() {
        number = number << 8 | u64::from(byte);
    }
    number
}

/// Whether the word is a name, or several that `::` joins, and no type.
fn is_path(word: &str) -> bool {
    for part in word.split("::") {
        if !is_name(part) {
            return false;
        }
    }
    fixed_head(word).is_none()
}

/// Whether the word is a letter and then letters, digits and `_`, not too long.
fn is_name(word: &str) -> bool {
    for byte in word.bytes() {
        if !byte.is_ascii_alphanumeric() && byte != b'_' {
            return false;
        }
    }
    let Some(first) = word.as_bytes().first() else {
        return false;
    };
    first.is_ascii_alphabetic() && word.len() <= MAX_NAME_LENGTH
}
