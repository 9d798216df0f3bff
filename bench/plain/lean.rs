//! What the program `assembly` does, as lean as plain Rust has it: numbers in place of references, one
//! arena whose end each query uses anew, a map with a quick hash, and names that are slices of the text. It
//! prints the same answers and the same bad lines, and is there to be measured beside the program. Of the
//! lines for what definitions hold it knows `impl`, `super` and `field`, and no type of functions and arrays.
//! It ends by itself where memory is refused, and a text can pick names that share a hash.

use std::collections::HashMap;
use std::fmt::Write as _;
use std::hash::{BuildHasherDefault, Hasher};
use std::io::{self, BufWriter, Read, Write};
use std::process::ExitCode;

const CRATES: u16 = 10;
const DEEPEST: u16 = 1024;
const WALK_DEPTH: u16 = 256;
const LONGEST_NAME: usize = 64;

/// Words that are whole types; the last one is the error type.
const WORDS: [&str; 21] = [
    "bool", "char", "str", "i8", "i16", "i32", "i64", "i128", "isize", "u8", "u16", "u32", "u64", "u128",
    "usize", "f16", "f32", "f64", "f128", "!", "error",
];

const POINTERS: [&str; 5] = ["&", "&mut", "*const", "*mut", "[]"];

#[derive(Default)]
struct QuickHasher(u64);

impl QuickHasher {
    fn add(&mut self, number: u64) {
        self.0 = (self.0.rotate_left(5) ^ number).wrapping_mul(0x517c_c1b7_2722_0a95);
    }
}

impl Hasher for QuickHasher {
    fn write(&mut self, bytes: &[u8]) {
        let (chunks, rest) = bytes.as_chunks::<8>();
        for chunk in chunks {
            self.add(u64::from_le_bytes(*chunk));
        }
        let mut last = [0; 8];
        last[..rest.len()].copy_from_slice(rest);
        self.add(u64::from_le_bytes(last));
    }

    fn write_u8(&mut self, byte: u8) {
        self.add(u64::from(byte));
    }

    fn finish(&self) -> u64 {
        self.0
    }
}

type Map<'a> = HashMap<&'a str, Meaning, BuildHasherDefault<QuickHasher>>;

/// What a word stands for.
#[derive(Clone, Copy)]
enum Meaning {
    Word(u8),
    Pointer(u8),
    Definition(u32),
    Impl,
}

#[derive(Clone, Copy, PartialEq)]
enum Sort {
    Adt,
    Foreign,
    Trait,
    AutoTrait,
    Assoc,
}

struct Definition<'a> {
    name: &'a str,
    arity: u16,
    krate: u8,
    sort: Sort,
    is_fundamental: bool,
    /// The fields of a data type and the super clauses of a trait, by their first nodes.
    held: Vec<u32>,
    /// The impls of a trait.
    impls: Vec<u32>,
}

impl<'a> Definition<'a> {
    /// A definition that isn't fundamental and holds nothing.
    fn new(name: &'a str, arity: u16, krate: u8, sort: Sort) -> Self {
        Definition { name, arity, krate, sort, is_fundamental: false, held: Vec::new(), impls: Vec::new() }
    }

    fn is_trait(&self) -> bool {
        matches!(self.sort, Sort::Trait | Sort::AutoTrait)
    }
}

#[derive(Clone, Copy)]
enum Polarity {
    Positive,
    Negative,
    Reservation,
}

/// An impl, whose arguments stand from the first node to the other. It is read and kept.
#[allow(dead_code)]
struct Impl {
    krate: u8,
    polarity: Polarity,
    arity: u16,
    of: u32,
    first: u32,
    end: u32,
}

/// In what the types of a line stand.
#[derive(Clone, Copy)]
enum Place {
    /// A declaration with so many parameters, among them `Self`.
    Declaration(u32),
    Query,
}

#[derive(Clone, Copy, PartialEq)]
enum Visit {
    Unseen,
    Open,
    Done,
}

#[derive(Clone, Copy, PartialEq)]
enum Kind {
    Word,
    Error,
    Infer,
    Placeholder,
    Parameter,
    Ref,
    Pointer,
    Tuple,
    Adt,
    Foreign,
    Alias,
    Dyn,
    Bound,
    PrincipalBound,
    TraitClause,
    ProjectionClause,
}

/// A type, a bound or a clause. Its children stand behind it, one behind the other, up to `end`.
#[derive(Clone, Copy)]
struct Node {
    kind: Kind,
    value: u32,
    end: u32,
}

enum Fault<'a> {
    Plain(&'static str),
    Named(&'static str, &'a str),
    Stop(u8),
}

const SHORT_LINE: Fault<'static> = Fault::Plain("short line");
const WALK_DEPTH_STOP: u8 = 2;
const NODES_FULL: u8 = 6;

enum Halt<'a> {
    Line(Fault<'a>),
    Device(io::Error),
}

impl<'a> From<Fault<'a>> for Halt<'a> {
    fn from(fault: Fault<'a>) -> Self {
        Halt::Line(fault)
    }
}

impl From<io::Error> for Halt<'_> {
    fn from(error: io::Error) -> Self {
        Halt::Device(error)
    }
}

#[derive(Clone, Copy, PartialEq)]
enum InCrate {
    Proper,
    Compat,
    Remote,
}

enum Exit {
    Local(u32),
    Uncovered(u32),
    Stop(u8),
}

struct Walk {
    in_crate: InCrate,
    seeks_local: bool,
    is_first: bool,
}

enum Answer {
    Passes,
    NonLocal,
    Uncovered(u32, Option<u32>),
}

struct Words<'a> {
    rest: &'a str,
}

impl<'a> Words<'a> {
    fn next(&mut self) -> Option<&'a str> {
        let bytes = self.rest.as_bytes();
        let start = bytes.iter().position(|byte| *byte != b' ')?;
        let length = bytes[start..].iter().position(|byte| *byte == b' ').unwrap_or(bytes.len() - start);
        let word = &self.rest[start..start + length];
        self.rest = &self.rest[start + length..];
        Some(word)
    }

    fn word(&mut self) -> Result<&'a str, Fault<'a>> {
        self.next().ok_or(SHORT_LINE)
    }

    fn number(&mut self, most: u16) -> Result<u16, Fault<'a>> {
        let word = self.word()?;
        number_in(word, word, most)
    }

    fn end(&mut self) -> Result<(), Fault<'a>> {
        match self.next() {
            Some(_) => Err(Fault::Plain("long line")),
            None => Ok(()),
        }
    }
}

fn is_digits(text: &str) -> bool {
    !text.is_empty() && text.bytes().all(|byte| byte.is_ascii_digit())
}

fn number_in<'a>(word: &'a str, digits: &str, most: u16) -> Result<u16, Fault<'a>> {
    if is_digits(digits) {
        if let Ok(number) = digits.parse() {
            if number <= most {
                return Ok(number);
            }
        }
    }
    Err(Fault::Named("bad number ", word))
}

fn marked_number<'a>(word: &'a str, digits: &str, most: u16) -> Result<u16, Fault<'a>> {
    if is_digits(digits) {
        number_in(word, digits, most)
    } else {
        Err(Fault::Named("unknown name ", word))
    }
}

fn bracketed_number<'a>(word: &'a str, rest: &str) -> Result<u16, Fault<'a>> {
    match rest.strip_suffix(')') {
        Some(digits) => marked_number(word, digits, u16::MAX),
        None => Err(Fault::Named("unknown name ", word)),
    }
}

struct Program<'a> {
    local: u8,
    has_wrong_arity: bool,
    /// Whether a placeholder stands in what is held, or a super clause isn't about `Self`.
    has_stray: bool,
    has_asked: bool,
    place: Place,
    meanings: Map<'a>,
    definitions: Vec<Definition<'a>>,
    impls: Vec<Impl>,
    nodes: Vec<Node>,
    /// How many nodes the declarations have.
    declared: usize,
    non_local: Vec<(u32, bool)>,
    answer: String,
}

impl<'a> Program<'a> {
    fn new() -> Self {
        let mut meanings = Map::default();
        for (number, word) in (0..).zip(WORDS) {
            meanings.insert(word, Meaning::Word(number));
        }
        for (number, word) in (0..).zip(POINTERS) {
            meanings.insert(word, Meaning::Pointer(number));
        }
        Program {
            local: 0,
            has_wrong_arity: false,
            has_stray: false,
            has_asked: false,
            place: Place::Query,
            meanings,
            definitions: Vec::new(),
            impls: Vec::new(),
            nodes: Vec::new(),
            declared: 0,
            non_local: Vec::new(),
            answer: String::new(),
        }
    }

    fn definition(&self, word: &'a str) -> Result<u32, Fault<'a>> {
        match self.meanings.get(word) {
            Some(Meaning::Definition(number)) => Ok(*number),
            _ => Err(Fault::Named("unknown name ", word)),
        }
    }

    fn trait_named(&self, word: &'a str) -> Result<u32, Fault<'a>> {
        let number = self.definition(word)?;
        match self.definitions[number as usize].sort {
            Sort::Trait | Sort::AutoTrait => Ok(number),
            _ => Err(Fault::Named("unknown name ", word)),
        }
    }

    fn unused(&self, word: &'a str) -> Result<&'a str, Fault<'a>> {
        let bytes = word.as_bytes();
        if bytes.len() > LONGEST_NAME
            || !bytes[0].is_ascii_alphabetic()
            || !bytes.iter().all(|byte| byte.is_ascii_alphanumeric() || *byte == b'_')
        {
            return Err(Fault::Named("bad name ", word));
        }
        match self.meanings.get(word) {
            Some(Meaning::Definition(_) | Meaning::Impl) => Err(Fault::Named("name twice ", word)),
            Some(_) => Err(Fault::Named("bad name ", word)),
            None => Ok(word),
        }
    }

    fn declare(&mut self, command: &str, words: &mut Words<'a>) -> Result<(), Fault<'a>> {
        let made = match command {
            "local" => {
                let local = words.number(CRATES - 1)? as u8;
                words.end()?;
                self.local = local;
                return Ok(());
            }
            "impl" => return self.impl_line(words),
            "super" => return self.super_line(words),
            "field" => return self.field(words),
            "assoc" => self.assoc(words)?,
            _ => self.of_crate(command, words)?,
        };
        self.meanings.insert(made.name, Meaning::Definition(self.definitions.len() as u32));
        self.definitions.push(made);
        Ok(())
    }

    fn assoc(&mut self, words: &mut Words<'a>) -> Result<Definition<'a>, Fault<'a>> {
        let of = &self.definitions[self.trait_named(words.word()?)? as usize];
        let name = self.unused(words.word()?)?;
        while let Some(flag) = words.next() {
            if flag != "sized_self" {
                return Err(Fault::Named("bad flag ", flag));
            }
        }
        Ok(Definition::new(name, of.arity, of.krate, Sort::Assoc))
    }

    fn impl_line(&mut self, words: &mut Words<'a>) -> Result<(), Fault<'a>> {
        let krate = words.number(CRATES - 1)? as u8;
        let name = self.unused(words.word()?)?;
        let arity = words.number(u16::MAX)?;
        let polarity = match words.word()? {
            "+" => Polarity::Positive,
            "-" => Polarity::Negative,
            "reservation" => Polarity::Reservation,
            word => return Err(Fault::Named("bad flag ", word)),
        };
        let of = self.trait_named(words.word()?)?;
        let types = u32::from(self.definitions[of as usize].arity) + 1;
        let first = self.nodes.len() as u32;
        self.place = Place::Declaration(u32::from(arity));
        self.read_types(words, types, DEEPEST)?;
        words.end()?;
        self.meanings.insert(name, Meaning::Impl);
        self.definitions[of as usize].impls.push(self.impls.len() as u32);
        let end = self.nodes.len() as u32;
        self.impls.push(Impl { krate, polarity, arity, of, first, end });
        Ok(())
    }

    fn super_line(&mut self, words: &mut Words<'a>) -> Result<(), Fault<'a>> {
        let of = self.trait_named(words.word()?)?;
        self.place = Place::Declaration(u32::from(self.definitions[of as usize].arity) + 1);
        let clause = self.read_clause(words)?;
        words.end()?;
        let subject = self.nodes[clause + 1];
        self.has_stray |= subject.kind != Kind::Parameter || subject.value != 0;
        self.definitions[of as usize].held.push(clause as u32);
        Ok(())
    }

    fn field(&mut self, words: &mut Words<'a>) -> Result<(), Fault<'a>> {
        let word = words.word()?;
        let of = self.definition(word)? as usize;
        if self.definitions[of].sort != Sort::Adt {
            return Err(Fault::Named("unknown name ", word));
        }
        self.place = Place::Declaration(u32::from(self.definitions[of].arity));
        let ty = self.nodes.len() as u32;
        self.read_type(words, DEEPEST)?;
        words.end()?;
        self.definitions[of].held.push(ty);
        Ok(())
    }

    /// The number of the clause's node, behind which its types stand.
    fn read_clause(&mut self, words: &mut Words<'a>) -> Result<usize, Fault<'a>> {
        let word = words.word()?;
        let number = self.definition(word)?;
        let found = &self.definitions[number as usize];
        let (kind, types) = match found.sort {
            Sort::Trait | Sort::AutoTrait => (Kind::TraitClause, u32::from(found.arity) + 1),
            Sort::Assoc => (Kind::ProjectionClause, u32::from(found.arity) + 2),
            Sort::Adt | Sort::Foreign => return Err(Fault::Named("unknown name ", word)),
        };
        let at = self.add(kind, number);
        self.read_types(words, types, DEEPEST)?;
        self.nodes[at].end = self.nodes.len() as u32;
        Ok(at)
    }

    /// Whether a trait is its own supertrait.
    fn has_supertrait_cycle(&self) -> bool {
        let mut visits = vec![Visit::Unseen; self.definitions.len()];
        let mut stack = Vec::new();
        for number in 0..self.definitions.len() {
            if visits[number] != Visit::Unseen || !self.definitions[number].is_trait() {
                continue;
            }
            visits[number] = Visit::Open;
            stack.push((number, 0));
            while let Some((number, looked)) = stack.pop() {
                let Some(clause) = self.definitions[number].held.get(looked) else {
                    visits[number] = Visit::Done;
                    continue;
                };
                stack.push((number, looked + 1));
                let clause = self.nodes[*clause as usize];
                if clause.kind != Kind::TraitClause {
                    continue;
                }
                let of = clause.value as usize;
                match visits[of] {
                    Visit::Open => return true,
                    Visit::Done => {}
                    Visit::Unseen => {
                        visits[of] = Visit::Open;
                        stack.push((of, 0));
                    }
                }
            }
        }
        false
    }

    /// Ends the declarations, if they haven't ended yet.
    fn finish(&mut self) -> Result<(), Fault<'a>> {
        if self.has_asked {
            return Ok(());
        }
        if self.has_wrong_arity {
            return Err(Fault::Plain("declaration fault 2"));
        }
        if self.has_stray {
            return Err(Fault::Plain("declaration fault 3"));
        }
        if self.has_supertrait_cycle() {
            return Err(Fault::Plain("declaration fault 4"));
        }
        self.has_asked = true;
        self.place = Place::Query;
        self.declared = self.nodes.len();
        Ok(())
    }

    fn of_crate(&mut self, command: &str, words: &mut Words<'a>) -> Result<Definition<'a>, Fault<'a>> {
        let krate = words.number(CRATES - 1)? as u8;
        let name = self.unused(words.word()?)?;
        let mut made = Definition::new(name, 0, krate, Sort::Foreign);
        match command {
            "adt" => {
                made.sort = Sort::Adt;
                made.arity = words.number(u16::MAX)?;
                self.adt_flags(&mut made, words)?;
            }
            "trait" => {
                made.sort = Sort::Trait;
                made.arity = words.number(u16::MAX)?;
                self.trait_flags(&mut made, words)?;
            }
            _ => words.end()?,
        }
        Ok(made)
    }

    fn adt_flags(&mut self, made: &mut Definition<'a>, words: &mut Words<'a>) -> Result<(), Fault<'a>> {
        let mut is_phantom = false;
        while let Some(flag) = words.next() {
            match flag {
                "fundamental" => made.is_fundamental = true,
                "phantom" => is_phantom = true,
                "manually_drop" | "unsafe_fields" | "enum" | "union" => {}
                _ => return Err(Fault::Named("bad flag ", flag)),
            }
        }
        self.has_wrong_arity |= is_phantom && made.arity == 0;
        Ok(())
    }

    fn trait_flags(&mut self, made: &mut Definition<'a>, words: &mut Words<'a>) -> Result<(), Fault<'a>> {
        while let Some(flag) = words.next() {
            match flag {
                "fundamental" => made.is_fundamental = true,
                "auto" => made.sort = Sort::AutoTrait,
                "alias" | "unsafe" | "dyn" | "default" => {}
                _ => return Err(Fault::Named("bad flag ", flag)),
            }
        }
        self.has_wrong_arity |= made.sort == Sort::AutoTrait && made.arity > 0;
        Ok(())
    }

    fn add(&mut self, kind: Kind, value: u32) -> usize {
        let at = self.nodes.len();
        self.nodes.push(Node { kind, value, end: at as u32 + 1 });
        at
    }

    fn read_type(&mut self, words: &mut Words<'a>, depth: u16) -> Result<(), Fault<'a>> {
        let word = words.word()?;
        if depth == 0 {
            return Err(Fault::Stop(NODES_FULL));
        }
        let (at, count) = self.head(word)?;
        if self.nodes[at].kind == Kind::Dyn {
            self.read_bounds(words, count, depth - 1)?;
        } else {
            self.read_types(words, count, depth - 1)?;
        }
        self.nodes[at].end = self.nodes.len() as u32;
        Ok(())
    }

    fn read_types(&mut self, words: &mut Words<'a>, count: u32, depth: u16) -> Result<(), Fault<'a>> {
        for _ in 0..count {
            self.read_type(words, depth)?;
        }
        Ok(())
    }

    /// Adds what the first word of a type says; so many types or bounds follow.
    fn head(&mut self, word: &'a str) -> Result<(usize, u32), Fault<'a>> {
        match self.meanings.get(word) {
            Some(Meaning::Word(number)) => {
                let kind = if *number as usize == WORDS.len() - 1 { Kind::Error } else { Kind::Word };
                Ok((self.add(kind, u32::from(*number)), 0))
            }
            Some(Meaning::Pointer(number)) => {
                let kind = if *number < 2 { Kind::Ref } else { Kind::Pointer };
                Ok((self.add(kind, u32::from(*number)), 1))
            }
            Some(Meaning::Impl) => Err(Fault::Named("unknown name ", word)),
            Some(Meaning::Definition(number)) => {
                let number = *number;
                let found = &self.definitions[number as usize];
                let count = u32::from(found.arity);
                match found.sort {
                    Sort::Adt => Ok((self.add(Kind::Adt, number), count)),
                    Sort::Foreign => Ok((self.add(Kind::Foreign, number), 0)),
                    Sort::Assoc => Ok((self.add(Kind::Alias, number), count + 1)),
                    Sort::Trait | Sort::AutoTrait => Err(Fault::Named("unknown name ", word)),
                }
            }
            None => self.numbered_head(word),
        }
    }

    fn numbered_head(&mut self, word: &'a str) -> Result<(usize, u32), Fault<'a>> {
        match word.as_bytes()[0] {
            b'$' => {
                let number = marked_number(word, &word[1..], 255)?;
                match self.place {
                    Place::Declaration(_) => Err(Fault::Plain("variable")),
                    Place::Query => Ok((self.add(Kind::Infer, u32::from(number)), 0)),
                }
            }
            b'!' => {
                let number = marked_number(word, &word[1..], u16::MAX)?;
                self.has_stray = true;
                Ok((self.add(Kind::Placeholder, u32::from(number)), 0))
            }
            b'#' => {
                let number = u32::from(marked_number(word, &word[1..], u16::MAX)?);
                let Place::Declaration(count) = self.place else {
                    return Err(Fault::Plain("parameter"));
                };
                self.has_wrong_arity |= number >= count;
                Ok((self.add(Kind::Parameter, number), 0))
            }
            b'(' => {
                let count = u32::from(bracketed_number(word, &word[1..])?);
                Ok((self.add(Kind::Tuple, count), count))
            }
            _ => match word.strip_prefix("dyn(") {
                Some(rest) => {
                    let count = u32::from(bracketed_number(word, rest)?);
                    Ok((self.add(Kind::Dyn, count), count))
                }
                None => Err(Fault::Named("unknown name ", word)),
            },
        }
    }

    fn read_bounds(&mut self, words: &mut Words<'a>, count: u32, depth: u16) -> Result<(), Fault<'a>> {
        let mut has_principal = false;
        for _ in 0..count {
            let word = words.word()?;
            let number = self.definition(word)?;
            let found = &self.definitions[number as usize];
            let (kind, types) = match found.sort {
                Sort::AutoTrait => (Kind::Bound, 0),
                Sort::Trait if has_principal => return Err(Fault::Plain("two principals")),
                Sort::Trait => (Kind::PrincipalBound, u32::from(found.arity)),
                Sort::Assoc => (Kind::Bound, u32::from(found.arity) + 1),
                Sort::Adt | Sort::Foreign => return Err(Fault::Named("unknown name ", word)),
            };
            has_principal |= kind == Kind::PrincipalBound;
            let at = self.add(kind, number);
            self.read_types(words, types, depth)?;
            self.nodes[at].end = self.nodes.len() as u32;
        }
        Ok(())
    }

    fn is_local(&self, in_crate: InCrate, number: u32) -> bool {
        in_crate != InCrate::Remote && self.definitions[number as usize].krate == self.local
    }

    fn visit(&mut self, walk: &mut Walk, at: u32, levels: u16) -> Result<(), Exit> {
        if levels == 0 {
            return Err(Exit::Stop(WALK_DEPTH_STOP));
        }
        let node = self.nodes[at as usize];
        let outcome = match node.kind {
            Kind::Ref => self.visit(walk, at + 1, levels - 1),
            Kind::Adt if self.is_local(walk.in_crate, node.value) => Err(Exit::Local(at)),
            Kind::Adt if self.definitions[node.value as usize].is_fundamental => {
                self.visit_all(walk, at + 1, node.end, levels - 1)
            }
            Kind::Foreign if self.is_local(walk.in_crate, node.value) => Err(Exit::Local(at)),
            Kind::Dyn if self.has_local_principal(walk.in_crate, at) => Err(Exit::Local(at)),
            Kind::Alias if self.has_loose(at) => match walk.in_crate {
                InCrate::Compat => Ok(()),
                _ => self.loose(walk, at),
            },
            Kind::Infer | Kind::Placeholder => self.loose(walk, at),
            Kind::Error => Err(Exit::Local(at)),
            _ => {
                self.non_local.push((at, walk.is_first));
                Ok(())
            }
        };
        walk.is_first = false;
        outcome
    }

    fn visit_all(&mut self, walk: &mut Walk, from: u32, to: u32, levels: u16) -> Result<(), Exit> {
        let mut at = from;
        while at < to {
            self.visit(walk, at, levels)?;
            at = self.nodes[at as usize].end;
        }
        Ok(())
    }

    fn has_loose(&self, at: u32) -> bool {
        let end = self.nodes[at as usize].end;
        let below = &self.nodes[at as usize..end as usize];
        below.iter().any(|node| matches!(node.kind, Kind::Infer | Kind::Placeholder))
    }

    fn has_local_principal(&self, in_crate: InCrate, at: u32) -> bool {
        let end = self.nodes[at as usize].end;
        let mut at = at + 1;
        while at < end {
            let bound = self.nodes[at as usize];
            if bound.kind == Kind::PrincipalBound {
                return self.is_local(in_crate, bound.value);
            }
            at = bound.end;
        }
        false
    }

    fn loose(&self, walk: &Walk, at: u32) -> Result<(), Exit> {
        match walk.in_crate {
            InCrate::Remote => Err(Exit::Local(at)),
            _ if walk.seeks_local => Ok(()),
            _ => Err(Exit::Uncovered(at)),
        }
    }

    fn walk(&mut self, in_crate: InCrate, seeks_local: bool) -> Result<(), Exit> {
        self.non_local.clear();
        let mut walk = Walk { in_crate, seeks_local, is_first: true };
        self.visit_all(&mut walk, self.declared as u32, self.nodes.len() as u32, WALK_DEPTH)
    }

    /// The answer of the check. The types that aren't local are left behind.
    fn check(&mut self, in_crate: InCrate) -> Result<Answer, u8> {
        match self.walk(in_crate, false) {
            Ok(()) => Ok(Answer::NonLocal),
            Err(Exit::Local(_)) => Ok(Answer::Passes),
            Err(Exit::Stop(stop)) => Err(stop),
            Err(Exit::Uncovered(at)) => match self.walk(in_crate, true) {
                Err(Exit::Local(local)) => Ok(Answer::Uncovered(at, Some(local))),
                Err(Exit::Stop(stop)) => Err(stop),
                _ => Ok(Answer::Uncovered(at, None)),
            },
        }
    }

    fn knowable(&mut self, of: u32) -> Result<&'static str, u8> {
        if let Answer::Passes = self.check(InCrate::Remote)? {
            return Ok("downstream\n");
        }
        let definition = &self.definitions[of as usize];
        if definition.krate == self.local || definition.is_fundamental {
            return Ok("ok\n");
        }
        match self.check(InCrate::Proper)? {
            Answer::Passes => Ok("ok\n"),
            _ => Ok("upstream\n"),
        }
    }

    /// Leaves the answer to the query behind, or a stop.
    fn query(&mut self, in_crate: Option<InCrate>, words: &mut Words<'a>) -> Result<Result<(), u8>, Fault<'a>> {
        self.nodes.truncate(self.declared);
        self.answer.clear();
        let of = self.trait_named(words.word()?)?;
        let count = u32::from(self.definitions[of as usize].arity) + 1;
        self.read_types(words, count, DEEPEST)?;
        words.end()?;
        Ok(match in_crate {
            None => self.knowable(of).map(|word| self.answer.push_str(word)),
            Some(in_crate) => self.check(in_crate).map(|answer| self.print_answer(answer)),
        })
    }

    fn print_answer(&mut self, answer: Answer) {
        let mut text = std::mem::take(&mut self.answer);
        match answer {
            Answer::Passes => text.push_str("ok"),
            Answer::NonLocal => {
                text.push_str("nonlocal");
                for (at, is_first) in &self.non_local {
                    text.push_str(" (");
                    self.print(*at, &mut text);
                    text.push_str(if *is_first { ", Yes)" } else { ", No)" });
                }
            }
            Answer::Uncovered(at, local) => {
                text.push_str("uncovered ");
                self.print(at, &mut text);
                text.push_str(" local ");
                match local {
                    Some(at) => self.print(at, &mut text),
                    None => text.push_str("none"),
                }
            }
        }
        text.push('\n');
        self.answer = text;
    }

    /// Adds the words of a type, which are those of the nodes from its own to its end.
    fn print(&self, at: u32, text: &mut String) {
        let end = self.nodes[at as usize].end;
        for (i, node) in self.nodes[at as usize..end as usize].iter().enumerate() {
            if i > 0 {
                text.push(' ');
            }
            let value = node.value;
            match node.kind {
                Kind::Word | Kind::Error => text.push_str(WORDS[value as usize]),
                Kind::Ref | Kind::Pointer => text.push_str(POINTERS[value as usize]),
                Kind::Infer => write!(text, "${value}").unwrap(),
                Kind::Placeholder => write!(text, "!{value}").unwrap(),
                Kind::Tuple => write!(text, "({value})").unwrap(),
                Kind::Dyn => write!(text, "dyn({value})").unwrap(),
                _ => text.push_str(self.definitions[value as usize].name),
            }
        }
    }

    fn line(&mut self, line: &'a [u8], output: &mut impl Write) -> Result<(), Halt<'a>> {
        if line.starts_with(b"//") {
            return Ok(());
        }
        if !line.iter().all(|byte| matches!(byte, b' '..=b'~')) {
            return Err(Fault::Plain("bad byte").into());
        }
        let mut words = Words { rest: std::str::from_utf8(line).expect("visible characters") };
        let Some(command) = words.next() else {
            return Ok(());
        };
        match command {
            "orphan" | "knowable" => self.query_line(command, &mut words, output),
            "local" | "adt" | "foreign" | "trait" | "assoc" | "impl" | "super" | "field" => {
                if self.has_asked {
                    return Err(Fault::Plain("late declaration").into());
                }
                Ok(self.declare(command, &mut words)?)
            }
            _ => Err(Fault::Plain("unknown word").into()),
        }
    }

    fn query_line(&mut self, command: &str, words: &mut Words<'a>, output: &mut impl Write) -> Result<(), Halt<'a>> {
        self.finish()?;
        let in_crate = match command {
            "knowable" => None,
            _ => Some(match words.word()? {
                "local" => InCrate::Proper,
                "compat" => InCrate::Compat,
                "remote" => InCrate::Remote,
                word => return Err(Fault::Named("bad flag ", word).into()),
            }),
        };
        match self.query(in_crate, words)? {
            Ok(()) => output.write_all(self.answer.as_bytes())?,
            Err(stop) => writeln!(output, "stop {stop}")?,
        }
        Ok(())
    }
}

fn run(text: &[u8]) -> io::Result<ExitCode> {
    let mut program = Program::new();
    let mut output = BufWriter::new(io::stdout().lock());
    for (number, line) in (1..).zip(text.split(|byte| *byte == b'\n')) {
        let fault = match program.line(line, &mut output) {
            Ok(()) => continue,
            Err(Halt::Device(error)) => return Err(error),
            Err(Halt::Line(fault)) => fault,
        };
        match fault {
            Fault::Plain(reason) => writeln!(output, "line {number}: {reason}")?,
            Fault::Named(reason, word) => writeln!(output, "line {number}: {reason}{word}")?,
            Fault::Stop(stop) => writeln!(output, "line {number}: stop {stop}")?,
        }
        output.flush()?;
        return Ok(ExitCode::from(2));
    }
    output.flush()?;
    Ok(ExitCode::SUCCESS)
}

fn main() -> ExitCode {
    let mut text = Vec::new();
    if io::stdin().read_to_end(&mut text).is_err() {
        return ExitCode::from(3);
    }
    run(&text).unwrap_or(ExitCode::from(3))
}
