//! What the program `assembly` does, written in plain Rust with the same algorithm and data: a table of
//! nodes in which each query begins behind the declarations, names in an ordered map, the contents of
//! definitions in lists, a pass over all that is declared for each fault, one walk a check. It is there to be
//! measured beside the program, and reads texts without a bad line and without a fault only, of the lines for
//! what definitions hold `impl`, `super` and `field`, and no type of functions and arrays.

use std::collections::BTreeMap;
use std::io::{self, BufWriter, Read, Write};

const CRATES: u32 = 10;
const MAX_HEIGHT: u32 = 1024;
const WALK_DEPTH: u16 = 256;
const FEW_TYPES: usize = 4;

#[derive(Clone, Copy, PartialEq)]
enum Kind {
    Word(&'static str),
    Ref(u32, u32, bool),
    RawPtr(u32, bool),
    Slice(u32),
    Tuple(u32),
    Adt(u32, u32),
    Foreign(u32),
    Alias(u32, u32),
    Dynamic(u32, u32),
    Infer(u32),
    Placeholder(u32),
    Param(u32),
    Error,
}

#[derive(Clone, Copy)]
enum Bound {
    Auto(u32),
    Trait(u32, u32),
    Projection(u32, u32, u32),
}

/// With the arguments, of which the first is the self type.
#[derive(Clone, Copy)]
enum Clause {
    Trait(u32, u32),
    Projection(u32, u32, u32),
}

enum Node {
    Ty(Kind),
    Region,
    Args(Vec<u32>),
    Preds(Vec<u32>),
    Pred(u32, Bound),
    Clause(u32, Clause),
    Vars,
}

struct Row {
    node: Node,
    height: u32,
}

#[derive(Clone, Copy)]
enum Stop {
    Memory = 1,
    WalkDepth = 2,
    NodesFull = 6,
}

impl Node {
    fn child_count(&self) -> usize {
        match self {
            Node::Ty(Kind::Ref(..) | Kind::Dynamic(..)) => 2,
            Node::Ty(Kind::RawPtr(..) | Kind::Slice(_) | Kind::Tuple(_) | Kind::Adt(..) | Kind::Alias(..)) => 1,
            Node::Ty(_) | Node::Region | Node::Vars => 0,
            Node::Args(list) | Node::Preds(list) => list.len(),
            Node::Pred(_, Bound::Auto(_)) => 1,
            Node::Pred(_, Bound::Trait(..)) => 2,
            Node::Pred(_, Bound::Projection(..)) => 3,
            Node::Clause(_, Clause::Trait(..)) => 2,
            Node::Clause(_, Clause::Projection(..)) => 3,
        }
    }

    fn child(&self, i: usize) -> u32 {
        match self {
            Node::Ty(Kind::Ref(a, b, _)) | Node::Ty(Kind::Dynamic(a, b)) => if i == 0 { *a } else { *b },
            Node::Ty(Kind::RawPtr(a, _) | Kind::Slice(a) | Kind::Tuple(a) | Kind::Adt(_, a) | Kind::Alias(_, a)) => *a,
            Node::Args(list) | Node::Preds(list) => list[i],
            Node::Pred(vars, bound) => match (i, bound) {
                (0, _) => *vars,
                (1, Bound::Trait(_, args) | Bound::Projection(_, args, _)) => *args,
                (_, Bound::Projection(_, _, term)) => *term,
                _ => unreachable!(),
            },
            Node::Clause(vars, clause) => match (i, clause) {
                (0, _) => *vars,
                (1, Clause::Trait(_, args) | Clause::Projection(_, args, _)) => *args,
                (_, Clause::Projection(_, _, term)) => *term,
                _ => unreachable!(),
            },
            _ => unreachable!(),
        }
    }

    /// The definition that it names.
    fn named(&self) -> Option<u32> {
        match self {
            Node::Ty(Kind::Adt(number, _) | Kind::Foreign(number) | Kind::Alias(number, _)) => Some(*number),
            Node::Pred(_, Bound::Auto(number) | Bound::Trait(number, _) | Bound::Projection(number, _, _)) => Some(*number),
            Node::Clause(_, Clause::Trait(number, _) | Clause::Projection(number, _, _)) => Some(*number),
            _ => None,
        }
    }
}

#[derive(Clone, Copy)]
struct Item {
    kind: char,
    number: u32,
    arity: u16,
    is_auto: bool,
}

/// What a definition is, and where its contents stand among those of its sort.
#[derive(Clone, Copy, PartialEq)]
enum DefinitionKind {
    Adt(u32),
    Trait(u32),
    Foreign,
    Assoc(u32, u32),
}

#[derive(Clone, Copy, PartialEq)]
enum Sort {
    Adt,
    Trait,
    Foreign,
    Assoc,
}

impl DefinitionKind {
    fn sort(self) -> Sort {
        match self {
            DefinitionKind::Adt(_) => Sort::Adt,
            DefinitionKind::Trait(_) => Sort::Trait,
            DefinitionKind::Foreign => Sort::Foreign,
            DefinitionKind::Assoc(..) => Sort::Assoc,
        }
    }
}

#[derive(Default)]
struct Flags {
    is_fundamental: bool,
    is_auto: bool,
    is_phantom: bool,
}

#[allow(dead_code)]
enum Parameters {
    Types(usize),
    Kinds(Vec<u8>),
}

impl Parameters {
    fn count(&self) -> usize {
        match self {
            Parameters::Types(count) => *count,
            Parameters::Kinds(kinds) => kinds.len(),
        }
    }
}

struct Declaration {
    krate: u32,
    parameters: Parameters,
    flags: Flags,
    kind: DefinitionKind,
}

#[derive(Default)]
struct AdtContents {
    fields: Vec<u32>,
    sized: Option<u32>,
    meta_sized: Option<u32>,
    unsizing: Vec<u32>,
}

#[derive(Default)]
struct TraitContents {
    supers: Vec<u32>,
    wheres: Vec<u32>,
    items: Vec<u32>,
    impls: Vec<u32>,
}

#[derive(Default)]
struct Bounds {
    self_bounds: Vec<u32>,
    non_self_bounds: Vec<u32>,
}

#[derive(Clone, Copy)]
enum Polarity {
    Positive,
    Negative,
    Reservation,
}

#[allow(dead_code)]
struct Impl {
    krate: u32,
    parameters: Parameters,
    of: u32,
    args: u32,
    polarity: Polarity,
    is_default: bool,
    wheres: Vec<u32>,
    super_outlives: Vec<u32>,
    specializes: Vec<u32>,
}

#[derive(Default)]
struct Contents {
    adts: Vec<AdtContents>,
    traits: Vec<TraitContents>,
    bounds: Vec<Bounds>,
    impls: Vec<Impl>,
}

#[derive(Clone, Copy)]
enum Owner {
    Definition(usize),
    Impl(usize),
}

#[derive(Clone, Copy)]
enum HeldSort {
    Ty,
    Args,
    Clause,
}

/// A number that a declaration holds.
#[derive(Clone, Copy)]
struct Held {
    owner: Owner,
    sort: HeldSort,
    number: u32,
}

/// What may not stand in a declaration: a parameter past its own, or a variable or a placeholder.
#[derive(Clone, Copy, PartialEq)]
enum Misplaced {
    Past,
    Stray,
}

#[derive(Clone, Copy, PartialEq)]
enum Visit {
    Unseen,
    Open,
    Done,
}

struct Program<'a> {
    local: u32,
    names: BTreeMap<&'a str, Item>,
    /// The names of the definitions.
    defined: Vec<&'a str>,
    definitions: Vec<Declaration>,
    contents: Contents,
    rows: Vec<Row>,
    /// How many nodes the declarations have, once they have ended.
    declared: Option<usize>,
}

const WORDS: [&str; 20] = [
    "bool", "char", "str", "!", "i8", "i16", "i32", "i64", "i128", "isize", "u8", "u16", "u32", "u64",
    "u128", "usize", "f16", "f32", "f64", "f128",
];

struct Words<'a> {
    rest: &'a str,
}

impl<'a> Words<'a> {
    fn word(&mut self) -> Option<&'a str> {
        let rest = self.rest.trim_start_matches(' ');
        if rest.is_empty() {
            return None;
        }
        let end = rest.bytes().position(|byte| byte == b' ').unwrap_or(rest.len());
        let (word, rest) = rest.split_at(end);
        self.rest = rest;
        Some(word)
    }

    fn next(&mut self) -> &'a str {
        self.word().expect("a word")
    }

    fn number(&mut self) -> u16 {
        self.next().parse().expect("a number")
    }
}

#[derive(Clone, Copy, PartialEq)]
enum InCrate {
    Proper,
    Compat,
    Remote,
}

enum Exit {
    Local(u32),
    Uncovered(u32),
    Stop(Stop),
}

struct Walk {
    in_crate: InCrate,
    seeks_local: bool,
    is_first: bool,
    non_local: Vec<(u32, bool)>,
}

enum Answer {
    Passes,
    NonLocal(Vec<(u32, bool)>),
    Uncovered(u32, Option<u32>),
}

impl<'a> Program<'a> {
    fn add(&mut self, node: Node) -> Result<u32, Stop> {
        let mut height = 0;
        for i in 0..node.child_count() {
            height = height.max(self.rows[node.child(i) as usize].height);
        }
        if matches!(node, Node::Ty(_)) {
            height += 1;
        }
        if self.rows.len() >= u32::MAX as usize || height > MAX_HEIGHT {
            return Err(Stop::NodesFull);
        }
        self.rows.try_reserve(1).map_err(|_| Stop::Memory)?;
        self.rows.push(Row { node, height });
        Ok(self.rows.len() as u32 - 1)
    }

    fn ty(&mut self, kind: Kind) -> Result<u32, Stop> {
        if self.declared.is_some() {
            assert!(self.ty_fits(kind));
        }
        self.add(Node::Ty(kind))
    }

    fn takes(&self, sort: Sort, number: u32, list: &[u32]) -> bool {
        let definition = &self.definitions[number as usize];
        definition.kind.sort() == sort && definition.parameters.count() == list.len()
    }

    fn takes_after_self(&self, sort: Sort, number: u32, list: &[u32]) -> bool {
        !list.is_empty() && self.takes(sort, number, &list[1..])
    }

    fn ty_fits(&self, kind: Kind) -> bool {
        match kind {
            Kind::Adt(number, args) => self.takes(Sort::Adt, number, self.list(args)),
            Kind::Foreign(number) => self.takes(Sort::Foreign, number, &[]),
            Kind::Alias(number, args) => self.takes_after_self(Sort::Assoc, number, self.list(args)),
            _ => true,
        }
    }

    fn bound_fits(&self, bound: Bound) -> bool {
        match bound {
            Bound::Auto(number) => self.takes(Sort::Trait, number, &[]),
            Bound::Trait(number, args) => self.takes(Sort::Trait, number, self.list(args)),
            Bound::Projection(number, args, _) => self.takes(Sort::Assoc, number, self.list(args)),
        }
    }

    fn node_fits(&self, node: &Node) -> bool {
        match node {
            Node::Ty(kind) => self.ty_fits(*kind),
            Node::Pred(_, bound) => self.bound_fits(*bound),
            Node::Clause(_, Clause::Trait(number, args)) => self.takes_after_self(Sort::Trait, *number, self.list(*args)),
            Node::Clause(_, Clause::Projection(number, args, _)) => self.takes_after_self(Sort::Assoc, *number, self.list(*args)),
            _ => true,
        }
    }

    fn declare(&mut self, command: &str, words: &mut Words<'a>) -> Result<(), Stop> {
        match command {
            "local" => self.local = u32::from(words.number()),
            "impl" => self.impl_line(words)?,
            "super" => self.super_line(words)?,
            "field" => self.field(words)?,
            _ => self.definition(command, words),
        }
        Ok(())
    }

    fn impl_line(&mut self, words: &mut Words<'a>) -> Result<(), Stop> {
        let krate = u32::from(words.number());
        let name = self.unused(words.next());
        let parameters = Parameters::Types(usize::from(words.number()));
        let polarity = match words.next() {
            "+" => Polarity::Positive,
            "-" => Polarity::Negative,
            _ => Polarity::Reservation,
        };
        let of = self.item(words.next());
        let args = self.read_args(words, u32::from(of.arity) + 1)?;
        let number = self.contents.impls.len() as u32;
        let DefinitionKind::Trait(place) = self.definitions[of.number as usize].kind else { unreachable!() };
        self.contents.traits[place as usize].impls.push(number);
        self.contents.impls.push(Impl {
            krate,
            parameters,
            of: of.number,
            args,
            polarity,
            is_default: false,
            wheres: Vec::new(),
            super_outlives: Vec::new(),
            specializes: Vec::new(),
        });
        self.names.insert(name, Item { kind: 'i', number, arity: 0, is_auto: false });
        Ok(())
    }

    fn super_line(&mut self, words: &mut Words<'a>) -> Result<(), Stop> {
        let of = self.item(words.next());
        let clause = self.read_clause(words)?;
        let DefinitionKind::Trait(place) = self.definitions[of.number as usize].kind else { unreachable!() };
        self.contents.traits[place as usize].supers.push(clause);
        Ok(())
    }

    fn field(&mut self, words: &mut Words<'a>) -> Result<(), Stop> {
        let adt = self.item(words.next());
        let ty = self.read_type(words)?;
        let DefinitionKind::Adt(place) = self.definitions[adt.number as usize].kind else { unreachable!() };
        self.contents.adts[place as usize].fields.push(ty);
        Ok(())
    }

    fn read_clause(&mut self, words: &mut Words<'a>) -> Result<u32, Stop> {
        let item = self.item(words.next());
        let args = self.read_args(words, u32::from(item.arity) + 1)?;
        let clause = if item.kind == 't' {
            Clause::Trait(item.number, args)
        } else {
            Clause::Projection(item.number, args, self.read_type(words)?)
        };
        let vars = self.add(Node::Vars)?;
        self.add(Node::Clause(vars, clause))
    }

    fn definition(&mut self, command: &str, words: &mut Words<'a>) {
        let number = self.definitions.len() as u32;
        let mut item = Item { kind: command.as_bytes()[0] as char, number, arity: 0, is_auto: false };
        let mut flags = Flags::default();
        let (krate, name, kind);
        if command == "assoc" {
            let of = self.item(words.next());
            item.kind = 'p';
            item.arity = of.arity;
            krate = self.definitions[of.number as usize].krate;
            name = self.unused(words.next());
            kind = DefinitionKind::Assoc(of.number, self.contents.bounds.len() as u32);
            let DefinitionKind::Trait(place) = self.definitions[of.number as usize].kind else { unreachable!() };
            self.contents.traits[place as usize].items.push(number);
            self.contents.bounds.push(Bounds::default());
        } else {
            krate = u32::from(words.number());
            name = self.unused(words.next());
            if command != "foreign" {
                item.arity = words.number();
            }
            kind = self.empty_contents(command);
        }
        while let Some(flag) = words.word() {
            match flag {
                "fundamental" => flags.is_fundamental = true,
                "auto" => flags.is_auto = true,
                "phantom" => flags.is_phantom = true,
                _ => {}
            }
        }
        item.is_auto = flags.is_auto;
        let parameters = Parameters::Types(usize::from(item.arity));
        self.definitions.push(Declaration { krate, parameters, flags, kind });
        self.defined.push(name);
        self.names.insert(name, item);
    }

    fn empty_contents(&mut self, command: &str) -> DefinitionKind {
        match command {
            "adt" => {
                self.contents.adts.push(AdtContents::default());
                DefinitionKind::Adt(self.contents.adts.len() as u32 - 1)
            }
            "trait" => {
                self.contents.traits.push(TraitContents::default());
                DefinitionKind::Trait(self.contents.traits.len() as u32 - 1)
            }
            _ => DefinitionKind::Foreign,
        }
    }

    fn unused(&self, name: &'a str) -> &'a str {
        assert!(name.bytes().all(|byte| byte.is_ascii_alphanumeric() || byte == b'_'));
        assert!(!self.names.contains_key(name));
        name
    }

    fn name(&self, definition: u32) -> &'a str {
        self.defined[definition as usize]
    }

    /// Ends the declarations, which have no fault.
    fn finish(&mut self) {
        let held = self.all_held();
        assert!(!self.has_unknown_id(&held));
        let are_plain = held.iter().all(|held| self.is_plain(held.number, self.parameter_count(held.owner)));
        assert!(!self.has_wrong_parameters(&held, are_plain));
        assert!(self.rows.iter().all(|row| self.node_fits(&row.node)));
        assert!(self.contents.impls.iter().all(|of| self.takes_after_self(Sort::Trait, of.of, self.list(of.args))));
        assert!(are_plain || !held.iter().any(|held| self.held_misplaces(*held, Misplaced::Stray)));
        assert!(are_plain || !held.iter().any(|held| self.escapes(held.number)));
        assert!(!self.definitions.iter().any(|definition| self.has_wrong_super(definition.kind)));
        assert!(!self.has_supertrait_cycle());
        assert!(!self.definitions.iter().any(|definition| self.lacks_tail(definition.kind)));
        self.declared = Some(self.rows.len());
    }

    fn all_held(&self) -> Vec<Held> {
        let mut held = Vec::new();
        for (number, definition) in self.definitions.iter().enumerate() {
            let owner = Owner::Definition(number);
            match definition.kind {
                DefinitionKind::Adt(place) => {
                    let adt = &self.contents.adts[place as usize];
                    let types = adt.fields.iter().chain(&adt.sized).chain(&adt.meta_sized);
                    held.extend(types.map(|number| Held { owner, sort: HeldSort::Ty, number: *number }));
                }
                DefinitionKind::Trait(place) => {
                    let of = &self.contents.traits[place as usize];
                    add_clauses(&mut held, owner, &of.supers);
                    add_clauses(&mut held, owner, &of.wheres);
                }
                DefinitionKind::Assoc(_, place) => {
                    let bounds = &self.contents.bounds[place as usize];
                    add_clauses(&mut held, owner, &bounds.self_bounds);
                    add_clauses(&mut held, owner, &bounds.non_self_bounds);
                }
                DefinitionKind::Foreign => {}
            }
        }
        for (number, of) in self.contents.impls.iter().enumerate() {
            let owner = Owner::Impl(number);
            held.push(Held { owner, sort: HeldSort::Args, number: of.args });
            add_clauses(&mut held, owner, &of.wheres);
            add_clauses(&mut held, owner, &of.super_outlives);
        }
        held
    }

    fn is_trait(&self, number: u32) -> bool {
        matches!(self.definitions.get(number as usize), Some(Declaration { kind: DefinitionKind::Trait(_), .. }))
    }

    fn lacks_trait(&self, kind: DefinitionKind) -> bool {
        matches!(kind, DefinitionKind::Assoc(of, _) if !self.is_trait(of))
    }

    fn impl_misnames(&self, of: &Impl) -> bool {
        let count = self.contents.impls.len();
        of.krate >= CRATES || !self.is_trait(of.of) || of.specializes.iter().any(|other| *other as usize >= count)
    }

    fn is_not_given(&self, held: Held) -> bool {
        match self.rows.get(held.number as usize).map(|row| &row.node) {
            Some(Node::Ty(_)) => !matches!(held.sort, HeldSort::Ty),
            Some(Node::Args(_)) => !matches!(held.sort, HeldSort::Args),
            Some(Node::Clause(..)) => !matches!(held.sort, HeldSort::Clause),
            _ => true,
        }
    }

    fn has_unknown_id(&self, held: &[Held]) -> bool {
        let is_unknown = |row: &Row| row.node.named().is_some_and(|number| number as usize >= self.definitions.len());
        self.local >= CRATES
            || self.definitions.iter().any(|definition| definition.krate >= CRATES)
            || self.definitions.iter().any(|definition| self.lacks_trait(definition.kind))
            || self.contents.impls.iter().any(|of| self.impl_misnames(of))
            || held.iter().any(|held| self.is_not_given(*held))
            || self.rows.iter().any(is_unknown)
    }

    fn has_wrong_parameters(&self, held: &[Held], are_plain: bool) -> bool {
        let has_wrong_arity = |definition: &Declaration| match definition.kind {
            DefinitionKind::Adt(_) => definition.flags.is_phantom && definition.parameters.count() == 0,
            DefinitionKind::Trait(_) => definition.flags.is_auto && definition.parameters.count() > 0,
            _ => false,
        };
        self.definitions.iter().any(has_wrong_arity)
            || self.definitions.iter().any(|definition| self.unsizes_past(definition))
            || !are_plain && held.iter().any(|held| self.held_misplaces(*held, Misplaced::Past))
    }

    fn unsizes_past(&self, definition: &Declaration) -> bool {
        let DefinitionKind::Adt(place) = definition.kind else { return false };
        let count = definition.parameters.count();
        self.contents.adts[place as usize].unsizing.iter().any(|number| *number as usize >= count)
    }

    fn lacks_tail(&self, kind: DefinitionKind) -> bool {
        let DefinitionKind::Adt(place) = kind else { return false };
        let adt = &self.contents.adts[place as usize];
        !adt.unsizing.is_empty() && adt.fields.is_empty()
    }

    fn parameter_count(&self, owner: Owner) -> usize {
        match owner {
            Owner::Impl(number) => self.contents.impls[number].parameters.count(),
            Owner::Definition(number) => {
                let definition = &self.definitions[number];
                let has_self = matches!(definition.kind, DefinitionKind::Trait(_) | DefinitionKind::Assoc(..));
                definition.parameters.count() + usize::from(has_self)
            }
        }
    }

    /// Whether each node of the tree shows by itself that it may stand where so many parameters are.
    fn is_plain(&self, number: u32, count: usize) -> bool {
        let node = &self.rows[number as usize].node;
        let is_plain = match node {
            Node::Ty(Kind::Param(i)) => (*i as usize) < count,
            Node::Ty(Kind::Infer(_) | Kind::Placeholder(_)) => false,
            _ => true,
        };
        is_plain && (0..node.child_count()).all(|i| self.is_plain(node.child(i), count))
    }

    fn held_misplaces(&self, held: Held, what: Misplaced) -> bool {
        self.misplaces(held.number, what, self.parameter_count(held.owner))
    }

    fn misplaces(&self, number: u32, what: Misplaced, count: usize) -> bool {
        let node = &self.rows[number as usize].node;
        let is_misplaced = match node {
            Node::Ty(Kind::Param(i)) => what == Misplaced::Past && *i as usize >= count,
            Node::Ty(Kind::Infer(_) | Kind::Placeholder(_)) => what == Misplaced::Stray,
            _ => false,
        };
        is_misplaced || (0..node.child_count()).any(|i| self.misplaces(node.child(i), what, count))
    }

    /// Whether a bound variable stands there. Here there is none.
    fn escapes(&self, number: u32) -> bool {
        let node = &self.rows[number as usize].node;
        (0..node.child_count()).any(|i| self.escapes(node.child(i)))
    }

    fn has_wrong_super(&self, kind: DefinitionKind) -> bool {
        let DefinitionKind::Trait(place) = kind else { return false };
        !self.contents.traits[place as usize].supers.iter().all(|clause| self.is_about_self(*clause))
    }

    fn is_about_self(&self, clause: u32) -> bool {
        let Node::Clause(_, Clause::Trait(_, args) | Clause::Projection(_, args, _)) = self.rows[clause as usize].node else {
            return false;
        };
        self.list(args).first().is_some_and(|subject| self.kind(*subject) == Kind::Param(0))
    }

    fn has_supertrait_cycle(&self) -> bool {
        let mut visits = vec![Visit::Unseen; self.definitions.len()];
        let mut stack = Vec::new();
        for number in 0..self.definitions.len() as u32 {
            if meet(&mut visits, &mut stack, number) {
                return true;
            }
            while let Some((number, looked)) = stack.pop() {
                let supers = match self.definitions[number as usize].kind {
                    DefinitionKind::Trait(place) => self.contents.traits[place as usize].supers.as_slice(),
                    _ => &[],
                };
                let Some(clause) = supers.get(looked) else {
                    visits[number as usize] = Visit::Done;
                    continue;
                };
                stack.push((number, looked + 1));
                if let Node::Clause(_, Clause::Trait(of, _)) = self.rows[*clause as usize].node {
                    if meet(&mut visits, &mut stack, of) {
                        return true;
                    }
                }
            }
        }
        false
    }

    fn item(&self, word: &'a str) -> Item {
        *self.names.get(word).expect("a name")
    }

    fn read_type(&mut self, words: &mut Words<'a>) -> Result<u32, Stop> {
        let word = words.next();
        if let b'b' | b'c' | b's' | b'!' | b'i' | b'u' | b'f' = word.as_bytes()[0] {
            if let Some(leaf) = WORDS.iter().find(|leaf| **leaf == word) {
                return self.ty(Kind::Word(leaf));
            }
        }
        match word {
            "error" => return self.ty(Kind::Error),
            "&" | "&mut" => {
                let target = self.read_type(words)?;
                let region = self.add(Node::Region)?;
                return self.ty(Kind::Ref(region, target, word == "&mut"));
            }
            "*const" | "*mut" => {
                let target = self.read_type(words)?;
                return self.ty(Kind::RawPtr(target, word == "*mut"));
            }
            "[]" => {
                let target = self.read_type(words)?;
                return self.ty(Kind::Slice(target));
            }
            _ => {}
        }
        if let Some(digits) = word.strip_prefix('$') {
            return self.ty(Kind::Infer(digits.parse().unwrap()));
        }
        if let Some(digits) = word.strip_prefix('#') {
            return self.ty(Kind::Param(digits.parse().unwrap()));
        }
        if let Some(digits) = word.strip_prefix('!') {
            return self.ty(Kind::Placeholder(digits.parse().unwrap()));
        }
        if let Some(digits) = word.strip_prefix('(').and_then(|rest| rest.strip_suffix(')')) {
            let args = self.read_args(words, digits.parse().unwrap())?;
            return self.ty(Kind::Tuple(args));
        }
        if let Some(digits) = word.strip_prefix("dyn(").and_then(|rest| rest.strip_suffix(')')) {
            return self.read_dyn(words, digits.parse().unwrap());
        }
        let item = self.item(word);
        match item.kind {
            'a' => {
                let args = self.read_args(words, u32::from(item.arity))?;
                self.ty(Kind::Adt(item.number, args))
            }
            'f' => self.ty(Kind::Foreign(item.number)),
            _ => {
                let args = self.read_args(words, u32::from(item.arity) + 1)?;
                self.ty(Kind::Alias(item.number, args))
            }
        }
    }

    fn read_args(&mut self, words: &mut Words<'a>, count: u32) -> Result<u32, Stop> {
        let mut list = Vec::with_capacity((count as usize).min(FEW_TYPES));
        for _ in 0..count {
            list.push(self.read_type(words)?);
        }
        self.add(Node::Args(list))
    }

    fn read_dyn(&mut self, words: &mut Words<'a>, count: u32) -> Result<u32, Stop> {
        let mut bounds = Vec::new();
        for _ in 0..count {
            let item = self.item(words.next());
            let bound = if item.is_auto {
                Bound::Auto(item.number)
            } else if item.kind == 't' {
                Bound::Trait(item.number, self.read_args(words, u32::from(item.arity))?)
            } else {
                let args = self.read_args(words, u32::from(item.arity))?;
                Bound::Projection(item.number, args, self.read_type(words)?)
            };
            bounds.push((self.add(Node::Vars)?, bound));
        }
        if self.declared.is_some() {
            assert!(bounds.iter().all(|(_, bound)| self.bound_fits(*bound)));
        }
        let mut preds = Vec::new();
        for (vars, bound) in bounds {
            preds.push(self.add(Node::Pred(vars, bound))?);
        }
        let preds = self.add(Node::Preds(preds))?;
        let region = self.add(Node::Region)?;
        self.ty(Kind::Dynamic(preds, region))
    }

    fn kind(&self, ty: u32) -> Kind {
        match self.rows[ty as usize].node {
            Node::Ty(kind) => kind,
            _ => unreachable!(),
        }
    }

    fn list(&self, number: u32) -> &[u32] {
        match &self.rows[number as usize].node {
            Node::Args(list) | Node::Preds(list) => list,
            _ => unreachable!(),
        }
    }

    fn has(&self, number: u32, holds: fn(Kind) -> bool) -> bool {
        let node = &self.rows[number as usize].node;
        if let Node::Ty(kind) = node {
            if holds(*kind) {
                return true;
            }
        }
        (0..node.child_count()).any(|i| self.has(node.child(i), holds))
    }

    fn is_local(&self, in_crate: InCrate, number: u32) -> bool {
        in_crate != InCrate::Remote && self.definitions[number as usize].krate == self.local
    }

    fn visit(&self, walk: &mut Walk, ty: u32, levels: u16) -> Result<(), Exit> {
        if levels == 0 {
            return Err(Exit::Stop(Stop::WalkDepth));
        }
        let outcome = match self.kind(ty) {
            Kind::Ref(_, target, _) => self.visit(walk, target, levels - 1),
            Kind::Adt(number, args) => {
                if self.is_local(walk.in_crate, number) {
                    Err(Exit::Local(ty))
                } else if self.definitions[number as usize].flags.is_fundamental {
                    self.visit_args(walk, args, levels - 1)
                } else {
                    self.non_local(walk, ty)
                }
            }
            Kind::Foreign(number) if self.is_local(walk.in_crate, number) => Err(Exit::Local(ty)),
            Kind::Dynamic(preds, _) => match self.principal(preds) {
                Some(number) if self.is_local(walk.in_crate, number) => Err(Exit::Local(ty)),
                _ => self.non_local(walk, ty),
            },
            Kind::Alias(..) => {
                let loose = self.has(ty, |kind| matches!(kind, Kind::Infer(_)))
                    || self.has(ty, |kind| matches!(kind, Kind::Placeholder(_)));
                match (loose, walk.in_crate) {
                    (false, _) => self.non_local(walk, ty),
                    (true, InCrate::Compat) => Ok(()),
                    (true, _) => self.loose(walk, ty),
                }
            }
            Kind::Infer(_) | Kind::Placeholder(_) => self.loose(walk, ty),
            Kind::Error => Err(Exit::Local(ty)),
            _ => self.non_local(walk, ty),
        };
        walk.is_first = false;
        outcome
    }

    fn principal(&self, preds: u32) -> Option<u32> {
        self.list(preds).iter().find_map(|pred| match self.rows[*pred as usize].node {
            Node::Pred(_, Bound::Trait(number, _)) => Some(number),
            _ => None,
        })
    }

    fn loose(&self, walk: &mut Walk, ty: u32) -> Result<(), Exit> {
        match walk.in_crate {
            InCrate::Remote => Err(Exit::Local(ty)),
            _ if walk.seeks_local => Ok(()),
            _ => Err(Exit::Uncovered(ty)),
        }
    }

    fn non_local(&self, walk: &mut Walk, ty: u32) -> Result<(), Exit> {
        walk.non_local.push((ty, walk.is_first));
        Ok(())
    }

    fn visit_args(&self, walk: &mut Walk, args: u32, levels: u16) -> Result<(), Exit> {
        for i in 0..self.list(args).len() {
            self.visit(walk, self.list(args)[i], levels)?;
        }
        Ok(())
    }

    fn check(&self, args: u32, in_crate: InCrate) -> Result<Answer, Stop> {
        let mut walk = Walk { in_crate, seeks_local: false, is_first: true, non_local: Vec::new() };
        match self.visit_args(&mut walk, args, WALK_DEPTH) {
            Ok(()) => Ok(Answer::NonLocal(walk.non_local)),
            Err(Exit::Local(_)) => Ok(Answer::Passes),
            Err(Exit::Stop(stop)) => Err(stop),
            Err(Exit::Uncovered(ty)) => {
                let mut walk = Walk { in_crate, seeks_local: true, is_first: true, non_local: Vec::new() };
                match self.visit_args(&mut walk, args, WALK_DEPTH) {
                    Err(Exit::Local(local)) => Ok(Answer::Uncovered(ty, Some(local))),
                    Err(Exit::Stop(stop)) => Err(stop),
                    _ => Ok(Answer::Uncovered(ty, None)),
                }
            }
        }
    }

    fn knowable(&self, of: u32, args: u32) -> Result<&'static str, Stop> {
        if let Answer::Passes = self.check(args, InCrate::Remote)? {
            return Ok("downstream\n");
        }
        let definition = &self.definitions[of as usize];
        if definition.krate == self.local || definition.flags.is_fundamental {
            return Ok("ok\n");
        }
        match self.check(args, InCrate::Proper)? {
            Answer::Passes => Ok("ok\n"),
            _ => Ok("upstream\n"),
        }
    }

    fn query(&mut self, command: &str, words: &mut Words<'a>, text: &mut String) -> Result<(), Stop> {
        let in_crate = match command {
            "knowable" => None,
            _ => Some(match words.next() {
                "local" => InCrate::Proper,
                "compat" => InCrate::Compat,
                _ => InCrate::Remote,
            }),
        };
        let of = self.item(words.next());
        let args = self.read_args(words, u32::from(of.arity) + 1)?;
        assert!(self.takes_after_self(Sort::Trait, of.number, self.list(args)));
        let Some(in_crate) = in_crate else {
            text.push_str(self.knowable(of.number, args)?);
            return Ok(());
        };
        match self.check(args, in_crate)? {
            Answer::Passes => text.push_str("ok"),
            Answer::NonLocal(entries) => {
                text.push_str("nonlocal");
                for (ty, is_first) in entries {
                    text.push_str(" (");
                    self.print(ty, text);
                    text.push_str(if is_first { ", Yes)" } else { ", No)" });
                }
            }
            Answer::Uncovered(ty, local) => {
                text.push_str("uncovered ");
                self.print(ty, text);
                text.push_str(" local ");
                match local {
                    Some(ty) => self.print(ty, text),
                    None => text.push_str("none"),
                }
            }
        }
        text.push('\n');
        Ok(())
    }

    fn print(&self, ty: u32, text: &mut String) {
        use std::fmt::Write;
        match self.kind(ty) {
            Kind::Word(word) => text.push_str(word),
            Kind::Error => text.push_str("error"),
            Kind::Infer(number) => write!(text, "${number}").unwrap(),
            Kind::Param(number) => write!(text, "#{number}").unwrap(),
            Kind::Placeholder(number) => write!(text, "!{number}").unwrap(),
            Kind::Ref(_, target, mutable) => {
                text.push_str(if mutable { "&mut " } else { "& " });
                self.print(target, text);
            }
            Kind::RawPtr(target, mutable) => {
                text.push_str(if mutable { "*mut " } else { "*const " });
                self.print(target, text);
            }
            Kind::Slice(target) => {
                text.push_str("[] ");
                self.print(target, text);
            }
            Kind::Tuple(args) => {
                write!(text, "({})", self.list(args).len()).unwrap();
                self.print_all(args, text);
            }
            Kind::Foreign(number) => text.push_str(self.name(number)),
            Kind::Adt(number, args) | Kind::Alias(number, args) => {
                text.push_str(self.name(number));
                self.print_all(args, text);
            }
            Kind::Dynamic(preds, _) => {
                write!(text, "dyn({})", self.list(preds).len()).unwrap();
                for pred in self.list(preds) {
                    let Node::Pred(_, bound) = self.rows[*pred as usize].node else { unreachable!() };
                    let (Bound::Auto(number) | Bound::Trait(number, _) | Bound::Projection(number, _, _)) = bound;
                    text.push(' ');
                    text.push_str(self.name(number));
                    if let Bound::Trait(_, args) | Bound::Projection(_, args, _) = bound {
                        self.print_all(args, text);
                    }
                    if let Bound::Projection(_, _, term) = bound {
                        text.push(' ');
                        self.print(term, text);
                    }
                }
            }
        }
    }

    fn print_all(&self, args: u32, text: &mut String) {
        for ty in self.list(args) {
            text.push(' ');
            self.print(*ty, text);
        }
    }
}

fn add_clauses(held: &mut Vec<Held>, owner: Owner, clauses: &[u32]) {
    held.extend(clauses.iter().map(|number| Held { owner, sort: HeldSort::Clause, number: *number }));
}

/// Whether the search is in the definition already; one that isn't seen yet is entered.
fn meet(visits: &mut [Visit], stack: &mut Vec<(u32, usize)>, number: u32) -> bool {
    match visits[number as usize] {
        Visit::Open => return true,
        Visit::Done => {}
        Visit::Unseen => {
            visits[number as usize] = Visit::Open;
            stack.push((number, 0));
        }
    }
    false
}

fn main() -> io::Result<()> {
    let mut text = Vec::new();
    io::stdin().read_to_end(&mut text)?;
    let mut program = Program {
        local: 0,
        names: BTreeMap::new(),
        defined: Vec::new(),
        definitions: Vec::new(),
        contents: Contents::default(),
        rows: Vec::new(),
        declared: None,
    };
    let mut output = BufWriter::new(io::stdout());
    let mut answer = String::new();
    for line in text.split(|byte| *byte == b'\n') {
        if line.starts_with(b"//") {
            continue;
        }
        assert!(line.iter().all(|byte| matches!(byte, b' '..=b'~')));
        let mut words = Words { rest: std::str::from_utf8(line).expect("a text") };
        match words.word() {
            None => {}
            Some(command @ ("orphan" | "knowable")) => {
                if program.declared.is_none() {
                    program.finish();
                }
                answer.clear();
                program.rows.truncate(program.declared.unwrap_or(0));
                match program.query(command, &mut words, &mut answer) {
                    Ok(()) => output.write_all(answer.as_bytes())?,
                    Err(stop) => writeln!(output, "stop {}", stop as u8)?,
                }
            }
            Some(command) => {
                if let Err(stop) = program.declare(command, &mut words) {
                    panic!("stop {}", stop as u8);
                }
            }
        }
    }
    output.flush()
}
