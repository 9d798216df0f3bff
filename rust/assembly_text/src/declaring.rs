// Made of `crates/assembly_text/src/declaring.rt` by `bench/plain.py`: an edit of this file is lost.

//! The commands that declare.


use kit::{eprintln, format, prelude::*, print, println, vec};
use crate::asking::Asking;
use crate::solving::with_listed_alone;
use assembly_notation::faults::Fault;
use assembly_notation::first::make_first;
use assembly_notation::given::Given;
use assembly_notation::making::Draft;
use assembly_notation::names::{Item, NamedTrait, Names, Origin, Parameters};
use assembly_notation::notation::Binders;
use assembly_notation::numbering::Numbering;
use assembly_notation::reading::{
    CRATES, Content, ContentKind, Definition, DefinitionKind, New, Owner, read_assoc,
};
use assembly_notation::types::{MAX_DEPTH, Scope};
use assembly_notation::words::Words;
use candidate_eval::eval::mode::TypingMode;
use ir_builder::decl::builder::DeclsBuilder;
use ir_context::decl::context::Cx;
use ir_trees::decl::definition::AssocKind;
use ir_trees::decl::fault::DeclFault;
use ir_trees::decl::limits::Limits;
use ir_trees::ir::kinds::{Clause, VarKind};
use kit::alloc::{AllocError, Global};

/// A command that declares.
#[derive(Clone, Copy, Debug)]
pub enum Declaration {
    /// Something new in a crate.
    Definition(DefinitionKind),
    /// A new associated type.
    Assoc,
    /// What is said of something that was declared.
    Content(ContentKind),
    /// What queries take as given.
    Given(GivenPart),
    /// Where walks end.
    Limit,
}

/// A part of what queries take as given.
#[derive(Clone, Copy, Debug)]
pub enum GivenPart {
    Clause,
    NormalForm,
    Mode,
    Feature,
}

/// Which walks end there.
#[derive(Clone, Copy, Debug)]
enum LimitKind {
    Walk,
    Alias,
    Const,
    Recursion,
}

const LIMITS: [(&str, LimitKind); 4] = [
    ("walk", LimitKind::Walk),
    ("alias", LimitKind::Alias),
    ("const", LimitKind::Const),
    ("recursion", LimitKind::Recursion),
];

const MODES: [(&str, TypingMode); 5] = [
    ("coherence", TypingMode::Coherence),
    ("analysis", TypingMode::Analysis),
    ("borrowck", TypingMode::Borrowck),
    ("post_borrowck", TypingMode::PostBorrowckAnalysis),
    ("post_analysis", TypingMode::PostAnalysis),
];

/// A feature of the language.
#[derive(Clone, Copy, Debug)]
enum Feature {
    /// An impl may specialise another one.
    Specialization,
}

const FEATURES: [(&str, Feature); 1] = [("specialization", Feature::Specialization)];

/// What is declared so far.
#[derive(Debug)]
pub struct Declaring<'a> {
    scope: Scope<'a, Draft>,
    kinds: ParameterKinds,
    limits: Limits,
}

/// The kinds of parameters, as lists.
#[derive(Debug)]
struct ParameterKinds {
    /// Types, so many as were asked for at most.
    types: Vec<VarKind>,
    /// Those of the last definition that has others.
    mixed: Vec<VarKind>,
}

impl ParameterKinds {
    /// Those of these parameters.
    fn of(&mut self, parameters: Parameters) -> Result<&[VarKind], AllocError> {
        let count = usize::from(parameters.count);
        if parameters.are_types() {
            if self.types.len() < count {
                self.types.resize(count, VarKind::Ty)?;
            }
            return Ok(&self.types[..count]);
        }
        self.mixed.clear();
        for place in 0..u32::from(parameters.count) {
            self.mixed.push(parameters.kind(place))?;
        }
        Ok(self.mixed.as_slice())
    }
}

impl<'a> Declaring<'a> {
    /// Nothing but the crates and the first nodes, and a seed for the hashes of nodes. The only error is `Fault::Stop`.
    pub fn with_seed(alloc: Global, seed: u64) -> Result<Self, Fault<'a>> {
        let mut builder = DeclsBuilder::with_seed(alloc, seed);
        for _ in 0..CRATES {
            builder.add_crate()?;
        }
        make_first(&mut builder)?;
        let given = Given {
            clauses: Vec::new(alloc),
            normal_forms: Vec::new(alloc),
            mode: TypingMode::PostAnalysis,
            specialization: false,
            negative: false,
        };
        let maker = Draft {
            builder,
            given,
            has_parameters: true,
            has_errors: true,
            is_alias: false,
            has_alias: false,
        };
        Ok(Declaring {
            scope: Scope {
                alloc,
                names: Names::new(alloc)?,
                maker,
                numbering: Numbering::new(alloc),
            },
            kinds: ParameterKinds {
                types: Vec::new(alloc),
                mixed: Vec::new(alloc),
            },
            limits: Limits::new(),
        })
    }

    /// The names declared so far.
    pub fn names(&self) -> &Names<'a> {
        &self.scope.names
    }

    /// Does what a line asks that stands there, and whose command was read. Where it is bad, the words are read up to the one at fault, and
    /// nothing is declared.
    pub fn declare(
        &mut self,
        declaration: Declaration,
        words: &mut Words<'a>,
        origin: Origin,
    ) -> Result<(), Fault<'a>> {
        self.scope.maker.has_parameters = !matches!(declaration, Declaration::Given(_));
        self.scope.maker.has_errors = !matches!(
            declaration,
            Declaration::Given(GivenPart::NormalForm)
        );
        match declaration {
            Declaration::Definition(kind) => {
                let new = self.scope.read_definition(kind, words)?;
                self.add(new, words, origin)
            }
            Declaration::Assoc => {
                let new = read_assoc(&self.scope.names, words)?;
                self.add(new, words, origin)
            }
            Declaration::Content(kind) => self.content(kind, words),
            Declaration::Given(GivenPart::Clause) => self.environment(words),
            Declaration::Given(GivenPart::NormalForm) => self.norm(words),
            Declaration::Given(GivenPart::Mode) => self.mode(words),
            Declaration::Given(GivenPart::Feature) => self.feature(words),
            Declaration::Limit => self.limit(words),
        }
    }

    /// What can be asked once all is declared. It has an error where the declarations have a fault.
    pub fn finish(self) -> Result<Asking<'a>, Fault<'a>> {
        let Declaring { scope, .. } = self;
        let Scope {
            alloc,
            names,
            maker,
            ..
        } = scope;
        let Draft { builder, given, .. } = maker;
        let maker = Cx::new(builder.finish()?);
        let given = with_listed_alone(alloc, &maker, given)?;
        let scope = Scope {
            alloc,
            names,
            maker,
            numbering: Numbering::new(alloc),
        };
        Ok(Asking::new(scope, given))
    }

    /// Adds what is new, and its name, which is declared there.
    fn add(
        &mut self,
        new: New<'a>,
        words: &mut Words<'a>,
        origin: Origin,
    ) -> Result<(), Fault<'a>> {
        words.end()?;
        let kinds = self.kinds.of(new.parameters)?;
        let draft = &mut self.scope.maker;
        let item = add_new(&mut draft.builder, new, kinds)?;
        self.scope.names.add(new.name, item, origin)?;
        Ok(())
    }

    fn content(&mut self, kind: ContentKind, words: &mut Words<'a>) -> Result<(), Fault<'a>> {
        let content = self.scope.read_content(kind, words)?;
        words.end()?;
        if let Content::Local(local) = content {
            self.scope.names.local_crate = local;
        }
        let draft = &mut self.scope.maker;
        add_content(&mut draft.builder, content)?;
        Ok(())
    }

    fn environment(&mut self, words: &mut Words<'a>) -> Result<(), Fault<'a>> {
        let clause = self.scope.read_clause(words)?;
        words.end()?;
        let draft = &mut self.scope.maker;
        draft.given.clauses.push(clause)?;
        Ok(())
    }

    /// An alias, and then a type without one, which it is normalised to. Neither has an error.
    fn norm(&mut self, words: &mut Words<'a>) -> Result<(), Fault<'a>> {
        let alias = self.scope.read_type(words, Binders::none(), MAX_DEPTH)?;
        if !self.scope.maker.is_alias {
            return Err(Fault::NotAnAlias);
        }
        let draft = &mut self.scope.maker;
        draft.is_alias = false;
        draft.has_alias = false;
        let ty = self.scope.read_type(words, Binders::none(), MAX_DEPTH)?;
        if self.scope.maker.has_alias {
            return Err(Fault::Alias);
        }
        words.end()?;
        let draft = &mut self.scope.maker;
        draft.given.normal_forms.push((alias, ty))?;
        Ok(())
    }

    fn mode(&mut self, words: &mut Words<'a>) -> Result<(), Fault<'a>> {
        let mode = words.flag(&MODES)?;
        let mut ahead = *words;
        let negative = mode.is_coherence() && is_negative(ahead.next_word());
        if negative {
            *words = ahead;
        }
        words.end()?;
        let draft = &mut self.scope.maker;
        draft.given.mode = mode;
        draft.given.negative = negative;
        Ok(())
    }

    /// Which feature of the language is used.
    fn feature(&mut self, words: &mut Words<'a>) -> Result<(), Fault<'a>> {
        let feature = words.flag(&FEATURES)?;
        words.end()?;
        let draft = &mut self.scope.maker;
        match feature {
            Feature::Specialization => draft.given.specialization = true,
        }
        Ok(())
    }

    /// Which limit it is, and how great it is from then on.
    fn limit(&mut self, words: &mut Words<'a>) -> Result<(), Fault<'a>> {
        let kind = words.flag(&LIMITS)?;
        let number = words.number(0, u16::MAX)?;
        words.end()?;
        match kind {
            LimitKind::Walk => self.limits.orphan_walk = number,
            LimitKind::Alias => self.limits.alias_chain = number,
            LimitKind::Const => self.limits.const_depth = number,
            LimitKind::Recursion => self.limits.recursion = number,
        }
        let limits = self.limits;
        let draft = &mut self.scope.maker;
        draft.builder.set_limits(limits);
        Ok(())
    }
}

/// Adds what is new to the declarations, and says what its name stands for.
fn add_new(builder: &mut DeclsBuilder, new: New<'_>, kinds: &[VarKind]) -> Result<Item, DeclFault>
{
    let parameters = new.parameters;
    Ok(match new.definition {
        Definition::Adt(krate, shape, flags) => {
            let id = builder.add_adt(krate, shape, kinds, flags)?;
            Item::Adt(id, parameters)
        }
        Definition::Foreign(krate) => Item::Foreign(builder.add_foreign(krate)?),
        Definition::Trait(krate, flags) => {
            let id = builder.add_trait(krate, kinds, flags)?;
            let is_auto = flags.auto;
            let is_alias = flags.alias;
            Item::Trait(NamedTrait {
                id,
                parameters,
                is_auto,
                is_alias,
            })
        }
        Definition::Assoc(of, requires_sized_self) => {
            let id = builder.add_assoc(of.id, AssocKind::Type, requires_sized_self)?;
            Item::Assoc(id, of.parameters)
        }
        Definition::Opaque(krate, hidden) => {
            let id = builder.add_opaque(krate, kinds, hidden)?;
            Item::Opaque(id, parameters)
        }
        Definition::Impl(krate, polarity, trait_ref) => {
            Item::Impl(builder.add_impl(krate, kinds, trait_ref, polarity)?)
        }
    })
}

/// Adds to the declarations what is said of something in them.
fn add_content(builder: &mut DeclsBuilder, content: Content) -> Result<(), DeclFault>
{
    match content {
        Content::Local(local) => builder.set_local(local),
        Content::Field(adt, ty) => return builder.push_field(adt, ty),
        Content::Constraint(adt, sizedness, ty) => builder.set_constraint(adt, sizedness, ty),
        Content::Unsizing(adt, parameter) => return builder.push_unsizing(adt, parameter),
        Content::Clause(owner, clause) => return add_clause(builder, owner, clause),
        Content::Value(of, assoc, ty) => return builder.push_assoc_value(of, assoc, ty),
        Content::Default(of) => builder.set_default(of),
        Content::Specializes(of, other) => return builder.specializes(of, other),
        Content::Lang(item, of) => builder.lang_item(item, of),
    }
    Ok(())
}

fn add_clause(builder: &mut DeclsBuilder, owner: Owner, clause: Clause) -> Result<(), DeclFault>
{
    match owner {
        Owner::Super(id) => builder.push_super(id, clause),
        Owner::Where(id) => builder.push_where(id, clause),
        Owner::Bound(kind, id) => builder.push_bound(id, kind, clause),
        Owner::Impl(id) => builder.push_impl_where(id, clause),
    }
}

/// Whether the word is the one that may follow the mode of coherence.
fn is_negative(word: Option<&str>) -> bool {
    match word {
        Some(word) => word == "negative",
        None => false,
    }
}
