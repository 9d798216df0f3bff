// Made of `crates/assembly_notation/src/types.rt` by `bench/plain.py`: an edit of this file is lost.

//! Reading and printing types.


use kit::{eprintln, format, prelude::*, print, println, vec};
use crate::bounds::{Begun, is_among, place_of};
use crate::building::{
    Constructor, FnForm, auto_bound, construct, dyn_type, fn_pointer, leaf_type, make_constant,
    pointer_to, projection_bound, projection_clause, reference, trait_bound, trait_clause,
};
use crate::counting::has_few_words;
use crate::faults::Fault;
use crate::making::{Draft, Maker};
use crate::names::{Item, NamedTrait, Names, Parameters};
use crate::notation::{
    Arguments, Binders, Head, Inputs, Qualifier, bound_by, constant_in, head_of, region_in, word_of,
};
use crate::numbering::Numbering;
use crate::words::Words;
use ir_context::decl::context::Cx;
use ir_trees::ir::kinds::{
    Args, AssocId, Binder, BoundVar, Clause, Const, ConstKind, ExistentialPredicate, FnSig,
    GenericArg, InferTy, Placeholder, Preds, Region, RegionKind, TraitId, TraitRef, Ty, TyKind,
    VarKind, Vars,
};
use ir_trees::ir::stop::Stop;
use ir_trees::ir::trees::Trees;
use kit::alloc::Global;

/// How deep the words of a type may be nested.
pub const MAX_DEPTH: u16 = 1024;

/// For so many types of a list room is taken before they are read: a text can claim many more than it has.
const FEW_TYPES: usize = 4;

/// In the place of what a text can't spell.
pub const UNSPELLED: &str = "?";

/// The names that a line may use, and what its types are made in.
#[derive(Debug)]
pub struct Scope<'a, M> {
    pub alloc: Global,
    pub names: Names<'a>,
    pub maker: M,
    pub numbering: Numbering,
}

/// What a bound's name says of it, with what arguments follow.
#[derive(Clone, Copy, Debug)]
enum BoundHead {
    AutoTrait(TraitId),
    Trait(TraitId, Parameters),
    /// A type more follows, which the projection is.
    Projection(AssocId, Parameters),
}

impl<'n, M: Maker> Scope<'n, M> {
    /// The next type of a line, under these binders, whose words may be nested that deep.
    ///
    /// Besides the faults of its words and of their names, `Fault::Parameter`, `Fault::Variable` and `Fault::Error` come at a parameter,
    /// at a variable and at an error where none may stand, `Fault::NoConstant` and `Fault::NoRegion` where one is asked for, and
    /// `Fault::Stop` where a word is nested deeper or a node can't be made.
    pub fn read_type<'a>(
        &mut self,
        words: &mut Words<'a>,
        binders: Binders,
        depth: u16,
    ) -> Result<Ty, Fault<'a>>
    {
        let (word, head, below) = self.next_head(words, depth)?;
        match head {
            Head::Leaf(kind) => leaf_type(&mut self.maker, kind, word),
            Head::Before(pointer) => {
                let target = self.read_type(words, binders, below)?;
                pointer_to(&mut self.maker, pointer, target, word)
            }
            Head::Borrow(mutability) => {
                let region = self.read_borrowed(words, binders)?;
                let target = self.read_type(words, binders, below)?;
                reference(&mut self.maker, region, target, mutability, word)
            }
            Head::Over(constructor, arguments) => {
                let list = self.read_args(words, arguments, binders, below)?;
                construct(&mut self.maker, constructor, list, word)
            }
            Head::Fn(inputs) => {
                self.read_fn(words, FnForm::plain(), inputs, binders, below, word)
            }
            Head::Qualified(first) => {
                let (form, inputs) = qualified(words, first)?;
                self.read_fn(words, form, inputs, binders, below, word)
            }
            Head::Dyn(count) => {
                let bounds = self.read_bounds(words, count, binders, below)?;
                dyn_type(&mut self.maker, bounds, word)
            }
        }
    }

    /// The function pointer of that form, whose first word is that one and whose inputs follow, and then its output.
    fn read_fn<'a>(
        &mut self,
        words: &mut Words<'a>,
        form: FnForm,
        inputs: Inputs,
        binders: Binders,
        depth: u16,
        word: &'a str,
    ) -> Result<Ty, Fault<'a>>
    {
        let binders = binders.under(form.bound);
        self.numbering.enter()?;
        let list = self.read_args(words, Arguments::types(inputs.count), binders, depth)?;
        let output = self.read_type(words, binders, depth)?;
        let bound = self.numbering.leave(binders);
        fn_pointer(
            &mut self.maker,
            form.with(Qualifier::For(bound)),
            inputs.is_variadic,
            list,
            output,
            word,
        )
    }

    /// The region of a reference: the next word, if it names one, and else the static region.
    fn read_borrowed<'a>(
        &mut self,
        words: &mut Words<'a>,
        binders: Binders,
    ) -> Result<Region, Fault<'a>>
    {
        match words.next_if(b'\'') {
            Some(word) => self.region(word, binders),
            None => Ok(self.maker.static_region()?),
        }
    }

    /// The region that the word names under these binders. `Fault::NoRegion` comes where it names none.
    fn region<'a>(&mut self, word: &'a str, binders: Binders) -> Result<Region, Fault<'a>>
    {
        match region_in(word, binders)? {
            Some(kind) => {
                let kind = self.numbering.number(kind, binders);
                Ok(self.maker.mk_region(kind)?)
            }
            None => Err(Fault::NoRegion(word)),
        }
    }

    /// The next arguments of a line, under these binders.
    pub fn read_args<'a>(
        &mut self,
        words: &mut Words<'a>,
        arguments: Arguments,
        binders: Binders,
        depth: u16,
    ) -> Result<Vec<GenericArg>, Fault<'a>>
    {
        let count = arguments.count();
        let mut list = Vec::with_capacity(self.alloc, (count as usize).min(FEW_TYPES))?;
        for place in 0..count {
            list.push(self.read_arg(words, arguments.kind(place), binders, depth)?)?;
        }
        Ok(list)
    }

    /// The next argument of a line, of that kind.
    fn read_arg<'a>(
        &mut self,
        words: &mut Words<'a>,
        kind: VarKind,
        binders: Binders,
        depth: u16,
    ) -> Result<GenericArg, Fault<'a>>
    {
        match kind {
            VarKind::Ty => Ok(GenericArg::Ty(self.read_type(words, binders, depth)?)),
            VarKind::Const => {
                let word = words.word()?;
                let Some(named) = constant_in(word, word)? else {
                    return Err(Fault::NoConstant(word));
                };
                Ok(GenericArg::Const(make_constant(&mut self.maker, named)?))
            }
            VarKind::Region => {
                let word = words.word()?;
                Ok(GenericArg::Region(self.region(word, binders)?))
            }
        }
    }

    /// The next so many bounds of a line, of which at most one is a principal: each once and in order. Where words are passed over, none.
    fn read_bounds<'a>(
        &mut self,
        words: &mut Words<'a>,
        count: u16,
        binders: Binders,
        depth: u16,
    ) -> Result<Vec<Binder<ExistentialPredicate>>, Fault<'a>>
    {
        let begun = self.pass_bounds(words, count, binders.passed(), depth)?;
        let mut list = Vec::new(self.alloc);
        if binders.is_passed() {
            return Ok(list);
        }
        let mut has_principal = false;
        for begin in begun {
            let mut words = begin.words;
            let bound = self.read_bound(&mut words, has_principal, binders, depth)?;
            if is_among(list.as_slice(), bound) {
                continue;
            }
            has_principal |= is_principal(bound);
            list.push(bound)?;
        }
        Ok(list)
    }

    /// Passes over the next so many bounds of a line: where each begins, in the order in which they stand in a type.
    fn pass_bounds<'a>(
        &mut self,
        words: &mut Words<'a>,
        count: u16,
        binders: Binders,
        depth: u16,
    ) -> Result<Vec<Begun<'a>>, Fault<'a>>
    {
        let mut begun = Vec::new(self.alloc);
        let mut has_principal = false;
        for before in 0..count {
            let begin = *words;
            let bound = self.read_bound(words, has_principal, binders, depth)?;
            has_principal |= is_principal(bound);
            begun.push(Begun {
                place: place_of(bound, before),
                words: begin,
            })?;
        }
        begun.sort_unstable_by_key(|begin| begin.place);
        Ok(begun)
    }

    /// The next bound of a line. `Fault::TwoPrincipals` comes at a principal after another.
    fn read_bound<'a>(
        &mut self,
        words: &mut Words<'a>,
        has_principal: bool,
        binders: Binders,
        depth: u16,
    ) -> Result<Binder<ExistentialPredicate>, Fault<'a>>
    {
        let (bound, name) = next_bound(words)?;
        let binders = binders.under(bound);
        match self.bound_head(name, has_principal)? {
            BoundHead::AutoTrait(id) => auto_bound(&mut self.maker, id),
            BoundHead::Trait(id, parameters) => {
                let arguments = Arguments {
                    has_self: false,
                    parameters,
                };
                self.numbering.enter()?;
                let list = self.read_args(words, arguments, binders, depth)?;
                let bound = self.numbering.leave(binders);
                trait_bound(&mut self.maker, bound, id, list)
            }
            BoundHead::Projection(id, parameters) => {
                let arguments = Arguments {
                    has_self: false,
                    parameters,
                };
                self.numbering.enter()?;
                let list = self.read_args(words, arguments, binders, depth)?;
                let term = self.read_type(words, binders, depth)?;
                let bound = self.numbering.leave(binders);
                projection_bound(&mut self.maker, bound, id, list, term)
            }
        }
    }

    /// The next trait of a line, with its arguments. Its errors are those of its types.
    pub fn read_trait_ref<'a>(&mut self, words: &mut Words<'a>) -> Result<TraitRef, Fault<'a>>
    {
        let word = words.word()?;
        let found = self.names.named(word)?;
        self.read_arguments(words, found, Binders::none(), word)
    }

    /// The arguments of the trait, which was the word before, under these binders.
    fn read_arguments<'a>(
        &mut self,
        words: &mut Words<'a>,
        found: NamedTrait,
        binders: Binders,
        word: &'a str,
    ) -> Result<TraitRef, Fault<'a>>
    {
        let arguments = Arguments {
            has_self: true,
            parameters: found.parameters,
        };
        let list = self.read_args(words, arguments, binders, MAX_DEPTH)?;
        let args = self.maker.args(list)?;
        let trait_ref = TraitRef {
            def_id: found.id,
            args,
        };
        if !self.maker.reference_fits(trait_ref) {
            return Err(Fault::UnknownName(word));
        }
        Ok(trait_ref)
    }

    /// The next word, what it makes of the words that follow, and how deep these may be nested.
    ///
    /// Besides the faults of the word, `Fault::Stop` comes where it is nested deeper.
    fn next_head<'a>(
        &self,
        words: &mut Words<'a>,
        depth: u16,
    ) -> Result<(&'a str, Head, u16), Fault<'a>>
    {
        let word = words.word()?;
        let Some(below) = depth.checked_sub(1) else {
            return Err(Fault::Stop(Stop::NodesFull));
        };
        Ok((word, self.head(word)?, below))
    }

    /// What the first word of a type makes of the words that follow.
    fn head<'a>(&self, word: &'a str) -> Result<Head, Fault<'a>>
    {
        match head_of(word)? {
            Some(head) => Ok(head),
            None => self.named_head(word),
        }
    }

    /// What the name of a type makes of the words that follow.
    fn named_head<'a>(&self, name: &'a str) -> Result<Head, Fault<'a>>
    {
        match self.names.item(name)? {
            Item::Adt(id, parameters) => Ok(over(Constructor::Adt(id), false, parameters)),
            Item::Foreign(id) => Ok(Head::Leaf(TyKind::Foreign(id))),
            Item::Assoc(id, parameters) => Ok(over(Constructor::Projection(id), true, parameters)),
            Item::Opaque(id, parameters) => Ok(over(Constructor::Opaque(id), false, parameters)),
            Item::Trait(_) | Item::Impl(_) => Err(Fault::UnknownName(name)),
        }
    }

    /// What the name says of the bound that it begins. `Fault::TwoPrincipals` comes at a principal after another.
    fn bound_head<'a>(&self, name: &'a str, has_principal: bool) -> Result<BoundHead, Fault<'a>>
    {
        match self.names.item(name)? {
            Item::Trait(found) if found.is_auto => Ok(BoundHead::AutoTrait(found.id)),
            Item::Trait(_) if has_principal => Err(Fault::TwoPrincipals),
            Item::Trait(found) => Ok(BoundHead::Trait(found.id, found.parameters)),
            Item::Assoc(id, parameters) => Ok(BoundHead::Projection(id, parameters)),
            _ => Err(Fault::UnknownName(name)),
        }
    }
}

/// What the name of a constructor makes of the words that follow.
fn over(constructor: Constructor, has_self: bool, parameters: Parameters) -> Head
{
    Head::Over(
        constructor,
        Arguments {
            has_self,
            parameters,
        },
    )
}

/// The next word, before which a binder may stand, and how many regions that binds.
///
/// Its errors are `Fault::ShortLine`, and `Fault::BadNumber` where they are too many.
fn next_bound<'a>(words: &mut Words<'a>) -> Result<(u16, &'a str), Fault<'a>> {
    let word = words.word()?;
    match bound_by(word)? {
        Some(bound) => Ok((bound, words.word()?)),
        None => Ok((0, word)),
    }
}

/// The form and the inputs of a function pointer whose first word says that: the words are read up to the one that tells its inputs.
///
/// Besides the faults of the words, `Fault::UnknownName` comes at another one.
fn qualified<'a>(words: &mut Words<'a>, first: Qualifier) -> Result<(FnForm, Inputs), Fault<'a>> {
    let mut form = FnForm::plain().with(first);
    for _ in 0..u64::MAX {
        let word = words.word()?;
        match head_of(word)? {
            Some(Head::Qualified(qualifier)) => form = form.with(qualifier),
            Some(Head::Fn(inputs)) => return Ok((form, inputs)),
            _ => return Err(Fault::UnknownName(word)),
        }
    }
    Err(Fault::ShortLine)
}

impl<'a> Scope<'a, Draft> {
    /// The next clause of a line: a trait with its arguments, or an associated type with those of its trait, and the type that it is. A
    /// binder may stand before it.
    ///
    /// `Fault::UnknownName` comes where the first word is neither's name. Its other errors are those of its types.
    pub fn read_clause(&mut self, words: &mut Words<'a>) -> Result<Clause, Fault<'a>>
    {
        let (bound, word) = next_bound(words)?;
        let binders = Binders::none().under(bound);
        match self.names.item(word)? {
            Item::Trait(found) => {
                self.numbering.enter()?;
                let trait_ref = self.read_arguments(words, found, binders, word)?;
                let bound = self.numbering.leave(binders);
                trait_clause(&mut self.maker, bound, trait_ref)
            }
            Item::Assoc(id, parameters) => {
                let arguments = Arguments {
                    has_self: true,
                    parameters,
                };
                self.numbering.enter()?;
                let list = self.read_args(words, arguments, binders, MAX_DEPTH)?;
                let term = self.read_type(words, binders, MAX_DEPTH)?;
                let bound = self.numbering.leave(binders);
                projection_clause(&mut self.maker, bound, id, list, term)
            }
            _ => Err(Fault::UnknownName(word)),
        }
    }
}

impl Scope<'_, Cx> {
    /// Adds the type to the text, as it is read; of one with too many words the first ones alone, and `..`.
    ///
    /// What no word stands for is `?`; none is met, since a text has no such types. Besides
    /// `Stop::Memory`, `Stop::NodesFull` comes where types are nested deeper. The text may have part
    /// of the type then.
    pub fn print_type(&self, ty: Ty, depth: u16, text: &mut String) -> Result<(), Stop>
    {
        if has_few_words(self.alloc, &self.maker, ty)? {
            return self.spell_type(ty, depth, text);
        }
        self.print_head(self.maker.kind(ty), text)?;
        Ok(text.push_str(" ..")?)
    }

    /// Adds each argument of the list, after a space. It stops as `print_type` does.
    pub fn print_types(&self, args: Args, depth: u16, text: &mut String) -> Result<(), Stop>
    {
        for arg in self.maker.args(args) {
            self.print_arg(*arg, depth, text)?;
        }
        Ok(())
    }

    /// Adds a space and the argument.
    fn print_arg(&self, arg: GenericArg, depth: u16, text: &mut String) -> Result<(), Stop>
    {
        text.push(' ')?;
        match arg {
            GenericArg::Ty(ty) => self.print_type(ty, depth, text),
            GenericArg::Const(constant) => self.print_constant(constant, text),
            GenericArg::Region(region) => self.print_region(region, text),
        }
    }

    /// Adds the reference: its trait, and then its arguments. It stops as `print_type` does.
    pub fn print_reference(&self, of: TraitRef, depth: u16, text: &mut String) -> Result<(), Stop>
    {
        self.print_name(of.def_id.0, text)?;
        self.print_types(of.args, depth, text)
    }

    /// Adds the type with all of its words.
    fn spell_type(&self, ty: Ty, depth: u16, text: &mut String) -> Result<(), Stop>
    {
        let Some(below) = depth.checked_sub(1) else {
            return Err(Stop::NodesFull);
        };
        let kind = self.maker.kind(ty);
        self.print_head(kind, text)?;
        match kind {
            TyKind::Ref(region, target, _) => {
                self.print_borrowed(region, text)?;
                self.spell_next(target, below, text)
            }
            TyKind::RawPtr(target, _) => self.spell_next(target, below, text),
            TyKind::Slice(target) => self.spell_next(target, below, text),
            TyKind::Array(target, _) => self.spell_next(target, below, text),
            TyKind::Tuple(args) => self.spell_types(args, below, text),
            TyKind::Adt(_, args) => self.spell_types(args, below, text),
            TyKind::Alias(alias) => self.spell_types(alias.args, below, text),
            TyKind::FnPtr(sig) => {
                self.spell_types(sig.value.inputs, below, text)?;
                self.spell_next(sig.value.output, below, text)
            }
            TyKind::Dynamic(preds, _) => self.spell_bounds(preds, below, text),
            _ => Ok(()),
        }
    }

    /// Adds a space and the type.
    fn spell_next(&self, ty: Ty, depth: u16, text: &mut String) -> Result<(), Stop>
    {
        text.push(' ')?;
        self.spell_type(ty, depth, text)
    }

    /// Adds each argument of the list, after a space.
    fn spell_types(&self, args: Args, depth: u16, text: &mut String) -> Result<(), Stop>
    {
        for arg in self.maker.args(args) {
            self.spell_arg(*arg, depth, text)?;
        }
        Ok(())
    }

    /// Adds a space and the argument.
    fn spell_arg(&self, arg: GenericArg, depth: u16, text: &mut String) -> Result<(), Stop>
    {
        text.push(' ')?;
        match arg {
            GenericArg::Ty(ty) => self.spell_type(ty, depth, text),
            GenericArg::Const(constant) => self.print_constant(constant, text),
            GenericArg::Region(region) => self.print_region(region, text),
        }
    }

    /// Adds each bound of the list, after a space.
    fn spell_bounds(&self, preds: Preds, depth: u16, text: &mut String) -> Result<(), Stop>
    {
        for pred in self.maker.preds(preds) {
            self.spell_bound(self.maker.pred(*pred), depth, text)?;
        }
        Ok(())
    }

    /// Adds a space and the bound.
    fn spell_bound(
        &self,
        pred: Binder<ExistentialPredicate>,
        depth: u16,
        text: &mut String,
    ) -> Result<(), Stop>
    {
        text.push(' ')?;
        self.print_binder(pred.vars, text)?;
        self.print_bound_name(pred.value, text)?;
        match pred.value {
            ExistentialPredicate::Trait(trait_ref) => self.spell_types(trait_ref.args, depth, text),
            ExistentialPredicate::Projection(projection) => {
                self.spell_types(projection.args, depth, text)?;
                self.spell_next(projection.term, depth, text)
            }
            ExistentialPredicate::AutoTrait(_) => Ok(()),
        }
    }

    /// Adds what stands before the types in a type of that kind.
    fn print_head(&self, kind: TyKind, text: &mut String) -> Result<(), Stop>
    {
        match kind {
            TyKind::Tuple(args) => print_count("", self.maker.args(args).len(), text),
            TyKind::FnPtr(sig) => {
                self.print_binder(sig.vars, text)?;
                print_fn(sig.value, self.maker.args(sig.value.inputs).len(), text)
            }
            TyKind::Array(_, length) => self.print_length(length, text),
            TyKind::Dynamic(preds, _) => print_count("dyn", self.maker.preds(preds).len(), text),
            TyKind::Adt(id, _) => self.print_name(id.0, text),
            TyKind::Foreign(id) => self.print_name(id.0, text),
            TyKind::Alias(alias) => self.print_name(alias.id.0, text),
            _ => print_word(kind, text),
        }
    }

    /// Adds the length of an array, in its brackets.
    fn print_length(&self, length: Const, text: &mut String) -> Result<(), Stop>
    {
        text.push('[')?;
        self.print_constant(length, text)?;
        text.push(']')?;
        Ok(())
    }

    /// Adds the constant, as it is read.
    fn print_constant(&self, constant: Const, text: &mut String) -> Result<(), Stop>
    {
        match self.maker.const_kind(constant) {
            ConstKind::Value(number) => print_number("", number, text),
            ConstKind::Param(index) => print_number("#", u64::from(index), text),
            ConstKind::Infer(number) => print_number("$", u64::from(number), text),
            ConstKind::Placeholder(Placeholder { universe: 0, index }) => {
                print_number("!", u64::from(index), text)
            }
            ConstKind::Error => Ok(text.push_str("error")?),
            _ => Ok(text.push_str(UNSPELLED)?),
        }
    }

    /// Adds the region of a reference after a space, but for the static one.
    fn print_borrowed(&self, region: Region, text: &mut String) -> Result<(), Stop>
    {
        if matches!(self.maker.region_kind(region), RegionKind::Static) {
            return Ok(());
        }
        text.push(' ')?;
        self.print_region(region, text)
    }

    /// Adds the region, as it is read, and what no word stands for as `'?`.
    fn print_region(&self, region: Region, text: &mut String) -> Result<(), Stop>
    {
        match self.maker.region_kind(region) {
            RegionKind::Static => Ok(text.push_str("'static")?),
            RegionKind::Bound(BoundVar { depth: 0, index }) => {
                print_number("'", u64::from(index), text)
            }
            RegionKind::Bound(BoundVar { depth, index }) => {
                print_number("'", u64::from(depth), text)?;
                print_number(".", u64::from(index), text)
            }
            RegionKind::Placeholder(Placeholder { universe: 0, index }) => {
                print_number("'!", u64::from(index), text)
            }
            RegionKind::Var(number) => print_number("'$", u64::from(number), text),
            _ => Ok(text.push_str("'?")?),
        }
    }

    /// Adds the binder and a space, if it binds anything.
    fn print_binder(&self, vars: Vars, text: &mut String) -> Result<(), Stop>
    {
        let count = self.maker.vars(vars).len();
        if count > 0 {
            print_count("for", count, text)?;
            text.push(' ')?;
        }
        Ok(())
    }

    /// Adds the name that begins the bound.
    fn print_bound_name(&self, bound: ExistentialPredicate, text: &mut String) -> Result<(), Stop>
    {
        let number = match bound {
            ExistentialPredicate::Trait(trait_ref) => trait_ref.def_id.0,
            ExistentialPredicate::Projection(projection) => projection.def_id.0,
            ExistentialPredicate::AutoTrait(id) => id.0,
        };
        self.print_name(number, text)
    }

    /// Adds the name of the definition of that number.
    fn print_name(&self, number: u32, text: &mut String) -> Result<(), Stop>
    {
        text.push_str(self.names.definition(number).unwrap_or(UNSPELLED))?;
        Ok(())
    }
}

fn is_principal(bound: Binder<ExistentialPredicate>) -> bool
{
    matches!(bound.value, ExistentialPredicate::Trait(_))
}

/// Adds how a function pointer of that signature is, and how many inputs it has.
fn print_fn(sig: FnSig, count: usize, text: &mut String) -> Result<(), Stop>
{
    if !sig.safe {
        text.push_str("unsafe ")?;
    }
    if !sig.rust_abi {
        text.push_str("extern ")?;
    }
    print_number("fn(", count as u64, text)?;
    text.push_str(if sig.variadic { "..)" } else { ")" })?;
    Ok(())
}

/// Adds how many members there are, in brackets after the word.
fn print_count(word: &str, count: usize, text: &mut String) -> Result<(), Stop>
{
    text.push_str(word)?;
    print_number("(", count as u64, text)?;
    text.push(')')?;
    Ok(())
}

/// Adds the mark and then the number.
fn print_number(mark: &str, number: u64, text: &mut String) -> Result<(), Stop>
{
    text.push_str(mark)?;
    text.push_str(kit::itoa::Buffer::new().format(number))?;
    Ok(())
}

/// Adds the word that a type of that kind begins with, if it is no name.
fn print_word(kind: TyKind, text: &mut String) -> Result<(), Stop>
{
    match kind {
        TyKind::Infer(InferTy::TyVar(number)) => print_number("$", u64::from(number), text),
        TyKind::Param(index) => print_number("#", u64::from(index), text),
        TyKind::Placeholder(Placeholder { universe: 0, index }) => {
            print_number("!", u64::from(index), text)
        }
        _ => Ok(text.push_str(word_of(kind).unwrap_or(UNSPELLED))?),
    }
}
