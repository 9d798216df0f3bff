// Made of `crates/ir_builder/src/decl/builder.rt` by `bench/plain.py`: an edit of this file is lost.

//! The builder of declarations.


use kit::{eprintln, format, prelude::*, print, println, vec};
pub use ir_context::decl::finished::Decls;
use ir_context::decl::make::Build;
use ir_trees::decl::contents::{
    AdtContents, AliasBoundKind, AssocValue, Bounds, Contents, Destructor, Impl, ImplId,
    ImplPolarity, LangItem, Sizedness, TraitContents, adt_place, bounds_place, trait_place,
};
use ir_trees::decl::definition::{
    AdtFlags, AdtShape, AliasShape, AssocKind, CrateId, Declaration, DefinitionKind, FnFlags,
    Parameters, TraitFlags,
};
pub use ir_trees::decl::fault::DeclFault;
use ir_trees::decl::limits::Limits;
use ir_trees::ir::at::at;
use ir_trees::ir::heads::Head;
use ir_trees::ir::kinds::{
    AdtId, AliasId, Args, AssocId, Binder, Clause, ClosureId, FnId, FnSig, ForeignId, GenericArg,
    TraitId, TraitRef, Ty, VarKind,
};
use ir_trees::ir::making::New;
use ir_trees::ir::nodes::Nodes;
use ir_trees::ir::stop::Stop;
use ir_trees::ir::trees::Trees;
use kit::alloc::{AllocError, Global};
use kit::marker::Model;

/// A crate that no builder gives, so that `finish` refuses what is of it.
const NO_CRATE: CrateId = CrateId(u32::MAX);

/// Takes declarations one after the other. A call that is refused leaves it as it was.
#[derive(Debug)]
pub struct DeclsBuilder {
    pub(crate) crates: u32,
    pub(crate) local: CrateId,
    pub(crate) limits: Limits,
    pub(crate) definitions: Vec<Declaration>,
    pub(crate) contents: Contents,
    pub(crate) nodes: Nodes,
}

impl Model for DeclsBuilder {




}

impl DeclsBuilder {
    /// A builder without declarations. Crate 0 is the local one until another is set, and the limits are those of `Limits::new`.
    pub fn new(alloc: Global) -> Self
    {
        DeclsBuilder::with_seed(alloc, 0)
    }

    /// A builder without declarations, as `new` makes it, with a seed for the hashes of nodes. Where others pick what is declared
    /// or asked, it is to be random: who knows it can pick nodes that are slow to find. No answer depends on it.
    pub fn with_seed(alloc: Global, seed: u64) -> Self
    {
        DeclsBuilder {
            crates: 0,
            local: CrateId(0),
            limits: Limits::new(),
            definitions: Vec::new(alloc),
            contents: Contents::new(alloc),
            nodes: Nodes::with_seed(alloc, seed),
        }
    }

    /// Adds a crate, with the next number.
    ///
    /// The only error is `DeclFault::Memory`, which comes where no number is left.
    pub fn add_crate(&mut self) -> Result<CrateId, DeclFault>
    {
        let number = self.crates;
        if number == u32::MAX {
            return Err(DeclFault::Memory);
        }
        self.crates = number + 1;
        Ok(CrateId(number))
    }

    /// Makes the crate the local one.
    pub fn set_local(&mut self, local: CrateId)
    {
        self.local = local;
    }

    /// Sets where walks end; of several calls the last one counts. A limit of 0 is a fault of `finish`.
    pub fn set_limits(&mut self, limits: Limits)
    {
        self.limits = limits;
    }

    /// Declares an algebraic data type of the crate, with parameters of these kinds.
    ///
    /// The number is the next one of all definitions. A crate that was never added is a fault of
    /// `finish`. The only error is `DeclFault::Memory`, where a growth is refused or no number is
    /// left; the builder is then as before.
    pub fn add_adt(
        &mut self,
        krate: CrateId,
        shape: AdtShape,
        parameters: &[VarKind],
        flags: AdtFlags,
    ) -> Result<AdtId, DeclFault>
    {
        let alloc = *self.definitions.allocator();
        let place = next_number(&mut self.contents.adts)?;
        let kind = DefinitionKind::Adt(shape, flags, place);
        let number = add(&mut self.definitions, krate, parameters, kind)?;
        self.contents.adts.push_reserved(AdtContents::new(alloc));
        Ok(AdtId(number))
    }

    /// Declares a trait of the crate, with parameters of these kinds after `Self`.
    ///
    /// Its number and its error are those of `add_adt`.
    pub fn add_trait(
        &mut self,
        krate: CrateId,
        parameters: &[VarKind],
        flags: TraitFlags,
    ) -> Result<TraitId, DeclFault>
    {
        let alloc = *self.definitions.allocator();
        let place = next_number(&mut self.contents.traits)?;
        let kind = DefinitionKind::Trait(flags, place);
        let number = add(&mut self.definitions, krate, parameters, kind)?;
        self.contents
            .traits
            .push_reserved(TraitContents::new(alloc));
        Ok(TraitId(number))
    }

    /// Declares a foreign type of the crate, which has no parameters.
    ///
    /// Its number and its error are those of `add_adt`.
    pub fn add_foreign(&mut self, krate: CrateId) -> Result<ForeignId, DeclFault>
    {
        Ok(ForeignId(add(&mut self.definitions, krate, &[], DefinitionKind::Foreign)?))
    }

    /// Declares an associated item of the trait, whose crate and parameters it has.
    ///
    /// A number that isn't that of a trait declared before is `UnknownId` at `finish`. Its number and
    /// its error are those of `add_adt`.
    pub fn add_assoc(
        &mut self,
        of: TraitId,
        kind: AssocKind,
        requires_sized_self: bool,
    ) -> Result<AssocId, DeclFault>
    {
        let alloc = *self.definitions.allocator();
        let number = next_number(&mut self.definitions)?;
        let place = next_number(&mut self.contents.bounds)?;
        let definitions = self.definitions.as_slice();
        let trait_place = trait_place(definitions, of);
        let (krate, parameters) = of_trait(alloc, definitions, of)?;
        enter_item(&mut self.contents.traits, trait_place, AssocId(number))?;
        self.contents.bounds.push_reserved(Bounds::new(alloc));
        self.definitions.push_reserved(Declaration {
            krate,
            parameters,
            kind: DefinitionKind::Assoc(of, kind, requires_sized_self, place),
        });
        Ok(AssocId(number))
    }

    /// Declares an alias of a type of the crate, inherent or free, with parameters of these kinds; of an
    /// inherent one the parameters are those of its impl and its own.
    ///
    /// Its number and its error are those of `add_adt`.
    pub fn add_alias(
        &mut self,
        krate: CrateId,
        shape: AliasShape,
        parameters: &[VarKind],
    ) -> Result<AliasId, DeclFault>
    {
        let kind = DefinitionKind::Alias(shape);
        Ok(AliasId(add(&mut self.definitions, krate, parameters, kind)?))
    }

    /// Declares an opaque type of the crate, with parameters of these kinds, and the type that it hides.
    ///
    /// Its number and its error are those of `add_adt`.
    pub fn add_opaque(
        &mut self,
        krate: CrateId,
        parameters: &[VarKind],
        hidden: Ty,
    ) -> Result<AliasId, DeclFault>
    {
        let alloc = *self.definitions.allocator();
        let place = next_number(&mut self.contents.bounds)?;
        let kind = DefinitionKind::Opaque(hidden, place);
        let number = add(&mut self.definitions, krate, parameters, kind)?;
        self.contents.bounds.push_reserved(Bounds::new(alloc));
        Ok(AliasId(number))
    }

    /// Declares a function of the crate, with parameters of these kinds and this signature.
    ///
    /// Its number and its error are those of `add_adt`.
    pub fn add_fn(
        &mut self,
        krate: CrateId,
        parameters: &[VarKind],
        flags: FnFlags,
        sig: Binder<FnSig>,
    ) -> Result<FnId, DeclFault>
    {
        let kind = DefinitionKind::Function(flags, sig);
        Ok(FnId(add(&mut self.definitions, krate, parameters, kind)?))
    }

    /// Declares a closure of the crate, with parameters of these kinds, those of what it stands in, and
    /// whether it can be called where a constant is computed.
    ///
    /// Its number and its error are those of `add_adt`.
    pub fn add_closure(
        &mut self,
        krate: CrateId,
        parameters: &[VarKind],
        is_const: bool,
    ) -> Result<ClosureId, DeclFault>
    {
        let kind = DefinitionKind::Closure(is_const);
        Ok(ClosureId(add(&mut self.definitions, krate, parameters, kind)?))
    }

    /// Declares an impl of the crate, with parameters of these kinds. It isn't `default` until it is made so.
    ///
    /// Its number is the next one of all impls. An impl of a trait that is declared after it is `UnknownId` at `finish`. Its
    /// error is that of `add_adt`.
    pub fn add_impl(
        &mut self,
        krate: CrateId,
        parameters: &[VarKind],
        trait_ref: TraitRef,
        polarity: ImplPolarity,
    ) -> Result<ImplId, DeclFault>
    {
        let alloc = *self.definitions.allocator();
        let number = next_number(&mut self.contents.impls)?;
        let trait_place = trait_place(self.definitions.as_slice(), trait_ref.def_id);
        let parameters = Parameters::of(alloc, parameters)?;
        enter_impl(&mut self.contents, trait_place, ImplId(number))?;
        self.contents
            .impls
            .push_reserved(Impl::new(alloc, krate, parameters, trait_ref, polarity));
        Ok(ImplId(number))
    }

    /// Gives an algebraic data type one more field, the last.
    ///
    /// The only error is `DeclFault::Memory`, where a growth is refused; the builder is then as before. The number of what is
    /// no such type is `UnknownId` at `finish`.
    pub fn push_field(&mut self, adt: AdtId, ty: Ty) -> Result<(), DeclFault>
    {
        let place = adt_place(self.definitions.as_slice(), adt);
        match self.contents.adts.get_mut(place) {
            Some(contents) => contents.fields.push(ty)?,
            None => self.contents.misnamed = true,
        }
        Ok(())
    }

    /// Says which type has to be sized, in this sense, for an algebraic data type to be; the last one said counts.
    ///
    /// The number of what is no such type is `UnknownId` at `finish`.
    pub fn set_constraint(&mut self, adt: AdtId, sizedness: Sizedness, ty: Ty)
    {
        let place = adt_place(self.definitions.as_slice(), adt);
        match self.contents.adts.get_mut(place) {
            Some(contents) => match sizedness {
                Sizedness::Sized => contents.sized = Some(ty),
                Sizedness::MetaSized => contents.meta_sized = Some(ty),
            },
            None => self.contents.misnamed = true,
        }
    }

    /// Gives an algebraic data type a destructor; the last one given counts.
    ///
    /// The number of what is no such type is `UnknownId` at `finish`.
    pub fn set_destructor(&mut self, adt: AdtId, destructor: Destructor)
    {
        let place = adt_place(self.definitions.as_slice(), adt);
        match self.contents.adts.get_mut(place) {
            Some(contents) => contents.destructor = Some(destructor),
            None => self.contents.misnamed = true,
        }
    }

    /// Says that the parameter of that number changes where an algebraic data type is unsized.
    ///
    /// Its errors are those of `push_field`.
    pub fn push_unsizing(&mut self, adt: AdtId, parameter: u32) -> Result<(), DeclFault>
    {
        let place = adt_place(self.definitions.as_slice(), adt);
        match self.contents.adts.get_mut(place) {
            Some(contents) => contents.unsizing.push(parameter)?,
            None => self.contents.misnamed = true,
        }
        Ok(())
    }

    /// Gives a trait one more super clause: what holds where the trait does.
    ///
    /// The only error is `DeclFault::Memory`, where a growth is refused; the builder is then as before. The number of what is
    /// no trait is `UnknownId` at `finish`.
    pub fn push_super(&mut self, of: TraitId, clause: Clause) -> Result<(), DeclFault>
    {
        let place = trait_place(self.definitions.as_slice(), of);
        match self.contents.traits.get_mut(place) {
            Some(contents) => contents.supers.push(clause)?,
            None => self.contents.misnamed = true,
        }
        Ok(())
    }

    /// Gives a trait one more where clause. Its errors are those of `push_super`.
    pub fn push_where(&mut self, of: TraitId, clause: Clause) -> Result<(), DeclFault>
    {
        let place = trait_place(self.definitions.as_slice(), of);
        match self.contents.traits.get_mut(place) {
            Some(contents) => contents.wheres.push(clause)?,
            None => self.contents.misnamed = true,
        }
        Ok(())
    }

    /// Gives an associated type or an opaque type one more bound.
    ///
    /// The only error is `DeclFault::Memory`, where a growth is refused; the builder is then as before. The number of what is
    /// neither is `UnknownId` at `finish`.
    pub fn push_bound(
        &mut self,
        alias: AliasId,
        kind: AliasBoundKind,
        clause: Clause,
    ) -> Result<(), DeclFault>
    {
        let place = bounds_place(self.definitions.as_slice(), alias);
        match self.contents.bounds.get_mut(place) {
            Some(bounds) => match kind {
                AliasBoundKind::SelfBounds => bounds.self_bounds.push(clause)?,
                AliasBoundKind::NonSelfBounds => bounds.non_self_bounds.push(clause)?,
            },
            None => self.contents.misnamed = true,
        }
        Ok(())
    }

    /// Gives an impl one more where clause.
    ///
    /// The only error is `DeclFault::Memory`, where a growth is refused; the builder is then as before. The number of what is
    /// no impl is `UnknownId` at `finish`.
    pub fn push_impl_where(&mut self, of: ImplId, clause: Clause) -> Result<(), DeclFault>
    {
        match self.contents.impls.get_mut(of.0 as usize) {
            Some(of) => of.wheres.push(clause)?,
            None => self.contents.misnamed = true,
        }
        Ok(())
    }

    /// Gives an impl one more clause that its trait's super clauses about regions ask for. Its errors are those of
    /// `push_impl_where`.
    pub fn push_super_outlives(&mut self, of: ImplId, clause: Clause) -> Result<(), DeclFault>
    {
        match self.contents.impls.get_mut(of.0 as usize) {
            Some(of) => of.super_outlives.push(clause)?,
            None => self.contents.misnamed = true,
        }
        Ok(())
    }

    /// Makes an impl `default`. The number of what is no impl is `UnknownId` at `finish`.
    pub fn set_default(&mut self, of: ImplId)
    {
        match self.contents.impls.get_mut(of.0 as usize) {
            Some(of) => of.is_default = true,
            None => self.contents.misnamed = true,
        }
    }

    /// Says that one impl specialises another, which may be declared later. Its errors are those of `push_impl_where`.
    pub fn specializes(&mut self, of: ImplId, other: ImplId) -> Result<(), DeclFault>
    {
        match self.contents.impls.get_mut(of.0 as usize) {
            Some(of) => of.specializes.push(other)?,
            None => self.contents.misnamed = true,
        }
        Ok(())
    }

    /// Says what an associated type of the impl's trait is: where the impl's parameters have arguments, the type that they make of
    /// this one. Its errors are those of `push_impl_where`.
    ///
    /// What is no type among the items of the impl's trait, and a second type for one, is `WrongKind` at `finish`.
    pub fn push_assoc_value(&mut self, of: ImplId, assoc: AssocId, ty: Ty) -> Result<(), DeclFault>
    {
        match self.contents.impls.get_mut(of.0 as usize) {
            Some(of) => of.values.push(AssocValue { assoc, ty })?,
            None => self.contents.misnamed = true,
        }
        Ok(())
    }

    /// Makes a trait a lang item; of two traits the last one counts.
    pub fn lang_item(&mut self, item: LangItem, of: TraitId)
    {
        self.contents.lang_items[item.number()] = Some(of);
    }

    /// How many numbers of nodes are given.
    pub fn node_count(&self) -> usize
    {
        self.nodes.len()
    }

    /// The head of a number's tree.
    pub fn head(&self, number: u32) -> Head
    {
        self.nodes.head(number)
    }

    /// Makes a list of arguments as `mk_args` does, of a list that the builder keeps.
    pub fn mk_arg_list(&mut self, list: Vec<GenericArg>) -> Result<Args, Stop>
    {
        self.nodes.mk_arg_list(list)
    }
}

/// What is made may have arguments of any number and kinds until `finish`.
impl Build for DeclsBuilder {




    #[inline(always)]
    fn make(&mut self, new: New<'_>) -> Result<u32, Stop> {
        let made = self.nodes.make(new);
        self.nodes.recall_distinct();
        made
    }
}

/// The number of what comes after so many.
fn numbered(count: usize) -> Result<u32, DeclFault>
{
    if count > u32::MAX as usize {
        return Err(DeclFault::Memory);
    }
    Ok(count as u32)
}

/// The number of the next one in the list, which has room for it then.
fn next_number<T: Drop>(list: &mut Vec<T>) -> Result<u32, DeclFault>
{
    let number = numbered(list.len())?;
    list.reserve(1)?;
    Ok(number)
}

/// The crate and the parameters of a trait, which are those of its items.
fn of_trait(
    alloc: Global,
    definitions: &[Declaration],
    of: TraitId,
) -> Result<(CrateId, Parameters), AllocError>
{
    match at(definitions, of.0 as usize) {
        Some(declaration) => Ok((declaration.krate, declaration.parameters.copied(alloc)?)),
        None => Ok((NO_CRATE, Parameters::none())),
    }
}

/// Enters an associated item with the trait in that place, if there is one.
fn enter_item(traits: &mut Vec<TraitContents>, place: usize, item: AssocId) -> Result<(), DeclFault>
{
    if let Some(of) = traits.get_mut(place) {
        of.items.push(item)?;
    }
    Ok(())
}

/// Enters an impl with the trait in that place; where there is none, that trait was misnamed.
fn enter_impl(contents: &mut Contents, place: usize, impl_id: ImplId) -> Result<(), DeclFault>
{
    match contents.traits.get_mut(place) {
        Some(of) => of.impls.push(impl_id)?,
        None => contents.misnamed = true,
    }
    Ok(())
}

/// Adds a definition, with the next number.
fn add(
    definitions: &mut Vec<Declaration>,
    krate: CrateId,
    parameters: &[VarKind],
    kind: DefinitionKind,
) -> Result<u32, DeclFault>
{
    let number = next_number(definitions)?;
    let parameters = Parameters::of(*definitions.allocator(), parameters)?;
    definitions.push_reserved(Declaration {
        krate,
        parameters,
        kind,
    });
    Ok(number)
}
