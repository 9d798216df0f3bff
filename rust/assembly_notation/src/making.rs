// Made of `crates/assembly_notation/src/making.rt` by `bench/plain.py`: an edit of this file is lost.

//! What the types of a text are made in: declarations that go on, or a context over them.


use kit::{eprintln, format, prelude::*, print, println, vec};
use crate::faults::Fault;
use crate::first::{first_type, no_arguments, static_region};
use crate::given::Given;
use ir_builder::decl::builder::DeclsBuilder;
use ir_context::decl::context::Cx;
use ir_context::decl::make::Build;
use ir_trees::ir::kinds::{
    Args, Binder, ExistentialPredicate, GenericArg, InferTy, Preds, Region, RegionKind, TraitRef,
    Ty, TyKind,
};
use ir_trees::ir::making::New;
use ir_trees::ir::stop::Stop;

/// What types can be made in. Where the arguments of what is made have to be those that it takes (`is_strict`), what is read is
/// asked about: no parameter stands in it, and its arguments fit.
pub trait Maker: Build {
    // Whether the type that was made last is an alias, if that is noted.

    /// What is wrong with a type of that kind, which a word alone is: it is a parameter, a variable or an error where none may stand.
    fn misplaced<'a>(&self, kind: TyKind) -> Option<Fault<'a>>
        ;

    /// The type of that kind, which the word begins. Besides `Fault::Stop`, `Fault::UnknownName` comes where a context's
    /// definitions don't take its arguments.
    fn ty<'a>(&mut self, kind: TyKind, word: &'a str) -> Result<Ty, Fault<'a>>
        ;

    /// The type of that kind, which a word alone is. Its faults are those of `ty`.
    fn leaf<'a>(&mut self, kind: TyKind, word: &'a str) -> Result<Ty, Fault<'a>>
        ;

    /// The static region.
    fn static_region(&mut self) -> Result<Region, Stop>
        ;

    /// The list of these arguments.
    fn args(&mut self, list: Vec<GenericArg>) -> Result<Args, Stop>
        ;

    /// The bounds of a `dyn` type, which the word begins. Its faults are those of `ty`.
    fn bounds<'a>(
        &mut self,
        bounds: &[Binder<ExistentialPredicate>],
        word: &'a str,
    ) -> Result<Preds, Fault<'a>>
        ;

    /// Whether the trait takes these arguments, as far as that is asked here.
    fn reference_fits(&self, trait_ref: TraitRef) -> bool
        ;
}

/// A context, where a query is read: variables may stand, and no parameters.
impl Maker for Cx {

    fn misplaced<'a>(&self, kind: TyKind) -> Option<Fault<'a>> {
        match kind {
            TyKind::Param(_) => Some(Fault::Parameter),
            _ => None,
        }
    }

    fn ty<'a>(&mut self, kind: TyKind, word: &'a str) -> Result<Ty, Fault<'a>> {
        if !self.args_fit(kind) {
            return Err(Fault::UnknownName(word));
        }
        Ok(self.mk_ty(kind)?)
    }

    fn leaf<'a>(&mut self, kind: TyKind, word: &'a str) -> Result<Ty, Fault<'a>> {
        match first_type(self, kind) {
            Some(ty) => Ok(ty),
            None => self.ty(kind, word),
        }
    }

    fn static_region(&mut self) -> Result<Region, Stop> {
        match static_region(self) {
            Some(region) => Ok(region),
            None => self.mk_region(RegionKind::Static),
        }
    }

    fn args(&mut self, list: Vec<GenericArg>) -> Result<Args, Stop> {
        if list.is_empty() {
            if let Some(args) = no_arguments(self) {
                return Ok(args);
            }
        }
        self.mk_arg_list(list)
    }

    fn bounds<'a>(
        &mut self,
        bounds: &[Binder<ExistentialPredicate>],
        word: &'a str,
    ) -> Result<Preds, Fault<'a>> {
        if !self.bounds_args_fit(bounds) {
            return Err(Fault::UnknownName(word));
        }
        Ok(self.mk_preds(bounds)?)
    }

    fn reference_fits(&self, trait_ref: TraitRef) -> bool {
        self.trait_ref_args_fit(trait_ref)
    }
}

/// Declarations that go on, with what goals are to be asked under, and what a line of them may hold.
#[derive(Debug)]
pub struct Draft {
    pub builder: DeclsBuilder,
    pub given: Given,
    /// Whether parameters may stand in the types of the line.
    pub has_parameters: bool,
    /// Whether errors may.
    pub has_errors: bool,
    /// Whether the type that was made last is an alias.
    pub is_alias: bool,
    /// Whether one was made that is, since this was last said to be false.
    pub has_alias: bool,
}

impl Build for Draft {




    #[inline(always)]
    fn make(&mut self, new: New<'_>) -> Result<u32, Stop> {
        self.builder.make(new)
    }
}

/// Declarations, whose arguments are looked at when they end: no variables may stand.
impl Maker for Draft {

    fn misplaced<'a>(&self, kind: TyKind) -> Option<Fault<'a>> {
        match kind {
            TyKind::Infer(InferTy::TyVar(_)) => Some(Fault::Variable),
            TyKind::Param(_) if !self.has_parameters => Some(Fault::Parameter),
            TyKind::Error if !self.has_errors => Some(Fault::Error),
            _ => None,
        }
    }

    fn ty<'a>(&mut self, kind: TyKind, _: &'a str) -> Result<Ty, Fault<'a>> {
        self.is_alias = matches!(kind, TyKind::Alias(_));
        self.has_alias |= self.is_alias;
        Ok(self.builder.mk_ty(kind)?)
    }

    fn leaf<'a>(&mut self, kind: TyKind, word: &'a str) -> Result<Ty, Fault<'a>> {
        self.ty(kind, word)
    }

    fn static_region(&mut self) -> Result<Region, Stop> {
        self.mk_region(RegionKind::Static)
    }

    fn args(&mut self, list: Vec<GenericArg>) -> Result<Args, Stop> {
        self.builder.mk_arg_list(list)
    }

    fn bounds<'a>(
        &mut self,
        bounds: &[Binder<ExistentialPredicate>],
        _: &'a str,
    ) -> Result<Preds, Fault<'a>> {
        Ok(self.builder.mk_preds(bounds)?)
    }

    fn reference_fits(&self, _: TraitRef) -> bool {
        true
    }
}
