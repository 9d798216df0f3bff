// Made of `crates/spelling/src/types.rt` by `bench/plain.py`: an edit of this file is lost.

//! Types, constants and regions.


use kit::{eprintln, format, prelude::*, print, println, vec};
use ir_context::decl::context::Cx;
use ir_trees::ir::kinds::{
    AliasKind, AliasTy, Args, AssocId, Binder, BoundVar, Const, ConstKind, ExistentialPredicate,
    FloatTy, FnSig, GenericArg, InferTy, IntTy, Mutability, Preds, Region, RegionKind, TraitRef,
    Ty, TyKind, UintTy, VarKind, Vars,
};
use ir_trees::ir::trees::Trees;
use kit::alloc::AllocError;

/// How many types stand inside one another in a type of the greatest height.
const MAX_DEPTH: u16 = 1_024;

/// What is spelled for something that has no name.
const UNNAMED: &str = "{unnamed}";

/// How far below the whole something stands.
#[derive(Clone, Copy, Debug)]
pub(crate) struct Below {
    /// How many levels there may still be.
    left: u16,
    /// How many binders there are around it.
    binders: u32,
}

impl Below {
    /// The whole.
    pub(crate) fn whole() -> Below {
        Below {
            left: MAX_DEPTH,
            binders: 0,
        }
    }

    /// What is left below one more binder.
    pub(crate) fn under_binder(self) -> Below
    {
        Below {
            binders: self.binders.saturating_add(1),
            ..self
        }
    }
}

/// Spells what the numbers of a context stand for.
#[derive(Debug)]
pub struct Spelling<'a> {
    pub(crate) cx: &'a Cx,
    /// What each definition is called, at the place of its number.
    names: &'a [&'a str],
}

impl<'a> Spelling<'a> {
    /// Over a context, with what its definitions are called: the first one that was declared comes first. One without a name is spelled
    /// `{unnamed}`. Impls have numbers of their own, and no names.
    pub fn new(cx: &'a Cx, names: &'a [&'a str]) -> Self
    {
        Spelling { cx, names }
    }

    /// Adds the type, as `Vec<<T0 as Iterator>::Item>`. A parameter is `T` with its number, a variable `?` with its number, and a placeholder
    /// `!` with its number. The error comes where the text can't grow; part of the type may be there then.
    pub fn add_type(&self, ty: Ty, text: &mut String) -> Result<(), AllocError>
    {
        self.spell(ty, Below::whole(), text)
    }

    /// Adds the reference, as `Vec<u8>: From<str>`. The error is that of `add_type`.
    pub fn add_reference(&self, of: TraitRef, text: &mut String) -> Result<(), AllocError>
    {
        self.spell_reference(of, Below::whole(), text)
    }

    /// Adds the reference, which stands so far below the whole.
    pub(crate) fn spell_reference(
        &self,
        of: TraitRef,
        below: Below,
        text: &mut String,
    ) -> Result<(), AllocError>
    {
        self.spell_self(of, below, text)?;
        text.push_str(": ")?;
        self.spell_trait(of, below, text)
    }

    /// Adds the self type of the reference.
    pub(crate) fn spell_self(
        &self,
        of: TraitRef,
        below: Below,
        text: &mut String,
    ) -> Result<(), AllocError>
    {
        match self.cx.args(of.args).first() {
            Some(first) => self.spell_arg(*first, below, text),
            None => text.push_str(UNNAMED),
        }
    }

    /// Adds the trait of the reference, with its arguments but the self type.
    pub(crate) fn spell_trait(
        &self,
        of: TraitRef,
        below: Below,
        text: &mut String,
    ) -> Result<(), AllocError>
    {
        self.add_name(of.def_id.0, text)?;
        self.spell_in_angles(of.args, 1, below, text)
    }

    /// Adds what the definition of that number is called.
    pub(crate) fn add_name(&self, number: u32, text: &mut String) -> Result<(), AllocError> {
        text.push_str(self.names.get(number as usize).copied().unwrap_or(UNNAMED))
    }

    /// Adds the type, which stands so far below the whole.
    pub(crate) fn spell(&self, ty: Ty, below: Below, text: &mut String) -> Result<(), AllocError>
    {
        let Some(left) = below.left.checked_sub(1) else {
            return text.push_str("..");
        };
        let below = Below { left, ..below };
        match self.cx.kind(ty) {
            TyKind::Adt(id, args) => {
                self.add_name(id.0, text)?;
                self.spell_in_angles(args, 0, below, text)
            }
            TyKind::Foreign(id) => self.add_name(id.0, text),
            TyKind::FnDef(id, args) => {
                text.push_str("fn item ")?;
                self.add_name(id.0, text)?;
                self.spell_in_angles(args, 0, below, text)
            }
            TyKind::Closure(id, _) => {
                text.push_str("closure ")?;
                self.add_name(id.0, text)
            }
            TyKind::Ref(region, target, mutability) => {
                text.push('&')?;
                self.add_region(region, below, text)?;
                text.push_str(match mutability {
                    Mutability::Not => " ",
                    Mutability::Mut => " mut ",
                })?;
                self.spell(target, below, text)
            }
            TyKind::RawPtr(target, mutability) => {
                text.push_str(match mutability {
                    Mutability::Not => "*const ",
                    Mutability::Mut => "*mut ",
                })?;
                self.spell(target, below, text)
            }
            TyKind::Slice(element) => {
                text.push('[')?;
                self.spell(element, below, text)?;
                text.push(']')
            }
            TyKind::Array(element, length) => {
                text.push('[')?;
                self.spell(element, below, text)?;
                text.push_str("; ")?;
                self.add_constant(length, below, text)?;
                text.push(']')
            }
            TyKind::Pat(target, _) => {
                self.spell(target, below, text)?;
                text.push_str(" is ..")
            }
            TyKind::Tuple(args) => self.spell_tuple(args, below, text),
            TyKind::FnPtr(signature) => self.spell_fn(signature, below, text),
            TyKind::UnsafeBinder(Binder { vars, value }) => {
                text.push_str("unsafe<")?;
                self.add_variables(vars, below, text)?;
                text.push_str("> ")?;
                self.spell(value, below.under_binder(), text)
            }
            TyKind::Dynamic(bounds, region) => self.spell_object(bounds, region, below, text),
            TyKind::Alias(alias) => self.spell_alias(alias, below, text),
            kind => add_leaf(kind, below, text),
        }
    }

    /// Adds the argument.
    pub(crate) fn spell_arg(
        &self,
        arg: GenericArg,
        below: Below,
        text: &mut String,
    ) -> Result<(), AllocError>
    {
        match arg {
            GenericArg::Ty(ty) => self.spell(ty, below, text),
            GenericArg::Const(constant) => self.add_constant(constant, below, text),
            GenericArg::Region(region) => self.add_region(region, below, text),
        }
    }

    /// Adds the arguments of the list but the first so many, with commas between them.
    fn spell_list(
        &self,
        list: Args,
        first: usize,
        below: Below,
        text: &mut String,
    ) -> Result<(), AllocError>
    {
        let list = self.cx.args(list);
        for place in first..list.len() {
            if place > first {
                text.push_str(", ")?;
            }
            self.spell_arg(list[place], below, text)?;
        }
        Ok(())
    }

    /// Adds the same between angles, or nothing where there are none.
    fn spell_in_angles(
        &self,
        list: Args,
        first: usize,
        below: Below,
        text: &mut String,
    ) -> Result<(), AllocError>
    {
        if self.cx.args(list).len() <= first {
            return Ok(());
        }
        text.push('<')?;
        self.spell_list(list, first, below, text)?;
        text.push('>')
    }

    /// Adds a tuple of these members.
    fn spell_tuple(&self, members: Args, below: Below, text: &mut String) -> Result<(), AllocError>
    {
        text.push('(')?;
        self.spell_list(members, 0, below, text)?;
        text.push_str(if self.cx.args(members).len() == 1 {
            ",)"
        } else {
            ")"
        })
    }

    /// Adds a function pointer of that signature.
    fn spell_fn(
        &self,
        signature: Binder<FnSig>,
        below: Below,
        text: &mut String,
    ) -> Result<(), AllocError>
    {
        self.add_binder(signature.vars, below, text)?;
        self.spell_signature(signature.value, below.under_binder(), text)
    }

    /// Adds a function pointer without its binder.
    fn spell_signature(&self, of: FnSig, below: Below, text: &mut String) -> Result<(), AllocError>
    {
        text.push_str(if of.safe { "" } else { "unsafe " })?;
        text.push_str(if of.rust_abi { "fn(" } else { "extern fn(" })?;
        self.spell_list(of.inputs, 0, below, text)?;
        text.push_str(if of.variadic { ", ..) -> " } else { ") -> " })?;
        self.spell(of.output, below, text)
    }

    /// Adds a `dyn` type of these bounds.
    fn spell_object(
        &self,
        bounds: Preds,
        region: Region,
        below: Below,
        text: &mut String,
    ) -> Result<(), AllocError>
    {
        text.push_str("(dyn ")?;
        for bound in self.cx.preds(bounds) {
            self.spell_bound(self.cx.pred(*bound), below, text)?;
            text.push_str(" + ")?;
        }
        self.add_region(region, below, text)?;
        text.push(')')
    }

    /// Adds a bound of a `dyn` type.
    fn spell_bound(
        &self,
        bound: Binder<ExistentialPredicate>,
        below: Below,
        text: &mut String,
    ) -> Result<(), AllocError>
    {
        self.add_binder(bound.vars, below, text)?;
        self.spell_unbound(bound, below.under_binder(), text)
    }

    /// Adds a bound of a `dyn` type without its binder.
    fn spell_unbound(
        &self,
        bound: Binder<ExistentialPredicate>,
        below: Below,
        text: &mut String,
    ) -> Result<(), AllocError>
    {
        match bound.value {
            ExistentialPredicate::Trait(of) => {
                self.add_name(of.def_id.0, text)?;
                self.spell_in_angles(of.args, 0, below, text)
            }
            ExistentialPredicate::AutoTrait(id) => self.add_name(id.0, text),
            ExistentialPredicate::Projection(of) => {
                self.add_trait_of(of.def_id, text)?;
                self.spell_in_angles(of.args, 0, below, text)?;
                text.push_str("::")?;
                self.add_name(of.def_id.0, text)?;
                text.push_str(" == ")?;
                self.spell(of.term, below, text)
            }
        }
    }

    /// Adds the name of the trait of an associated item.
    fn add_trait_of(&self, of: AssocId, text: &mut String) -> Result<(), AllocError> {
        match self.cx.assoc_trait(of) {
            Some(id) => self.add_name(id.0, text),
            None => text.push_str(UNNAMED),
        }
    }

    /// Adds the alias.
    fn spell_alias(&self, alias: AliasTy, below: Below, text: &mut String) -> Result<(), AllocError>
    {
        let AliasKind::Projection = alias.kind else {
            self.add_name(alias.id.0, text)?;
            return self.spell_in_angles(alias.args, 0, below, text);
        };
        self.spell_projection(AssocId(alias.id.0), alias.args, below, text)
    }

    /// Adds the associated type of these arguments, of which the first is the self type.
    pub(crate) fn spell_projection(
        &self,
        of: AssocId,
        args: Args,
        below: Below,
        text: &mut String,
    ) -> Result<(), AllocError>
    {
        text.push('<')?;
        match self.cx.args(args).first() {
            Some(first) => self.spell_arg(*first, below, text)?,
            None => text.push_str(UNNAMED)?,
        }
        text.push_str(" as ")?;
        self.add_trait_of(of, text)?;
        self.spell_in_angles(args, 1, below, text)?;
        text.push_str(">::")?;
        self.add_name(of.0, text)
    }

    /// Adds the constant.
    pub(crate) fn add_constant(
        &self,
        constant: Const,
        below: Below,
        text: &mut String,
    ) -> Result<(), AllocError>
    {
        match self.cx.const_kind(constant) {
            ConstKind::Value(number) => add_number("", number, text),
            ConstKind::Param(index) => add_number("N", u64::from(index), text),
            ConstKind::Placeholder(placeholder) => {
                add_number("!", u64::from(placeholder.index), text)
            }
            ConstKind::Bound(bound) => add_bound("N", bound, below, text),
            ConstKind::Infer(number) => add_number("?", u64::from(number), text),
            ConstKind::Unevaluated(id, _) => self.add_name(id.0, text),
            ConstKind::Error => text.push_str("{error}"),
        }
    }

    /// Adds the region.
    pub(crate) fn add_region(
        &self,
        region: Region,
        below: Below,
        text: &mut String,
    ) -> Result<(), AllocError>
    {
        match self.cx.region_kind(region) {
            RegionKind::Static => text.push_str("'static"),
            RegionKind::Error => text.push_str("'{error}"),
            RegionKind::Bound(bound) => add_bound("'r", bound, below, text),
            RegionKind::Placeholder(placeholder) => {
                add_number("'!", u64::from(placeholder.index), text)
            }
            RegionKind::Var(number) => add_number("'?", u64::from(number), text),
        }
    }

    /// Adds a binder of these variables, if there are some: `for<'r0_0> `.
    pub(crate) fn add_binder(
        &self,
        vars: Vars,
        below: Below,
        text: &mut String,
    ) -> Result<(), AllocError>
    {
        if self.cx.vars(vars).is_empty() {
            return Ok(());
        }
        text.push_str("for<")?;
        self.add_variables(vars, below, text)?;
        text.push_str("> ")
    }

    /// Adds the names of a binder's variables, with commas between them.
    fn add_variables(&self, vars: Vars, below: Below, text: &mut String) -> Result<(), AllocError>
    {
        let list = self.cx.vars(vars);
        for place in 0..list.len() {
            if place > 0 {
                text.push_str(", ")?;
            }
            let mark = match self.cx.var(list[place]) {
                VarKind::Ty => "T",
                VarKind::Const => "N",
                VarKind::Region => "'r",
            };
            add_number(mark, u64::from(below.binders), text)?;
            add_number("_", place as u64, text)?;
        }
        Ok(())
    }
}

/// Adds a type without parts.
fn add_leaf(kind: TyKind, below: Below, text: &mut String) -> Result<(), AllocError> {
    match kind {
        TyKind::Param(index) => add_number("T", u64::from(index), text),
        TyKind::Placeholder(placeholder) => add_number("!", u64::from(placeholder.index), text),
        TyKind::Bound(bound) => add_bound("T", bound, below, text),
        TyKind::Infer(InferTy::TyVar(number)) => add_number("?", u64::from(number), text),
        TyKind::Infer(InferTy::IntVar(_)) => text.push_str("{integer}"),
        TyKind::Infer(InferTy::FloatVar(_)) => text.push_str("{float}"),
        kind => text.push_str(builtin_word(kind).unwrap_or("{error}")),
    }
}

/// Adds a variable that a binder binds: with the number of that binder, the outermost one being 0, and its own.
fn add_bound(
    mark: &str,
    bound: BoundVar,
    below: Below,
    text: &mut String,
) -> Result<(), AllocError> {
    let inside = bound.depth.saturating_add(1);
    match below.binders.checked_sub(inside) {
        Some(binder) => add_number(mark, u64::from(binder), text)?,
        None => {
            text.push_str(mark)?;
            text.push('^')?;
        }
    }
    add_number("_", u64::from(bound.index), text)
}

/// Adds the mark and the number.
pub(crate) fn add_number(mark: &str, number: u64, text: &mut String) -> Result<(), AllocError> {
    text.push_str(mark)?;
    text.push_str(kit::itoa::Buffer::new().format(number))
}

/// The word of a type without a name and without parts.
fn builtin_word(kind: TyKind) -> Option<&'static str> {
    Some(match kind {
        TyKind::Bool => "bool",
        TyKind::Char => "char",
        TyKind::Str => "str",
        TyKind::Never => "!",
        TyKind::Int(IntTy::I8) => "i8",
        TyKind::Int(IntTy::I16) => "i16",
        TyKind::Int(IntTy::I32) => "i32",
        TyKind::Int(IntTy::I64) => "i64",
        TyKind::Int(IntTy::I128) => "i128",
        TyKind::Int(IntTy::Isize) => "isize",
        TyKind::Uint(UintTy::U8) => "u8",
        TyKind::Uint(UintTy::U16) => "u16",
        TyKind::Uint(UintTy::U32) => "u32",
        TyKind::Uint(UintTy::U64) => "u64",
        TyKind::Uint(UintTy::U128) => "u128",
        TyKind::Uint(UintTy::Usize) => "usize",
        TyKind::Float(FloatTy::F16) => "f16",
        TyKind::Float(FloatTy::F32) => "f32",
        TyKind::Float(FloatTy::F64) => "f64",
        TyKind::Float(FloatTy::F128) => "f128",
        _ => return None,
    })
}
