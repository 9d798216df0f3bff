// Made of `crates/ir_trees/src/decl/definition.rt` by `bench/plain.py`: an edit of this file is lost.

//! What a definition is: its crate, the kinds of its parameters, its flags.


use kit::{eprintln, format, prelude::*, print, println, vec};
use crate::ir::at::at;
use crate::ir::kinds::{Binder, FnSig, GenericArg, TraitId, Ty, VarKind};
use crate::ir::numbered::Numbered;
use kit::alloc::{AllocError, Global};
use kit::marker::Model;

/// A crate of the object language, numbered from 0 in the order in which crates are added.
#[derive(Clone, Copy, Debug, PartialEq, Eq)]
pub struct CrateId(pub u32);

impl CrateId {

    /// Whether it is none of the first so many crates.
    pub fn is_unknown(self, crates: u32) -> bool
    {
        self.0 >= crates
    }
}

/// What an algebraic data type was declared as.
#[derive(Clone, Copy, Debug)]
pub enum AdtShape {
    Struct,
    Enum,
    Union,
}

/// The flags of an algebraic data type; by default none is set.
#[derive(Clone, Copy, Default, Debug)]
pub struct AdtFlags {
    /// The orphan check looks through it, as through `Box`.
    pub fundamental: bool,
    /// It is the marker type that owns a value of its first parameter.
    pub phantom_data: bool,
    /// Its field isn't dropped.
    pub manually_drop: bool,
    /// Some of its fields are unsafe.
    pub unsafe_fields: bool,
}

/// The flags of a trait; by default none is set.
#[derive(Clone, Copy, Default, Debug)]
pub struct TraitFlags {
    /// It holds of a type whose parts meet it, unless an impl says otherwise.
    pub auto: bool,
    /// It stands for its where clauses.
    pub alias: bool,
    /// Its impls are unsafe.
    pub unsafe_: bool,
    /// Adding an impl of it for all types is a breaking change.
    pub fundamental: bool,
    /// It can be the principal of a `dyn` type.
    pub dyn_compatible: bool,
    /// It is a bound that types have by default.
    pub default: bool,
    /// Where it is an auto trait: an impl of it bars each type with the head of the impl's own type, as in rustc, and not those alone
    /// that the impl may be for.
    pub by_head: bool,
    /// Its impls may overlap.
    pub marker: bool,
}

/// What an associated item is.
#[derive(Clone, Copy, Debug)]
pub enum AssocKind {
    Type,
    Const,
}

/// What an alias of a type was declared as.
#[derive(Clone, Copy, Debug)]
pub enum AliasShape {
    /// An item of an impl that is of no trait.
    Inherent,
    /// An item that stands alone.
    Free,
}

/// The flags of a function; by default none is set.
#[derive(Clone, Copy, Default, Debug)]
pub struct FnFlags {
    /// It can be called where a constant is computed.
    pub is_const: bool,
    /// It needs features that the target may lack.
    pub target_features: bool,
}

/// A definition besides its crate and its parameters. The numbers say where the rest of it stands among the contents
/// of its sort.
#[derive(Clone, Copy, Debug)]
pub enum DefinitionKind {
    Adt(AdtShape, AdtFlags, u32),
    Trait(TraitFlags, u32),
    /// A type that is known by its name alone.
    Foreign,
    /// An item of the trait, and whether it requires that `Self` is sized.
    Assoc(TraitId, AssocKind, bool, u32),
    Alias(AliasShape),
    /// A type that is known by its bounds, and the type that it hides.
    Opaque(Ty, u32),
    Function(FnFlags, Binder<FnSig>),
    /// Whether it can be called where a constant is computed.
    Closure(bool),
}

/// What the number of a definition stands for.
#[derive(Clone, Copy, Debug)]
pub enum DefinitionSort {
    Adt,
    Foreign,
    Trait,
    AssociatedType,
    AssociatedConst,
    Alias,
    Opaque,
    Function,
    Closure,
}

impl DefinitionSort {

    fn number(self) -> u32
    {
        match self {
            DefinitionSort::Adt => 0,
            DefinitionSort::Foreign => 1,
            DefinitionSort::Trait => 2,
            DefinitionSort::AssociatedType => 3,
            DefinitionSort::AssociatedConst => 4,
            DefinitionSort::Alias => 5,
            DefinitionSort::Opaque => 6,
            DefinitionSort::Function => 7,
            DefinitionSort::Closure => 8,
        }
    }
}

impl DefinitionKind {

    /// Whether the definition is declared fundamental. Only types and traits can be.
    pub fn is_fundamental(self) -> bool
    {
        match self {
            DefinitionKind::Adt(_, flags, _) => flags.fundamental,
            DefinitionKind::Trait(flags, _) => flags.fundamental,
            _ => false,
        }
    }

    pub(crate) fn sort(self) -> DefinitionSort
    {
        match self {
            DefinitionKind::Adt(_, _, _) => DefinitionSort::Adt,
            DefinitionKind::Trait(_, _) => DefinitionSort::Trait,
            DefinitionKind::Foreign => DefinitionSort::Foreign,
            DefinitionKind::Assoc(_, AssocKind::Type, _, _) => DefinitionSort::AssociatedType,
            DefinitionKind::Assoc(_, AssocKind::Const, _, _) => DefinitionSort::AssociatedConst,
            DefinitionKind::Alias(_) => DefinitionSort::Alias,
            DefinitionKind::Opaque(_, _) => DefinitionSort::Opaque,
            DefinitionKind::Function(_, _) => DefinitionSort::Function,
            DefinitionKind::Closure(_) => DefinitionSort::Closure,
        }
    }
}

/// The parameters of a definition. Most definitions have types alone, which take no room of their own.
#[derive(Debug)]
pub enum Parameters {
    /// So many types.
    Types(usize),
    /// Others, or types among them.
    Kinds(Vec<VarKind>),
}

impl Parameters {

    /// No parameters.
    pub fn none() -> Self
    {
        Parameters::Types(0)
    }

    /// Parameters of these kinds. The only error is a refused growth.
    pub fn of(alloc: Global, kinds: &[VarKind]) -> Result<Self, AllocError>
    {
        if are_types(kinds) {
            return Ok(Parameters::Types(kinds.len()));
        }
        Ok(Parameters::Kinds(kinds.kit_to_vec(alloc)?))
    }

    /// A copy of the parameters. The only error is a refused growth.
    pub fn copied(&self, alloc: Global) -> Result<Self, AllocError>
    {
        match self {
            Parameters::Types(count) => Ok(Parameters::Types(*count)),
            Parameters::Kinds(kinds) => Ok(Parameters::Kinds(kinds.kit_to_vec(alloc)?)),
        }
    }

    /// Their kinds, in order. The only error is a refused growth.
    pub fn kinds(&self, alloc: Global) -> Result<Vec<VarKind>, AllocError>
    {
        match self {
            Parameters::Types(count) => vec![in alloc; VarKind::Ty; *count],
            Parameters::Kinds(kinds) => kinds.kit_to_vec(alloc),
        }
    }

    /// How many there are.
    pub fn count(&self) -> usize
    {
        match self {
            Parameters::Types(count) => *count,
            Parameters::Kinds(kinds) => kinds.len(),
        }
    }

    /// The kind of the parameter of that number, if there is one.
    pub fn kind(&self, number: usize) -> Option<VarKind>
    {
        match self {
            Parameters::Types(count) => {
                if number < *count {
                    Some(VarKind::Ty)
                } else {
                    None
                }
            }
            Parameters::Kinds(kinds) => at(kinds.as_slice(), number).copied(),
        }
    }

    /// Whether the arguments are of these kinds, one for one.
    pub(crate) fn are_of(&self, list: &[GenericArg]) -> bool
    {
        match self {
            Parameters::Types(count) => { list.len() == *count && are_type_args(list) }
            Parameters::Kinds(kinds) => have_kinds(list, kinds.as_slice()),
        }
    }

    /// Whether there is no parameter.
    pub fn is_empty(&self) -> bool
    {
        match self {
            Parameters::Types(count) => *count == 0,
            Parameters::Kinds(kinds) => kinds.is_empty(),
        }
    }

    /// Whether the first parameter is there and is a type.
    pub fn begins_with_type(&self) -> bool
    {
        match self {
            Parameters::Types(count) => *count != 0,
            Parameters::Kinds(kinds) => begins_with_type(kinds.as_slice()),
        }
    }
}

/// Whether the arguments are of these kinds, one for one.
fn have_kinds(list: &[GenericArg], kinds: &[VarKind]) -> bool
{
    if list.len() != kinds.len() {
        return false;
    }
    for i in 0..list.len() {
        if !list[i].is_of(kinds[i]) {
            return false;
        }
    }
    true
}

/// Whether all of the arguments are types.
pub fn are_type_args(list: &[GenericArg]) -> bool
{
    list.iter().all(|arg| arg.is_type())
}

fn is_type(kind: VarKind) -> bool
{
    matches!(kind, VarKind::Ty)
}

fn are_types(kinds: &[VarKind]) -> bool
{
    kinds.iter().all(|kind| is_type(*kind))
}

/// One definition. Clauses see its parameters as a list.
#[derive(Debug)]
pub struct Declaration {
    pub krate: CrateId,
    pub parameters: Parameters,
    pub kind: DefinitionKind,
}

impl Model for Declaration {


}

impl Declaration {

    /// What was declared.
    pub fn kind(&self) -> DefinitionKind
    {
        self.kind
    }

    /// The crate that declared it.
    pub fn krate(&self) -> CrateId
    {
        self.krate
    }

    /// Whether it is declared fundamental.
    pub fn is_fundamental(&self) -> bool
    {
        self.kind.is_fundamental()
    }

    /// Whether its parameters are counted from `Self` on.
    pub fn has_self(&self) -> bool
    {
        matches!(
            self.kind,
            DefinitionKind::Trait(_, _) | DefinitionKind::Assoc(_, _, _, _)
        )
    }

    /// Whether it is a trait.
    pub fn is_trait(&self) -> bool
    {
        matches!(self.kind, DefinitionKind::Trait(_, _))
    }

    /// Whether it is an associated item of what is none of the traits among the definitions.
    pub fn lacks_trait(&self, definitions: &[Declaration]) -> bool
    {
        match self.kind {
            DefinitionKind::Assoc(of, _, _, _) => match at(definitions, of.0 as usize) {
                Some(declaration) => !declaration.is_trait(),
                None => true,
            },
            _ => false,
        }
    }

    /// Whether it is of the sort, with parameters of the kinds of these arguments.
    pub(crate) fn takes(&self, sort: DefinitionSort, list: &[GenericArg]) -> bool
    {
        self.kind.sort().number() == sort.number() && self.parameters.are_of(list)
    }

    /// Whether it has parameters that its flags don't allow.
    pub fn has_wrong_arity(&self) -> bool
    {
        match self.kind {
            DefinitionKind::Adt(_, flags, _) => {
                flags.phantom_data && !self.parameters.begins_with_type()
            }
            DefinitionKind::Trait(flags, _) => flags.auto && !self.parameters.is_empty(),
            _ => false,
        }
    }
}

fn begins_with_type(parameters: &[VarKind]) -> bool
{
    matches!(parameters, [VarKind::Ty, ..])
}
