//! What is made of several parts at once.

use crate::{AdtId, Binder, Build, Clause, ClauseKind, GenericArg, PredicatePolarity, Stop, TraitId, TraitPredicate, TraitRef, Ty, TyKind};

/// Makes what most declarations are made of, by calls of [`Build`]: a builder, a context and an evaluator do so. Each call stops as those do.
///
/// # Examples
///
/// ```
/// # use rilgomut::*;
/// # fn main() -> Result<(), Box<dyn std::error::Error>> {
/// let rilgomut::worlds::Clones { mut cx, names, clone, vec, .. } = rilgomut::worlds::clones()?;
/// let byte = cx.mk_ty(TyKind::Uint(UintTy::U8))?;
/// let bytes = cx.mk_adt(vec, &[byte])?;
/// let header = cx.mk_trait_ref(clone, &[bytes])?;
/// assert_eq!(Shown::new(&cx, &names).trait_ref(header).to_string(), "Vec<u8>: Clone");
/// # Ok(())
/// # }
/// ```
pub trait Making: Build {
    /// A data type with these types as its arguments.
    fn mk_adt(&mut self, of: AdtId, arguments: &[Ty]) -> Result<Ty, Stop> {
        let args: Vec<GenericArg> = arguments.iter().map(|ty| GenericArg::Ty(*ty)).collect();
        let args = self.mk_args(&args)?;
        self.mk_ty(TyKind::Adt(of, args))
    }

    /// A reference: the trait with these types, the self type first.
    fn mk_trait_ref(&mut self, def_id: TraitId, types: &[Ty]) -> Result<TraitRef, Stop> {
        let args: Vec<GenericArg> = types.iter().map(|ty| GenericArg::Ty(*ty)).collect();
        Ok(TraitRef { def_id, args: self.mk_args(&args)? })
    }

    /// The clause that the reference holds, for no regions in particular.
    fn mk_trait_clause(&mut self, trait_ref: TraitRef) -> Result<Clause, Stop> {
        let vars = self.mk_vars(&[])?;
        let value = ClauseKind::Trait(TraitPredicate { trait_ref, polarity: PredicatePolarity::Positive });
        self.mk_clause(Binder { vars, value })
    }
}

impl<B: Build> Making for B {}
