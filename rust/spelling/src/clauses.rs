// Made of `crates/spelling/src/clauses.rt` by `bench/plain.py`: an edit of this file is lost.

//! Clauses and headers of impls.


use kit::{eprintln, format, prelude::*, print, println, vec};
use crate::types::{Below, Spelling, add_number};
use ir_trees::decl::contents::{ImplId, ImplPolarity};
use ir_trees::ir::kinds::{Clause, ClauseKind, PredicatePolarity, TraitPredicate, VarKind};
use ir_trees::ir::trees::Trees;
use kit::alloc::{AllocError, Global};

impl Spelling<'_> {
    /// Adds the clause, as `for<'r0_0> T0: Trait<&'r0_0 u8>` or `<T0 as Iterator>::Item == u8`. That a trait doesn't hold is spelled
    /// `T0: !Trait`. The error is that of `add_type`.
    pub fn add_clause(&self, clause: Clause, text: &mut String) -> Result<(), AllocError>
    {
        let whole = Below::whole();
        let bound = self.cx.clause(clause);
        self.add_binder(bound.vars, whole, text)?;
        let below = whole.under_binder();
        match bound.value {
            ClauseKind::Trait(predicate) => self.spell_predicate(predicate, below, text),
            ClauseKind::Projection(predicate) => {
                let term = predicate.projection_term;
                self.spell_projection(term.def_id, term.args, below, text)?;
                text.push_str(" == ")?;
                self.spell(predicate.term, below, text)
            }
            ClauseKind::TypeOutlives(ty, region) => {
                self.spell(ty, below, text)?;
                text.push_str(": ")?;
                self.add_region(region, below, text)
            }
            ClauseKind::RegionOutlives(longer, shorter) => {
                self.add_region(longer, below, text)?;
                text.push_str(": ")?;
                self.add_region(shorter, below, text)
            }
            ClauseKind::AliasRelate(left, right) => {
                self.spell(left, below, text)?;
                text.push_str(" == ")?;
                self.spell(right, below, text)
            }
            ClauseKind::ConstEquate(left, right) => {
                self.add_constant(left, below, text)?;
                text.push_str(" == ")?;
                self.add_constant(right, below, text)
            }
        }
    }

    /// Adds that the trait of a reference holds, or that it doesn't.
    fn spell_predicate(
        &self,
        predicate: TraitPredicate,
        below: Below,
        text: &mut String,
    ) -> Result<(), AllocError>
    {
        self.spell_self(predicate.trait_ref, below, text)?;
        text.push_str(match predicate.polarity {
            PredicatePolarity::Positive => ": ",
            PredicatePolarity::Negative => ": !",
        })?;
        self.spell_trait(predicate.trait_ref, below, text)
    }

    /// Adds the header of the impl, with its parameters and where clauses, as `impl<T0, const N1> Trait<T0> for [T0; N1] where T0: Copy`.
    /// The answer is `false`, and nothing is added, where there is no impl of that number. The error is that of `add_type`.
    pub fn add_impl(
        &self,
        alloc: Global,
        of: ImplId,
        text: &mut String,
    ) -> Result<bool, AllocError> {
        let Some(found) = self.cx.impl_contents(of) else {
            return Ok(false);
        };
        let parameters = self.cx.impl_parameters(alloc, of)?;
        text.push_str("impl")?;
        add_parameters(parameters.as_slice(), text)?;
        text.push_str(match found.polarity {
            ImplPolarity::Negative => " !",
            ImplPolarity::Positive | ImplPolarity::Reservation => " ",
        })?;
        self.spell_trait(found.trait_ref, Below::whole(), text)?;
        text.push_str(" for ")?;
        self.spell_self(found.trait_ref, Below::whole(), text)?;
        self.add_wheres(found.wheres.as_slice(), text)?;
        Ok(true)
    }

    /// Adds these where clauses of an impl.
    fn add_wheres(&self, wheres: &[Clause], text: &mut String) -> Result<(), AllocError>
    {
        for place in 0..wheres.len() {
            text.push_str(if place == 0 { " where " } else { ", " })?;
            self.add_clause(wheres[place], text)?;
        }
        Ok(())
    }
}

/// Adds the parameters of an impl between angles, if it has some.
fn add_parameters(kinds: &[VarKind], text: &mut String) -> Result<(), AllocError> {
    let mut before = "<";
    for place in 0..kinds.len() {
        text.push_str(before)?;
        let mark = match kinds[place] {
            VarKind::Ty => "T",
            VarKind::Const => "const N",
            VarKind::Region => "'p",
        };
        add_number(mark, place as u64, text)?;
        before = ", ";
    }
    text.push_str(if kinds.is_empty() { "" } else { ">" })
}
