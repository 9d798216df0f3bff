//! What numbers of a context stand for, spelled as Rust does, by `Display`.

use crate::{CandidateSource, Clause, Cx, DerivationStep, Global, ImplId, TraitRef, Ty, WhereClause};
use kit::alloc::AllocError;
use kit::prelude::String;
use spelling::Spelling;
use std::fmt;

/// Spells what the numbers of a context stand for. `names` are those of all definitions by their numbers: of traits, types, associated types and whatever else was
/// declared, impls aside, in that order.
///
/// # Examples
///
/// ```
/// # use rilgomut::*;
/// # fn main() -> Result<(), Box<dyn std::error::Error>> {
/// let rilgomut::worlds::Clones { cx, names, of_vec, .. } = rilgomut::worlds::clones()?;
/// assert_eq!(Shown::new(&cx, &names).header(of_vec).to_string(), "impl<T0> Clone for Vec<T0> where T0: Clone");
/// # Ok(())
/// # }
/// ```
#[derive(Clone, Copy, Debug)]
pub struct Shown<'a> {
    cx: &'a Cx,
    names: &'a [&'a str],
}

impl<'a> Shown<'a> {
    /// Over a context, with the names. One for which there is no name is spelled `{unnamed}`.
    pub fn new(cx: &'a Cx, names: &'a [&'a str]) -> Self {
        Shown { cx, names }
    }

    /// A type, as `Vec<&u8>`. A parameter is `T` with its number, a variable `?` with its number, and a placeholder `!` with its number.
    pub fn ty(self, ty: Ty) -> Displayed<'a> {
        self.of(What::Ty(ty))
    }

    /// A reference, as `Vec<u8>: From<str>`.
    pub fn trait_ref(self, trait_ref: TraitRef) -> Displayed<'a> {
        self.of(What::TraitRef(trait_ref))
    }

    /// A clause, as `for<'a> &'a T0: Clone`.
    pub fn clause(self, clause: Clause) -> Displayed<'a> {
        self.of(What::Clause(clause))
    }

    /// The header of an impl with its where clauses, as `impl<T0> Clone for Vec<T0> where T0: Clone`; nothing where no impl has the number.
    pub fn header(self, of: ImplId) -> Displayed<'a> {
        self.of(What::Header(of))
    }

    /// A where clause of an impl, as `T0: Clone`; nothing where there is none of that number.
    pub fn where_clause(self, of: WhereClause) -> Displayed<'a> {
        let clause = self.cx.impl_contents(of.of).and_then(|found| found.wheres.get(of.number));
        self.of(clause.map_or(What::Nothing, |clause| What::Clause(*clause)))
    }

    /// The rule by which a goal holds: the header of an impl, or the rule's name.
    pub fn source(self, source: CandidateSource) -> Displayed<'a> {
        self.of(What::Source(source))
    }

    /// A step of a derivation, as `u8: Clone by impl Clone for u8`.
    pub fn step(self, step: &DerivationStep) -> Displayed<'a> {
        self.of(What::Step(step.key.goal.predicate, step.source))
    }

    fn of(self, what: What) -> Displayed<'a> {
        Displayed { shown: self, what }
    }
}

/// What is shown.
#[derive(Clone, Copy, Debug)]
enum What {
    Ty(Ty),
    TraitRef(TraitRef),
    Clause(Clause),
    Header(ImplId),
    Source(CandidateSource),
    Step(Clause, CandidateSource),
    Nothing,
}

/// Something of a context, which `Display` spells. Writing it fails where memory is refused.
#[derive(Clone, Copy, Debug)]
pub struct Displayed<'a> {
    shown: Shown<'a>,
    what: What,
}

impl Displayed<'_> {
    fn add_to(&self, text: &mut String) -> Result<(), AllocError> {
        let spelling = Spelling::new(self.shown.cx, self.shown.names);
        match self.what {
            What::Ty(ty) => spelling.add_type(ty, text),
            What::TraitRef(trait_ref) => spelling.add_reference(trait_ref, text),
            What::Clause(clause) => spelling.add_clause(clause, text),
            What::Header(of) => spelling.add_impl(Global, of, text).map(|_| ()),
            What::Source(source) => add_source(&spelling, source, text),
            What::Step(goal, source) => {
                spelling.add_clause(goal, text)?;
                text.push_str(" by ")?;
                add_source(&spelling, source, text)
            }
            What::Nothing => Ok(()),
        }
    }
}

/// Adds the rule of a step.
fn add_source(spelling: &Spelling, source: CandidateSource, text: &mut String) -> Result<(), AllocError> {
    let name = match source {
        CandidateSource::Impl(of) => return spelling.add_impl(Global, of, text).map(|_| ()),
        CandidateSource::BuiltinImpl(_) => "a rule of the language",
        CandidateSource::ParamEnv(_) => "a clause of the environment",
        CandidateSource::AliasBound(_) => "a bound of an alias",
        CandidateSource::CoherenceUnknowable => "an impl that isn't known",
    };
    text.push_str(name)
}

impl fmt::Display for Displayed<'_> {
    fn fmt(&self, f: &mut fmt::Formatter<'_>) -> fmt::Result {
        let mut text = String::new(Global);
        self.add_to(&mut text).map_err(|_| fmt::Error)?;
        f.pad(&text)
    }
}
