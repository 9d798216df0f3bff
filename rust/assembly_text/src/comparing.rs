// Made of `crates/assembly_text/src/comparing.rt` by `bench/plain.py`: an edit of this file is lost.

//! What is found of two impls: whether they overlap, and whether one of them specialises the other one.


use kit::{eprintln, format, prelude::*, print, println, vec};
use crate::asking::Asking;
use candidate_rounds::rounds::effort::Effort;
use ir_context::decl::context::Cx;
use ir_trees::decl::contents::ImplId;
use ir_trees::ir::stop::Stop;
use overlaps::allowance::Allowance;
use overlaps::instance::CommonInstance;
use overlaps::overlap::Overlap;
use overlaps::specializing::Specialization;

/// What is found of two impls.
#[derive(Clone, Copy, Debug)]
pub(crate) enum Found {
    /// They are disjoint, their overlap is allowed, or where clauses are known not to hold, one alone or all together.
    Nothing,
    /// They may overlap there.
    Instance(CommonInstance),
    /// The first one specialises the second one, which no line says.
    Specializes(ImplId, ImplId),
}

/// Whether a line says that the first impl specialises the second one.
fn is_declared_special(cx: &Cx, special: ImplId, general: ImplId) -> bool
{
    match cx.impl_contents(special) {
        Some(contents) => contents.specializes.iter().any(|of| of.0 == general.0),
        None => false,
    }
}

/// Whether the answer is that the first impl specialises the second one.
fn is_positive(answer: Specialization) -> bool
{
    matches!(answer, Specialization::Specializes)
}

/// The two, unless a line has to say that the first one specialises the second one, and none does.
fn as_said(cx: &Cx, special: ImplId, general: ImplId, by_line: bool) -> Option<(ImplId, ImplId)>
{
    if by_line && !is_declared_special(cx, special, general) {
        return None;
    }
    Some((special, general))
}

impl<'a> Asking<'a> {
    /// What is found of the two impls, by that effort for each where clause. A line by which one of them specialises the other one counts
    /// where it is so.
    pub(crate) fn compare(
        self,
        first: ImplId,
        second: ImplId,
        effort: Effort,
    ) -> (Asking<'a>, Result<Found, Stop>)
    {
        let (asking, overlap) = self.overlapped(first, second, effort);
        match overlap {
            Ok(Overlap::May(instance)) => asking.unless_apart(first, second, instance, effort),
            Ok(Overlap::Allowed(Allowance::Specializes(_))) => {
                asking.compare_declared(first, second, effort)
            }
            Ok(Overlap::Allowed(Allowance::Reservation)) => (asking, Ok(Found::Nothing)),
            Ok(Overlap::Allowed(Allowance::Marker)) => (asking, Ok(Found::Nothing)),
            Ok(Overlap::NoCommonTrait) => (asking, Ok(Found::Nothing)),
            Ok(Overlap::DisjointHeaders) => (asking, Ok(Found::Nothing)),
            Ok(Overlap::DisjointClause(_)) => (asking, Ok(Found::Nothing)),
            Err(stop) => (asking, Err(stop)),
        }
    }

    /// What is found of two impls of which one is declared to specialise the other one.
    fn compare_declared(
        self,
        first: ImplId,
        second: ImplId,
        effort: Effort,
    ) -> (Asking<'a>, Result<Found, Stop>)
    {
        let (asking, special) = self.special_one(first, second, true, effort);
        match special {
            Ok(Some(_)) => (asking, Ok(Found::Nothing)),
            Ok(None) => asking.compare_anyway(first, second, effort),
            Err(stop) => (asking, Err(stop)),
        }
    }

    /// What is found of the two impls, whatever lines declare of them.
    fn compare_anyway(
        self,
        first: ImplId,
        second: ImplId,
        effort: Effort,
    ) -> (Asking<'a>, Result<Found, Stop>)
    {
        let (asking, overlap) = self.overlapped_anyway(first, second, effort);
        match overlap {
            Ok(Overlap::May(instance)) => asking.unless_apart(first, second, instance, effort),
            Ok(Overlap::Allowed(_)) => (asking, Ok(Found::Nothing)),
            Ok(Overlap::NoCommonTrait) => (asking, Ok(Found::Nothing)),
            Ok(Overlap::DisjointHeaders) => (asking, Ok(Found::Nothing)),
            Ok(Overlap::DisjointClause(_)) => (asking, Ok(Found::Nothing)),
            Err(stop) => (asking, Err(stop)),
        }
    }

    /// What is found of two impls that may overlap there: nothing where their where clauses can't hold together, or, if that is asked for, where
    /// one of them can't hold while the other impl does. Where no goal is left of the two, none keeps them apart, and that isn't asked.
    fn unless_apart(
        self,
        first: ImplId,
        second: ImplId,
        instance: CommonInstance,
        effort: Effort,
    ) -> (Asking<'a>, Result<Found, Stop>)
    {
        if self.leave_no_goal(first, second) {
            return self.unless_negated(first, second, instance, effort);
        }
        self.unless_kept_apart(first, second, instance, effort)
    }

    /// The same, where goals may be left.
    fn unless_kept_apart(
        self,
        first: ImplId,
        second: ImplId,
        instance: CommonInstance,
        effort: Effort,
    ) -> (Asking<'a>, Result<Found, Stop>)
    {
        let (asking, apart) = self.kept_apart(first, second, effort);
        match apart {
            Ok(true) => (asking, Ok(Found::Nothing)),
            Ok(false) => asking.unless_negated(first, second, instance, effort),
            Err(stop) => (asking, Err(stop)),
        }
    }

    /// What is found of two impls that may overlap there: nothing where a where clause of one of them can't hold while the other impl does, and
    /// that is asked for.
    fn unless_negated(
        self,
        first: ImplId,
        second: ImplId,
        instance: CommonInstance,
        effort: Effort,
    ) -> (Asking<'a>, Result<Found, Stop>)
    {
        if !self.given.negative {
            return self.unless_special(first, second, instance, effort);
        }
        let (asking, clause) = self.negated(first, second, effort);
        match clause {
            Ok(Some(_)) => (asking, Ok(Found::Nothing)),
            Ok(None) => asking.unless_special(first, second, instance, effort),
            Err(stop) => (asking, Err(stop)),
        }
    }

    /// That the two may overlap there, unless that feature is used and one of them specialises the other one.
    fn unless_special(
        self,
        first: ImplId,
        second: ImplId,
        instance: CommonInstance,
        effort: Effort,
    ) -> (Asking<'a>, Result<Found, Stop>)
    {
        if !self.given.specialization {
            return (self, Ok(Found::Instance(instance)));
        }
        let (asking, special) = self.special_one(first, second, false, effort);
        match special {
            Ok(Some((special, general))) => (asking, Ok(Found::Specializes(special, general))),
            Ok(None) => (asking, Ok(Found::Instance(instance))),
            Err(stop) => (asking, Err(stop)),
        }
    }

    /// The one of the two that specialises the other one, and that one, unless each does; where lines are asked for, only as a line says.
    fn special_one(
        self,
        first: ImplId,
        second: ImplId,
        by_line: bool,
        effort: Effort,
    ) -> (Asking<'a>, Result<Option<(ImplId, ImplId)>, Stop>)
    {
        let (asking, is_first) = self.is_special(first, second, effort);
        match is_first {
            Ok(true) => asking.unless_other(first, second, by_line, effort),
            Ok(false) => asking.if_other(first, second, by_line, effort),
            Err(stop) => (asking, Err(stop)),
        }
    }

    /// The first one of the two, which specialises the second one, unless that specialises the first one, too.
    fn unless_other(
        self,
        first: ImplId,
        second: ImplId,
        by_line: bool,
        effort: Effort,
    ) -> (Asking<'a>, Result<Option<(ImplId, ImplId)>, Stop>)
    {
        let (asking, is_second) = self.is_special(second, first, effort);
        match is_second {
            Ok(false) => {
                let found = as_said(&asking.scope.maker, first, second, by_line);
                (asking, Ok(found))
            }
            Ok(true) => (asking, Ok(None)),
            Err(stop) => (asking, Err(stop)),
        }
    }

    /// The second one of the two, if it specialises the first one, which doesn't specialise it.
    fn if_other(
        self,
        first: ImplId,
        second: ImplId,
        by_line: bool,
        effort: Effort,
    ) -> (Asking<'a>, Result<Option<(ImplId, ImplId)>, Stop>)
    {
        let (asking, is_second) = self.is_special(second, first, effort);
        match is_second {
            Ok(true) => {
                let found = as_said(&asking.scope.maker, second, first, by_line);
                (asking, Ok(found))
            }
            Ok(false) => (asking, Ok(None)),
            Err(stop) => (asking, Err(stop)),
        }
    }

    /// Whether the first impl specialises the second one.
    fn is_special(
        self,
        special: ImplId,
        general: ImplId,
        effort: Effort,
    ) -> (Asking<'a>, Result<bool, Stop>)
    {
        let (asking, answer) = self.tested(special, general, effort);
        match answer {
            Ok(answer) => (asking, Ok(is_positive(answer))),
            Err(stop) => (asking, Err(stop)),
        }
    }
}
