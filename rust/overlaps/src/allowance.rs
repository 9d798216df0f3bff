// Made of `crates/overlaps/src/allowance.rt` by `bench/plain.py`: an edit of this file is lost.

//! Pairs of impls that may overlap by what is declared.


use kit::{eprintln, format, prelude::*, print, println, vec};
use crate::order::in_order;
use ir_context::decl::Cx;
use ir_trees::decl::contents::{Impl, ImplId, ImplPolarity};
use ir_trees::ir::kinds::TraitId;

/// Why an overlap of two impls is no error.
#[derive(Clone, Copy, Debug, PartialEq, Eq)]
pub enum Allowance {
    /// One of them is a reservation.
    Reservation,
    /// Their trait is a marker, and both say that it holds, or both that it doesn't.
    Marker,
    /// This one is declared to specialise the other.
    Specializes(ImplId),
}

/// Whether the impl leaves open whether its trait holds.
fn is_reservation(of: &Impl) -> bool
{
    match of.polarity {
        ImplPolarity::Reservation => true,
        ImplPolarity::Positive | ImplPolarity::Negative => false,
    }
}

/// Whether both impls say that their trait holds, or both that it doesn't.
fn are_of_one_polarity(one: &Impl, other: &Impl) -> bool
{
    match one.polarity {
        ImplPolarity::Positive => matches!(other.polarity, ImplPolarity::Positive),
        ImplPolarity::Negative => matches!(other.polarity, ImplPolarity::Negative),
        ImplPolarity::Reservation => false,
    }
}

/// Whether the trait is a marker, so that its impls may overlap.
fn is_marker_trait(cx: &Cx, of: TraitId) -> bool
{
    cx.trait_flags(of).unwrap_or_default().marker
}

/// Whether the impl is one of these.
fn lists_impl(impls: &[ImplId], of: ImplId) -> bool
{
    impls.iter().any(|other| other.0 == of.0)
}

/// Why an overlap of two impls of these numbers is no error, by what they and their trait declare.
fn allowance_between(
    cx: &Cx,
    first: ImplId,
    second: ImplId,
    one: &Impl,
    other: &Impl,
) -> Option<Allowance>
{
    if one.trait_ref.def_id.0 != other.trait_ref.def_id.0 {
        return None;
    }
    if is_reservation(one) || is_reservation(other) {
        return Some(Allowance::Reservation);
    }
    if is_marker_trait(cx, one.trait_ref.def_id) && are_of_one_polarity(one, other) {
        return Some(Allowance::Marker);
    }
    if lists_impl(one.specializes.as_slice(), second) {
        return Some(Allowance::Specializes(first));
    }
    if lists_impl(other.specializes.as_slice(), first) {
        return Some(Allowance::Specializes(second));
    }
    None
}

/// Why an overlap of the impls of these numbers, in their order, is no error; `None` where one of them is no impl.
pub(crate) fn allowance_of_ordered(cx: &Cx, first: ImplId, second: ImplId) -> Option<Allowance>
{
    let Some(one) = cx.impl_contents(first) else {
        return None;
    };
    let Some(other) = cx.impl_contents(second) else {
        return None;
    };
    allowance_between(cx, first, second, one, other)
}

/// Why an overlap of the two impls is no error by what is declared: one of them is a reservation, or else their trait is a marker and both say
/// the same of it, or else the one of the lower number specialises the other, or else the other that one. `None` where none of this is so, or
/// the numbers aren't those of two impls of one trait. It is the same whichever is given first.
///
/// The rule is that of rustc's `impls_are_allowed_to_overlap`, and then that of specialisation, but that what specialises is declared.
pub fn allowance_of(cx: &Cx, first: ImplId, second: ImplId) -> Option<Allowance>
{
    let pair = in_order(first, second);
    allowance_of_ordered(cx, pair.0, pair.1)
}
