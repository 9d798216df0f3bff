//! Impls that rustc accepts and warns of: `cargo coherence` says the same.

pub struct Own<T>(T);
pub struct Other<T>(T);

pub trait Identity {
    type Out;
}
impl<T> Identity for T {
    type Out = T;
}

// A parameter that stands in an associated type alone before the first local type, and one that doesn't.
impl<T: Copy> far::Far<Own<T>> for <T as Identity>::Out {}
impl<T: Copy> far::Far<T> for <Own<T> as Identity>::Out {}
impl<
    T: Copy,
    U,
> far::Far<Other<(T, U)>> for <(T, U) as Identity>::Out {}

pub trait Get<U> {
    type Got;
}
impl<T, U> Get<U> for Vec<T> {
    type Got = U;
}
pub struct Lines<T>(T);
impl<
    T: Copy,
    U,
> far::Far<Lines<(T, U)>> for <Vec<T> as Get<U>>::Got {}
pub struct Line<T>(T);
impl<T: Copy, U> far::Far<Line<(U, T)>> for <Vec<T> as Get<U>>::Got {}

// Function pointers that take a reference of any region, and of one.
pub trait Mark {}
impl Mark for fn(&'static u8) {}
impl Mark for for<'a> fn(&'a u8) {}

pub trait Deep {}
impl Deep for Vec<fn(&u8)> {}
impl Deep for Vec<fn(&'static u8)> {}

pub trait Any {}
impl<T> Any for fn(T) {}
impl<T> Any for for<'a> fn(&'a T) {}

// Of one region, and of two.
pub trait Pair<T> {}
impl Pair<Own<u8>> for for<'a> fn(&'a u8, &'a u8) {}
impl Pair<Own<u8>> for for<'a, 'b> fn(&'a u8, &'b u8) {}

// Of a region that the impl is for any of.
pub trait Each {}
impl<'x> Each for fn(&'x u8) {}
impl Each for for<'a> fn(&'a u8) {}

// With a where clause that holds, and with one that doesn't.
pub trait Held {}
impl<T: Copy> Held for fn(&'static T) {}
impl Held for for<'a> fn(&'a u8) {}

pub trait Refused {}
impl<T: Mark> Refused for fn(&'static T) {}
impl Refused for for<'a> fn(&'a u8) {}

// Three of one trait.
pub trait Three {}
impl Three for fn(&'static u8) {}
impl<'x> Three for fn(&'x u16) {}
impl Three for for<'a> fn(&'a u8) {}
impl Three for for<'a> fn(&'a u16) {}

// No lint: the headers meet.
pub trait Fun {}
impl Fun for fn(&'static u8) {}
pub trait Clause {}
impl<T: Fun> Clause for T {}
impl Clause for fn(&u8) {}
