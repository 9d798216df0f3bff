//! Impls that differ in lengths, constants, kinds of function pointers, or in regions that a binder binds.
//! `open` stands behind a line in which the tools find something and rustc nothing.

#![allow(coherence_leak_check)]

pub struct Grid<const W: usize, const H: usize>;
pub struct Flag<const B: bool, const C: char, const I: i8>;

pub trait Lengths {}
impl Lengths for [u8; 3] {}
impl Lengths for [u8; 4] {}
impl<T: Copy> Lengths for [T; 2] {}
impl Lengths for [String; 2] {}

pub trait AllLengths {}
impl<T, const N: usize> AllLengths for [T; N] {}
impl AllLengths for [u8; 4] {}

pub trait Squares {}
impl<const N: usize> Squares for Grid<N, N> {}
impl Squares for Grid<2, 3> {}
impl Squares for Grid<3, 3> {}

pub trait Flags {}
impl Flags for Flag<true, 'a', -1> {}
impl Flags for Flag<false, 'c', -1> {}
impl Flags for Flag<true, 'c', -1> {}
impl Flags for Flag<true, 'b', -1> {}
impl Flags for Flag<true, 'a', 1> {}
impl<const B: bool> Flags for Flag<B, 'a', { -0x1 }> {}

pub trait Named<const N: usize> {}
impl<T> Named<1> for T {}
impl Named<2> for u8 {}
impl Named<1> for u8 {}

pub trait Kinds {}
impl Kinds for fn(u8) {}
impl Kinds for unsafe fn(u8) {}
impl Kinds for extern "C" fn(u8) {}
impl Kinds for unsafe extern "C" fn(u8) {}
impl Kinds for unsafe extern "C" fn(u8, ...) {}
impl Kinds for extern "system" fn(u8) {}
impl<R> Kinds for extern "C" fn(u8) -> R {}

pub trait Copied {}
impl<T: Copy> Copied for T {}
impl Copied for unsafe extern "C" fn(u8, ...) {}
impl Copied for [String; 3] {}
impl Copied for [u8; 3] {}

pub trait Called {}
impl<F: Fn(u8) -> u8> Called for F {}
impl Called for fn(u8) -> u8 {}
impl Called for unsafe fn(u8) -> u8 {}

pub trait Bound {}
impl Bound for fn(&u8) {}
impl Bound for fn(&'static u8) {}
impl Bound for fn(&u8, &u8) {}
impl Bound for for<'a> fn(&'a u8, &'a u8) {}
impl Bound for for<'b> fn(&'b u8) {}

pub trait Answers {}
impl Answers for fn(&u8) -> &u8 {}
impl Answers for for<'a> fn(&'a u8) -> &'a u8 {}
impl Answers for fn(&u8) -> &'static u8 {} // open

pub trait Dynamic {}
impl Dynamic for dyn Fn(&u8) {}
impl Dynamic for dyn Fn(&'static u8) {}
impl Dynamic for dyn for<'a> Fn(&'a u8) {}

pub trait Any {}
impl<T> Any for fn(T) {}
impl Any for fn(&u8) {}
impl Any for fn(u8) {}

pub trait Held {}
impl<T> Held for T where for<'a> &'a T: IntoIterator {}
impl Held for Vec<u8> {}
impl Held for bool {}

pub type Refers<'a, T> = &'a T;
pub type Pairs<T> = (T, T);

pub trait Aliased {}
impl Aliased for for<'b> fn(Refers<'b, u8>) {}
impl Aliased for fn(&u8) {}
impl Aliased for for<'b, 'a> fn(&'a u16, &'b u32) {}
impl Aliased for fn(&u16, &u32) {}
impl Aliased for fn(Pairs<&'static u8>) {}
impl Aliased for for<'a> fn(Pairs<fn(&'a u8)>) {}
impl Aliased for for<'a> fn((fn(&'a u8), fn(&'a u8))) {}
impl Aliased for fn(&u8, for<'a> fn(&'a u8) -> &'a u8) {}
impl Aliased for fn(&u8, fn(&u8) -> &u8) {}

pub trait Answered {}
impl<F: Fn(&u8) -> &u8> Answered for F {}
impl Answered for fn(&u8) -> &u8 {}
impl Answered for bool {}

pub trait Inside {}
impl Inside for Box<dyn Fn(&u8, &u16) -> Box<dyn Fn(&u8) -> &u8>> {}
impl Inside for Box<dyn for<'x, 'y> Fn(&'y u8, &'x u16) -> Box<dyn for<'z> Fn(&'z u8) -> &'z u8>> {}
impl Inside for Box<dyn Fn(&u8, &u16) -> Box<dyn Fn(&u16) -> &u16>> {}
