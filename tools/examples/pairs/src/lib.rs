//! Fifty pairs of impls of many shapes, each of a trait of its own. rustc refuses some and accepts others; `cargo coherence` says the same.

use std::fmt::{Debug, Display};
use std::rc::Rc;

pub struct Own;
pub struct Held<T>(pub T);
pub struct Both<T, U>(pub T, pub U);

#[derive(Clone, Copy)]
pub struct Meters(pub f64);

// Refused, and nobody can change that.

pub trait P01 {}
impl<T: Copy> P01 for T {}
impl P01 for u8 {}

pub trait P02 {}
impl P02 for u8 {}
impl P02 for u8 {}

pub trait P03 {}
impl<T> P03 for Vec<T> {}
impl P03 for Vec<u8> {}

pub trait P04 {}
impl<T> P04 for T {}
impl<T> P04 for Held<T> {}

pub trait P05<A> {}
impl<T> P05<T> for u8 {}
impl<T> P05<u8> for T {}

pub trait P06 {}
impl<T, U> P06 for Both<T, U> {}
impl<T> P06 for Both<T, T> {}

pub trait P07 {}
impl<T: Copy> P07 for T {}
impl P07 for Meters {}

pub trait P08 {}
impl<T: Display> P08 for T {}
impl P08 for String {}

pub trait P09 {}
impl<T> P09 for &T {}
impl P09 for &u8 {}

pub trait P10 {}
impl<T> P10 for [T; 3] {}
impl<T, const N: usize> P10 for [T; N] {}

pub trait P11 {}
impl<T> P11 for (T, u8) {}
impl<T> P11 for (u8, T) {}

pub trait P12 {}
impl<T> P12 for Box<T> {}
impl P12 for Box<dyn Send> {}
impl P12 for Box<u8> {}

pub trait P13 {}
impl<T: ?Sized> P13 for Rc<T> {}
impl P13 for Rc<str> {}

pub trait P14 {}
impl P14 for fn(u8) -> u8 {}
impl<A, B> P14 for fn(A) -> B {}

pub trait P15 {}
impl<T> P15 for Option<T> {}
impl<T> P15 for Option<Vec<T>> {}

pub trait P16<A> {}
impl<T> P16<T> for T {}
impl P16<u8> for u8 {}

pub trait P17 {}
impl<F: Fn(u8) -> u8> P17 for F {}
impl P17 for fn(u8) -> u8 {}

pub trait P18 {}
impl<T: Iterator<Item = u8>> P18 for T {}
impl P18 for std::vec::IntoIter<u8> {}

pub trait P19 {}
impl<T: Into<u16>> P19 for T {}
impl P19 for u8 {}

pub trait P20 {}
impl<T: Send> P20 for T {}
impl P20 for Own {}

// Refused since another crate may add an impl.

pub trait P21 {}
impl<T: Display> P21 for T {}
impl P21 for Vec<u8> {}

pub trait P22 {}
impl<T: Copy> P22 for T {}
impl P22 for String {}

pub trait P23 {}
impl<T: Display> P23 for T {}
impl<T: Debug> P23 for Option<T> {}

pub trait P24 {}
impl<T: Iterator> P24 for T {}
impl P24 for String {}

pub trait P25<A> {}
impl<T, U: From<T>> P25<U> for T {}
impl P25<Vec<String>> for String {}

pub trait P26 {}
impl<T: Display> P26 for T {}
impl<T> P26 for Box<[T]> {}

pub trait P27 {}
impl<T: Display> P27 for Held<T> {}
impl P27 for Held<Vec<u16>> {}

pub trait P28 {}
impl<T: P21Like> P28 for T {}
impl P28 for Vec<u32> {}
pub trait P21Like {}
impl<T: Display> P21Like for T {}

// Refused since another crate may say what an associated type is.

pub trait P34 {}
impl<T: Iterator<Item = u8>> P34 for T {}
impl P34 for std::vec::IntoIter<u16> {}

pub trait P42 {}
impl P42 for <Vec<u8> as IntoIterator>::Item {}
impl P42 for u16 {}

// Accepted.

pub trait P29 {}
impl<T: Fn()> P29 for Held<T> {}
impl P29 for Held<Rc<u8>> {}

pub trait P30 {}
impl P30 for u8 {}
impl P30 for u16 {}

pub trait P31 {}
impl<T: Display> P31 for T {}
impl P31 for Own {}

pub trait P32 {}
impl<T: Copy> P32 for T {}
impl<T> P32 for Held<T> {}

pub trait P33 {}
impl<T> P33 for Vec<T> {}
impl<T> P33 for Option<T> {}

pub trait P35<A> {}
impl P35<u8> for Own {}
impl P35<u16> for Own {}

pub trait P36 {}
impl P36 for [u8; 3] {}
impl P36 for [u8; 4] {}

pub trait P37 {}
impl<T> P37 for (T,) {}
impl<T, U> P37 for (T, U) {}

pub trait P38 {}
impl<T> P38 for &T {}
impl<T> P38 for &mut T {}

pub trait P39 {}
impl<T> P39 for Box<T> {}
impl P39 for Box<str> {}

pub trait P40 {}
impl P40 for fn(u8) {}
impl P40 for unsafe fn(u8) {}

pub trait P41 {}
impl P41 for dyn Debug {}
impl P41 for dyn Display {}

pub trait P43 {}
impl<T: Local43> P43 for T {}
impl P43 for Vec<u8> {}
pub trait Local43 {}
impl Local43 for u8 {}

pub trait P44 {}
impl<T: Local43> P44 for T {}
impl P44 for u16 {}

pub trait P45 {}
impl<T> P45 for Both<T, u8> {}
impl<T> P45 for Both<T, u16> {}

pub trait P46<A> {}
impl<T> P46<T> for Held<T> {}
impl<T> P46<Vec<T>> for Held<T> {}

pub trait P47 {}
impl<T: Sized> P47 for Held<T> {}
impl P47 for str {}

pub trait P48 {}
impl P48 for *const u8 {}
impl P48 for *mut u8 {}

pub trait P49 {}
impl P49 for dyn Debug + Send {}
impl P49 for dyn Debug {}

pub trait P50 {}
impl<T: Default> P50 for T {}
impl P50 for Own {}
