//! Which impl specialises which: each module is one line, so that a line tells what rustc and the tools say of it.
//! `open` stands behind a line in which the tools find something and rustc nothing.

#![feature(specialization)]
#![allow(incomplete_features, dead_code)]

pub mod case_1 { pub trait Tr { fn f(&self) {} } impl<T> Tr for T { default fn f(&self) {} } impl Tr for u8 { fn f(&self) {} } }
pub mod case_2 { pub trait Tr { fn f(&self) {} } impl<T: Clone> Tr for T { default fn f(&self) {} } impl<T: std::fmt::Debug> Tr for T { default fn f(&self) {} } }
pub mod case_3 { pub trait Tr { fn f(&self) {} } impl<T: Clone> Tr for T { default fn f(&self) {} } impl<T> Tr for Vec<T> { fn f(&self) {} } }
pub mod case_4 { pub trait Tr { fn f(&self) {} } impl<T: Clone> Tr for T { default fn f(&self) {} } impl<T: Clone> Tr for Vec<T> { fn f(&self) {} } }
pub mod case_5 { pub trait Tr { fn f(&self) {} } impl<T: Ord> Tr for T { default fn f(&self) {} } impl<T: PartialOrd + Eq + Ord> Tr for T { default fn f(&self) {} } }
pub mod case_6 { pub trait Tr<U> { fn f(&self) {} } impl<T, U> Tr<U> for T where T: Iterator<Item = U> { default fn f(&self) {} } impl<U> Tr<U> for std::vec::IntoIter<U> { fn f(&self) {} } }
pub mod case_7 { pub trait Tr<U> { fn f(&self) {} } impl<T, U> Tr<U> for T where T: Iterator<Item = U> { default fn f(&self) {} } impl<U> Tr<u8> for std::vec::IntoIter<U> { fn f(&self) {} } }
pub mod case_8 { pub trait Tr {} impl<T: Copy> Tr for T {} impl Tr for u8 {} impl<T: Copy> Tr for [T; 3] {} impl<T> Tr for Option<T> {} }
pub mod case_9 { pub trait Tr { fn f(&self) {} } impl<T> Tr for (T, T) { default fn f(&self) {} } impl<T, U> Tr for (T, U) { default fn f(&self) {} } impl Tr for (u8, u8) { fn f(&self) {} } }
pub mod case_10 { pub trait Tr { type X; fn f(&self) {} } impl<T> Tr for T { default type X = (); default fn f(&self) {} } impl<T: Clone> Tr for T { type X = u8; } }
pub mod case_11 { pub trait Sub {} impl Sub for u8 {} pub trait Tr {} impl<T: IntoIterator> Tr for T where T::Item: Sub {} impl Tr for Vec<u8> {} impl Tr for Vec<u16> {} impl<T: Sub> Tr for Option<T> {} }
pub mod case_12 { pub trait Tr<'a> { fn f(&self) {} } impl<'a, T> Tr<'a> for &'a T { default fn f(&self) {} } impl<'a, T> Tr<'static> for &'a T { default fn f(&self) {} } }
pub mod case_13 { pub trait Tr { fn f(&self) {} } impl<T> Tr for &'static T { default fn f(&self) {} } impl<'a> Tr for &'a u8 { fn f(&self) {} } }
pub mod case_14 { pub trait Tr { fn f(&self) {} } impl<T: Send> Tr for T { default fn f(&self) {} } impl<T: Send> Tr for Vec<T> { fn f(&self) {} } impl Tr for std::rc::Rc<u8> { fn f(&self) {} } }
pub mod case_15 { pub trait Tr { fn f(&self) {} } impl<T: ?Sized> Tr for Box<T> { default fn f(&self) {} } impl Tr for Box<dyn Fn(u8) -> u8> { fn f(&self) {} } impl<const N: usize> Tr for Box<[u8; N]> { fn f(&self) {} } }
pub mod case_16 { pub trait Tr { fn f(&self) {} } impl<F: Fn(u8)> Tr for F { default fn f(&self) {} } impl Tr for fn(u8) { fn f(&self) {} } impl<A> Tr for fn(A) { fn f(&self) {} } }
macro_rules! general { ($t:ident) => { default fn f(&self) {} default unsafe fn g(&self) {} } }
pub mod case_17 { pub trait Tr { fn f(&self); unsafe fn g(&self); } impl<T> Tr for T { general! {x} } impl<T: Clone> Tr for T { fn f(&self) {} } }
pub mod case_18 { pub trait A { type X; } impl<T> A for T { default type X = u8; } impl A for u16 { type X = u16; } pub trait Tr {} impl<T> Tr for T where T: A<X = u8> {} impl<T: Copy> Tr for Vec<T> {} }
pub mod case_19 { pub trait A { type X; } impl<T> A for T { type X = u8; } pub trait Tr {} impl<T> Tr for T where T: A<X = u8> {} impl<T: Copy> Tr for Vec<T> {} }
pub mod case_20 { pub trait Sup {} pub trait Sub: Sup {} pub trait Tr {} impl<T: Sup> Tr for T {} impl<T: Sub> Tr for T {} }
pub mod case_21 { pub trait Tr {} impl<T: Clone> Tr for T {} impl<T> Tr for Vec<T> where Vec<T>: Clone {} }
pub mod case_22 { pub trait Tr {} impl<const N: usize> Tr for [u8; N] {} impl Tr for [u8; 3] {} impl<T: Copy, const N: usize> Tr for [T; N] {} }
pub mod case_23 { pub trait Tr {} impl<T: ?Sized> Tr for T {} impl<T> Tr for T {} impl Tr for str {} impl Tr for dyn Fn() {} }
pub mod case_24 { pub trait A {} pub trait B {} pub trait Tr {} impl<T: A> Tr for T {} impl<T: A + B> Tr for Vec<T> where Vec<T>: A {} }
pub mod case_25 { pub trait A {} pub trait B {} pub trait Tr {} impl<T: A> Tr for T {} impl<T: A + B> Tr for Vec<T> {} impl<T: B> A for Vec<T> {} }
pub mod case_26 { pub trait Tr {} impl<I, T> Tr for I where I: Iterator<Item = T>, T: Copy {} impl Tr for std::vec::IntoIter<u8> {} impl<U> Tr for std::vec::IntoIter<Vec<U>> {} }
pub mod case_27 { pub trait Tr {} impl<T> Tr for T where Vec<T>: Clone {} impl<T: Clone> Tr for Option<T> {} impl<T> Tr for Result<T, T> {} }
pub mod case_28 { pub trait Tr {} impl<I: IntoIterator> Tr for (I,) where I::Item: Copy {} impl<I: Iterator> Tr for (I,) where I::Item: Copy {} }
pub mod case_29 { pub trait Tr {} impl<T: Iterator> Tr for T where T::Item: Copy {} impl<T: Iterator<Item = u8>> Tr for T {} }
pub mod case_30 { pub trait Tr {} impl<T: Iterator> Tr for T where T::Item: Copy {} impl<T: Iterator<Item = U>, U> Tr for T {} }
pub mod case_31 { pub trait Tr<U> {} impl<T, U> Tr<U> for T where T: Into<U> {} impl<T> Tr<T> for T {} impl<T> Tr<Vec<T>> for Option<T> {} }
pub mod case_32 { pub trait Tr {} impl<F: Fn() -> R, R: Copy> Tr for F {} impl<R: Copy> Tr for fn() -> R {} }
pub mod case_33 { pub trait Q<T> {} pub trait Tr {} impl<T, U: Clone> Tr for (T, U) where T: Q<U> {} impl<T> Tr for (T, u8) where T: Q<u8> {} impl<T> Tr for (T, u16) where T: Q<u8> {} }
pub mod case_34 { pub struct W<T>(*const T); pub trait Tr {} impl<T: Send> Tr for T {} impl<T> Tr for W<T> {} pub struct V<T>(T, u8); impl<T: Send> Tr for V<T> {} impl<T> Tr for Vec<V<T>> {} }
pub mod case_35 { pub trait X<T> {} impl X<u8> for u16 {} impl X<u16> for u16 {} pub trait Y {} impl<T> Y for T where T: X<u8> {} pub trait Tr {} impl<T: Y> Tr for T {} impl Tr for u16 {} impl Tr for u32 {} }
pub mod case_36 { pub trait Tr<A, B> {} impl<A, B> Tr<A, B> for A {} impl<A> Tr<A, A> for A {} impl<A> Tr<Vec<A>, A> for Vec<A> {} }
pub mod case_37 { pub trait Tr {} impl<T: Default + Clone> Tr for T {} impl<T: Default> Tr for Box<T> where T: Clone {} impl<T: Default> Tr for std::rc::Rc<T> {} impl<T> Tr for std::cell::RefCell<T> {} }
pub mod case_38 { pub trait A { type X; } pub trait Tr {} impl<T: A> Tr for T where T::X: A {} impl<T: A<X = T>> Tr for T {} impl<T: A<X = U>, U: A> Tr for Vec<T> where Vec<T>: A<X = U> {} impl<T: A> Tr for Option<T> where Option<T>: A {} }
pub mod case_39 { pub trait Tr { fn f(&self) {} } impl<T: Ord> Tr for T { default fn f(&self) {} } impl<T: PartialOrd + Eq + Ord> Tr for T {} }
pub mod case_40 { pub trait Tr {} impl<T: Copy> Tr for T {} impl<T> Tr for &T {} impl<'a, T: Copy> Tr for &'a mut T {} impl<T> Tr for &T where T: Copy {} }
