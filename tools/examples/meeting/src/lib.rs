//! Impls that meet, for `check_crate.py` and its tests. rustc refuses four of them.

use std::fmt::Display;

pub trait Show {
    type Shown;
}

impl<T: Display> Show for T {
    type Shown = String;
}

// E0119: another version of std may add `impl Display for Vec<u8>`.
impl Show for Vec<u8> {
    type Shown = u8;
}

// Apart from the first: no other crate can write `impl Display for Local`.
pub struct Local<T>(pub T);

impl Show for Local<u8> {
    type Shown = bool;
}

// E0117: neither the trait nor the type is of this crate.
impl Display for Vec<u8> {
    fn fmt(&self, _: &mut std::fmt::Formatter<'_>) -> std::fmt::Result {
        Ok(())
    }
}

// E0119: the same twice.
#[derive(Clone)]
pub struct Name(String);

impl Clone for Name {
    fn clone(&self) -> Name {
        Name(String::new())
    }
}

pub trait Sized16<const N: usize> {}

pub const LIMIT: usize = 16;

impl Sized16<0x10> for [u8; LIMIT] {}

impl Sized16<LIMIT> for [u16; 16] {}

pub type Callback = for<'a> unsafe extern "C" fn(&'a u8) -> bool;

impl Sized16<1> for Callback {}

// E0119, in a body: rustdoc doesn't show this impl.
const _: () = {
    impl Show for u16 {
        type Shown = u16;
    }
};
