// Made of `crates/texts/src/cases.rt` by `bench/plain.py`: an edit of this file is lost.

//! A run with devices that take so many calls, and what it has to end with.

use kit::{eprintln, format, prelude::*, print, println, vec};
use crate::memory::{ALL_CALLS, Calls, run_as};
use assembly_text::options::Options;
use assembly_text::run::Status;
use kit::alloc::Global;

/// The declarations over which most queries are asked.
pub const DECLARATIONS: &str = "adt 1 Vec 1
adt 1 Box 1 fundamental
adt 1 Pair 2 fundamental
adt 1 Unit0 0 fundamental
adt 0 LocalType 0
adt 0 Wrap 1
trait 1 Trait 0
trait 1 Trait1 1
trait 1 Trait2 2
trait 0 LocalTrait 0
trait 1 Tr 0
assoc Tr Out
";

/// What most lines below are about: data types, traits, an associated and an opaque type, and impls.
pub const BEFORE: &str = "\
adt 1 V 1
adt 1 W 2
trait 1 T 0
trait 1 Over 1
assoc T O
opaque 1 P 1 V #0
impl 1 i 1 + T V #0
impl 1 j 0 + T u8
foreign 1 F
";

/// One text after another.
pub fn joined(rt: &HostRuntime, alloc: Global, parts: &[&str]) -> String {
    parts.kit_concat(alloc).expect("memory")
}

/// The text of the bytes, if they are one.
fn as_text(bytes: &[u8]) -> &str {
    kit::str::from_utf8(bytes).unwrap_or("(no text)")
}

/// Runs over the text with such devices, which has to end so and to write that. Where all can be said, something is said of a bad line,
/// and nothing of any other text.
pub fn check(
    rt: &HostRuntime,
    alloc: Global,
    text: &[u8],
    calls: Calls,
    status: Status,
    want: &[u8],
) {
    let ran = run_as(alloc, Options::default(), text, calls);
    let is_said = calls.says > 0 && status == Status::BadLine;
    let Calls { reads, writes, .. } = calls;
    assert!(
        ran.status == status && ran.written.as_slice() == want && ran.said.is_empty() != is_said,
        "{}: {reads} reads, {writes} writes, {:?}, {}",
        as_text(text),
        ran.status,
        as_text(ran.written.as_slice())
    );
}

/// The text runs to an end that no device is blamed for.
pub fn ends(rt: &HostRuntime, alloc: Global, text: &[u8]) {
    let ran = run_as(alloc, Options::default(), text, ALL_CALLS);
    assert!( ran.status != Status::DeviceFailed, "{}", as_text(text));
}

/// The text, cut after each byte, runs to such an end.
pub fn ends_cut(rt: &HostRuntime, alloc: Global, text: &[u8]) {
    for end in 0..text.len() {
        ends(rt, alloc, &text[..end]);
    }
}
