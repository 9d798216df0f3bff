// Made of `crates/assembly_text/src/hints.rt` by `bench/plain.py`: an edit of this file is lost.

//! What is said of a text that asks in a way that may not be meant.

use kit::{eprintln, format, prelude::*, print, println, vec};
use kit::alloc::AllocError;

/// Adds that the line of that number asks outside coherence whether impls overlap.
pub fn add_hint(number: u64, said: &mut String) -> Result<(), AllocError> {
    writeln!(
        said,
        "line {number}: outside coherence a refusal keeps no impls apart, so that a 'maybe' may be a false alarm; put 'mode coherence' before the queries"
    )
}
