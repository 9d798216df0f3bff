// Made of `crates/rounds_judge/src/lib.rt` by `bench/plain.py`: an edit of this file is lost.

//! What an evaluator that works in rounds is to answer: its judge. The definitions are in `specs`, and that they keep the laws of an
//! evaluator is proved in `proofs`. There is no code but one function that says so.


use kit::{eprintln, format, prelude::*, print, println, vec};
/// Whatever is declared, wherever walks end, whatever pairs and opaque types it is given, and whatever table it reads, the judge keeps the laws of an
/// evaluator. Of the pairs those count that may be listed, and of the table what may be read; in what words it tells how a goal is proved
/// is the caller's, `W`. Each sound state has a solution, so that what is said of equations without one says something. A goal of a trait
/// for which the table that is read has a final verdict is refused or done, and doesn't stay pending. An error is equal to itself alone.
/// A second judge keeps the laws, too: it reads tables of goals of projections besides, by which an open alias is what its goal's Yes says. No
/// evaluator answers by that one yet. Nothing is done.
pub fn keeps_the_laws<W>()
{}
