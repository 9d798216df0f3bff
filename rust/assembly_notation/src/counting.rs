// Made of `crates/assembly_notation/src/counting.rt` by `bench/plain.py`: an edit of this file is lost.

//! How many words types are spelled in.


use kit::{eprintln, format, prelude::*, print, println, vec};
use kit::indexmap::IndexMap;
use ir_context::decl::context::Cx;
use ir_trees::ir::heads::{Builtin, Head, PartHead};
use ir_trees::ir::kinds::{RegionKind, Ty};
use ir_trees::ir::stop::Stop;
use ir_trees::ir::trees::Trees;
use kit::alloc::Global;
use kit::marker::Model;

/// A type of more words isn't spelled whole.
const MAX_WORDS: u32 = 65_535;

/// So many numbers aren't noted, so that the words of a small type are counted without memory.
const SPARED: u32 = 16;

/// Why the words of a tree weren't counted.
#[derive(Debug)]
enum Uncounted {
    /// They are more than `MAX_WORDS`.
    TooMany,
    /// A node has more children than can be counted.
    NodesFull,
}

/// How many words the trees of numbers have that were counted, but for the first few.
#[derive(Debug)]
struct Counted {
    words: IndexMap<u32, u32>,
    /// How many weren't noted.
    spared: u32,
}

impl Model for Counted {


}

impl Counted {
    /// No number.
    fn new(alloc: Global) -> Counted
    {
        Counted {
            words: IndexMap::new(alloc),
            spared: 0,
        }
    }

    /// How many words the tree of that number has, if it is noted.
    fn get(&self, number: u32) -> Option<u32>
    {
        self.words.get(&number).copied()
    }

    /// Notes how many words the tree of a number has, unless it is one of the first few, or a growth is refused: its words are counted
    /// again then, where it stands again.
    fn note(&mut self, number: u32, words: u32)
    {
        if self.spared < SPARED {
            self.spared += 1;
            return;
        }
        let _ = self.words.insert(number, words);
    }
}

/// Both together, if they are no more than `MAX_WORDS`.
fn sum(before: u32, words: u32) -> Result<u32, Uncounted>
{
    match before.checked_add(words) {
        Some(sum) if sum <= MAX_WORDS => Ok(sum),
        _ => Err(Uncounted::TooMany),
    }
}

/// Whether the first child is the static region, which has no word behind `&`.
fn begins_static(cx: &Cx, number: u32) -> bool
{
    match cx.child(number, 0) {
        Some(child) => matches!(cx.head(child), Head::Region(RegionKind::Static)),
        None => false,
    }
}

/// How many words the head of a number has, beside those that its children have.
fn head_words(cx: &Cx, number: u32) -> u32
{
    match cx.head(number) {
        Head::Ref(_) => u32::from(!begins_static(cx, number)),
        Head::Builtin(Builtin::FnPtr(form)) => 1
            + u32::from(!form.safe)
            + u32::from(!form.rust_abi),
        Head::Builtin(Builtin::Array) | Head::Dynamic | Head::List(_) => 0,
        Head::Part(PartHead::Vars) => u32::from(cx.child(number, 0).is_some()),
        _ => 1,
    }
}

/// Whether what stands below the head has no words.
fn is_closed(head: Head) -> bool
{
    matches!(
        head,
        Head::Builtin(Builtin::Pat(_) | Builtin::UnsafeBinder)
            | Head::FnDef(_)
            | Head::Closure(_, _)
            | Head::Const(_)
            | Head::Region(_)
            | Head::Infer(_)
            | Head::Part(PartHead::Vars)
    )
}

/// How many words there are before and in the tree of a number. Each number is gone into once.
fn add_tree(cx: &Cx, counted: &mut Counted, number: u32, before: u32) -> Result<u32, Uncounted>
{
    if let Some(words) = counted.get(number) {
        return sum(before, words);
    }
    let with_head = sum(before, head_words(cx, number))?;
    if is_closed(cx.head(number)) {
        return Ok(with_head);
    }
    let after = add_children(cx, counted, number, with_head)?;
    counted.note(number, after - before);
    Ok(after)
}

/// How many words there are before and in the trees below a number.
fn add_children(cx: &Cx, counted: &mut Counted, number: u32, before: u32) -> Result<u32, Uncounted>
{
    let mut after = before;
    for place in 0..usize::MAX {
        let Some(child) = cx.child(number, place) else {
            return Ok(after);
        };
        after = add_tree(cx, counted, child, after)?;
    }
    Err(Uncounted::NodesFull)
}

/// Whether the type has no more than `MAX_WORDS` words. `Stop::NodesFull` comes where a node has more children than can be counted.
pub(crate) fn has_few_words(alloc: Global, cx: &Cx, ty: Ty) -> Result<bool, Stop>
{
    let mut counted = Counted::new(alloc);
    match add_tree(cx, &mut counted, ty.0, 0) {
        Ok(words) => Ok(words <= MAX_WORDS),
        Err(Uncounted::TooMany) => Ok(false),
        Err(Uncounted::NodesFull) => Err(Stop::NodesFull),
    }
}
