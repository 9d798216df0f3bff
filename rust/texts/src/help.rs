// Made of `crates/texts/src/help.rt` by `bench/plain.py`: an edit of this file is lost.

//! The commands and their forms, as they are printed for who asks.

use kit::{eprintln, format, prelude::*, print, println, vec};
use assembly_text::help::add_help;

/// A line for each command.
const HELP: &str = "\
\x20\x20prelude: the declarations of Rust's std that the program brings, as the first line
  adt C NAME N [fundamental|phantom|manually_drop|unsafe_fields|enum|union] ..: a data type
  trait C NAME N [auto|alias|unsafe|fundamental|dyn|default|by_head|marker] ..: a trait, with its parameters after Self
  impl C NAME N +|-|reservation TRAIT TYPE ..: an impl: what it says of the trait and its arguments, Self first
  field ADT TYPE ..: the next field of the data type
  assoc TRAIT NAME [sized_self] ..: an associated type of the trait
  foreign C NAME: a type that is known by its name alone
  opaque C NAME N TYPE ..: an opaque type, and the type that it hides
  super TRAIT CLAUSE TYPE ..: what holds where the trait does
  where TRAIT CLAUSE TYPE ..: what is asked for the trait
  iwhere IMPL CLAUSE TYPE ..: what the impl asks for
  value IMPL ASSOC TYPE ..: what the impl says that the associated type is
  bound ALIAS CLAUSE TYPE ..: a bound of the alias
  nbound ALIAS CLAUSE TYPE ..: a bound of an alias that it is a projection of
  env CLAUSE TYPE ..: the clause holds
  norm TYPE ..: the alias that stands first is normalised to the second type
  sized ADT TYPE ..: the data type is sized where this type is
  metasized ADT TYPE ..: its size is known from metadata where this type's is
  unsizing ADT K: the parameter changes where the data type is unsized
  default IMPL: the impl is default
  specializes IMPL IMPL: the first impl specialises the second
  lang Sized|MetaSized|Copy|Clone|TrivialClone|Fn|FnMut|FnOnce|FnPtrTrait|Tuple|PointeeTrait|DiscriminantKind|Destruct|Drop|BikeshedGuaranteedNoDrop|Unsize TRAIT: the trait is one that the language knows
  local C: the local crate, 0 if absent
  mode coherence|analysis|borrowck|post_borrowck|post_analysis [negative]: the mode in which goals are asked
  feature specialization: a feature of the language is used
  limit walk|alias|const|recursion N: where walks of that kind end
  orphan local|compat|remote TRAIT TYPE ..: may the crate write an impl with this header?
  knowable TRAIT TYPE ..: are all impls of the reference known?
  solve K [-] TRAIT TYPE ..: what does the goal come to in K rounds?
  answer K [-] TRAIT TYPE ..: the same, and what do its variables stand for?
  normalize K TYPE ..: what type is the projection?
  overlap K IMPL IMPL: do the impls overlap, and what keeps them apart?
  check K: which impls overlap, and which may not be written?
  candidates K [-] TRAIT TYPE ..: in which ways may the goal hold?
  why K [-] TRAIT TYPE ..: by which steps does the goal hold?
  why K IMPL IMPL: what keeps the impls apart, or why may they overlap?

C: the number of a crate, 0 to 255; where no line says which crate is local, 0 is
K: how many rounds a goal is asked for at most, or * for as many as change something; of unsizing, the number of a parameter
N: how many parameters there are, of a trait after Self, or a letter for each: t for a type, c for a constant, r for a region
CLAUSE: a trait, or an associated type, whose last TYPE is then what it is
TYPE: a type's words, its head first: u8, Vec u8, & u8, [] u8, (2) u8 u8, fn(1) u8 bool
  #0 is the first parameter of what is declared, $0 the first variable of a query; an associated type's Self and arguments stand behind its name
A line that begins with #, and what stands behind a word that begins with //, is passed over.
";

#[test]
fn has_a_line_for_each_command() {
    let rt = HostRuntime;
    let mut help = String::new(rt.alloc());
    add_help(&mut help).expect("memory");
    assert!( help.as_str() == HELP, "{help}");
}
