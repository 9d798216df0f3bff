//! Which impls overlap, who may write an impl, and why a trait goal holds.
//!
//! This is the candidate assembly layer of rustc's next trait solver, as a library. It takes declarations of traits, types and impls, and answers three
//! kinds of questions:
//!
//! | question | call |
//! |---|---|
//! | Do two impls overlap, as far as any crate may tell? | [`impls_overlap`], [`kept_apart_by_clauses`], [`kept_apart_by_negation`] |
//! | May this crate write a header? May others write one that isn't known here? | [`orphan_check_trait_ref`], [`trait_ref_is_knowable`] |
//! | Does a goal hold, by which steps, and what is an associated type? | [`Rounds::run_settled`], [`Rounds::derivation`], [`Rounds::normalize`] |
//!
//! Its sources are made of ones in Rattle, a Rust with contracts, in which each function is proved: a goal that holds is derived, and a refusal in
//! coherence stays true when other crates appear. What is proved is the text in Rattle. This package is the same text without its contracts, compiled by
//! rustc.
//!
//! # An example
//!
//! Two impls of a trait `Show` of another crate: one for `bool`, and one for each type of which a trait `Known` of this crate holds. `Known` holds of `u8`
//! alone, so the two don't overlap.
//!
//! ```
//! use rilgomut::*;
//!
//! # fn main() -> Result<(), Box<dyn std::error::Error>> {
//! let mut builder = DeclsBuilder::new(Global);
//! let (this, other) = (builder.add_crate()?, builder.add_crate()?);
//! builder.set_local(this);
//! let known = builder.add_trait(this, &[], TraitFlags::default())?;
//! let show = builder.add_trait(other, &[], TraitFlags::default())?;
//! let byte = builder.mk_ty(TyKind::Uint(UintTy::U8))?;
//! let truth = builder.mk_ty(TyKind::Bool)?;
//! let parameter = builder.mk_ty(TyKind::Param(0))?;
//!
//! // impl Known for u8 {}
//! let header = builder.mk_trait_ref(known, &[byte])?;
//! builder.add_impl(this, &[], header, ImplPolarity::Positive)?;
//! // impl Show for bool {}
//! let header = builder.mk_trait_ref(show, &[truth])?;
//! let first = builder.add_impl(this, &[], header, ImplPolarity::Positive)?;
//! // impl<T: Known> Show for T {}
//! let header = builder.mk_trait_ref(show, &[parameter])?;
//! let second = builder.add_impl(this, &[VarKind::Ty], header, ImplPolarity::Positive)?;
//! let bound = builder.mk_trait_ref(known, &[parameter])?;
//! let bound = builder.mk_trait_clause(bound)?;
//! builder.push_impl_where(second, bound)?;
//!
//! let cx = Cx::new(builder.finish()?);
//! let (normal, opaque) = (vec![].into(), vec![].into());
//! let mode = TypingMode::Coherence;
//! let mut rounds = Rounds::with_open_aliases(Global, cx, mode, normal, opaque);
//! let overlap = impls_overlap(Global, &mut rounds, first, second, Effort::AsNeeded)?;
//! let clause = WhereClause { of: second, number: 0 };
//! assert_eq!(overlap, Overlap::DisjointClause(clause));
//! let shown = Shown::new(rounds.cx(), &["Known", "Show"]);
//! assert_eq!(shown.where_clause(clause).to_string(), "T0: Known");
//! # Ok(())
//! # }
//! ```
//!
//! # What to know
//!
//! - **Types are numbers of a context**, [`Cx`]: they are made by its methods of [`Build`] and [`Making`], as [`Build::mk_ty`] of a [`TyKind`], and one type has one
//!   number. [`Shown`] spells them as Rust does.
//! - **Declarations come first**, by a [`DeclsBuilder`]. Its `finish` tests them. Its error says what is wrong, and `place` of it where, if one
//!   declaration has the fault.
//! - **An [`Effort`]** says how far is looked. `Effort::AsNeeded` is the usual one: a goal that waits for another one is computed again once that one is
//!   final, and a run ends by itself when nothing changes any more. `Effort::Rounds` is a number of rounds, each of which computes all goals.
//! - **Giving up is no answer.** [`Stop`] says that a call gave up: memory, a limit, a type that is too large. `Maybe` says that it isn't known, and so does
//!   [`Overlap::May`], unless its instance is certain.
//! - **Numbers of one context aren't numbers of another.** A debug build panics where a call is given the number of a type, a list or a clause that there
//!   isn't, or one of another sort. It tells the call's name and the number. That a number is another context's can't be told where this one has such a number, too. A release build doesn't
//!   ask. It may then answer for another type, or panic at an index. It does nothing undefined: there is no `unsafe` in the library. Of declarations
//!   `finish` asks it in each build.
//! - [`run_text`] reads declarations and queries as lines of text, without any of this.
//!
//! The calls take an allocator, [`Global`], as their sources do, and lists of the kit, which are made of those of Rust's std by `into()`.

mod making;
mod shown;
pub mod worlds;

// What declarations and types are made of.
pub use candidate_ir::decl::contents::Impl;
pub use candidate_ir::decl::make::Make;
pub use candidate_ir::decl::{
    AdtFlags, AdtShape, AliasBoundKind, AliasShape, AssocKind, AssocValue, CrateId, DeclError, DeclFault, Decls, Destructor, FaultPlace, FnFlags, ImplId,
    ImplPolarity, LangItem, Limits, Owner, Sizedness, TraitFlags,
};
pub use candidate_ir::ir::kinds::*;
pub use candidate_ir::ir::stop::Stop;
pub use candidate_ir::ir::trees::Trees;
pub use kit::alloc::{AllocError, Global};

/// Takes declarations, and tests them at its end (`finish`).
///
/// A type that is made counts as declared, also where nothing names it: its arguments are tested by `finish`, too.
///
/// # Examples
///
/// The declarations `trait Iterator { type Item; }` and `impl<T> Iterator for Vec<T> { type Item = T; }`:
///
/// ```
/// # use rilgomut::*;
/// # fn main() -> Result<(), Box<dyn std::error::Error>> {
/// let mut builder = DeclsBuilder::new(Global);
/// let this = builder.add_crate()?;
/// builder.set_local(this);
/// let iterator = builder.add_trait(this, &[], TraitFlags::default())?;
/// let item = builder.add_assoc(iterator, AssocKind::Type, false)?;
/// let vec = builder.add_adt(this, AdtShape::Struct, &[VarKind::Ty], AdtFlags::default())?;
///
/// let element = builder.mk_ty(TyKind::Param(0))?;
/// let args = builder.mk_args(&[GenericArg::Ty(element)])?;
/// let of_vec = builder.mk_ty(TyKind::Adt(vec, args))?;
/// let args = builder.mk_args(&[GenericArg::Ty(of_vec)])?;
/// let header = TraitRef { def_id: iterator, args };
/// let written = builder.add_impl(this, &[VarKind::Ty], header, ImplPolarity::Positive)?;
/// builder.push_assoc_value(written, item, element)?;
/// let decls = builder.finish()?;
/// # Ok(())
/// # }
/// ```
pub use candidate_ir::decl::DeclsBuilder;

/// What is declared, and the types that are made over it, each of which is a number.
///
/// A context doesn't test what is made: [`Cx::args_fit`] and its like say whether a type has the arguments that it takes, and the caller asks them.
///
/// # Examples
///
/// One type has one number:
///
/// ```
/// # use rilgomut::*;
/// # fn main() -> Result<(), Box<dyn std::error::Error>> {
/// # let mut builder = DeclsBuilder::new(Global);
/// # let this = builder.add_crate()?;
/// # builder.set_local(this);
/// let mut cx = Cx::new(builder.finish()?);
/// let byte = cx.mk_ty(TyKind::Uint(UintTy::U8))?;
/// let slice = cx.mk_ty(TyKind::Slice(byte))?;
/// assert_eq!(slice, cx.mk_ty(TyKind::Slice(byte))?);
/// assert_eq!(Shown::new(&cx, &[]).ty(slice).to_string(), "[u8]");
/// # Ok(())
/// # }
/// ```
pub use candidate_ir::decl::Cx;

/// Makes types, constants, lists and clauses: a builder, a context and an evaluator do so.
///
/// # Examples
///
/// A builder and a context make types alike:
///
/// ```
/// # use rilgomut::*;
/// fn pair(maker: &mut impl Build, first: Ty, second: Ty) -> Result<Ty, Stop> {
///     let args = maker.mk_args(&[GenericArg::Ty(first), GenericArg::Ty(second)])?;
///     maker.mk_ty(TyKind::Tuple(args))
/// }
/// # fn main() -> Result<(), Box<dyn std::error::Error>> {
/// # let mut builder = DeclsBuilder::new(Global);
/// let unit = builder.mk_args(&[])?;
/// let unit = builder.mk_ty(TyKind::Tuple(unit))?;
/// pair(&mut builder, unit, unit)?;
/// # Ok(())
/// # }
/// ```
pub use candidate_ir::decl::make::Build;

// What evaluates goals.
pub use candidate_assembly::assembly::merging::TraitGoalProvenVia;
pub use candidate_eval::eval::certainty::Certainty;
pub use candidate_eval::eval::response::{Candidate, CanonicalResponse};
pub use candidate_eval::eval::source::{BuiltinImplSource, CandidateSource, ParamEnvSource};
pub use candidate_eval::eval::variable::CanonicalVar;
pub use candidate_rounds::rounds::derivation::{DerivationStep, DerivationTree};

/// Whether goals are asked as an overlap check asks them, or as a body does.
///
/// Take `Coherence` for overlaps: what other crates may add counts, so that a refusal stays true. Take `Analysis` for what holds by what is declared, as in the
/// body of a function, and `PostAnalysis` where opaque types are what they hide, too. In the modes between them opaque types are hidden in other ways.
pub use candidate_eval::eval::mode::TypingMode;
pub use candidate_rounds::rounds::effort::Effort;
pub use candidate_rounds::rounds::goals::{GoalKey, Verdict};

/// An evaluator of goals over a context.
///
/// [`Make::cx`] shows its context, and [`Rounds::into_parts`] gives it back. A goal's types are made by the evaluator itself. An answer means something
/// where [`Rounds::may_be_run`] says that the goal may be asked, and [`Cx::trait_ref_args_fit`] that its trait takes the arguments: a goal has variables and
/// placeholders, and no parameters.
///
/// # Examples
///
/// Does `Vec<u8>: Clone` hold, by which steps, and what does `Vec<bool>: Clone` wait for?
///
/// ```
/// # use rilgomut::*;
/// # fn main() -> Result<(), Box<dyn std::error::Error>> {
/// // impl Clone for u8 {}
/// // impl<T: Clone> Clone for Vec<T> {}
/// let rilgomut::worlds::Clones { cx, clone, vec, names, .. } = rilgomut::worlds::clones()?;
/// let mut rounds = Rounds::new(Global, cx, TypingMode::PostAnalysis, vec![].into(), vec![].into());
/// let byte = rounds.mk_ty(TyKind::Uint(UintTy::U8))?;
/// let args = rounds.mk_args(&[GenericArg::Ty(byte)])?;
/// let bytes = rounds.mk_ty(TyKind::Adt(vec, args))?;
/// let args = rounds.mk_args(&[GenericArg::Ty(bytes)])?;
/// let trait_ref = TraitRef { def_id: clone, args };
/// let goal = TraitPredicate { trait_ref, polarity: PredicatePolarity::Positive };
/// let env = rounds.mk_param_env(&[])?;
///
/// // The second round computes `u8: Clone`, and the third one reads it.
/// assert!(matches!(rounds.run(Global, env, goal, 2)?, Verdict::Maybe(..)));
/// assert!(matches!(rounds.run_settled(Global, env, goal)?, Verdict::Yes(..)));
///
/// let tree = rounds.derivation(Global, env, goal)?.expect("a yes has a derivation");
/// let shown = Shown::new(rounds.cx(), &names);
/// let steps: Vec<String> = tree.steps.iter().map(|step| shown.step(step).to_string()).collect();
/// assert_eq!(steps, ["u8: Clone by impl Clone for u8", "Vec<u8>: Clone by impl<T0> Clone for Vec<T0> where T0: Clone"]);
/// assert_eq!(*tree.steps[1].nested, [0]); // it rests on the first step
/// assert!(rounds.check_derivation(Global, &tree)?);
/// # Ok(())
/// # }
/// ```
///
/// What is `<Vec<u8> as Iterator>::Item`?
///
/// ```
/// # use rilgomut::*;
/// # fn main() -> Result<(), Box<dyn std::error::Error>> {
/// // impl<T> Iterator for Vec<T> { type Item = T; }
/// let rilgomut::worlds::Items { cx, item, vec, .. } = rilgomut::worlds::items()?;
/// let mut rounds = Rounds::new(Global, cx, TypingMode::PostAnalysis, vec![].into(), vec![].into());
/// let byte = rounds.mk_ty(TyKind::Uint(UintTy::U8))?;
/// let args = rounds.mk_args(&[GenericArg::Ty(byte)])?;
/// let bytes = rounds.mk_ty(TyKind::Adt(vec, args))?;
/// let args = rounds.mk_args(&[GenericArg::Ty(bytes)])?;
/// let env = rounds.mk_param_env(&[])?;
/// let response = rounds.normalize(Global, env, AliasTy::projection(item, args), Effort::AsNeeded)?.expect("it has a type");
/// // Of all variables of the goal, the last one is the type.
/// assert_eq!(rounds.cx().args(response.values).last(), Some(&GenericArg::Ty(byte)));
/// # Ok(())
/// # }
/// ```
pub use candidate_rounds::rounds::Rounds;

// Who may write an impl.
pub use candidate_eval::coherence::{
    Conflict, InCrate, IsFirstInputType, NormalizeErr, OrphanCheckErr, OrphanCheckMode, OrphanStop, UncoveredTyParams, trait_ref_is_local_or_fundamental,
    trait_ref_is_plain,
};

/// Whether a crate may write an impl for a reference, and why not.
///
/// A parameter of the impl stands as a variable in the reference, as `TyKind::Infer(InferTy::TyVar(0))`. The closure says what an alias is; one that answers the
/// type itself knows none.
///
/// # Examples
///
/// This crate may not write `impl Clone for u8`, where another one has the trait:
///
/// ```
/// # use rilgomut::*;
/// use std::convert::Infallible;
///
/// # fn main() -> Result<(), Box<dyn std::error::Error>> {
/// let rilgomut::worlds::Clones { mut cx, clone, .. } = rilgomut::worlds::clones()?;
/// let byte = cx.mk_ty(TyKind::Uint(UintTy::U8))?;
/// let args = cx.mk_args(&[GenericArg::Ty(byte)])?;
/// let trait_ref = TraitRef { def_id: clone, args };
/// let in_crate = InCrate::Local { mode: OrphanCheckMode::Proper };
/// let checked = orphan_check_trait_ref(Global, &mut cx, trait_ref, in_crate, |_, ty| Ok::<_, NormalizeErr<Infallible>>(ty));
/// let Ok(Err(OrphanCheckErr::NonLocalInputType(types))) = checked else { panic!("it is refused") };
/// assert_eq!(Shown::new(&cx, &[]).ty(types[0].0).to_string(), "u8");
/// # Ok(())
/// # }
/// ```
pub use candidate_eval::coherence::orphan_check_trait_ref;

/// Whether all impls for a reference are known here, and which other crates may have one.
///
/// # Examples
///
/// Another crate may add `impl Clone for bool` later, if the trait is of that crate:
///
/// ```
/// # use rilgomut::*;
/// use std::convert::Infallible;
///
/// # fn main() -> Result<(), Box<dyn std::error::Error>> {
/// let rilgomut::worlds::Clones { mut cx, clone, .. } = rilgomut::worlds::clones()?;
/// let truth = cx.mk_ty(TyKind::Bool)?;
/// let args = cx.mk_args(&[GenericArg::Ty(truth)])?;
/// let trait_ref = TraitRef { def_id: clone, args };
/// let known = trait_ref_is_knowable(Global, &mut cx, trait_ref, |_, ty| Ok::<_, NormalizeErr<Infallible>>(ty));
/// assert!(matches!(known, Ok(Err(Conflict::Upstream))));
/// # Ok(())
/// # }
/// ```
pub use candidate_eval::coherence::trait_ref_is_knowable;

// Whether impls overlap.
pub use overlaps::allowance::Allowance;
pub use overlaps::instance::CommonInstance;
pub use overlaps::overlap::{Overlap, WhereClause};

/// Whether two impls of a trait overlap, and what keeps them apart.
///
/// [`Overlap::May`] is certain where its instance says so ([`CommonInstance`]). Else nothing is known of the two.
///
/// # Examples
///
/// `impl Clone for u8` and `impl<T: Clone> Clone for Vec<T>` have no common instance:
///
/// ```
/// # use rilgomut::*;
/// # fn main() -> Result<(), Box<dyn std::error::Error>> {
/// let rilgomut::worlds::Clones { cx, of_byte, of_vec, .. } = rilgomut::worlds::clones()?;
/// let mut rounds = Rounds::with_open_aliases(Global, cx, TypingMode::Coherence, vec![].into(), vec![].into());
/// assert_eq!(impls_overlap(Global, &mut rounds, of_byte, of_vec, Effort::AsNeeded)?, Overlap::DisjointHeaders);
/// # Ok(())
/// # }
/// ```
pub use overlaps::overlap::impls_overlap;

/// Whether the where clauses of two impls can't hold together.
///
/// # Examples
///
/// The where clauses of two impls may not hold together: of `impl<T: Iterator<Item = u8>> Show for T` and `impl Show for Vec<bool>` the first one asks what
/// the items of `Vec<bool>` are.
///
/// ```
/// # use rilgomut::*;
/// # fn main() -> Result<(), Box<dyn std::error::Error>> {
/// let rilgomut::worlds::Items { cx, of_bytes, of_vec, .. } = rilgomut::worlds::items()?;
/// let mut rounds = Rounds::with_open_aliases(Global, cx, TypingMode::Coherence, vec![].into(), vec![].into());
/// assert!(matches!(impls_overlap(Global, &mut rounds, of_bytes, of_vec, Effort::AsNeeded)?, Overlap::May(_)));
/// assert!(kept_apart_by_clauses(Global, &mut rounds, of_bytes, of_vec, Effort::AsNeeded)?);
/// # Ok(())
/// # }
/// ```
pub use overlaps::together::kept_apart_by_clauses;

/// Whether a where clause of one of two impls is known to be false where the other impl holds.
///
/// # Examples
///
/// `impl<T: Clone> Show for T` and `impl Show for bool` are kept apart by `impl !Clone for bool`. That is asked outside coherence, as rustc does:
///
/// ```
/// # use rilgomut::*;
/// # fn main() -> Result<(), Box<dyn std::error::Error>> {
/// let rilgomut::worlds::Clones { cx, of_truth, of_clones, .. } = rilgomut::worlds::clones()?;
/// let mut rounds = Rounds::new(Global, cx, TypingMode::PostAnalysis, vec![].into(), vec![].into());
/// let clause = kept_apart_by_negation(Global, &mut rounds, of_truth, of_clones, Effort::AsNeeded)?;
/// assert!(clause.is_some_and(|clause| clause.of == of_clones));
/// # Ok(())
/// # }
/// ```
pub use overlaps::negation::kept_apart_by_negation;

pub use making::Making;
/// Whether an impl specialises another one: its header is an instance of the other's, whose where clauses hold there.
pub use overlaps::specializing::specializes;
pub use shown::{Displayed, Shown};

/// Reads declarations and queries, a line each, and writes the answers: what the program does.
///
/// # Examples
///
/// ```
/// use rilgomut::{run_text, Global, Status};
///
/// let text = "trait 0 Show 0\nimpl 0 of_byte 0 + Show u8\nsolve * Show u8\nsolve * Show bool\n";
/// let mut answers = Vec::new();
/// assert_eq!(run_text(Global, 0, text.as_bytes(), &mut answers, std::io::sink()), Status::Done);
/// assert_eq!(answers, b"yes misc\nrefused\n");
/// ```
pub use assembly_text::run::run_text;

pub use assembly_text::run::Status;
