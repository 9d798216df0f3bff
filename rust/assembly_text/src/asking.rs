// Made of `crates/assembly_text/src/asking.rt` by `bench/plain.py`: an edit of this file is lost.

//! The commands that ask.


use kit::{eprintln, format, prelude::*, print, println, vec};
use crate::solving::{
    Normal, Solved, normalize, overlap, overlap_anyway, solve, solve_for_values,
    test_specialization,
};
use assembly_notation::faults::Fault;
use assembly_notation::given::Given;
use assembly_notation::names::Names;
use assembly_notation::notation::Binders;
use assembly_notation::numbering::Numbering;
use assembly_notation::types::{MAX_DEPTH, Scope};
use assembly_notation::words::Words;
use candidate_eval::coherence::{
    Conflict, InCrate, NormalizeErr, OrphanCheckErr, OrphanCheckMode, OrphanStop,
    orphan_check_trait_ref, trait_ref_is_knowable,
};
use candidate_rounds::rounds::effort::Effort;
use candidate_rounds::rounds::goals::Verdict;
use candidate_rounds::rounds::normalizing::trait_predicate;
use ir_context::decl::context::Cx;
use ir_trees::decl::contents::ImplId;
use ir_trees::ir::kinds::{
    AliasKind, AliasTy, PredicatePolarity, TraitPredicate, TraitRef, Ty, TyKind,
};
use ir_trees::ir::stop::Stop;
use ir_trees::ir::trees::Trees;
use overlaps::overlap::Overlap;
use overlaps::specializing::Specialization;
use kit::alloc::Global;
use kit::convert::Infallible;

/// A command that asks.
#[derive(Clone, Copy, Debug)]
pub enum Query {
    Orphan,
    Knowable,
    Solve,
    Answer,
    Normalize,
    Overlap,
    Check,
    Candidates,
    Why,
}

/// How many rounds may be asked for.
const MAX_ROUNDS: u16 = 65_535;

/// For which crate a reference is checked.
const CRATES: [(&str, InCrate); 3] = [
    (
        "local",
        InCrate::Local {
            mode: OrphanCheckMode::Proper,
        },
    ),
    (
        "compat",
        InCrate::Local {
            mode: OrphanCheckMode::Compat,
        },
    ),
    ("remote", InCrate::Remote),
];

/// What is declared, and the answer that was made last.
#[derive(Debug)]
pub struct Asking<'a> {
    pub(crate) scope: Scope<'a, Cx>,
    pub(crate) answer: String,
    pub(crate) given: Given,
    /// Whether it is added to answers why they are so.
    pub(crate) reasons: bool,
}

/// All but the context, which a call has meanwhile.
#[derive(Debug)]
pub(crate) struct Rest<'a> {
    pub(crate) alloc: Global,
    names: Names<'a>,
    answer: String,
    pub(crate) given: Given,
    pub(crate) reasons: bool,
}

impl<'a> Rest<'a> {
    /// Puts the context back, which may have grown.
    pub(crate) fn with(self, maker: Cx) -> Asking<'a>
    {
        let Rest {
            alloc,
            names,
            answer,
            given,
            reasons,
        } = self;
        let scope = Scope {
            alloc,
            names,
            maker,
            numbering: Numbering::new(alloc),
        };
        Asking {
            scope,
            answer,
            given,
            reasons,
        }
    }
}

impl<'a> Asking<'a> {
    /// Over what is declared, and what queries take as given.
    pub fn new(scope: Scope<'a, Cx>, given: Given) -> Self
    {
        Asking {
            answer: String::new(scope.alloc),
            scope,
            given,
            reasons: false,
        }
    }

    /// Sets whether `ask` adds to answers why they are so. Behind the answer to a goal stand the lines of `why` then, and a line of a refused goal
    /// says why it is refused. Behind whether two impls overlap, and behind what a check finds, stands what keeps that open.
    pub fn with_reasons(self, reasons: bool) -> Self {
        let mut asking = self;
        asking.reasons = reasons;
        asking
    }

    /// What queries take as given. Its numbers are those of the context, after each query.
    pub fn given(&self) -> &Given
    {
        &self.given
    }

    /// Whether goals are asked in coherence.
    pub fn is_in_coherence(&self) -> bool {
        self.given.mode.is_coherence()
    }

    /// The answer that was made last.
    pub fn answer(&self) -> &str {
        self.answer.as_str()
    }

    /// Forgets the answer before, and what the query made in the context.
    pub(crate) fn forget(&mut self)
    {
        self.answer.clear();
        self.scope.maker.truncate(0);
    }

    /// The context, and all else.
    pub(crate) fn apart(self) -> (Cx, Rest<'a>)
    {
        let Asking {
            scope,
            answer,
            given,
            reasons,
            ..
        } = self;
        let Scope {
            alloc,
            names,
            maker,
            ..
        } = scope;
        let rest = Rest {
            alloc,
            names,
            answer,
            given,
            reasons,
        };
        (maker, rest)
    }

    /// The trait reference that ends the line.
    fn last_trait_ref<'b>(&mut self, words: &mut Words<'b>) -> Result<TraitRef, Fault<'b>>
    {
        let trait_ref = self.scope.read_trait_ref(words)?;
        words.end()?;
        Ok(trait_ref)
    }

    /// Makes the answer to a line that asks that, or says why it can't be made.
    ///
    /// What the query before made in the context is gone by then. The outer error is a fault of the line; nothing more is asked then.
    pub fn ask<'b>(
        self,
        query: Query,
        words: Words<'b>,
    ) -> (Asking<'a>, Result<Result<(), Stop>, Fault<'b>>) {
        let (asking, made) = self.ask_alone(query, words);
        match made {
            Ok(Ok(())) => asking.add_reasons_of(query, words),
            Ok(Err(stop)) => (asking, Ok(Err(stop))),
            Err(fault) => (asking, Err(fault)),
        }
    }

    /// Makes the answer to a line, without reasons but where the line itself asks for them.
    fn ask_alone<'b>(
        mut self,
        query: Query,
        words: Words<'b>,
    ) -> (Asking<'a>, Result<Result<(), Stop>, Fault<'b>>) {
        match query {
            Query::Orphan => {
                let made = self.orphan(words);
                (self, made)
            }
            Query::Knowable => {
                let made = self.knowable(words);
                (self, made)
            }
            Query::Solve => self.solve(words),
            Query::Answer => self.solve_for_values(words),
            Query::Normalize => self.normalize(words),
            Query::Overlap => self.overlap(words),
            Query::Check => self.check(words),
            Query::Candidates => self.candidates(words),
            Query::Why => {
                if self.names_impl(words) {
                    self.why_overlap(words)
                } else {
                    self.why(words)
                }
            }
        }
    }

    /// Makes the answer to a line that asks whether all impls of a reference are known.
    fn knowable<'b>(&mut self, mut words: Words<'b>) -> Result<Result<(), Stop>, Fault<'b>>
    {
        self.forget();
        let trait_ref = self.last_trait_ref(&mut words)?;
        let known = self.known(trait_ref);
        Ok(self.print_known(known))
    }

    /// Whether all impls of the reference are known, where no type is normalised.
    fn known(&mut self, trait_ref: TraitRef) -> Result<Result<(), Conflict>, OrphanStop<Infallible>>
    {
        trait_ref_is_knowable(
            self.scope.alloc,
            &mut self.scope.maker,
            trait_ref,
            unchanged,
        )
    }

    /// How a goal's trait reference begins: with the word `-`, where the reference is not to hold.
    fn polarity(words: &mut Words<'_>) -> PredicatePolarity {
        let mut ahead = *words;
        match ahead.next_word() {
            Some("-") => {
                *words = ahead;
                PredicatePolarity::Negative
            }
            _ => PredicatePolarity::Positive,
        }
    }

    /// The goal that ends the line, `TRAITREF` or `- TRAITREF`.
    fn predicate<'b>(&mut self, words: &mut Words<'b>) -> Result<TraitPredicate, Fault<'b>>
    {
        let polarity = Self::polarity(words);
        let trait_ref = self.last_trait_ref(words)?;
        Ok(TraitPredicate {
            trait_ref,
            polarity,
        })
    }

    /// What follows `solve` and the like: how long the goal is computed, and the goal.
    pub(crate) fn goal<'b>(
        &mut self,
        words: &mut Words<'b>,
    ) -> Result<(Effort, TraitPredicate), Fault<'b>>
    {
        let effort = read_effort(words)?;
        let predicate = self.predicate(words)?;
        Ok((effort, predicate))
    }

    /// Makes the answer to a line that asks what a goal comes to.
    fn solve<'b>(
        mut self,
        mut words: Words<'b>,
    ) -> (Asking<'a>, Result<Result<(), Stop>, Fault<'b>>)
    {
        self.forget();
        match self.goal(&mut words) {
            Ok((effort, predicate)) => {
                let (asking, made) = self.answered(predicate, effort);
                (asking, Ok(made))
            }
            Err(fault) => (self, Err(fault)),
        }
    }

    /// Adds what the goal comes to by that effort.
    fn answered(self, predicate: TraitPredicate, effort: Effort) -> (Asking<'a>, Result<(), Stop>)
    {
        let (mut asking, verdict) = self.solved(predicate, effort);
        let made = asking.print_verdict(verdict);
        (asking, made)
    }

    /// What the goal comes to by that effort.
    fn solved(
        self,
        predicate: TraitPredicate,
        effort: Effort,
    ) -> (Asking<'a>, Result<Option<Verdict>, Stop>)
    {
        let (maker, rest) = self.apart();
        let (maker, verdict) = solve(rest.alloc, maker, &rest.given, predicate, effort);
        (rest.with(maker), verdict)
    }

    /// Makes the answer to a line that asks what a goal comes to, and what its variables stand for where that is a Yes.
    fn solve_for_values<'b>(
        mut self,
        mut words: Words<'b>,
    ) -> (Asking<'a>, Result<Result<(), Stop>, Fault<'b>>)
    {
        self.forget();
        match self.goal(&mut words) {
            Ok((effort, predicate)) => {
                let (asking, made) = self.answered_with_values(predicate, effort);
                (asking, Ok(made))
            }
            Err(fault) => (self, Err(fault)),
        }
    }

    /// Adds what the goal comes to by that effort, and what its variables stand for.
    fn answered_with_values(
        self,
        predicate: TraitPredicate,
        effort: Effort,
    ) -> (Asking<'a>, Result<(), Stop>)
    {
        let (mut asking, solved) = self.solved_for_values(predicate, effort);
        let made = asking.print_solved(solved);
        (asking, made)
    }

    /// What the goal comes to by that effort, and what its variables stand for.
    fn solved_for_values(
        self,
        predicate: TraitPredicate,
        effort: Effort,
    ) -> (Asking<'a>, Result<Solved, Stop>)
    {
        let (maker, rest) = self.apart();
        let (maker, solved) = solve_for_values(rest.alloc, maker, &rest.given, predicate, effort);
        (rest.with(maker), solved)
    }

    /// What follows `normalize`: in how many rounds, whether that is as many as it takes, and the projection.
    ///
    /// Besides the faults of the words, `Fault::NotAnAlias` comes where the type is no projection.
    fn projection<'b>(
        &mut self,
        words: &mut Words<'b>,
    ) -> Result<(Effort, bool, AliasTy), Fault<'b>>
    {
        let (effort, waits) = read_effort_or_all(words)?;
        let ty = self.scope.read_type(words, Binders::none(), MAX_DEPTH)?;
        let alias = projection_of(&self.scope.maker, ty)?;
        words.end()?;
        Ok((effort, waits, alias))
    }

    /// What follows `overlap`: in how many rounds, and two impls.
    pub(crate) fn two_impls<'b>(
        &self,
        words: &mut Words<'b>,
    ) -> Result<(Effort, ImplId, ImplId), Fault<'b>>
    {
        let effort = read_effort(words)?;
        let first = self.scope.names.next_named(words)?;
        let second = self.scope.names.next_named(words)?;
        words.end()?;
        Ok((effort, first, second))
    }

    /// Makes the answer to a line that asks whether two impls overlap.
    fn overlap<'b>(
        mut self,
        mut words: Words<'b>,
    ) -> (Asking<'a>, Result<Result<(), Stop>, Fault<'b>>)
    {
        self.forget();
        match self.two_impls(&mut words) {
            Ok((effort, first, second)) => {
                let (asking, made) = self.answered_with_overlap(first, second, effort);
                (asking, Ok(made))
            }
            Err(fault) => (self, Err(fault)),
        }
    }

    /// Whether the two impls overlap, by that effort for each where clause.
    pub(crate) fn overlapped(
        self,
        first: ImplId,
        second: ImplId,
        effort: Effort,
    ) -> (Asking<'a>, Result<Overlap, Stop>)
    {
        let (maker, rest) = self.apart();
        let (maker, overlap) = overlap(rest.alloc, maker, &rest.given, first, second, effort);
        (rest.with(maker), overlap)
    }

    /// Whether the two impls overlap, whatever lines declare of them, by that effort for each where clause.
    pub(crate) fn overlapped_anyway(
        self,
        first: ImplId,
        second: ImplId,
        effort: Effort,
    ) -> (Asking<'a>, Result<Overlap, Stop>)
    {
        let (maker, rest) = self.apart();
        let (maker, overlap) = overlap_anyway(
            rest.alloc,
            maker,
            &rest.given,
            first,
            second,
            effort,
        );
        (rest.with(maker), overlap)
    }

    /// Whether the first impl specialises the second one, by that effort for each where clause.
    pub(crate) fn tested(
        self,
        special: ImplId,
        general: ImplId,
        effort: Effort,
    ) -> (Asking<'a>, Result<Specialization, Stop>)
    {
        let (maker, rest) = self.apart();
        let (maker, answer) = test_specialization(
            rest.alloc,
            maker,
            &rest.given,
            special,
            general,
            effort,
        );
        (rest.with(maker), answer)
    }

    /// Makes the answer to a line that asks what a projection comes to.
    fn normalize<'b>(
        mut self,
        mut words: Words<'b>,
    ) -> (Asking<'a>, Result<Result<(), Stop>, Fault<'b>>)
    {
        self.forget();
        match self.projection(&mut words) {
            Ok((effort, waits, alias)) => {
                let (asking, made) = self.answered_with_normal(alias, effort, waits);
                (asking, Ok(made))
            }
            Err(fault) => (self, Err(fault)),
        }
    }

    /// Adds what the projection comes to by that effort, or, if it `waits`, once the goal of its trait is final.
    fn answered_with_normal(
        self,
        alias: AliasTy,
        effort: Effort,
        waits: bool,
    ) -> (Asking<'a>, Result<(), Stop>)
    {
        let (mut asking, normal) = self.normalized(alias, effort, waits);
        let made = asking.print_normal(normal);
        (asking, made)
    }

    /// What the projection comes to, as `normalize` has it.
    fn normalized(
        self,
        alias: AliasTy,
        effort: Effort,
        waits: bool,
    ) -> (Asking<'a>, Result<Normal, Stop>)
    {
        let (maker, rest) = self.apart();
        let (maker, normal) = normalize(rest.alloc, maker, &rest.given, alias, effort, waits);
        (rest.with(maker), normal)
    }

    /// Makes the answer to a line that asks for the orphan check of a reference.
    fn orphan<'b>(&mut self, mut words: Words<'b>) -> Result<Result<(), Stop>, Fault<'b>>
    {
        self.forget();
        let in_crate = words.flag(&CRATES)?;
        let trait_ref = self.last_trait_ref(&mut words)?;
        let checked = self.checked(trait_ref, in_crate);
        Ok(self.print_orphan(checked))
    }

    /// The orphan check of the reference, where no type is normalised.
    pub(crate) fn checked(
        &mut self,
        trait_ref: TraitRef,
        in_crate: InCrate,
    ) -> Result<Result<(), OrphanCheckErr<Ty>>, OrphanStop<Infallible>>
    {
        orphan_check_trait_ref(
            self.scope.alloc,
            &mut self.scope.maker,
            trait_ref,
            in_crate,
            unchanged,
        )
    }
}

/// How long goals are computed: in so many rounds, or by `*` as long as needed.
pub(crate) fn read_effort<'a>(words: &mut Words<'a>) -> Result<Effort, Fault<'a>>
{
    let (effort, _) = read_effort_or_all(words)?;
    Ok(effort)
}

/// The same, and whether it is `*`.
fn read_effort_or_all<'a>(words: &mut Words<'a>) -> Result<(Effort, bool), Fault<'a>>
{
    let mut ahead = *words;
    match ahead.next_word() {
        Some(word) if is_star(word) => {
            *words = ahead;
            Ok((Effort::AsNeeded, true))
        }
        _ => Ok((Effort::Rounds(words.number(1, MAX_ROUNDS)?), false)),
    }
}

/// Whether the word is `*`.
fn is_star(word: &str) -> bool
{
    word == "*"
}

/// The projection that the type is; else `Fault::NotAnAlias`.
fn projection_of<'a>(cx: &Cx, ty: Ty) -> Result<AliasTy, Fault<'a>>
{
    let kind = cx.kind(ty);
    let TyKind::Alias(alias) = kind else {
        return Err(Fault::NotAnAlias);
    };
    let AliasKind::Projection = alias.kind else {
        return Err(Fault::NotAnAlias);
    };
    let of = trait_predicate(cx, alias).trait_ref;
    if !cx.args_fit(kind) || !cx.trait_ref_args_fit(of) {
        return Err(Fault::NotAnAlias);
    }
    Ok(alias)
}

/// The normal form of a type where none is normalised.
pub(crate) fn unchanged(cx: &mut Cx, ty: Ty) -> Result<Ty, NormalizeErr<Infallible>>
{
    Ok(ty)
}
