// Made of `crates/assembly_text/src/printing.rt` by `bench/plain.py`: an edit of this file is lost.

//! Answers in words.


use kit::{eprintln, format, prelude::*, print, println, vec};
use crate::asking::Asking;
use crate::solving::{Normal, Solved};
use assembly_notation::types::MAX_DEPTH;
use candidate_assembly::assembly::merging::TraitGoalProvenVia;
use candidate_eval::coherence::{
    Conflict, IsFirstInputType, OrphanCheckErr, OrphanStop, UncoveredTyParams,
};
use candidate_eval::eval::certainty::Certainty;
use candidate_rounds::rounds::goals::Verdict;
use candidate_rounds::rounds::normalizing::canonical_args;
use ir_context::decl::context::Cx;
use ir_context::decl::make::Build;
use ir_trees::decl::contents::ImplId;
use ir_trees::ir::kinds::{Args, Ty};
use ir_trees::ir::stop::Stop;
use ir_trees::ir::trees::Trees;
use overlaps::allowance::Allowance;
use overlaps::instance::CommonInstance;
use overlaps::overlap::{Overlap, WhereClause};
use kit::alloc::Global;
use kit::convert::Infallible;

impl Asking<'_> {
    pub(crate) fn print_known(
        &mut self,
        known: Result<Result<(), Conflict>, OrphanStop<Infallible>>,
    ) -> Result<(), Stop>
    {
        let word = match known {
            Ok(Ok(())) => "ok\n",
            Ok(Err(Conflict::Downstream)) => "downstream\n",
            Ok(Err(Conflict::Upstream)) => "upstream\n",
            Err(OrphanStop::Stop(stop)) => return Err(stop),
            Err(OrphanStop::Normalize(never)) => match never {},
        };
        self.answer.push_str(word)?;
        Ok(())
    }

    pub(crate) fn print_verdict(
        &mut self,
        verdict: Result<Option<Verdict>, Stop>,
    ) -> Result<(), Stop>
    {
        self.print_words(&verdict?)?;
        self.answer.push_str("\n")?;
        Ok(())
    }

    /// Adds the words for what a goal comes to.
    pub(crate) fn print_words(&mut self, verdict: &Option<Verdict>) -> Result<(), Stop>
    {
        let (verdict, way) = words_of_verdict(verdict.as_ref());
        self.answer.push_str(verdict)?;
        self.answer.push_str(way)?;
        Ok(())
    }

    pub(crate) fn print_solved(&mut self, solved: Result<Solved, Stop>) -> Result<(), Stop>
    {
        let solved = solved?;
        self.print_words(&solved.verdict)?;
        self.print_values(solved.values.as_slice())?;
        self.answer.push_str("\n")?;
        Ok(())
    }

    /// Adds what variables stand for, one after the other.
    fn print_values(&mut self, values: &[(u32, Ty)]) -> Result<(), Stop>
    {
        let mut is_first = true;
        for (variable, ty) in values {
            self.print_value(is_first, *variable, *ty)?;
            is_first = false;
        }
        Ok(())
    }

    /// Adds that the variable of that number stands for the type, as the first one or as another.
    fn print_value(&mut self, is_first: bool, variable: u32, ty: Ty) -> Result<(), Stop>
    {
        self.answer.push_str(word_before_value(is_first))?;
        self.answer.push_str(kit::itoa::Buffer::new().format(variable))?;
        self.print_after(" = ", ty)
    }

    /// Adds whether two impls overlap, of which a line names this one first.
    pub(crate) fn print_overlap(
        &mut self,
        first: ImplId,
        overlap: Result<Overlap, Stop>,
    ) -> Result<(), Stop>
    {
        match overlap? {
            Overlap::NoCommonTrait => Ok(self.answer.push_str("disjoint traits\n")?),
            Overlap::Allowed(reason) => Ok(self.answer.push_str(word_of_allowance(first, reason))?),
            Overlap::DisjointHeaders => Ok(self.answer.push_str("disjoint headers\n")?),
            Overlap::DisjointClause(clause) => self.print_clause(first, clause),
            Overlap::May(instance) => self.print_instance(instance),
        }
    }

    /// Adds whether it is certain, and the reference that is an instance of both.
    pub(crate) fn print_instance(&mut self, instance: CommonInstance) -> Result<(), Stop>
    {
        self.print_reference_after(word_before_instance(instance), instance)
    }

    /// Adds these words, and the reference that is an instance of both.
    pub(crate) fn print_reference_after(
        &mut self,
        words: &str,
        instance: CommonInstance,
    ) -> Result<(), Stop>
    {
        let mut word = String::new(self.scope.alloc);
        self.scope
            .print_reference(instance.trait_ref, MAX_DEPTH, &mut word)?;
        self.answer.push_str(words)?;
        self.answer.push_str(word.as_str())?;
        self.answer.push_str("\n")?;
        Ok(())
    }

    /// Adds which where clause of the two can't hold where the other one does, if any, or else the reference that is an instance of both.
    pub(crate) fn print_unless_negated(
        &mut self,
        first: ImplId,
        instance: CommonInstance,
        clause: Result<Option<WhereClause>, Stop>,
    ) -> Result<(), Stop>
    {
        match clause? {
            Some(clause) => self.print_negated(first, clause),
            None => self.print_instance(instance),
        }
    }

    /// Adds that the where clauses of the two can't hold together.
    pub(crate) fn print_apart(&mut self) -> Result<(), Stop>
    {
        Ok(self.answer.push_str("disjoint clauses\n")?)
    }

    /// Adds which where clause of the two can't hold where the other one does.
    fn print_negated(&mut self, first: ImplId, clause: WhereClause) -> Result<(), Stop>
    {
        self.answer.push_str("disjoint negative ")?;
        self.answer.push_str(word_of_side(first, clause.of))?;
        self.answer
            .push_str(kit::itoa::Buffer::new().format(clause.number))?;
        Ok(self.answer.push_str("\n")?)
    }

    fn print_clause(&mut self, first: ImplId, clause: WhereClause) -> Result<(), Stop>
    {
        self.answer.push_str("disjoint clause ")?;
        self.answer.push_str(word_of_side(first, clause.of))?;
        self.answer
            .push_str(kit::itoa::Buffer::new().format(clause.number))?;
        Ok(self.answer.push_str("\n")?)
    }

    pub(crate) fn print_normal(&mut self, normal: Result<Normal, Stop>) -> Result<(), Stop>
    {
        match normal? {
            Normal::Unasked | Normal::Open => Ok(self.answer.push_str("maybe\n")?),
            Normal::Refused => Ok(self.answer.push_str("refused\n")?),
            Normal::Answered(response) => match response.certainty {
                Certainty::Yes => self.print_normal_type(response.values),
                Certainty::Maybe(_) => Ok(self.answer.push_str("maybe\n")?),
            },
        }
    }

    /// Adds the last type of the list, whose variables are numbered from 0 on, in the order in which they first occur.
    fn print_normal_type(&mut self, values: Args) -> Result<(), Stop>
    {
        let list = self.last_type(values)?;
        self.print_list(list)
    }

    /// The last of these alone, with its variables numbered from 0 on.
    fn last_type(&mut self, values: Args) -> Result<Args, Stop>
    {
        canonical_last(self.scope.alloc, &mut self.scope.maker, values)
    }

    /// Adds the types of the list, after a word that says so.
    fn print_list(&mut self, list: Args) -> Result<(), Stop>
    {
        let mut word = String::new(self.scope.alloc);
        self.scope.print_types(list, MAX_DEPTH, &mut word)?;
        self.answer.push_str("type")?;
        self.answer.push_str(word.as_str())?;
        self.answer.push_str("\n")?;
        Ok(())
    }

    pub(crate) fn print_orphan(
        &mut self,
        checked: Result<Result<(), OrphanCheckErr<Ty>>, OrphanStop<Infallible>>,
    ) -> Result<(), Stop>
    {
        match checked {
            Ok(Ok(())) => self.answer.push_str("ok\n")?,
            Ok(Err(err)) => self.print_orphan_err(&err)?,
            Err(OrphanStop::Stop(stop)) => return Err(stop),
            Err(OrphanStop::Normalize(never)) => match never {},
        }
        Ok(())
    }

    fn print_orphan_err(&mut self, err: &OrphanCheckErr<Ty>) -> Result<(), Stop>
    {
        match err {
            OrphanCheckErr::NonLocalInputType(entries) => self.print_nonlocal(entries.as_slice()),
            OrphanCheckErr::UncoveredTyParams(found) => self.print_uncovered(found),
        }
    }

    fn print_nonlocal(&mut self, entries: &[(Ty, IsFirstInputType)]) -> Result<(), Stop>
    {
        self.answer.push_str("nonlocal")?;
        for (ty, is_first) in entries {
            self.print_entry(*ty, *is_first)?;
        }
        self.answer.push_str("\n")?;
        Ok(())
    }

    /// Adds a type that isn't local, and whether it is the first one.
    fn print_entry(&mut self, ty: Ty, is_first: IsFirstInputType) -> Result<(), Stop>
    {
        self.print_after(" (", ty)?;
        self.answer.push_str(word_of_place(is_first))?;
        Ok(())
    }

    fn print_uncovered(&mut self, found: &UncoveredTyParams<Ty>) -> Result<(), Stop>
    {
        self.print_after("uncovered ", found.uncovered)?;
        self.print_local(found.local_ty)?;
        self.answer.push_str("\n")?;
        Ok(())
    }

    /// Adds the local type behind an uncovered one, if there is one.
    fn print_local(&mut self, local: Option<Ty>) -> Result<(), Stop>
    {
        match local {
            Some(ty) => self.print_after(" local ", ty),
            None => Ok(self.answer.push_str(" local none")?),
        }
    }

    /// Adds the type after the text.
    fn print_after(&mut self, before: &str, ty: Ty) -> Result<(), Stop>
    {
        let mut word = String::new(self.scope.alloc);
        self.scope.print_type(ty, MAX_DEPTH, &mut word)?;
        self.answer.push_str(before)?;
        self.answer.push_str(word.as_str())?;
        Ok(())
    }
}

/// What follows a type that isn't local: whether it is the first one.
fn word_of_place(is_first: IsFirstInputType) -> &'static str
{
    match is_first {
        IsFirstInputType::Yes => ", Yes)",
        IsFirstInputType::No => ", No)",
    }
}

/// The list of the last one of these alone, with its variables numbered from 0 on, in the order in which they first occur.
fn canonical_last(alloc: Global, cx: &mut Cx, values: Args) -> Result<Args, Stop>
{
    let last = last_of(cx, values)?;
    canonical_args(alloc, cx, last)
}

/// The list of the last one of these alone; of none, where there is none.
fn last_of(cx: &mut Cx, list: Args) -> Result<Args, Stop>
{
    let values = cx.args(list);
    let Some(place) = values.len().checked_sub(1) else {
        return Ok(list);
    };
    let last = values[place];
    cx.mk_args(&[last])
}

/// What stands before the number of a variable that stands for a type.
pub(crate) fn word_before_value(is_first: bool) -> &'static str {
    if is_first { " with $" } else { ", $" }
}

/// The word for one of two impls, by which of them a line names first.
fn word_of_side(first: ImplId, of: ImplId) -> &'static str
{
    if of.0 == first.0 { "first " } else { "second " }
}

/// The words for an impl that specialises another, by which of them a line names first.
fn word_of_specializing(first: ImplId, of: ImplId) -> &'static str
{
    if of.0 == first.0 {
        "allowed specializes first\n"
    } else {
        "allowed specializes second\n"
    }
}

/// The words for why an overlap is no error.
fn word_of_allowance(first: ImplId, reason: Allowance) -> &'static str
{
    match reason {
        Allowance::Reservation => "allowed reservation\n",
        Allowance::Marker => "allowed marker\n",
        Allowance::Specializes(of) => word_of_specializing(first, of),
    }
}

/// What stands before a reference that is an instance of both impls.
pub(crate) fn word_before_instance(instance: CommonInstance) -> &'static str
{
    if instance.is_certain {
        "overlap "
    } else {
        "maybe "
    }
}

/// The words for what a goal comes to, and for how it is proved.
pub(crate) fn words_of_verdict(verdict: Option<&Verdict>) -> (&'static str, &'static str)
{
    match verdict {
        Some(Verdict::Yes(_, via)) => ("yes ", word_of_way(*via)),
        Some(Verdict::Maybe(_, via)) => ("maybe ", word_of_way(*via)),
        Some(Verdict::Refused) => ("refused", ""),
        None => ("maybe ", "none"),
    }
}

/// The word for how a goal is proved.
fn word_of_way(via: Option<TraitGoalProvenVia>) -> &'static str
{
    match via {
        Some(TraitGoalProvenVia::Misc) => "misc",
        Some(TraitGoalProvenVia::ParamEnv) => "param_env",
        Some(TraitGoalProvenVia::AliasBound) => "alias_bound",
        None => "none",
    }
}
