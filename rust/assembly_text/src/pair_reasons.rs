// Made of `crates/assembly_text/src/pair_reasons.rt` by `bench/plain.py`: an edit of this file is lost.

//! Why impls may overlap of which `check` says so: lines behind what it found.


use kit::{eprintln, format, prelude::*, print, println, vec};
use crate::asking::Asking;
use crate::checking::{ImplsWithAliases, later_impls, number_of};
use crate::comparing::Found;
use crate::telling::name_of_impl;
use candidate_rounds::rounds::effort::Effort;
use ir_trees::decl::contents::ImplId;
use ir_trees::ir::stop::Stop;

/// Two impls that may overlap.
#[derive(Clone, Copy, Debug)]
pub(crate) struct OpenPair {
    first: ImplId,
    second: ImplId,
}

impl<'a> Asking<'a> {
    /// Adds why impls may overlap, pair by pair. Each pair begins with a line `why NAME NAME:`, and what follows are the lines of that query.
    pub(crate) fn add_reasons_of_pairs(mut self, effort: Effort) -> (Asking<'a>, Result<(), Stop>)
    {
        self.forget_nodes();
        let mut pairs = Vec::new(self.scope.alloc);
        let (asking, made) = self.push_open_pairs(effort, &mut pairs);
        match made {
            Ok(()) => asking.add_reasons_of_each(pairs.as_slice(), effort),
            Err(stop) => (asking, Err(stop)),
        }
    }

    /// Adds to the pairs all that may overlap but don't certainly, in the order in which `check` finds them. Nothing is added to the answer.
    fn push_open_pairs(
        self,
        effort: Effort,
        pairs: &mut Vec<OpenPair>,
    ) -> (Asking<'a>, Result<(), Stop>)
    {
        let mut asking = self;
        let impls = number_of(asking.scope.names.impls.len());
        let with_aliases = match ImplsWithAliases::among(
            asking.scope.alloc,
            &asking.scope.maker,
            impls,
        ) {
            Ok(with_aliases) => with_aliases,
            Err(stop) => return (asking, Err(stop)),
        };
        for number in 0..impls {
            let (asked, made) = asking.push_pairs_of(ImplId(number), &with_aliases, effort, pairs);
            asking = asked;
            let Ok(()) = made else {
                return (asking, made);
            };
        }
        (asking, Ok(()))
    }

    /// Adds to the pairs those of the impl and later ones.
    fn push_pairs_of(
        mut self,
        of: ImplId,
        with_aliases: &ImplsWithAliases,
        effort: Effort,
        pairs: &mut Vec<OpenPair>,
    ) -> (Asking<'a>, Result<(), Stop>)
    {
        let found = self.later_than(of, with_aliases);
        self.forget_nodes();
        let later = match found {
            Ok(later) => later,
            Err(stop) => return (self, Err(stop)),
        };
        let mut asking = self;
        for place in 0..later.len() {
            let pair = OpenPair {
                first: of,
                second: later[place],
            };
            let (asked, made) = asking.push_if_open(pair, effort, pairs);
            asking = asked;
            let Ok(()) = made else {
                return (asking, made);
            };
        }
        (asking, Ok(()))
    }

    /// The later impls of which an overlap with the impl has to be asked.
    fn later_than(
        &mut self,
        of: ImplId,
        with_aliases: &ImplsWithAliases,
    ) -> Result<Vec<ImplId>, Stop>
    {
        let header = self.open_header(of)?;
        later_impls(
            self.scope.alloc,
            &self.scope.maker,
            of,
            header,
            with_aliases,
        )
    }

    /// Adds the pair to the others if its impls may overlap, but not if they certainly do. A stop that `check` tells of the pair is no reason
    /// to end.
    fn push_if_open(
        self,
        pair: OpenPair,
        effort: Effort,
        pairs: &mut Vec<OpenPair>,
    ) -> (Asking<'a>, Result<(), Stop>)
    {
        if self.are_of_prelude(pair.first, pair.second) {
            return (self, Ok(()));
        }
        let (mut asking, found) = self.compare(pair.first, pair.second, effort);
        asking.forget_nodes();
        let made = match found {
            Ok(Found::Instance(instance)) if !instance.is_certain => pushed(pairs, pair),
            Err(Stop::Memory) => Err(Stop::Memory),
            _ => Ok(()),
        };
        (asking, made)
    }

    /// Adds why the impls of each of the pairs may overlap.
    fn add_reasons_of_each(
        self,
        pairs: &[OpenPair],
        effort: Effort,
    ) -> (Asking<'a>, Result<(), Stop>)
    {
        let mut asking = self;
        for place in 0..pairs.len() {
            let (asked, made) = asking.add_reasons_of_pair(pairs[place], effort);
            asking = asked;
            let Ok(()) = made else {
                return (asking, made);
            };
        }
        (asking, Ok(()))
    }

    /// Adds why the impls of the pair may overlap, behind a line that names them.
    fn add_reasons_of_pair(self, pair: OpenPair, effort: Effort) -> (Asking<'a>, Result<(), Stop>)
    {
        let mut asking = self;
        asking.forget_nodes();
        let made = asking.print_heading(pair);
        match made {
            Ok(()) => asking.add_reasons(pair.first, pair.second, effort),
            Err(stop) => (asking, Err(stop)),
        }
    }

    /// Adds the line `why NAME NAME:`.
    fn print_heading(&mut self, pair: OpenPair) -> Result<(), Stop>
    {
        self.answer.push_str("why ")?;
        self.answer.push_str(name_of_impl(&self.scope, pair.first))?;
        self.answer.push(' ')?;
        self.answer
            .push_str(name_of_impl(&self.scope, pair.second))?;
        Ok(self.answer.push_str(":\n")?)
    }
}

/// Adds the pair to the others.
fn pushed(pairs: &mut Vec<OpenPair>, pair: OpenPair) -> Result<(), Stop> {
    Ok(pairs.push(pair)?)
}
