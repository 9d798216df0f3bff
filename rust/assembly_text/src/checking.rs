// Made of `crates/assembly_text/src/checking.rt` by `bench/plain.py`: an edit of this file is lost.

//! The query that checks all impls: whether the local crate may write those of its own, and which may overlap.


use kit::{eprintln, format, prelude::*, print, println, vec};
use crate::asking::{Asking, read_effort};
use crate::comparing::Found;
use crate::printing::word_before_instance;
use assembly_notation::faults::Fault;
use assembly_notation::names::{NamedImpl, Origin};
use assembly_notation::words::Words;
use candidate_eval::coherence::{InCrate, OrphanCheckErr, OrphanCheckMode, OrphanStop};
use candidate_eval::eval::clauses::self_ty;
use candidate_rounds::rounds::effort::Effort;
use ir_context::decl::context::Cx;
use ir_context::decl::make::Build;
use ir_context::decl::unify_count::UnifyCount;
use ir_folds::decl::parameters::has_arguments;
use ir_folds::decl::subst::subst;
use ir_trees::decl::contents::{ImplId, ImplPolarity};
use ir_trees::decl::definition::CrateId;
use ir_trees::ir::heads::Flag;
use ir_trees::ir::kinds::{
    Args, ConstKind, GenericArg, InferTy, RegionKind, TraitId, TraitRef, Ty, TyKind, VarKind,
};
use ir_trees::ir::stop::Stop;
use ir_trees::ir::trees::Trees;
use ir_trees::ir::unify::RightSide;
use overlaps::instance::CommonInstance;
use overlaps::specializing::Specialization;
use kit::alloc::{AllocError, Global};
use kit::collections::BTreeMap;
use kit::convert::Infallible;

/// What the orphan check answers, where no type is normalised.
type Checked = Result<Result<(), OrphanCheckErr<Ty>>, OrphanStop<Infallible>>;

/// The impls in whose headers an alias stands, by the numbers of their traits, each list in the order of their declaration.
///
/// An alias may be any type, so that such an impl may overlap with each other one of its trait, whatever their heads are.
#[derive(Debug)]
pub(crate) struct ImplsWithAliases {
    /// How many impls were looked at: those with numbers below that one.
    number: u32,
    of: BTreeMap<u32, Vec<ImplId>>,
}

impl ImplsWithAliases {
    /// Those of the context with numbers below that one.
    pub(crate) fn among(alloc: Global, cx: &Cx, number: u32) -> Result<Self, Stop>
    {
        cx.recall_well_formed_table();
        let mut found = ImplsWithAliases {
            number,
            of: BTreeMap::new(alloc),
        };
        for place in 0..number {
            let of = ImplId(place);
            if let Some(trait_id) = trait_with_alias(cx, of) {
                found.push(alloc, trait_id, of)?;
            }
        }
        Ok(found)
    }

    /// Adds one of the trait.
    fn push(&mut self, alloc: Global, trait_id: TraitId, of: ImplId) -> Result<(), Stop>
    {
        let mut impls = match self.of.remove(&trait_id.0) {
            Some(impls) => impls,
            None => Vec::new(alloc),
        };
        impls.push(of)?;
        self.of.insert(trait_id.0, impls)?;
        Ok(())
    }

    /// Those of the trait.
    fn of_trait(&self, trait_id: TraitId) -> &[ImplId]
    {
        match self.of.get(&trait_id.0) {
            Some(impls) => impls.as_slice(),
            None => &[],
        }
    }
}

impl<'a> Asking<'a> {
    /// Makes the answer to a line that asks what is wrong with the impls, where each pair has so many rounds for each where clause.
    pub fn check<'b>(
        mut self,
        mut words: Words<'b>,
    ) -> (Asking<'a>, Result<Result<(), Stop>, Fault<'b>>)
    {
        self.forget();
        match read_effort_alone(&mut words) {
            Ok(effort) => {
                let (asking, made) = self.answered_with_findings(effort);
                (asking, Ok(made))
            }
            Err(fault) => (self, Err(fault)),
        }
    }

    /// Adds what is found, or that nothing is.
    fn answered_with_findings(self, effort: Effort) -> (Asking<'a>, Result<(), Stop>)
    {
        let (mut asking, found) = self.with_findings(effort);
        let Ok(()) = found else {
            return (asking, found);
        };
        let made = asking.print_none();
        (asking, made)
    }

    /// Says that nothing was found, where nothing is said.
    fn print_none(&mut self) -> Result<(), Stop>
    {
        if self.answer.is_empty() {
            self.answer.push_str("ok\n")?;
        }
        Ok(())
    }

    /// Adds what is found of each impl, in their order.
    fn with_findings(self, effort: Effort) -> (Asking<'a>, Result<(), Stop>)
    {
        let mut asking = self;
        let impls = number_of(asking.scope.names.impls.len());
        let with_aliases = match ImplsWithAliases::among(
            asking.scope.alloc,
            &asking.scope.maker,
            impls,
        ) {
            Ok(with_aliases) => with_aliases,
            Err(stop) => return (asking, Err(stop)),
        };
        for number in 0..impls {
            let (asked, made) = asking.with_impl(ImplId(number), &with_aliases, effort);
            asking = asked;
            let Ok(()) = made else {
                return (asking, made);
            };
        }
        (asking, Ok(()))
    }

    /// Adds what is found of the impl alone, and of it with each later one.
    fn with_impl(
        mut self,
        of: ImplId,
        with_aliases: &ImplsWithAliases,
        effort: Effort,
    ) -> (Asking<'a>, Result<(), Stop>)
    {
        let made = self.look_at(of, with_aliases);
        self.forget_nodes();
        let later = match made {
            Ok(later) => later,
            Err(stop) => return (self, Err(stop)),
        };
        let (asking, made) = self.with_lines(of, effort);
        match made {
            Ok(()) => asking.with_pairs(of, later.as_slice(), effort),
            Err(stop) => (asking, Err(stop)),
        }
    }

    /// Adds each line by which the impl is declared to specialise another one, but doesn't.
    fn with_lines(self, of: ImplId, effort: Effort) -> (Asking<'a>, Result<(), Stop>)
    {
        let mut asking = self;
        let lines = match lines_of(asking.scope.alloc, &asking.scope.maker, of) {
            Ok(lines) => lines,
            Err(stop) => return (asking, Err(stop)),
        };
        for place in 0..lines.len() {
            let (asked, made) = asking.with_line(of, lines[place], effort);
            asking = asked;
            let Ok(()) = made else {
                return (asking, made);
            };
        }
        (asking, Ok(()))
    }

    /// Adds that the first impl doesn't specialise the second one, where it doesn't.
    fn with_line(
        self,
        special: ImplId,
        general: ImplId,
        effort: Effort,
    ) -> (Asking<'a>, Result<(), Stop>)
    {
        let (mut asking, answer) = self.tested(special, general, effort);
        let made = asking.print_test(special, answer);
        asking.forget_nodes();
        (asking, made)
    }

    /// Adds that the impl doesn't specialise the other one, or that the call stopped, after which others may be asked still. A refused growth
    /// is handed on.
    fn print_test(
        &mut self,
        special: ImplId,
        answer: Result<Specialization, Stop>,
    ) -> Result<(), Stop>
    {
        match answer {
            Ok(Specialization::Specializes) => Ok(()),
            Ok(_) => self.print_failing(special),
            Err(Stop::Memory) => Err(Stop::Memory),
            Err(stop) => self.print_stopped(special, stop),
        }
    }

    /// Adds that the impl doesn't specialise the other one.
    fn print_failing(&mut self, special: ImplId) -> Result<(), Stop>
    {
        self.print_impl(special)?;
        Ok(self.answer.push_str(": not specialized\n")?)
    }

    /// Adds that a call stopped which was asked of the impl.
    fn print_stopped(&mut self, of: ImplId, stop: Stop) -> Result<(), Stop>
    {
        self.print_impl(of)?;
        self.answer.push_str(": ")?;
        self.print_stop(stop)
    }

    /// Adds what is found of the impl alone, and answers which later ones may overlap with it by their heads.
    fn look_at(&mut self, of: ImplId, with_aliases: &ImplsWithAliases) -> Result<Vec<ImplId>, Stop>
    {
        let header = self.open_header(of)?;
        let later = later_impls(
            self.scope.alloc,
            &self.scope.maker,
            of,
            header,
            with_aliases,
        )?;
        self.check_header(of, header)?;
        Ok(later)
    }

    /// The header of the impl, as `opened_header` answers it.
    pub(crate) fn open_header(&mut self, of: ImplId) -> Result<TraitRef, Stop>
    {
        opened_header(self.scope.alloc, &mut self.scope.maker, of)
    }

    /// Adds what the orphan check says of the header, where `may_be_orphan` says that it has to be asked, and unless it passes. Where the proper
    /// one refuses the header the compatible one is asked, as rustc does it.
    fn check_header(&mut self, of: ImplId, header: TraitRef) -> Result<(), Stop>
    {
        if !may_be_orphan(&self.scope.maker, of, header, self.scope.names.local_crate) {
            return Ok(());
        }
        let in_crate = InCrate::Local {
            mode: OrphanCheckMode::Proper,
        };
        let checked = self.checked(header, in_crate);
        if passes(&checked) {
            return Ok(());
        }
        if refuses(&checked) {
            return self.check_compatibly(of, header, checked);
        }
        self.print_orphan_impl(of)?;
        self.print_failure(checked)
    }

    /// Adds what is said of a header that the proper check refuses: where the compatible one passes, which keeps aliases as they are, it is a
    /// lint with what the proper one answered; and else what the compatible one answers.
    fn check_compatibly(
        &mut self,
        of: ImplId,
        header: TraitRef,
        proper: Checked,
    ) -> Result<(), Stop>
    {
        let in_crate = InCrate::Local {
            mode: OrphanCheckMode::Compat,
        };
        let compatible = self.checked(header, in_crate);
        if passes(&compatible) {
            self.print_lint_impl(of)?;
            return self.print_orphan(proper);
        }
        self.print_orphan_impl(of)?;
        self.print_failure(compatible)
    }

    fn print_lint_impl(&mut self, of: ImplId) -> Result<(), Stop>
    {
        self.print_impl(of)?;
        Ok(self.answer.push_str(": lint orphan ")?)
    }

    fn print_orphan_impl(&mut self, of: ImplId) -> Result<(), Stop>
    {
        self.print_impl(of)?;
        Ok(self.answer.push_str(": orphan ")?)
    }

    /// Adds what the check answered, or that it stopped, after which other impls may be checked still. A refused growth is handed on.
    fn print_failure(&mut self, checked: Checked) -> Result<(), Stop>
    {
        match own_stop(&checked) {
            Some(stop) => self.print_stop(stop),
            None => self.print_orphan(checked),
        }
    }

    /// Adds what is found of the impl with each of those.
    fn with_pairs(
        self,
        first: ImplId,
        later: &[ImplId],
        effort: Effort,
    ) -> (Asking<'a>, Result<(), Stop>)
    {
        let mut asking = self;
        for place in 0..later.len() {
            let (asked, made) = asking.with_pair(first, later[place], effort);
            asking = asked;
            let Ok(()) = made else {
                return (asking, made);
            };
        }
        (asking, Ok(()))
    }

    /// Adds what is found of the two impls. Of two of the prelude nothing is asked: std's own compilation has compared these.
    fn with_pair(
        self,
        first: ImplId,
        second: ImplId,
        effort: Effort,
    ) -> (Asking<'a>, Result<(), Stop>)
    {
        if self.are_of_prelude(first, second) {
            return (self, Ok(()));
        }
        let (mut asking, found) = self.compare(first, second, effort);
        let made = asking.print_pair(first, second, found);
        asking.forget_nodes();
        (asking, made)
    }

    /// Whether both impls are of the prelude.
    pub(crate) fn are_of_prelude(&self, first: ImplId, second: ImplId) -> bool
    {
        self.is_of_prelude(first) && self.is_of_prelude(second)
    }

    /// Whether the impl is one of the prelude.
    fn is_of_prelude(&self, of: ImplId) -> bool
    {
        match self.scope.names.impls.get(of.0 as usize) {
            Some(named) => matches!(named.origin, Origin::Prelude),
            None => false,
        }
    }

    /// Adds what is an instance of the two impls, which of them specialises the other one, or that a call stopped, after which other pairs may
    /// be asked still. A refused growth is handed on. Nothing is added where the impls are disjoint or their overlap is allowed. An instance of two
    /// positive impls is a lint where the headers' equation leaks a region.
    fn print_pair(
        &mut self,
        first: ImplId,
        second: ImplId,
        found: Result<Found, Stop>,
    ) -> Result<(), Stop>
    {
        match found {
            Ok(Found::Nothing) => Ok(()),
            Ok(Found::Instance(instance)) => {
                let words = words_before_found(&self.scope.maker, first, second, instance);
                self.print_both(first, second)?;
                self.print_reference_after(words, instance)
            }
            Ok(Found::Specializes(special, general)) => self.print_special(special, general),
            Err(Stop::Memory) => Err(Stop::Memory),
            Err(stop) => {
                self.print_both(first, second)?;
                self.print_stop(stop)
            }
        }
    }

    /// Adds that the first impl specialises the second one.
    fn print_special(&mut self, special: ImplId, general: ImplId) -> Result<(), Stop>
    {
        self.print_impl(special)?;
        self.answer.push_str(" specializes ")?;
        self.print_impl(general)?;
        Ok(self.answer.push_str("\n")?)
    }

    fn print_both(&mut self, first: ImplId, second: ImplId) -> Result<(), Stop>
    {
        self.print_impl(first)?;
        self.answer.push_str(" and ")?;
        self.print_impl(second)?;
        Ok(self.answer.push_str(": ")?)
    }

    /// Adds which impl it is, and in which line it is declared.
    fn print_impl(&mut self, of: ImplId) -> Result<(), Stop>
    {
        match self.scope.names.named_impl(of) {
            Some(found) => self.print_named_impl(found),
            None => Ok(()),
        }
    }

    fn print_named_impl(&mut self, found: NamedImpl<'a>) -> Result<(), Stop>
    {
        self.answer.push_str("impl ")?;
        self.answer.push_str(found.name)?;
        self.print_origin(found.origin)
    }

    fn print_origin(&mut self, origin: Origin) -> Result<(), Stop>
    {
        let Origin::Line(number) = origin else {
            return Ok(self.answer.push_str(" (prelude)")?);
        };
        self.answer.push_str(" (line ")?;
        self.answer.push_str(kit::itoa::Buffer::new().format(number))?;
        Ok(self.answer.push_str(")")?)
    }

    /// Adds that a call stopped.
    fn print_stop(&mut self, stop: Stop) -> Result<(), Stop>
    {
        self.answer.push_str("stop ")?;
        self.answer
            .push_str(kit::itoa::Buffer::new().format(stop as u8))?;
        Ok(self.answer.push_str("\n")?)
    }

    /// Forgets what was made in the context.
    pub(crate) fn forget_nodes(&mut self)
    {
        self.scope.maker.truncate(0);
    }
}

/// How long goals are computed, as `read_effort` reads it, where nothing follows.
pub(crate) fn read_effort_alone<'a>(words: &mut Words<'a>) -> Result<Effort, Fault<'a>>
{
    let effort = read_effort(words)?;
    words.end()?;
    Ok(effort)
}

/// Whether the impl says that its trait holds.
fn is_positive(cx: &Cx, of: ImplId) -> bool
{
    match cx.impl_contents(of) {
        Some(contents) => matches!(contents.polarity, ImplPolarity::Positive),
        None => false,
    }
}

/// What `check` says before a reference that is an instance of both impls. A region that leaks keeps two positive ones apart, as far as rustc
/// tells regions apart, which has a lint of such impls; a negative one beside a positive one is an error there all the same.
fn words_before_found(
    cx: &Cx,
    first: ImplId,
    second: ImplId,
    instance: CommonInstance,
) -> &'static str
{
    if instance.leaks && is_positive(cx, first) && is_positive(cx, second) {
        "lint leak "
    } else {
        word_before_instance(instance)
    }
}

/// Whether the impl is one of the local crate, and of a trait that isn't: one of a local trait may always be written.
fn may_be_orphan(cx: &Cx, of: ImplId, header: TraitRef, local: CrateId) -> bool
{
    match cx.impl_contents(of) {
        Some(contents) => contents.krate == local && !cx.is_local(header.def_id.0),
        None => false,
    }
}

/// The trait of the impl, if an alias stands in its header.
fn trait_with_alias(cx: &Cx, of: ImplId) -> Option<TraitId>
{
    let contents = cx.impl_contents(of)?;
    if cx.has(contents.trait_ref.args, Flag::Alias) {
        Some(contents.trait_ref.def_id)
    } else {
        None
    }
}

/// The impls that lines say the impl to specialise, in the order of the lines.
fn lines_of(alloc: Global, cx: &Cx, of: ImplId) -> Result<Vec<ImplId>, Stop>
{
    match cx.impl_contents(of) {
        Some(contents) => Ok(Vec::from_slice(alloc, contents.specializes.as_slice())?),
        None => Ok(Vec::new(alloc)),
    }
}

/// The count as a number; the greatest one, where it is greater, as none of a text is.
pub(crate) fn number_of(count: usize) -> u32
{
    u32::try_from(count).unwrap_or(u32::MAX)
}

/// The variable of that number in the place of a parameter of that kind.
fn variable(cx: &mut Cx, kind: VarKind, number: u32) -> Result<GenericArg, Stop>
{
    match kind {
        VarKind::Ty => Ok(GenericArg::Ty(cx.mk_ty(TyKind::Infer(InferTy::TyVar(number)))?)),
        VarKind::Const => Ok(GenericArg::Const(cx.mk_const(ConstKind::Infer(number))?)),
        VarKind::Region => Ok(GenericArg::Region(cx.mk_region(RegionKind::Var(number))?)),
    }
}

/// A variable in the place of each parameter of these kinds, of the same number.
fn variables(alloc: Global, cx: &mut Cx, kinds: &[VarKind]) -> Result<Args, Stop>
{
    let Ok(count) = u32::try_from(kinds.len()) else {
        return Err(Stop::NodesFull);
    };
    let mut list = Vec::new(alloc);
    for number in 0..count {
        list.push(variable(cx, kinds[number as usize], number)?)?;
    }
    cx.mk_arg_list(list)
}

/// The header of the impl with a variable in the place of each parameter, of the same number.
///
/// `Stop::Unnameable` comes of what is no impl; the other stops are those of making nodes.
fn opened_header(alloc: Global, cx: &mut Cx, of: ImplId) -> Result<TraitRef, Stop>
{
    let Some(contents) = cx.impl_contents(of) else {
        return Err(Stop::Unnameable);
    };
    let declared = contents.trait_ref;
    let kinds = cx.impl_parameters(alloc, of)?;
    let locals = variables(alloc, cx, kinds.as_slice())?;
    if !has_arguments(cx, declared.args, locals) {
        return Err(Stop::Unnameable);
    }
    let args = subst(alloc, cx, declared.args, locals)?;
    let header = TraitRef {
        def_id: declared.def_id,
        args,
    };
    if cx.has(args, Flag::Param) || !cx.trait_ref_args_fit(header) {
        return Err(Stop::Unnameable);
    }
    Ok(header)
}

/// Whether the pair of the impl and the other one is asked about: that one comes after it and is of the trait, and their headers may be equal by
/// quick rejection, or an alias stands in one of them.
fn is_asked_with(cx: &Cx, of: ImplId, header: TraitRef, has_alias: bool, other: ImplId) -> bool
{
    if other.0 <= of.0 {
        return false;
    }
    let Some(contents) = cx.impl_contents(other) else {
        return false;
    };
    let declared = contents.trait_ref;
    if declared.def_id != header.def_id {
        return false;
    }
    has_alias
        || cx.has(declared.args, Flag::Alias)
        || cx.args_may_unify(header.args, declared.args, RightSide::Header)
}

/// Those of the impls of which an overlap with the impl has to be asked.
fn asked_among(
    alloc: Global,
    cx: &Cx,
    impls: &[ImplId],
    of: ImplId,
    header: TraitRef,
    has_alias: bool,
) -> Result<Vec<ImplId>, AllocError>
{
    let mut asked = Vec::new(alloc);
    for place in 0..impls.len() {
        if is_asked_with(cx, of, header, has_alias, impls[place]) {
            asked.push(impls[place])?;
        }
    }
    Ok(asked)
}

/// The impls in the order of their declarations, each once.
fn in_order(impls: Vec<ImplId>) -> Vec<ImplId>
{
    let mut impls = impls;
    impls.sort_unstable_by_key(|of| of.0);
    impls.dedup();
    impls
}

/// Impls among which is each later one of the impl's trait that may overlap with it by the types that they are for: those whose self type may be
/// equal to its own by quick rejection, and those in whose headers an alias stands; all, where one stands in its own.
fn may_overlap(
    alloc: Global,
    cx: &Cx,
    of: ImplId,
    header: TraitRef,
    with_aliases: &ImplsWithAliases,
) -> Result<Vec<ImplId>, Stop>
{
    cx.recall_well_formed_table();
    let mut impls = Vec::new(alloc);
    if trait_with_alias(cx, of).is_some() {
        impls.extend_from_slice(cx.impls_of(header.def_id))?;
        return Ok(impls);
    }
    let self_ty = self_ty(cx, header);
    let mut count = UnifyCount::new();
    let relevant = cx.for_each_relevant_impl(header.def_id, self_ty, &mut count)?;
    impls.extend_from_slice(relevant.as_slice())?;
    impls.extend_from_slice(with_aliases.of_trait(header.def_id))?;
    Ok(impls)
}

/// The later impls of the impl's trait of which an overlap has to be asked, in order. The headers of each other pair are disjoint, since
/// neither has an alias, and no values of variables make them equal.
pub(crate) fn later_impls(
    alloc: Global,
    cx: &Cx,
    of: ImplId,
    header: TraitRef,
    with_aliases: &ImplsWithAliases,
) -> Result<Vec<ImplId>, Stop>
{
    let impls = may_overlap(alloc, cx, of, header, with_aliases)?;
    let has_alias = trait_with_alias(cx, of).is_some();
    let later = asked_among(alloc, cx, impls.as_slice(), of, header, has_alias)?;
    Ok(in_order(later))
}

/// Whether the check answers that the impl may be written.
fn passes(checked: &Checked) -> bool
{
    matches!(checked, Ok(Ok(())))
}

/// Whether the check answers that the impl may not be written.
fn refuses(checked: &Checked) -> bool
{
    matches!(checked, Ok(Err(_)))
}

/// Why the check stopped, unless a growth was refused: other impls may be checked still.
fn own_stop(checked: &Checked) -> Option<Stop>
{
    match checked {
        Err(OrphanStop::Stop(Stop::Memory)) => None,
        Err(OrphanStop::Stop(stop)) => Some(*stop),
        _ => None,
    }
}
