"""Diagnostics in rustc's words out of verdicts: one error for each impl that rustc refuses."""

import re
from collections import Counter
from dataclasses import dataclass
from typing import Dict, Iterator, List, Optional, Tuple

from cargo_coherence.ask.answers import Speller
from cargo_coherence.ask.findings import LINT, Flood, Teller
from cargo_coherence.ask.refusals import OVERLAP, Refusal
from cargo_coherence.from_rustdoc.toolchain import STD
from cargo_coherence.to_text.model import Impl, Term
from cargo_coherence.to_text.names import PRIMITIVES
from cargo_coherence.verdict.decide import ERROR, LEAK as LEAKED, LINT as LINTED, ORPHAN, STOP, UNDECIDED, Verdict
from cargo_coherence.verdict.diagnostics import Diagnostic, Note
from cargo_coherence.verdict.leaking import LEAK
from cargo_coherence.verdict.sources import Sources, Span, span_of

# Modules of std below others that a path has; what lies in the rest is shown one module above.
PUBLIC = set("atomic mpsc unix linux fd windows raw process hash_map hash_set btree_map btree_set vec_deque binary_heap linked_list".split())
UNNAMED = ("function pointer", "pattern", "associated type")  # kinds of names that aren't spelled by a path
ORIGIN = "this error originates in the macro `%s` (in Nightly builds, run with -Z macro-backtrace for more info)"
MOST_REASONS = 5  # that are told of what is undecided
ONLY = "only traits defined in the current crate can be implemented for %s"
COVERED = (
    "implementing a foreign trait is only possible if at least one of the types for which it is implemented is local",
    "implementing a foreign trait is only possible if at least one of the types for which it is implemented is local, "
    "and no uncovered type parameters appear before that first local type",
)
BEFORE = (
    "in this case, 'before' refers to the following order: `impl<..> ForeignTrait<T1, ..., Tn> for T0`, "
    "where `T0` is the first and `Tn` is the last"
)
PHASED_OUT = "this was previously accepted by the compiler but is being phased out; it will become a hard error in a future release!"
MAY_CHANGE = "the behavior may change in a future release"
ISSUE = "for more information, see issue #%d <https://github.com/rust-lang/rust/issues/%d>"
BUG_FIX = "this behavior recently changed as a result of a bug fix; see rust-lang/rust#56105 for details"
ON = "`#[warn(%s)]` (part of `#[warn(future_incompatible)]`) on by default"
COVERED_ISSUE, LEAK_ISSUE = (Note(ISSUE % (issue, issue)) for issue in (124559, 56105))
ORPHAN_NOTES = (
    "impl doesn't have any local type before any uncovered type parameters",
    "for more information see https://doc.rust-lang.org/reference/items/implementations.html#orphan-rules",
    "define and implement a trait or new type instead",
)


class RustcSpeller(Speller):
    """Spells as rustc's errors do: a variable is `_`."""

    @staticmethod
    def _variable(head: str, parameters: Optional[List[str]]) -> str:
        return Speller._variable(head, parameters) if parameters is not None and head[0] == "#" else "_"


def with_paths(names: Dict[str, dict], local: str) -> Dict[str, dict]:
    """The names of a text with whole paths for their spelling, as rustc's notes have them."""
    return {name: dict(known, spelled=_path(known, local)) for name, known in names.items()}


def with_paths_of_twins(names: Dict[str, dict], local: str) -> Dict[str, dict]:
    """The names with whole paths where several things have one: rustc shortens a path to its last name where no other item has that."""
    counts = Counter(known["spelled"] for known in names.values() if known["kind"] not in UNNAMED)
    return {name: dict(known, spelled=_path(known, local)) if counts[known["spelled"]] > 1 else known for name, known in names.items()}


def _path(known: dict, local: str) -> str:
    crate, _, rest = known["path"].partition("::")
    if known["kind"] in UNNAMED or not rest or rest.startswith("?"):
        return known["spelled"]
    if crate == local:
        return rest
    if crate in STD:
        module, *below = rest.split("::")
        kept = [name for name in below[:-1] if name in PUBLIC]
        return "::".join(["std", module, *kept, *below[-1:]])
    return "%s::%s" % (crate.split("@")[0].replace("-", "_"), rest)


@dataclass
class Conflict:
    """Two impls that rustc refuses together, the one that is refused first."""

    later: Impl
    first: Impl
    verdict: Verdict


class Errors:
    """Makes diagnostics of verdicts."""

    def __init__(self, sources: Sources, names: Dict[str, dict], local: str, refusals: List[Refusal]) -> None:
        self.sources = sources
        self.speller = RustcSpeller(with_paths_of_twins(names, local))
        self.full = RustcSpeller(with_paths(names, local))
        self.teller = Teller(Speller(names))
        self.refusals = refusals
        self.met: List[Refusal] = []

    def diagnostics(self, verdicts: List[Verdict], floods: List[Flood]) -> List[Diagnostic]:
        """A diagnostic for each impl that is refused or may be, and for what rustc alone refuses, in the order of files and lines."""
        orphans = [verdict.finding.first for verdict in verdicts if verdict.word == ORPHAN]
        found = self._conflicts([verdict for verdict in verdicts if verdict.word == ERROR and not _is_of(verdict, orphans)])
        for verdict in verdicts:
            if verdict.word == UNDECIDED:
                found.append(self._undecided(verdict))
            elif verdict.word == LEAKED:
                found.append(self._leak(verdict))
            elif verdict.word == LINTED:
                found += self._covered_in_projection(verdict)
            elif verdict.word == ORPHAN:
                found.append(self._orphan(verdict, floods))
            elif verdict.word == STOP:
                found.append(self._stopped(verdict))
        found += [self._alone(refusal) for refusal in self.refusals if not any(refusal is met for met in self.met) and self._is_news(refusal, verdicts)]
        for diagnostic in found:
            primary = diagnostic.primary()
            if primary and primary.expansion and primary.expansion.macro.endswith("!"):
                note = Note(ORIGIN % primary.expansion.macro[:-1])
                diagnostic.notes += [note] if note not in diagnostic.notes else []
        found.sort(key=_order)
        for name, issue in ((LINT, COVERED_ISSUE), (LEAK, LEAK_ISSUE)):
            first = next((diagnostic for diagnostic in found if issue in diagnostic.notes), None)
            if first:
                first.notes.append(Note(ON % name))
        return found

    # Overlaps

    def _conflicts(self, verdicts: List[Verdict]) -> List[Diagnostic]:
        """One error for each impl that rustc doesn't accept beside those before it; further impls that it conflicts with are notes."""
        conflicts = [Conflict(*self._ordered(verdict.finding.first, verdict.finding.second), verdict) for verdict in verdicts]
        refused: List[Impl] = []
        errors = []
        for later in sorted({conflict.later.named.name: conflict.later for conflict in conflicts}.values(), key=self._place):
            own = [conflict for conflict in conflicts if conflict.later is later]
            first = [conflict for conflict in own if not any(conflict.first is other for other in refused)]
            if first:
                refused.append(later)
                main = next((conflict for conflict in first if self._refusal(conflict)), None) or min(first, key=self._sibling)
                beside = [conflict.first for conflict in own if conflict is not main]
                beside += [conflict.later for conflict in conflicts if conflict.first is later]
                errors.append(self._conflict(main, beside))
        return errors

    def _ordered(self, first: Impl, second: Impl) -> Tuple[Impl, Impl]:
        """The later one of two impls, and the other one, in the order in which rustc looks at them."""
        if first.named.crate == 0 == second.named.crate:
            for refusal in self.refusals:
                if refusal.code in OVERLAP:
                    for later, other in ((first, second), (second, first)):
                        if refusal.is_of(refusal.code, later, other) and refusal.others():
                            return later, other
        later = max((first, second), key=self._place)
        return later, second if later is first else first

    def _place(self, written: Impl) -> Tuple[bool, bool, str, int, int]:
        """What a macro makes comes behind all that is written, and other crates' impls before all."""
        place = written.named.place
        is_own = written.named.crate == 0
        return is_own, is_own and not self.sources.is_written(place), place.file or "", place.line, place.span[1]

    def _sibling(self, conflict: Conflict) -> Tuple[bool, Tuple[bool, bool, str, int, int]]:
        """Of the impls before one rustc looks first at those of the same kind: for a type with the same head, or for any type."""
        heads = [written.header.arguments[0].head for written in (conflict.later, conflict.first)]
        is_blanket = [head.startswith("#") for head in heads]
        return is_blanket[0] != is_blanket[1], self._place(conflict.first)

    def _refusal(self, conflict: Conflict) -> Optional[Refusal]:
        code = self._code(conflict)
        return next((refusal for refusal in self.refusals if refusal.is_of(code, conflict.later, conflict.first)), None)

    @staticmethod
    def _code(conflict: Conflict) -> str:
        return "E0751" if {conflict.later.sign, conflict.first.sign} == {"+", "-"} else "E0119"

    def _conflict(self, conflict: Conflict, beside: List[Impl]) -> Diagnostic:
        instance, _ = self.speller.clause_at(conflict.verdict.finding.answer.split(), 0)
        own = self.speller.spell(instance.arguments[0])
        for_type = " for type `%s`" % own if instance.arguments[0].head[0] != "$" else ""
        code = self._code(conflict)
        refusal = self._refusal(conflict)
        if code == "E0751":
            message = "found both positive and negative implementation of trait `%s`%s:" % (self.speller.spell_trait(instance), for_type)
            labels = ["%s implementation here" % ("negative" if written.sign == "-" else "positive") for written in (conflict.later, conflict.first)]
        else:
            message = "conflicting implementations of trait `%s`%s" % (self.speller.spell_trait(instance), for_type)
            labels = ["conflicting implementation" + (for_type.replace(" type ", " ")), "first implementation here"]
        spans, notes = self._both(conflict.later, conflict.first, labels, refusal)
        notes += [Note(note) for note in self._future(conflict.verdict)]
        notes += self._beside(beside)
        return Diagnostic("error", code, message, spans, notes, self._key(code, conflict.later, conflict.first))

    def _both(self, later: Impl, first: Impl, labels: List[str], refusal: Optional[Refusal]) -> Tuple[List[Span], List[Note]]:
        """The spans of two impls, and a note where the other one is of another crate."""
        if first.named.crate != 0:
            labels = ["", ""]
        spans = [self._span(later, labels[0], True)]
        notes = []
        if first.named.crate == 0:
            spans.insert(0, self._span(first, labels[1], False))
        else:
            crate = first.named.path.split("@")[0].replace("-", "_")
            notes.append(Note("conflicting implementation in crate `%s`:\n- %s;" % (crate, first.named.place.spelled)))
        if refusal is not None:
            self.met.append(refusal)
            spans = [span_of(raw) for raw in refusal.message["spans"]]
            for span in spans:
                span.label = labels[0] if span.is_primary else labels[1]
        return spans, notes

    def _span(self, written: Impl, label: str, is_primary: bool) -> Span:
        span = self.sources.header(written.named.place)
        span.label, span.is_primary = label, is_primary
        return span

    def _future(self, verdict: Verdict) -> List[str]:
        """rustc's notes on what other crates may add."""
        notes = []
        for whose, goal in verdict.future:
            own = goal.arguments[0]
            for_type = " for type `%s`" % self.full.spell(own) if own.head[0] != "$" else ""
            words = {"upstream": "upstream crates may add a new impl of trait `%s`%s in future versions", "downstream": "downstream crates may implement trait `%s`%s"}
            notes.append(words[whose] % (self.full.spell_trait(goal), for_type))
        return notes

    def _beside(self, impls: List[Impl]) -> List[Note]:
        """Further impls that one conflicts with, of which rustc says nothing."""
        own = [written for written in impls if written.named.crate == 0]
        notes = [Note("it conflicts with this implementation, too", "note", [self._span(written, "", True)]) for written in own]
        others = len(impls) - len(own)
        if others:
            notes.append(Note("it conflicts with %s, too" % ("1 impl of another crate" if others == 1 else "%d impls of other crates" % others)))
        return notes

    # Others

    def _leak(self, verdict: Verdict) -> Diagnostic:
        """The warning of a pair that rustc takes for apart by what binders bind."""
        finding = verdict.finding
        later, first = self._ordered(finding.first, finding.second)
        instance = first.header
        if any("#" in argument.words() for argument in instance.arguments):
            instance, _ = self.speller.clause_at(finding.answer.split(), 0)
        own = self.speller.spell(instance.arguments[0])
        message = "conflicting implementations of trait `%s` for type `%s`" % (self.speller.spell_trait(instance), own)
        spans, notes = self._both(later, first, ["conflicting implementation for `%s`" % own, "first implementation here"], None)
        notes += [Note(MAY_CHANGE, "warning"), LEAK_ISSUE, Note(BUG_FIX)]
        return Diagnostic("warning", LEAK, message, spans, notes, self._key(LEAK, later, first))

    def _undecided(self, verdict: Verdict) -> Diagnostic:
        finding = verdict.finding
        if finding.second is None:
            message = "this impl may break the orphan rule: %s" % self.teller.orphan(finding)
            return self._of_one(UNDECIDED, None, finding.first, message, [Note(doubt) for doubt in most_of(verdict.doubts)])
        later, first = self._ordered(finding.first, finding.second)
        refusal = next((refusal for refusal in self.refusals if refusal.code in OVERLAP and refusal.is_of(refusal.code, later, first)), None)
        labels = ["second implementation here", "first implementation here"]
        spans, notes = self._both(later, first, labels, refusal)
        message = "impls of trait `%s` may conflict, at `%s`" % (self.speller.names[finding.first.header.head]["spelled"], self.teller.instance(finding))
        notes += [Note(doubt) for doubt in most_of(verdict.doubts)] + [Note(note) for note in self._future(verdict)]
        if refusal is None:
            return Diagnostic(UNDECIDED, None, message, spans, notes + [Note("rustc accepts both")], self._key(UNDECIDED, later, first))
        notes.append(Note("rustc alone refuses these: the reasons above leave it undecided here"))
        return Diagnostic("error", refusal.code, without_modules(refusal.message["message"]), spans, notes, self._key(refusal.code, later, first))

    def _orphan(self, verdict: Verdict, floods: List[Flood]) -> Diagnostic:
        finding = verdict.finding
        word, _, rest = finding.answer.partition(" ")
        flood = next((flood for flood in floods if flood.first is finding.first), None)
        notes = [Note(flood.words())] if flood else []
        if word == "uncovered":
            more = [Note(COVERED["local none" not in rest]), Note(BEFORE if "local none" not in rest else ONLY % "a type parameter")]
            return self._of_one("error", "E0210", finding.first, self._covered(finding.first, rest), more + notes)
        own = finding.first.header.arguments[0]
        kind = "primitive types" if own.head in PRIMITIVES - {"str"} else "types defined outside of the crate"
        if own.head not in PRIMITIVES and own.head not in self.speller.names:
            kind = "arbitrary types"
        first, *more = ORPHAN_NOTES
        return self._of_one("error", "E0117", finding.first, ONLY % kind, [Note(first), *map(Note, more), *notes])

    def _covered_in_projection(self, verdict: Verdict) -> Iterator[Diagnostic]:
        """The warnings of a header whose parameters stand in an associated type alone: one for each of these."""
        written, (_, _, rest) = verdict.finding.first, verdict.finding.answer.partition(" ")
        uncovered, _, local = rest.partition(" local ")
        alias, _ = self.speller.type_at(uncovered.split(), 0)
        for parameter in dict.fromkeys(re.findall(r"\$\d+", alias.words())):
            name = self.teller.speller.spell(Term(parameter), written.parameter_names)
            message = self._uncovered(name, local)
            notes = [Note(COVERED[local != "none"]), Note(BEFORE if local != "none" else ONLY % "a type parameter"), Note(PHASED_OUT, "warning"), COVERED_ISSUE]
            span = self.sources.parameter(written.named.place, name)
            if span is None:
                yield self._of_one("warning", "E0210", written, message, notes)
            else:
                span.label, span.is_primary = message, True
                yield Diagnostic("warning", "E0210", message, [span], notes, "%s | %s" % (self._key(LINT, written, None), name))

    def _covered(self, written: Impl, rest: str) -> str:
        """rustc's words for a parameter that stands alone."""
        uncovered, _, local = rest.partition(" local ")
        names = written.parameter_names if uncovered.startswith("$") else None
        speller = self.teller.speller if uncovered.startswith("$") else self.speller
        return self._uncovered(speller.spell(self.speller.type_at(uncovered.split(), 0)[0], names), local)

    def _uncovered(self, parameter: str, local: str) -> str:
        if local == "none":
            return "type parameter `%s` must be used as the type parameter for some local type (e.g., `MyStruct<%s>`)" % (parameter, parameter)
        own = self.speller.spell(self.speller.type_at(local.split(), 0)[0])
        return "type parameter `%s` must be covered by another type when it appears before the first local type (`%s`)" % (parameter, own)

    def _of_one(self, level: str, code: Optional[str], written: Impl, message: str, notes: List[Note]) -> Diagnostic:
        refusal = next((refusal for refusal in self.refusals if code and refusal.is_of(code, written, None)), None)
        spans = [self._span(written, "", True)]
        if refusal is not None:
            self.met.append(refusal)
            spans = [span_of(raw) for raw in refusal.message["spans"]]
            for span in spans:
                span.label = without_modules(span.label or "")
        return Diagnostic(level, code, message, spans, notes, self._key(code or level, written, None))

    def _stopped(self, verdict: Verdict) -> Diagnostic:
        finding = verdict.finding
        message = "the program stopped before it had an answer (stop %s)" % finding.answer
        spans = [self._span(finding.first, "", True)]
        if finding.second is not None and finding.second.named.crate == 0:
            spans.append(self._span(finding.second, "beside this one", False))
        return Diagnostic(UNDECIDED, None, message, spans, [], self._key("stop", finding.first, finding.second))

    def _is_news(self, refusal: Refusal, verdicts: List[Verdict]) -> bool:
        """Whether a refusal that no error met isn't about a pair that is undecided."""
        pairs = [(verdict.finding.first, verdict.finding.second) for verdict in verdicts if verdict.word in (UNDECIDED, STOP)]
        return not any(refusal.is_of(refusal.code, later, first) for pair in pairs for later, first in (pair, pair[::-1]) if later is not None)

    def _alone(self, refusal: Refusal) -> Diagnostic:
        """What rustc reports, and the program doesn't see."""
        message = refusal.message
        notes = [Note(child["message"], child["level"]) for child in message["children"] if not child["spans"]]
        notes.append(Note("rustc alone reports this: rustdoc's JSON doesn't show what it is about"))
        spans = [span_of(raw) for raw in message["spans"]]
        return Diagnostic(message["level"], refusal.code, message["message"], spans, notes, "%s %s" % (refusal.code, message["message"]))

    @staticmethod
    def _key(word: str, later: Impl, first: Optional[Impl]) -> str:
        """A word for it that no other one has and that stays where lines move."""
        impls = [written for written in (later, first) if written is not None]
        return " | ".join([word] + ["%s: %s" % (written.named.place.file, written.named.place.spelled) for written in impls])


def most_of(reasons: List[str]) -> List[str]:
    """The first reasons of many, and how many there are besides."""
    rest = len(reasons) - MOST_REASONS
    return reasons if rest <= 0 else reasons[:MOST_REASONS] + ["and %d more reasons" % rest if rest > 1 else "and 1 more reason"]


def without_modules(words: str) -> str:
    """Words of rustc in which types have no modules: rustdoc's rustc shows them all."""
    return re.sub(r"\b(?:\w+::)+", "", words)


def _is_of(verdict: Verdict, orphans: List[Impl]) -> bool:
    """Whether a verdict is about an impl that breaks the orphan rule, of which rustc reports no conflict."""
    return any(written is orphan for written in (verdict.finding.first, verdict.finding.second) for orphan in orphans)


def _order(diagnostic: Diagnostic) -> Tuple[str, int, int]:
    primary = diagnostic.primary()
    return (primary.file, primary.line_start, primary.column_start) if primary else ("", 0, 0)
