"""What `check *` finds, in Rust's terms."""

import re
from dataclasses import dataclass, field
from typing import Dict, List, Optional, Set, Tuple

from cargo_coherence.ask.answers import Speller, has_alias, is_alias, match, may_match, substitute, with_fixed_constants
from cargo_coherence.to_text.model import Impl, Term
from cargo_coherence.to_text.regions import without_binder

BOTH = re.compile(r"impl (\w+) \(line \d+\) and impl (\w+) \(line \d+\): (lint )?(\w+) ?(.*)")
ALONE = re.compile(r"impl (\w+) \(line \d+\): (lint )?orphan (\w+) ?(.*)")
LINT = "uncovered_param_in_projection"  # rustc's name for a header that only its compatible check accepts
STOPPED = re.compile(r"impl (\w+) \(line \d+\)(?: and impl (\w+) \(line \d+\))?: (?:orphan )?stop (\d+)")


@dataclass
class Finding:
    """One finding: its kind is `overlap`, `maybe`, `orphan`, `lint`, `leak` or `stop`."""

    kind: str
    first: Impl
    second: Optional[Impl]
    answer: str
    reasons: List[str] = field(default_factory=list)

    def note(self, reason: str) -> None:
        """Notes what it rests on, once."""
        if reason not in self.reasons:
            self.reasons.append(reason)

    def is_local(self) -> bool:
        """Whether an impl of the local crate takes part."""
        return any(written is not None and written.named.crate == 0 for written in (self.first, self.second))


def read_findings(lines: List[str], impls: Dict[str, Impl]) -> List[Finding]:
    """The findings that the program's lines tell of. A `lint leak` is a `maybe`: whether rustc warns of it is asked in `verdict/leaking.py`."""
    found = []
    for line in lines:
        stopped, both, alone = STOPPED.match(line), BOTH.match(line), ALONE.match(line)
        if stopped:
            found.append(Finding("stop", impls[stopped.group(1)], impls.get(stopped.group(2) or ""), stopped.group(3)))
        elif both:
            first, second = sorted((impls[both.group(1)], impls[both.group(2)]), key=order_of)
            is_known = first.is_whole() and second.is_whole() and not both.group(3)
            found.append(Finding(both.group(4) if is_known else "maybe", first, second, both.group(5)))
        elif alone:
            kind = "lint" if alone.group(2) else "orphan"
            found.append(Finding(kind, impls[alone.group(1)], None, "%s %s" % (alone.group(3), alone.group(4))))
    return found


@dataclass
class Flood:
    """An impl that breaks the orphan rule, and how many impls of other crates it overlaps or may overlap, of which nothing more is said."""

    first: Impl
    kind: str
    count: int = 0

    def words(self) -> str:
        """It in words, behind what is said of the impl."""
        word = "overlaps" if self.kind == "overlap" else "may overlap"
        others = "1 impl of another crate" if self.count == 1 else "%d impls of other crates" % self.count
        return "it %s %s, too" % (word, others)


def drained(found: List[Finding]) -> Tuple[List[Finding], List[Flood]]:
    """The findings without those of an impl that breaks the orphan rule and one of another crate, and for each such impl one word of them."""
    orphans = [finding.first for finding in found if finding.kind == "orphan" and finding.first.named.crate == 0]
    floods: Dict[str, Flood] = {}
    kept = []
    for finding in found:
        is_flood = finding.second is not None and finding.second.named.crate != 0 and finding.kind != "stop"
        if is_flood and any(written is finding.first for written in orphans):
            flood = floods.setdefault(finding.first.named.name, Flood(finding.first, finding.kind))
            flood.count += 1
            flood.kind = "overlap" if "overlap" in (flood.kind, finding.kind) else flood.kind
        else:
            kept.append(finding)
    return kept, list(floods.values())


def order_of(written: Impl) -> Tuple[int, str, int]:
    """By crate, file and line: of two impls the earlier one stands first, and one of the local crate before all others."""
    place = written.named.place
    return written.named.crate, place.file or "", place.line


class Teller:
    """Tells findings in Rust's terms."""

    def __init__(self, speller: Speller) -> None:
        self.speller = speller

    def instance(self, finding: Finding) -> str:
        """Where two impls meet: a type, with the arguments of the trait where there are any."""
        term, _ = self.speller.clause_at(finding.answer.split(), 0)
        trait = self.speller.spell_trait(term)
        own = self.speller.spell(term.arguments[0])
        return "%s: %s" % (own, trait) if "<" in trait else own

    def tell(self, finding: Finding) -> str:
        """The finding in one line, without its reasons."""
        first = told(finding.first)
        if finding.kind == "lint":
            return "%s: lint %s: %s" % (first, LINT, self.orphan(finding))
        if finding.kind == "leak":
            return "%s and %s are apart by regions of binders alone: at %s" % (first, told(finding.second), self.instance(finding))
        if finding.kind == "orphan":
            may = "may break the orphan rule" if finding.first.widened else "orphan rule"
            return "%s: %s: %s" % (first, may, self.orphan(finding))
        if finding.kind == "stop":
            second = " and %s" % told(finding.second) if finding.second else ""
            return "%s%s: not answered (stop %s)" % (first, second, finding.answer)
        word = "overlaps" if finding.kind == "overlap" else "may overlap"
        return "%s %s %s: at %s" % (first, word, told(finding.second), self.instance(finding))

    def orphan(self, finding: Finding) -> str:
        """Why a header breaks the orphan rule, or is one that rustc warns of."""
        word, _, rest = finding.answer.partition(" ")
        parameters = finding.first.parameter_names
        if word == "nonlocal":
            types = [self.speller.type_at(text.split(), 0)[0] for text in re.findall(r"\((.*?), (?:Yes|No)\)(?= \(|$)", rest)]
            if not types:
                return "no local type: the trait isn't of this crate, and an associated type may be any type"
            shown = ", ".join(self.speller.spell(term, parameters) for term in types)
            return "no local type: neither the trait nor %s %s of this crate" % (shown, "is" if len(types) == 1 else "are")
        if word == "uncovered":
            uncovered, local = rest.split(" local ")
            parameter = self.speller.spell(self.speller.type_at(uncovered.split(), 0)[0], parameters)
            if local == "none":
                return "%s stands alone, and no type is of this crate" % parameter
            own = self.speller.spell(self.speller.type_at(local.split(), 0)[0], parameters)
            return "%s stands alone before the first type of this crate, %s" % (parameter, own)
        return finding.answer


def told(written: Impl) -> str:
    """Place and header of an impl."""
    return "%s: %s" % (written.named.place.told(), written.named.place.spelled)


class Reasons:
    """Finds what a `maybe` rests on, by asking about the where clauses at the instance that it shows."""

    def __init__(self, speller: Speller, impls: List[Impl]) -> None:
        self.speller = speller
        self.impls = impls
        self.asked: List[Tuple[Finding, Term]] = []  # each clause at the instance, with its binder
        self.sizes: List[Tuple[Finding, str]] = []  # what is said of sizes, where nothing else is
        self.hanging: Set[Term] = set()  # the clauses that some impl may answer by a constant, for which a placeholder stands

    def queries(self, findings: List[Finding]) -> List[str]:
        """Two questions for each where clause of each finding."""
        lines = []
        for finding in findings:
            if finding.kind == "maybe":
                clauses = self._clauses(finding)
                if not clauses and not finding.reasons:
                    finding.note("no where clause keeps them apart")
                for clause in clauses:
                    self.asked.append((finding, clause))
                    words = without_binder(clause).words()
                    lines += ["candidates * " + words, "knowable " + words]
        return lines

    def _clauses(self, finding: Finding) -> List[Term]:
        """The clauses at the instance; what is known without a question is noted."""
        instance, _ = self.speller.clause_at(finding.answer.split(), 0)
        names, clauses = self.speller.names, []
        for written in (finding.first, finding.second):
            self._note_header(finding, written)
            found: Dict[str, Term] = {}
            match(written.header, instance, found, names)
            for clause in written.clauses:
                at = self._fixed(substitute(clause, found))
                if is_alias(clause, names):
                    finding.note("what an associated type is decides nothing: %s" % self.speller.spell_clause(at))
                elif any(has_alias(argument, names) for argument in at.arguments):
                    finding.note("a where clause on an associated type decides nothing: %s" % self.speller.spell_clause(at))
                elif at not in clauses:
                    clauses.append(at)
                elif at.loses:
                    clauses[clauses.index(at)] = at
        return clauses

    def _note_header(self, finding: Finding, written: Impl) -> None:
        """Notes what a text lacks of an impl."""
        for reason in written.widened:
            finding.note("a part of the header can't be said, and is read as any type: %s" % reason)
        for reason in written.unsaid:
            finding.note("a where clause can't be said, and is left out: %s" % reason)
        if written.header.loses_region():
            finding.note("a type in the header binds a region that is left out: %s" % written.named.place.spelled)
        if any(has_alias(argument, self.speller.names) for argument in written.header.arguments):
            finding.note("what an associated type in a header is isn't looked up")

    def _fixed(self, clause: Term) -> Term:
        """The clause with placeholders for constants that aren't known."""
        fixed = with_fixed_constants(clause, self.speller.names)
        if fixed != clause:
            headers = [written.header for written in self.impls if written.header.head == clause.head]
            if any(may_match(header, clause, self.speller.names) and not may_match(header, fixed, self.speller.names) for header in headers):
                self.hanging.add(fixed)
        return fixed

    def read(self, lines: List[str], today: List[str]) -> None:
        """Notes what the answers to the questions say; `today` are those to the first of each two, of the impls that there are."""
        for (finding, clause), candidates, knowable, now in zip(self.asked, lines[::2], lines[1::2], today):
            answer = candidates.rsplit(": ", 1)[-1]
            spelled = self.speller.spell_clause(clause)
            if self.speller.names[clause.head]["path"] == "core::marker::Sized":
                if not answer.startswith("yes"):
                    self.sizes.append((finding, "%s stays open" % spelled))
            elif answer.startswith("yes"):
                if clause.binds:
                    finding.note("%s is asked about static regions alone, of which it holds" % spelled)
                elif clause.loses_region():
                    finding.note("%s is asked without the regions of a binder, and holds so" % spelled)
            elif re.search(r"\(impl \w+: yes\)", candidates) or now.rsplit(": ", 1)[-1].startswith("yes"):
                finding.note("%s holds" % spelled)
            elif answer.startswith("refused") and clause not in self.hanging:
                finding.note("%s doesn't hold, but its trait leads to unsizing, so that this decides nothing" % spelled)
            elif "(unknowable: maybe)" in candidates and knowable == "upstream":
                finding.note("an upstream crate may add an impl by which %s holds" % spelled)
            elif "(unknowable: maybe)" in candidates and knowable == "downstream":
                finding.note("a crate that uses this one may have an impl by which %s holds" % spelled)
            else:
                finding.note("%s is open" % spelled)
        for finding, reason in [(finding, reason) for finding, reason in self.sizes if not finding.reasons]:
            finding.note(reason)
        for finding in {id(finding): finding for finding, _ in self.asked}.values():
            if not finding.reasons:
                finding.note("each where clause holds there, but one leads to unsizing or leaves a type open")
