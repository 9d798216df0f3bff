"""Pairs of impls that nothing but the regions of binders keeps apart: rustc accepts them, and warns of them by its lint `coherence_leak_check`.

`fn(&'static u8)` and `for<'a> fn(&'a u8)` are such. rustc first compares headers without looking at what a binder binds, and then looks at that.
"""

import re
from dataclasses import replace
from typing import Dict, Iterator, List, Tuple

from cargo_coherence.ask.answers import Speller, has_alias
from cargo_coherence.ask.findings import Finding, order_of
from cargo_coherence.ask.program import Session
from cargo_coherence.specialization.special import Checked
from cargo_coherence.to_text.model import Impl, Term
from cargo_coherence.to_text.regions import erased, has_bound
from cargo_coherence.to_text.translate import Translator
from cargo_coherence.to_text.writer import impl_line
from cargo_coherence.verdict.decide import ERROR, Decider
from cargo_coherence.verdict.sources import Sources

LEAK = "coherence_leak_check"  # rustc's name for the lint
ALLOWED = re.compile(r"#!?\[\s*(?:allow|expect)\([^\]]*\b(?:%s|future_incompatible)\b" % LEAK)
ALLOWED_IN_ALL = re.compile(ALLOWED.pattern.replace("!?", "!", 1))

Pair = Tuple[Impl, Impl]


def leaking(program: str, checked: Checked, translator: Translator, speller: Speller) -> List[Finding]:
    """The pairs of which rustc warns, each as a finding `leak` with an instance in which all regions are static. Raises `StepFailed`.

    Such a pair has no common instance by its headers, or one by a leak, and rustc would refuse it if each region of the headers were the static one.
    """
    names = speller.names
    pairs = [pair for pair in _pairs(translator.world.impls) if _may_meet(erased(pair[0].header), erased(pair[1].header), names)]
    answers = _answers(program, _without_clauses(checked.text, pairs), pairs)
    pairs = [pair for pair, answer in zip(pairs, answers) if not answer.startswith("overlap")]
    static = replace(checked, text=_without_regions(checked.text, pairs))
    met = []
    for pair, answer in zip(pairs, _answers(program, static.text, pairs)):
        word, _, instance = answer.partition(" ")
        if word in ("overlap", "maybe"):
            met.append((pair, Finding(word, *map(_static, sorted(pair, key=order_of)), instance)))
    verdicts = Decider(program, static, translator, speller).decide([finding for _, finding in met])
    return [
        Finding("leak", *sorted(pair, key=order_of), finding.answer)
        for (pair, finding), verdict in zip(met, verdicts)
        if verdict.word == ERROR
    ]


def is_allowed(finding: Finding, root: str, sources: Sources) -> bool:
    """Whether the lint is allowed by the crate's file `root`, or in the file of one of the impls: rustdoc's JSON has no such attribute."""
    places = [written.named.place for written in (finding.first, finding.second) if written.named.crate == 0]
    return bool(ALLOWED_IN_ALL.search(sources.text(root))) or any(ALLOWED.search(sources.text(place.file or "")) for place in places)


def _static(written: Impl) -> Impl:
    """The impl whose header has static regions alone."""
    return replace(written, header=erased(written.header))


def _key(pair: Pair) -> Tuple[str, str]:
    return pair[0].named.name, pair[1].named.name


def _pairs(impls: List[Impl]) -> Iterator[Pair]:
    """Each two positive impls of a trait, one of them of the local crate, where a binder stands in a header that says all of its regions and types."""
    by_trait: Dict[str, List[Impl]] = {}
    for written in impls:
        if written.sign == "+" and not written.widened and not written.header.loses_region():
            by_trait.setdefault(written.header.head, []).append(written)
    for of_trait in by_trait.values():
        bound = {written.named.name for written in of_trait if has_bound(written.header)}
        for i, first in enumerate(of_trait):
            for second in of_trait[i + 1:]:
                if bound & {first.named.name, second.named.name} and 0 in (first.named.crate, second.named.crate):
                    yield first, second


def _may_meet(left: Term, right: Term, names: Dict[str, dict]) -> bool:
    """Whether two terms without regions may have a common instance, by their heads alone."""
    if any(term.head[0] == "#" or has_alias(term, names) for term in (left, right)):
        return True
    is_one = (left.head, len(left.arguments)) == (right.head, len(right.arguments))
    return is_one and all(_may_meet(first, second, names) for first, second in zip(left.arguments, right.arguments))


def _answers(program: str, text: str, pairs: List[Pair]) -> List[str]:
    """What the program answers of each pair."""
    if not pairs:
        return []
    session = Session(program, text)
    answers = [session.ask("overlap * %s %s" % _key(pair))[0] for pair in pairs]
    session.close()
    return answers


def _without_clauses(text: str, pairs: List[Pair]) -> str:
    """The text in which these impls have no where clauses."""
    named = {name for pair in pairs for name in _key(pair)}
    kept = [line for line in text.split("\n") if not line.startswith("iwhere ") or line.split(" ", 2)[1] not in named]
    return "\n".join(kept)


def _without_regions(text: str, pairs: List[Pair]) -> str:
    """The text in which the headers of these impls are erased."""
    lines = {impl_line(written): impl_line(_static(written)) for pair in pairs for written in pair}
    return "\n".join(lines.get(line, line) for line in text.split("\n"))
