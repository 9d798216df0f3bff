"""Which overlaps rest on an impl of which the text lacks a part, by a where clause that holds: these may be none."""

from typing import Callable, Dict, Iterator, List, Set

from cargo_coherence.ask.answers import Speller, match, substitute, with_fixed_constants
from cargo_coherence.ask.findings import Finding, told
from cargo_coherence.to_text.model import Impl, Term


def soften(found: List[Finding], impls: Dict[str, Impl], speller: Speller, ask: Callable[[List[str]], List[str]]) -> None:
    """Makes a `maybe` of each overlap of which a where clause holds by such an impl, and notes that for a reason."""
    asked = [(finding, clause) for finding in found if finding.kind == "overlap" for clause in _clauses(finding, speller)]
    if not asked:
        return
    answers = _answers(ask(["why * " + clause.words() for _, clause in asked]))
    for (finding, clause), words in zip(asked, answers):
        for written in [impls[word] for word in sorted(words & set(impls))]:
            if not written.is_whole() or written.loses_in_values():
                finding.kind = "maybe"
                finding.note("%s holds by an impl of which a part is left out: %s" % (speller.spell_clause(clause), told(written)))


def _clauses(finding: Finding, speller: Speller) -> Iterator[Term]:
    """The where clauses of both impls at the instance, but not those about sizes."""
    instance, _ = speller.clause_at(finding.answer.split(), 0)
    for written in (finding.first, finding.second):
        found: Dict[str, Term] = {}
        match(written.header, instance, found, speller.names)
        for clause in written.clauses:
            if speller.names[clause.head]["path"] != "core::marker::Sized":
                yield with_fixed_constants(substitute(clause, found), speller.names)


def _answers(lines: List[str]) -> List[Set[str]]:
    """The words of each answer, with those of its steps."""
    answers: List[Set[str]] = []
    for line in lines:
        if not line.startswith("  "):
            answers.append(set())
        answers[-1].update(word.rstrip(":,()") for word in line.split())
    return answers
