"""Whether rustc refuses two impls that the program can't keep apart, and why.

rustc refuses two impls unless it knows that they are apart. So a clause that stays open in rustc, too, is no reason for doubt: another crate may
add an impl, or several impls may serve. What is a reason is a part that the text lacks, and a rule by which the program decides less than rustc.
"""

import re
from dataclasses import dataclass, field
from typing import Dict, Iterator, List, Optional, Tuple

from cargo_coherence.ask.answers import Speller, has_alias, is_alias, is_closed, may_match, with_fixed_constants
from cargo_coherence.ask.findings import Finding, told
from cargo_coherence.ask.program import Session, ask
from cargo_coherence.specialization.special import Checked
from cargo_coherence.to_text.model import Impl, Term
from cargo_coherence.to_text.regions import REFERENCE
from cargo_coherence.to_text.translate import Translator

OPEN = re.compile(r"  because impl (\w+): (.*) is open: (.*)$")
HEADER = re.compile(r"  because an alias stands in the header of impl (\w+)$")
STEP = re.compile(r"\s+\d+ (.*?): (yes|maybe|refused)(.*)$")
FUTURE = re.compile(r"(upstream|downstream) crates may add an impl")
SIZED = "core::marker::Sized"
FUNDAMENTAL = ("Box", "Pin")  # which cover no parameter
AMBIGUOUS = "its goal is ambiguous"
HOLDS = ("it holds by values of variables", "it may rest on an auto trait's impl for some types of a head")
OF_ALIAS = ("it is of an associated type, and isn't asked", "an alias isn't known")

ERROR, UNDECIDED, LINT, LEAK, ORPHAN, STOP, ACCEPTED = "error", "undecided", "lint", "leak", "orphan", "stop", "accepted"


@dataclass
class Verdict:
    """What is said of a finding: `error`, `undecided`, `lint`, `leak`, `orphan`, `stop` or `accepted`.

    `future` are the references for which another crate may add an impl, each with `upstream` or `downstream`; `doubts` say why it is undecided.
    """

    word: str
    finding: Finding
    future: List[Tuple[str, Term]] = field(default_factory=list)
    doubts: List[str] = field(default_factory=list)

    def doubt(self, reason: str) -> None:
        """Notes why it is undecided, once."""
        self.word = UNDECIDED
        if reason not in self.doubts:
            self.doubts.append(reason)


@dataclass
class _Clause:
    """A where clause that isn't known to hold where two impls meet."""

    verdict: Verdict
    clause: Term
    words: str


class Decider:
    """Asks the program about each finding that it doesn't decide."""

    def __init__(self, program: str, checked: Checked, translator: Translator, speller: Speller) -> None:
        self.program = program
        self.text = checked.text
        self.session = Session(program, checked.text)
        self.specialising = {frozenset((special.named.name, general.named.name)) for special, general in checked.pairs}
        self.speller = speller
        self.impls: Dict[str, Impl] = {written.named.name: written for written in translator.world.impls}

    def decide(self, found: List[Finding]) -> List[Verdict]:
        """A verdict for each finding, in their order."""
        verdicts = [self._begin(finding) for finding in found]
        asked = [verdict for verdict in verdicts if verdict.finding.kind == "maybe"]
        answers = self._blocks(["why * %s %s" % self._names(verdict.finding) for verdict in asked])
        clauses = [clause for verdict, lines in zip(asked, answers) for clause in self._read(verdict, lines)]
        self._look_behind([clause for clause in clauses if FUTURE.match(clause.words) or clause.words == AMBIGUOUS])
        self._look_up([clause for clause in clauses if clause.words in OF_ALIAS], clauses)
        self.session.close()
        return verdicts

    @staticmethod
    def _names(finding: Finding) -> Tuple[str, str]:
        return finding.first.named.name, finding.second.named.name

    def _begin(self, finding: Finding) -> Verdict:
        """The verdict as far as it's known without a question."""
        if finding.kind in (ORPHAN, LINT, LEAK, STOP):
            verdict = Verdict(finding.kind, finding)
            if finding.kind == LINT and self._is_covered(finding):
                verdict.word = ACCEPTED
            for reason in finding.first.widened if finding.kind == "orphan" else []:
                verdict.doubt("a part of the header can't be said, and is read as any type: %s" % reason)
            return verdict
        verdict = Verdict(ERROR, finding)
        for reason in finding.reasons:  # of an impl by which a clause holds
            verdict.doubt(reason)
        for written in (finding.first, finding.second):
            for reason in missing_parts(written):
                verdict.doubt(reason)
        if frozenset(self._names(finding)) in self.specialising:
            verdict.doubt("one specialises the other by what is read of their items, and the program doesn't confirm that its clauses hold")
        if finding.kind != "overlap" and may_leak(finding.first.header, finding.second.header):
            verdict.doubt("a region that a binder in the headers binds may keep them apart")
        return verdict

    def _is_covered(self, finding: Finding) -> bool:
        """Whether the associated type that a lint is about is a type that covers its parameters: rustc looks it up first."""
        words = finding.answer.partition(" ")[2].partition(" local ")[0].replace("$", "!")
        sized = next((name for name, known in self.speller.names.items() if known["path"] == SIZED), None)
        given = ["env %s %s" % (sized, variable) for variable in sorted(set(re.findall(r"!\d+", words))) if sized]
        text = self.text.replace("\nmode coherence\n", "\nmode analysis\n")  # in coherence nothing is known of a placeholder
        word, _, found = ask(self.program, text, [*given, "normalize * " + words])[0].partition(" ")
        if word != "type":
            return False
        term, _ = self.speller.type_at(found.split(), 0)
        is_fundamental = term.head.split()[0] in ("&", "&mut") or self.speller.names.get(term.head, {}).get("spelled") in FUNDAMENTAL
        return term.head[0] != "!" and not is_fundamental and not is_alias(term, self.speller.names)

    def _blocks(self, queries: List[str]) -> List[List[str]]:
        """For each question the lines of its answer."""
        return [self.session.ask(query) for query in queries]

    def _read(self, verdict: Verdict, lines: List[str]) -> Iterator[_Clause]:
        """The open clauses that an answer names; what alone is a reason for doubt is noted."""
        for line in lines[1:]:
            is_open, header = OPEN.match(line), HEADER.match(line)
            if header:
                written = self.impls[header.group(1)]
                if not self._is_any_type(written):
                    verdict.doubt("what an associated type in a header is isn't known: %s" % told(written))
            elif is_open:
                clause, _ = self.speller.clause_at(is_open.group(2).split(), 0)
                words = is_open.group(3)
                if not (FUTURE.match(words) or words == AMBIGUOUS or words in HOLDS or words in OF_ALIAS):
                    verdict.doubt("%s is open: %s" % (self.speller.spell_clause(clause), words))
                yield _Clause(verdict, clause, words)

    def _is_any_type(self, written: Impl) -> bool:
        """Whether the associated types in a header may be any type for rustc, too: another crate may add an impl that says what they are."""
        names = self.speller.names
        aliases = [alias for argument in written.header.arguments for alias in aliases_in(argument, names)]
        traits = [Term(names[alias.head]["of"], alias.arguments) for alias in aliases]
        if any(has_any_alias(trait, names) for trait in traits):
            return False
        asked = [trait for trait in traits if trait.arguments[0].head[0] != "#"]
        words = [self._fixed(with_variables(trait)).words() for trait in asked]
        return all(answer[0] in ("upstream", "downstream") for answer in self._blocks(["knowable " + word for word in words]))

    def _fixed(self, clause: Term) -> Term:
        """The clause with placeholders for constants that aren't known, about which no question may be."""
        return with_fixed_constants(clause, self.speller.names)

    # What an open clause rests on

    def _look_behind(self, clauses: List[_Clause]) -> None:
        """Notes for which goals another crate may add an impl, and doubts where a goal of a clause hangs on an associated type."""
        answers = self._blocks(["why * " + self._fixed(clause.clause).words() for clause in clauses])
        future: List[Tuple[Verdict, str, Term]] = []
        for asked, lines in zip(clauses, answers):
            for goal, rest in self._open_goals(lines):
                found = FUTURE.search(rest)
                if found:
                    future.append((asked.verdict, found.group(1), goal))
                elif "an alias isn't known" in rest:
                    asked.verdict.doubt("what an associated type is isn't known in %s" % self.speller.spell_clause(goal))
                self._doubt_impls(asked.verdict, goal)
        self._note_future(future)

    def _open_goals(self, lines: List[str]) -> Iterator[Tuple[Term, str]]:
        """The goals of an answer that are a maybe, and what is said of each."""
        for line in lines[1:]:
            step = STEP.match(line)
            if step and step.group(2) == "maybe":
                yield self.speller.clause_at(step.group(1).split(), 0)[0], step.group(3)

    def _doubt_impls(self, verdict: Verdict, goal: Term) -> None:
        """Doubts where a goal that is open may be answered by an impl of which the text lacks a part."""
        for written in self.impls.values():
            if written.header.head == goal.head and (written.widened or written.unsaid) and may_match(written.header, goal, self.speller.names):
                verdict.doubt("%s may hang on an impl of which a part can't be said: %s" % (self.speller.spell_clause(goal), told(written)))

    def _note_future(self, future: List[Tuple[Verdict, str, Term]]) -> None:
        """Notes those goals for which nothing but another crate's impl may serve, by what is declared today: of these rustc has a note."""
        queries = ["solve * " + self._fixed(goal).words() for _, _, goal in future]
        today = ask(self.program, self.text, ["mode post_analysis", *queries]) if queries else []
        for (verdict, whose, goal), answer in zip(future, today):
            if answer == "refused" and (whose, goal) not in verdict.future:
                verdict.future.append((whose, goal))

    # Clauses on associated types

    def _look_up(self, clauses: List[_Clause], others: List[_Clause]) -> None:
        """Doubts where a clause on an associated type may keep the impls apart, and nothing more is known of it."""
        for asked in clauses:
            if is_alias(asked.clause, self.speller.names) and self._is_open_trait(asked, others):
                continue  # rustc doesn't know either what the associated type is
            if not self._holds(asked.clause):
                asked.verdict.doubt("what an associated type is isn't known in %s" % self.speller.spell_clause(asked.clause))

    def _is_open_trait(self, asked: _Clause, others: List[_Clause]) -> bool:
        """Whether the trait of a clause's associated type stays open at the same place, as another clause says."""
        trait = Term(self.speller.names[asked.clause.head]["of"], asked.clause.arguments[:-1])
        return any(other.verdict is asked.verdict and other.clause == trait and FUTURE.match(other.words) for other in others)

    def _holds(self, clause: Term) -> bool:
        """Whether a clause with associated types in it holds once these are put in."""
        if is_alias(clause, self.speller.names):
            alias = Term(clause.head, clause.arguments[:-1])
            return self._normalized(alias) == clause.arguments[-1]
        put_in = Term(clause.head, tuple(self._put_in(argument) or argument for argument in clause.arguments))
        if has_any_alias(put_in, self.speller.names):
            return False
        lines = self._blocks(["solve * " + self._fixed(put_in).words()])[0]
        return lines[0].startswith("yes")

    def _put_in(self, term: Term) -> Optional[Term]:
        """What an associated type is, if it's known."""
        return self._normalized(term) if is_alias(term, self.speller.names) else None

    def _normalized(self, alias: Term) -> Optional[Term]:
        if not is_closed(alias):
            return None
        word, _, words = self._blocks(["normalize * " + alias.words()])[0][0].partition(" ")
        return self.speller.type_at(words.split(), 0)[0] if word == "type" else None


def has_any_alias(clause: Term, names: Dict[str, dict]) -> bool:
    """Whether an associated type stands in what a clause is about."""
    return any(has_alias(argument, names) for argument in clause.arguments)


def aliases_in(term: Term, names: Dict[str, dict]) -> Iterator[Term]:
    """The associated types in a type, but not those in the bounds of a `dyn` type."""
    if is_alias(term, names):
        yield term
    elif not term.head.startswith("dyn("):
        for argument in term.arguments:
            yield from aliases_in(argument, names)


def with_variables(term: Term) -> Term:
    """The term with a variable for each parameter."""
    head = "$" + term.head[1:] if term.head[0] == "#" else term.head
    return Term(head, tuple(map(with_variables, term.arguments)), term.binds, term.loses)


def missing_parts(written: Impl) -> Iterator[str]:
    """What the text lacks of an impl."""
    for reason in written.widened:
        yield "a part of a header can't be said, and is read as any type: %s (%s)" % (reason, told(written))
    for reason in written.unsaid:
        yield "a where clause can't be said, and is left out: %s (%s)" % (reason, told(written))
    if written.loses_regions():
        yield "a region that a binder binds is left out or read as a static one: %s" % told(written)


def may_leak(first: Term, second: Term) -> bool:
    """Whether a region that a binder binds stands in one of two headers where the other one has something else."""
    if first == second:
        return False
    found = [REFERENCE.match(term.head) for term in (first, second)]
    if any(found) and all(term.head.split()[0] in ("&", "&mut") for term in (first, second)):
        if bool(found[0]) != bool(found[1]) or found[0] and found[0].groups() != found[1].groups():
            return True
    elif first.head != second.head or len(first.arguments) != len(second.arguments):
        return any(_names_bound(term) for term in (first, second))
    return any(may_leak(left, right) for left, right in zip(first.arguments, second.arguments))


def _names_bound(term: Term, depth: int = 0) -> bool:
    """Whether a region stands in a term that a binder around it binds."""
    found = REFERENCE.match(term.head)
    inner = depth + (1 if term.binds or "fn(" in term.head else 0)
    return bool(found) and int(found.group(2) or 0) >= depth or any(_names_bound(argument, inner) for argument in term.arguments)
