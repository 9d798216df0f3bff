"""Finds out which of two impls that may overlap specialises the other, by the rule of rustc.

Impl A specialises impl B where A's header is an instance of B's, B's where clauses hold of that instance under A's, and each item of A is a
`default` one of B. The feature has to be on in A's crate. For A's parameters placeholders stand, those of each question its own, so that one
text can hold the where clauses of many.
"""

from collections import Counter
from dataclasses import dataclass, field
from typing import Dict, Iterator, List, Optional, Set, Tuple

from cargo_coherence.ask.answers import Speller, has_alias, is_alias, is_closed, placeholders
from cargo_coherence.specialization.defaults import default_items, may_have_default_types
from cargo_coherence.ask.findings import Finding, read_findings
from cargo_coherence.to_text.model import Impl, Term, Trait
from cargo_coherence.ask.program import ask
from cargo_coherence.to_text.regions import bound_outside, without_binder
from cargo_coherence.ask.resting import soften
from cargo_coherence.to_text.translate import Translator
from cargo_coherence.to_text.writer import lines, places

Pair = Tuple[Impl, Impl]
Names = Dict[str, dict]

PASSES = 20  # how often the types that associated types come to are put in
BATCH = 24  # questions of one text: what it takes grows as the square of what is assumed
MOST_CLAUSES = 1_000


@dataclass
class Question:
    """Whether `special` specialises `general`: what is assumed, what two terms have to be one, and what has to hold."""

    special: Impl
    general: Impl
    environment: List[Term]
    found: Dict[str, Term] = field(default_factory=dict)
    equal: List[Tuple[Term, Term]] = field(default_factory=list)
    clauses: List[Term] = field(default_factory=list)
    answer: str = "open"  # or `yes`, or `no`

    def is_closed(self) -> bool:
        """Whether each assumption has a placeholder, so that no other question can use it."""
        return all(placeholders(clause.words()) for clause in self.environment)


@dataclass
class Checked:
    """What `check *` finds in a text that says which impl specialises which."""

    text: str
    found: List[Finding]
    pairs: List[Pair]

    def counts(self) -> Dict[str, int]:
        """By the key of a crate, how many pairs there are whose first impl is its own."""
        return dict(Counter(special.named.path for special, _ in self.pairs))


def check(program: str, text: str, translator: Translator, root: str, all_crates: bool = False) -> Checked:
    """Checks a text, finds out which of the pairs that are found specialise, and checks it with these once more.

    Pairs of dependencies alone aren't asked about unless `all_crates`. `root` is the folder in which files are named.
    """
    impls = {written.named.name: written for written in translator.world.impls}
    found = read_findings(ask(program, text, ["check *"]), impls)
    pairs = Specialisation(program, translator, root).find([finding for finding in found if all_crates or finding.is_local()])
    if pairs:
        text += "".join("specializes %s %s\n" % (special.named.name, general.named.name) for special, general in pairs)
        found = read_findings(ask(program, text, ["check *"]), impls)
    overlaps = [finding for finding in found if finding.kind == "overlap" and (all_crates or finding.is_local())]
    if overlaps:
        soften(overlaps, impls, Speller(places(translator.world)["names"]), lambda queries: ask(program, text, queries))
    return Checked(text, found, pairs)


class Specialisation:
    """Asks the program about pairs of impls."""

    def __init__(self, program: str, translator: Translator, root: str) -> None:
        self.program = program
        self.world = translator.world
        self.root = root
        self.enabled = {crate.key for crate in translator.crates if crate.may_specialize}
        self.doubtful = set(translator.incomplete) | {written.named.name for written in self.world.impls if written.widened or written.unsaid}
        self.names: Names = {}
        self.speller = Speller({})
        self.open_types: Set[str] = set()
        self.traits: Dict[str, Trait] = {}
        self.next_placeholder = 0
        self.text = ""

    def find(self, findings: List[Finding]) -> List[Pair]:
        """The pairs of which the first specialises the second, and not the other way round too."""
        pairs = [(finding.first, finding.second) for finding in findings if finding.kind in ("overlap", "maybe")]
        pairs = [pair for pair in pairs if {written.named.path for written in pair} & self.enabled]
        if not pairs:
            return []
        self.names = places(self.world)["names"]
        self.speller = Speller(self.names)
        self.open_types = set(self._default_types())
        self.traits = {trait.named.name: trait for trait in self.world.traits}
        asked = [both for first, second in pairs for pair in ((first, second), (second, first)) for both in self._questions(*pair)]
        questions = [question for both in asked for question in both if question is not None]
        together = [question for question in questions if question.is_closed()]
        batches = [together[first:first + BATCH] for first in range(0, len(together), BATCH)]
        for batch in batches + [[question] for question in questions if not question.is_closed()]:
            self._ask(batch)
        return [(there.special, there.general) for there, back in asked if there.answer == "yes" and (back is None or back.answer == "no")]

    def _default_types(self) -> Iterator[str]:
        """The associated types that some impl says by a `default type`: what they are isn't known where another impl may specialise it."""
        for written in self.world.impls:
            if written.values and written.named.path in self.enabled and may_have_default_types(written.named.place, self.root):
                items = default_items(written.named.place, self.root)
                yield from (value.head for value in written.values if self.names[value.head]["spelled"] in items)

    # Questions

    def _questions(self, special: Impl, general: Impl) -> Iterator[Tuple[Question, Optional[Question]]]:
        """The question and the one the other way round; of either nothing where the headers say no, of both where the items or the crate do."""
        may = special.named.path in self.enabled and special.members is not None and general.members is not None
        if may and special.sign == general.sign != "reservation" and not general.widened and not general.unsaid:
            there = self._question(special, general)
            if there is not None and (not special.members or set(special.members) <= default_items(general.named.place, self.root)):
                yield there, self._question(general, special)

    def _question(self, special: Impl, general: Impl) -> Optional[Question]:
        """The question, or nothing if the headers say no already."""
        count = special.named.parameters
        own = {"#%d" % i: Term("!%d" % (self.next_placeholder + i)) for i in range(count)}
        question = Question(special, general, [])
        if not self._fits(general.header, put(special.header, own), question):
            return None
        self.next_placeholder += count
        question.environment = self._environment([without_binder(put(clause, own)) for clause in special.clauses])
        for clause in map(without_binder, general.clauses):
            if is_alias(clause, self.names):
                question.equal.append((clause.arguments[-1], Term(clause.head, clause.arguments[:-1])))
            else:
                question.clauses.append(clause)
        return question

    def _fits(self, pattern: Term, instance: Term, question: Question) -> bool:
        """Whether a term is an instance of another one. What hangs on associated types is left to the question."""
        if pattern.head[0] == "#":
            return not any(True for _ in bound_outside(instance)) and question.found.setdefault(pattern.head, instance) == instance
        if is_alias(pattern, self.names) or is_alias(instance, self.names):
            question.equal.append((pattern, instance))
            return True
        if (pattern.head, pattern.binds, len(pattern.arguments)) != (instance.head, instance.binds, len(instance.arguments)):
            return False
        pairs = list(zip(pattern.arguments, instance.arguments))
        if pattern.head.startswith("dyn("):
            if any((left.head, left.binds) != (right.head, right.binds) for left, right in pairs):
                return False
            pairs = [inner for left, right in pairs for inner in zip(left.arguments, right.arguments)]
        return all(self._fits(left, right, question) for left, right in pairs)

    def _environment(self, clauses: List[Term]) -> List[Term]:
        """The clauses with what their supertraits say, in which associated types stand for what the clauses say that they are."""
        found: Dict[Term, None] = {}
        waiting = list(clauses)
        while waiting and len(found) < MOST_CLAUSES:
            clause = waiting.pop(0)
            trait = self.traits.get(clause.head)
            if clause not in found and trait is not None:
                own = {"#%d" % i: argument for i, argument in enumerate(clause.arguments)}
                waiting += [put(without_binder(above), own) for above in trait.supers]
            found[clause] = None
        said = [clause for clause in found if is_alias(clause, self.names)]
        known = {Term(clause.head, clause.arguments[:-1]): clause.arguments[-1] for clause in said}
        others = [Term(clause.head, tuple(put_in_known(a, known) for a in clause.arguments)) for clause in found if clause not in said]
        return said + others

    # Answers

    def _ask(self, questions: List[Question]) -> None:
        """Answers the questions. What associated types come to is listed where a goal that a question leads to has one."""
        assumed = ["env " + clause.words() for question in questions for clause in question.environment]
        known: Dict[Term, Term] = {}
        waiting = self._settled(questions, assumed, known)
        for _ in range(PASSES):
            answers = self._steps(assumed + ["why * " + clause.words() for question in waiting for clause in question.clauses])
            goals: List[Term] = []
            for question in waiting:
                steps = [next(answers) for _ in question.clauses]
                is_refused = any(one[0].startswith("refused") for one in steps)
                question.answer = "yes" if all(self._holds(one, question) for one in steps) else "no" if is_refused else "open"
                goals += [self._goal(line) for one in steps if not one[0].startswith("yes") for line in one[1:]]
            listed = [line for line in self._listed(goals, assumed, known) if line not in assumed]
            if not listed:
                break
            assumed, waiting = assumed + listed, [question for question in waiting if question.answer != "yes"]

    def _settled(self, questions: List[Question], assumed: List[str], known: Dict[Term, Term]) -> List[Question]:
        """The questions whose headers fit, with what each parameter and each associated type is."""
        for _ in range(PASSES):
            for question in questions:
                question.answer = "open" if self._settle(question, known) else "no"
            questions = [question for question in questions if question.answer == "open"]
            unknown = {alias: None for question in questions for alias in self._unknown(question, known)}
            if not unknown:
                break
            self._normalize(list(unknown), assumed, known)
        return [question for question in questions if not question.equal and is_settled(question)]

    def _normalize(self, aliases: List[Term], assumed: List[str], known: Dict[Term, Term]) -> None:
        """Notes what associated types are, themselves where nothing says it."""
        answers = self._answers(assumed + ["normalize * " + alias.words() for alias in aliases])
        for alias, answer in zip(aliases, answers):
            word, _, words = answer.partition(" ")
            is_sure = word == "type" and "$" not in words and alias.head not in self.open_types
            known[alias] = self.speller.type_at(words.split(), 0)[0] if is_sure else alias

    def _listed(self, goals: List[Term], assumed: List[str], known: Dict[Term, Term]) -> List[str]:
        """The lines that list what the associated types in goals come to."""
        found = [alias for goal in goals for argument in goal.arguments for alias in unknown_aliases(argument, {}, self.names)]
        aliases = [alias for alias in dict.fromkeys(found) if is_closed(alias)]
        unknown = [alias for alias in aliases if alias not in known]
        if unknown:
            self._normalize(unknown, assumed, known)
        plain = [alias for alias in aliases if not has_alias(known[alias], self.names)]
        return ["norm %s %s" % (alias.words(), known[alias].words()) for alias in plain]

    def _holds(self, steps: List[str], question: Question) -> bool:
        """Whether an answer is a yes that rests on nothing which other questions assume, or of which a part can't be said."""
        assumed = [*question.environment, *question.found.values()]
        own = {word for clause in assumed for word in placeholders(clause.words())}
        named = {word.rstrip(":,") for line in steps for word in line.split()}
        return steps[0].startswith("yes") and not named & self.doubtful and own.issuperset(placeholders(" ".join(steps)))

    def _goal(self, line: str) -> Term:
        """The goal of a step."""
        return self.speller.clause_at(line.split(": ")[0].split()[1:], 0)[0]

    def _answers(self, given: List[str]) -> List[str]:
        if not self.text:
            self.text = "\n".join(lines(self.world, for_check=False)) + "\nmode post_analysis\n"
        return ask(self.program, self.text, given)

    def _steps(self, given: List[str]) -> Iterator[List[str]]:
        """For each answer its line, and the lines of its steps."""
        steps: List[List[str]] = []
        for line in self._answers(given):
            if line.startswith("  "):
                steps[-1].append(line)
            else:
                steps.append([line])
        return iter(steps)

    def _settle(self, question: Question, known: Dict[Term, Term]) -> bool:
        """Puts in what is known. Answers whether the question is still open or holds so far."""
        before = None
        while before != (len(question.found), question.equal):
            before = (len(question.found), question.equal)
            waiting, question.equal = question.equal, []
            if not all(self._settle_pair(question, pair, known) for pair in waiting):
                return False
        question.clauses = [
            Term(clause.head, tuple(put_in_known(put(argument, question.found), known) for argument in clause.arguments))
            for clause in question.clauses
        ]
        return True

    def _settle_pair(self, question: Question, pair: Tuple[Term, Term], known: Dict[Term, Term]) -> bool:
        """Whether two terms are one or may be: of one with a parameter left the other is to be an instance."""
        left, right = (put_in_known(put(term, question.found), known) for term in pair)
        if "#" in right.words():
            left, right = right, left
        is_open = "#" in right.words() or any(True for term in (left, right) for _ in unknown_aliases(term, known, self.names))
        if is_open or "#" in left.words() and is_alias(left, self.names):
            question.equal.append((left, right))
            return True
        return self._fits(left, right, question) if "#" in left.words() else left == right

    def _unknown(self, question: Question, known: Dict[Term, Term]) -> Iterator[Term]:
        for term in [argument for clause in question.clauses for argument in clause.arguments] + [term for pair in question.equal for term in pair]:
            yield from unknown_aliases(term, known, self.names)


def is_settled(question: Question) -> bool:
    """Whether it's known what each parameter of the general impl is."""
    return not any("#" in clause.words() for clause in question.clauses)


def put(term: Term, found: Dict[str, Term]) -> Term:
    """The term with what its parameters stand for, as far as that is found."""
    if term.head[0] == "#":
        return found.get(term.head, term)
    return term.with_arguments(tuple(put(argument, found) for argument in term.arguments))


def put_in_known(term: Term, known: Dict[Term, Term]) -> Term:
    """The term with what its associated types are, once, but not in the bounds of a `dyn` type."""
    if term.head.startswith("dyn("):
        return term
    term = term.with_arguments(tuple(put_in_known(argument, known) for argument in term.arguments))
    return known.get(term, term)


def unknown_aliases(term: Term, known: Dict[Term, Term], names: Names) -> Iterator[Term]:
    """The associated types in a term in which neither a parameter nor another one of them stands; not those in the bounds of a `dyn` type."""
    if term.head.startswith("dyn("):
        return
    within = [alias for argument in term.arguments for alias in unknown_aliases(argument, known, names)]
    yield from within
    is_unknown = is_alias(term, names) and not within and "#" not in term.words() and not any(True for _ in bound_outside(term))
    if is_unknown and (term not in known or known[term] != term):
        yield term
