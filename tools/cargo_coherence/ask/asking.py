"""Goals in Rust's syntax: asked, and answered in Rust's words."""

import re
from dataclasses import dataclass
from typing import Callable, Dict, List, Optional, Tuple

from cargo_coherence.ask.answers import Speller, closed_aliases, has_alias, may_match, replaced
from cargo_coherence.ask.findings import told
from cargo_coherence.ask.goals import BadGoal, read_goal
from cargo_coherence.ask.program import Session
from cargo_coherence.from_rustdoc.toolchain import StepFailed
from cargo_coherence.from_rustdoc.rust_json import CrateJson
from cargo_coherence.to_text.model import Impl, Term
from cargo_coherence.to_text.translate import Translator

STEP = re.compile(r"(\s+\d+ )(.*?)(: .*)?$")
OF_IMPL = re.compile(r"(  (?:because )?)impl (\w+): (.*?)( is (?:open: .*|refused|negated))?$")


@dataclass
class Answer:
    """What a goal comes to, in lines, and whether it holds."""

    lines: List[str]
    holds: bool


APART = {
    "disjoint traits": "apart: they are of two traits",
    "disjoint headers": "apart: their headers have no common instance",
    "disjoint clause": "apart: a where clause is refused",
    "disjoint clauses": "apart: their where clauses can't hold together",
    "disjoint negative": "apart: a negative impl says the opposite of a where clause",
    "allowed marker": "both may hold: their trait is a marker",
    "allowed reservation": "both may hold: one is a reservation",
}
BINDER = "  (the regions of `for<..>` are read as static ones: what is refused of these is refused of all)"
HELP = """a goal, as `Vec<u8>: Clone`   by which steps it holds, or why not
candidates GOAL               in which ways it may hold
overlap A B                   why two impls overlap or not, each FILE:LINE
quit                          ends"""


class Asker:
    """Answers goals about the crates of a text. A goal is asked as in code that runs, or with `coherence` as the check does."""

    def __init__(self, program: str, texts: Tuple[str, str], translator: Translator, local: CrateJson, speller: Speller) -> None:
        self.session, self.check = (Session(program, text) for text in texts)
        self.translator = translator
        self.local = local
        self.speller = speller
        self.impls = {written.named.name: written for written in translator.world.impls}

    def answer(self, word: str, goal: str) -> Answer:
        """What `why` or `candidates`, the word, says of a goal. Raises `BadGoal` or `StepFailed`."""
        read = read_goal(goal, self.translator, self.local)
        clause = put_in(self.session, read.clause, self.speller)
        given = self.session.ask("%s * %s" % (word, clause.words()))
        lines = [tell_answer(line, self.speller, self.impls) for line in (given if word == "why" else given[:1])]
        holds = given[0].split(": ")[-1].startswith("yes")
        for alias, wanted in read.equal:
            is_equal, line = self._equal(alias, wanted)
            holds = holds and is_equal
            lines.append(line)
        lines += doubts(given, clause, holds, self.translator, self.speller) + lost_regions(read.clause, given, self.translator.world.impls)
        return Answer(lines + [BINDER] * read.has_binder, holds)

    def _equal(self, alias: Term, wanted: Term) -> Tuple[bool, str]:
        """Whether an associated type is what a goal says, and a line of it."""
        alias = put_in(self.session, alias, self.speller, but=alias)
        word, _, words = self.session.ask("normalize * " + alias.words())[0].partition(" ")
        spelled = "  %s = %s: " % (self.speller.spell(alias), self.speller.spell(wanted))
        if word != "type":
            return False, spelled + word
        found, _ = self.speller.type_at(words.split(), 0)
        is_equal = found == wanted or wanted.head[0] == "$"
        return is_equal, spelled + ("yes" if found == wanted else "it is %s" % self.speller.spell(found))

    # Two impls

    def overlap(self, first: str, second: str) -> Answer:
        """Why two impls, each by its file and line, overlap or not. Raises `BadGoal` or `StepFailed`."""
        names = [self._impl_at(place).named.name for place in (first, second)]
        given = self.check.ask("why * %s %s" % tuple(names))
        word, _, rest = given[0].partition(" ")
        if word in ("overlap", "maybe"):
            clause, _ = self.speller.clause_at(rest.split(), 0)
            lines = ["%s at %s" % ("both hold" if word == "overlap" else "nothing keeps them apart", self.speller.spell_clause(clause))]
        else:
            lines = [APART.get(" ".join(given[0].split()[:2]), given[0])]
        lines += [self._tell(line) for line in given[1:]]
        return Answer(lines, word not in ("overlap", "maybe"))

    def _tell(self, line: str) -> str:
        """A line behind the answer, with types and impls in Rust's terms."""
        found = OF_IMPL.match(line)
        if not found:
            return tell_answer(line, self.speller, self.impls)
        clause, _ = self.speller.clause_at(found.group(3).split(), 0)
        own = _impl(found.group(2), self.impls, found.group(2))
        rest = re.sub(r"\bimpl (\w+)", lambda other: _impl(other.group(1), self.impls, other.group(0)), found.group(4) or "")
        return "%s%s: %s%s" % (found.group(1), own, self.speller.spell_clause(clause), rest)

    def _impl_at(self, place: str) -> Impl:
        """The impl that is around a line, or around a column of it. Raises `BadGoal` where there isn't one."""
        found = re.fullmatch(r"(.+?):(\d+)(?::(\d+))?", place)
        if not found:
            raise BadGoal("`%s` is no FILE:LINE" % place)
        file, line, column = found.group(1), int(found.group(2)), int(found.group(3) or 0)
        around = [written for written in self.impls.values() if _is_around(written, file, line, column)]
        if not around:
            raise BadGoal("%s: there is no impl of a trait" % place)
        if len({written.named.place.span for written in around}) > 1:
            places = ", ".join("%s:%d" % (written.named.place.told(), written.named.place.span[1]) for written in around)
            raise BadGoal("%s: there are several impls: %s" % (place, places))
        return around[0]

    # A prompt

    def prompt(self, read: Callable[[], str], tell: Callable[[str], None]) -> None:
        """Answers lines until there is none. `read` raises `EOFError` at the end."""
        while True:
            try:
                words = read().strip()
            except EOFError:
                return
            if words in ("quit", "exit"):
                return
            try:
                tell(self._said(words))
            except (BadGoal, StepFailed) as error:
                tell("error: %s" % error)

    def _said(self, words: str) -> str:
        command, _, rest = words.partition(" ")
        if not words or words in ("help", "?"):
            return HELP if words else ""
        if command == "overlap":
            places = rest.split()
            if len(places) != 2:
                raise BadGoal("`overlap` wants two impls, each FILE:LINE")
            return "\n".join(self.overlap(*places).lines)
        word, goal = ("candidates", rest) if command == "candidates" else ("why", words)
        return "\n".join(self.answer(word, goal).lines)


def _is_around(written: Impl, file: str, line: int, column: int) -> bool:
    first_line, first, last_line, last = written.named.place.span
    own = written.named.place.file or ""
    is_file = own == file or own.endswith("/" + file)
    after, before = (line, column) >= (first_line, first), (line, column) < (last_line, last)
    return is_file and (after and before if column else first_line <= line <= last_line)


def put_in(session: Session, clause: Term, speller: Speller, but: Optional[Term] = None) -> Term:
    """The goal with what its associated types are in their places, where the program knows it; one of them may be left as it is."""
    known: Dict[Term, Term] = {but: but} if but is not None else {}
    while True:
        alias = next((term for term in closed_aliases(clause, speller.names) if term not in known), None)
        if alias is None:
            return clause
        word, _, words = session.ask("normalize * " + alias.words())[0].partition(" ")
        known[alias] = speller.type_at(words.split(), 0)[0] if word == "type" and "$" not in words else alias
        clause = replaced(clause, alias, known[alias])


def undecided(impls: List[Impl], clauses: List[Term], speller: Speller) -> List[Impl]:
    """The impls that may answer one of these clauses, and have an associated type in the header or in a where clause."""
    named = [written for written in impls if any(has_alias(term, speller.names) for term in [*written.header.arguments, *written.clauses])]
    return [written for written in named if any(may_match(written.header, clause, speller.names) for clause in clauses)]


def doubts(answer: List[str], goal: Term, holds: bool, translator: Translator, speller: Speller) -> List[str]:
    """What the text lacks for an answer to be one about Rust."""
    words = {word.rstrip(":") for line in answer for word in line.split()}
    lacking = sorted(translator.incomplete[word] for word in words & set(translator.incomplete))
    notes = ["  (a field of %s can't be said, so that an auto trait may hold too easily)" % path for path in lacking]
    if holds:
        read = [written for written in translator.world.impls if written.named.name in words and (written.widened or written.unsaid)]
        return notes + ["  (a part of %s can't be said, so that the goal may hold too easily)" % told(written) for written in read]
    if any(speller.names[word]["kind"] == "associated type" for word in words & set(speller.names)):
        notes.append("  (an associated type isn't put in for what it is, so that the goal may hold all the same)")
    steps = [step for step in map(STEP.match, answer) if step and not (step.group(3) or "").startswith(": yes")]
    clauses = [goal] + [speller.clause_at(step.group(2).split(), 0)[0] for step in steps]
    words_of_one = "  (an associated type decides about %s, so that the goal may hold all the same)"
    notes += [words_of_one % told(written) for written in undecided(translator.world.impls, clauses, speller)]
    return notes


def lost_regions(goal: Term, answer: List[str], impls: List[Impl]) -> List[str]:
    """What of the regions that binders bind a text doesn't tell, or reads as static ones: those of a goal, of the impls that an answer names,
    and of what the goal's associated types are.
    """
    notes = ["  (a region that a binder in the goal binds is left out, so that the answer may be another)"] if goal.loses_region() else []
    named = {word.rstrip(":") for line in answer for word in line.split()}
    own = set(goal.words().split())
    for written in impls:
        is_named = written.named.name in named and (written.loses_regions() or written.loses_in_values())
        if is_named or any(value.head in own and value.loses_region() for value in written.values):
            words = "  (a region that a binder in %s binds is left out or read as a static one, so that the answer may be another)"
            notes.append(words % told(written))
    return notes


def tell_answer(line: str, speller: Speller, impls: Dict[str, Impl]) -> str:
    """A line that `why` or `candidates` answers, with types and impls in Rust's terms."""
    step = STEP.match(line)
    if step:
        clause, _ = speller.clause_at(step.group(2).split(), 0)
        line = step.group(1) + speller.spell_clause(clause) + _with_types(step.group(3) or "", speller)
    else:
        line = _with_types(line, speller)
    return re.sub(r"\bimpl (\w+)", lambda found: _impl(found.group(1), impls, found.group(0)), line)


def _with_types(text: str, speller: Speller) -> str:
    """What variables stand for, behind ` with `."""
    before, word, values = text.partition(" with ")
    if not word:
        return text
    shown = []
    for value in values.split(", "):
        name, _, words = value.partition(" = ")
        term, _ = speller.type_at(words.split(), 0)
        variable, _ = speller.type_at([name], 0)
        shown.append("%s = %s" % (speller.spell(variable), speller.spell(term)))
    return before + word + ", ".join(shown)


def _impl(name: str, impls: Dict[str, Impl], otherwise: str) -> str:
    written = impls.get(name)
    if written is None:
        return otherwise
    place = written.named.place
    return "%s (%s)" % (place.spelled, place.told()) if place.file else place.spelled
