"""Reads terms of the program's answers, and spells them as Rust does."""

import re
from typing import Dict, Iterator, List, Optional, Tuple

from cargo_coherence.to_text.constants import spell_constant
from cargo_coherence.to_text.model import ARRAY, Term
from cargo_coherence.to_text.names import PRIMITIVES
from cargo_coherence.to_text.regions import REFERENCE, bound_outside, is_function

LETTERS = "TUVWXYZ"
REGIONS = "abcdefgh"
PREFIXES = {"&": "&", "&mut": "&mut ", "*const": "*const ", "*mut": "*mut "}
COUNTED = re.compile(r"(fn|dyn)?\((\d+)(?:\.\.)?\)$")
LENGTH = re.compile(r"\[(.+)\]$")
BINDER = re.compile(r"for\((\d+)\)$")
PLACEHOLDER = re.compile(r"(?<!')!\d+")


class Speller:
    """Knows the names of a text, as the file of places has them."""

    def __init__(self, names: Dict[str, dict]) -> None:
        self.names = names
        self.bound: List[List[str]] = []  # the names of the regions of the binders around what is spelled

    # Terms

    def type_at(self, words: List[str], at: int) -> Tuple[Term, int]:
        """The type that begins at a word, and the word behind it."""
        binds, at = _binds(words, at)
        first, length = at, LENGTH.match(words[at])
        if length:
            element, at = self.type_at(words, at + 1)
            return Term(ARRAY, (element, Term(length.group(1)))), at
        while words[at] in ("unsafe", "extern"):
            at += 1
        if words[at] in ("&", "&mut") and words[at + 1].startswith("'"):
            at += 1
        head = " ".join(words[first:at + 1])
        return self._with_arguments(words, at + 1, head.replace(" 'static", ""), binds, self._count(words[at], head))

    def _with_arguments(self, words: List[str], at: int, head: str, binds: int, count: int) -> Tuple[Term, int]:
        arguments = []
        for _ in range(count):
            is_bound = head.startswith("dyn(")
            argument, at = self.bound_at(words, at) if is_bound else self.type_at(words, at)
            arguments.append(argument)
        return Term(head, tuple(arguments), binds), at

    def _count(self, word: str, head: str) -> int:
        counted = COUNTED.match(word)
        if counted:
            return int(counted.group(2)) + (counted.group(1) == "fn")
        if head.split()[0] in PREFIXES or head == "[]":
            return 1
        return self.names[head]["parameters"] if head in self.names else 0

    def bound_at(self, words: List[str], at: int) -> Tuple[Term, int]:
        """A bound of a `dyn` type, without its self type."""
        binds, at = _binds(words, at)
        return self._with_arguments(words, at + 1, words[at], binds, self.names[words[at]]["parameters"])

    def clause_at(self, words: List[str], at: int) -> Tuple[Term, int]:
        """A reference or another clause: a trait or associated type, the self type and arguments, and the type that an associated one is."""
        binds, at = _binds(words, at)
        return self._with_arguments(words, at + 1, words[at], binds, self.names[words[at]]["parameters"] + 1)

    # Spelling

    def spell(self, term: Term, parameters: Optional[List[str]] = None) -> str:
        """A type in Rust's terms; a variable is a letter, or the parameter that it stands for."""
        head, arguments = term.head, term.arguments
        if head[0] in "$#" or head[0] == "!" and len(head) > 1:
            return self._variable(head, parameters)
        if head.startswith("dyn("):
            return "dyn " + self._bounds(arguments, parameters)
        if is_function(head):
            return self._function(term, parameters)
        shown = [self.spell(argument, parameters) for argument in arguments]
        if head.split()[0] in PREFIXES:
            return self._prefix(head) + shown[0]
        if head == "[]":
            return "[%s]" % shown[0]
        if head == ARRAY:
            return "[%s; %s]" % tuple(shown)
        if head.startswith("("):
            return "(%s%s)" % (", ".join(shown), "," if len(shown) == 1 else "")
        if head in PRIMITIVES or head not in self.names:
            return head
        return self._named(term, shown, parameters)

    def _prefix(self, head: str) -> str:
        """What stands before the type that a pointer or reference is to."""
        found = REFERENCE.match(head)
        if not found:
            return PREFIXES[head.split()[0]]
        depth, index = int(found.group(2) or 0), int(found.group(3))
        name = self.bound[-1 - depth][index] if depth < len(self.bound) else "'_"
        return "&%s %s" % (name, "mut " if found.group(1) == "&mut" else "")

    def _function(self, term: Term, parameters: Optional[List[str]]) -> str:
        front = self._bind(term.binds)
        shown = [self.spell(argument, parameters) for argument in term.arguments]
        self.bound.pop()
        words = term.head.replace("extern", 'extern "C"')
        inputs = shown[:-1] + (["..."] if words.endswith("..)") else [])
        answer = "" if shown[-1] == "()" else " -> " + shown[-1]
        return "%s%s(%s)%s" % (front, words[:words.index("(")], ", ".join(inputs), answer)

    def _bind(self, count: int) -> str:
        """The words of a binder, whose regions have names from here on, until they are taken from `bound`."""
        first = sum(map(len, self.bound))
        self.bound.append(["'" + (REGIONS[i] if i < len(REGIONS) else "r%d" % i) for i in range(first, first + count)])
        return "for<%s> " % ", ".join(self.bound[-1]) if count else ""

    @staticmethod
    def _variable(head: str, parameters: Optional[List[str]]) -> str:
        number = int(head[1:])
        if parameters is not None and number < len(parameters):
            return parameters[number]
        return LETTERS[number] if number < len(LETTERS) else "T%d" % number

    def _named(self, term: Term, shown: List[str], parameters: Optional[List[str]]) -> str:
        named = self.names[term.head]
        kind = named["kind"]
        if kind == "function pointer":
            answer = "" if shown[-1] == "()" else " -> " + shown[-1]
            return "%s(%s)%s" % (named["spelled"], ", ".join(shown[:-1]), answer)
        if kind == "pattern":
            return "%s is %s" % (shown[0], named["spelled"])
        if kind == "associated type":
            trait = self.names[named["of"]]
            written = self._arguments(trait, term.arguments, shown)
            return "<%s as %s%s>::%s" % (shown[0], trait["spelled"], written, named["spelled"])
        return named["spelled"] + self._arguments(named, term.arguments, shown)

    def _arguments(self, named: dict, arguments: Tuple[Term, ...], shown: List[str]) -> str:
        """What stands in `<..>`: without the self type of a trait, and without defaults at the end."""
        first = 1 if named["kind"] == "trait" else 0
        shown = shown[:first] + [spell_constant(word, of_type) for word, of_type in zip(shown[first:], named["constants"])]
        defaults = named.get("defaults") or []
        count = len(arguments)
        while count > first and count - 1 - first < len(defaults) and self._is_default(defaults[count - 1 - first], arguments, count - 1):
            count -= 1
        return "<%s>" % ", ".join(shown[first:count]) if count > first else ""

    @staticmethod
    def _is_default(default: Optional[str], arguments: Tuple[Term, ...], at: int) -> bool:
        if default is None:
            return False
        words = [arguments[int(w[1:])].words() if w.startswith("#") and int(w[1:]) < at else w for w in default.split()]
        return " ".join(words) == arguments[at].words()

    def _bounds(self, bounds: Tuple[Term, ...], parameters: Optional[List[str]]) -> str:
        traits, projections = [], {}
        for bound in bounds:
            named = self.names[bound.head]
            front = self._bind(bound.binds)
            if named["kind"] == "trait":
                own = (Term("Self"),) + bound.arguments
                shown = [self.spell(argument, parameters) for argument in own]
                traits.append((bound.head, front + named["spelled"] + self._arguments(named, own, shown)))
            else:
                is_what = "%s = %s" % (named["spelled"], self.spell(bound.arguments[-1], parameters))
                projections.setdefault(named["of"], []).append(is_what)
            self.bound.pop()
        spelled = []
        for i, (head, text) in enumerate(traits):
            known = projections.pop(head, []) + (sum(projections.values(), []) if i == 0 else [])
            if i == 0:
                projections = {}
            if known:
                text = text[:-1] + ", " + ", ".join(known) + ">" if text.endswith(">") else "%s<%s>" % (text, ", ".join(known))
            spelled.append(text)
        return " + ".join(spelled)

    def spell_clause(self, clause: Term, parameters: Optional[List[str]] = None) -> str:
        """A clause in Rust's terms, `Vec<T>: Show`."""
        front = self._bind(clause.binds)
        own = self.spell(clause.arguments[0], parameters)
        if self.names[clause.head]["kind"] == "trait":
            words = "%s%s: %s" % (front, own, self.spell_trait(clause, parameters))
        else:
            alias = Term(clause.head, clause.arguments[:-1])
            words = "%s%s = %s" % (front, self.spell(alias, parameters), self.spell(clause.arguments[-1], parameters))
        self.bound.pop()
        return words

    def spell_trait(self, reference: Term, parameters: Optional[List[str]] = None) -> str:
        """The trait of a reference, with its arguments."""
        named = self.names[reference.head]
        shown = [self.spell(argument, parameters) for argument in reference.arguments]
        return named["spelled"] + self._arguments(named, reference.arguments, shown)


def _binds(words: List[str], at: int) -> Tuple[int, int]:
    """How many regions a `for(K)` binds that may stand there, and the word behind it."""
    found = BINDER.match(words[at])
    return (int(found.group(1)), at + 1) if found else (0, at)


def placeholders(words: str) -> List[str]:
    """The placeholders for types and constants that stand in words."""
    return PLACEHOLDER.findall(words)


def is_closed(term: Term) -> bool:
    """Whether a question may be about a term: no variable stands in it, and no region that something around it binds."""
    return "$" not in term.words() and not any(True for _ in bound_outside(term))


def with_fixed_constants(term: Term, names: Dict[str, dict]) -> Term:
    """The term with a placeholder for each variable that is a constant, about which no question may be."""
    constants = names.get(term.head, {}).get("constants", [])
    behind_self = len(term.arguments) - len(constants)  # the self type of a trait, and the type that an associated one is
    are = ["", "_"] if term.head == ARRAY else [""] * (names.get(term.head, {}).get("kind") == "trait" and behind_self > 0) + constants
    fixed = []
    for i, argument in enumerate(term.arguments):
        is_fixed = argument.head[0] == "$" and i < len(are) and are[i]
        fixed.append(Term("!" + argument.head[1:]) if is_fixed else with_fixed_constants(argument, names))
    return term.with_arguments(tuple(fixed))


def match(header: Term, instance: Term, found: Dict[str, Term], aliases: Dict[str, dict]) -> None:
    """Finds what the parameters of a header stand for in an instance of it. Behind an associated type nothing is found."""
    if header.head.startswith("#"):
        found.setdefault(header.head, instance)
    elif header.head == instance.head and not is_alias(header, aliases):
        for left, right in zip(header.arguments, instance.arguments):
            match(left, right, found, aliases)


def may_match(header: Term, instance: Term, names: Dict[str, dict]) -> bool:
    """Whether a header may be an instance, where parameters, variables and associated types may be any type."""
    if header.head[0] == "#" or instance.head[0] == "$" or is_alias(header, names) or is_alias(instance, names):
        return True
    pairs = zip(header.arguments, instance.arguments)
    return header.head == instance.head and all(may_match(left, right, names) for left, right in pairs)


def is_alias(term: Term, names: Dict[str, dict]) -> bool:
    """Whether the term itself is an associated type."""
    return names.get(term.head, {}).get("kind") == "associated type"


def has_alias(term: Term, names: Dict[str, dict]) -> bool:
    """Whether an associated type stands in a term; what a bound of a `dyn` type says of one is none."""
    if term.head.startswith("dyn("):
        return any(has_alias(argument, names) for bound in term.arguments for argument in bound.arguments)
    return is_alias(term, names) or any(has_alias(argument, names) for argument in term.arguments)


def closed_aliases(term: Term, names: Dict[str, dict]) -> Iterator[Term]:
    """The associated types in a clause or type in which neither a variable nor another one stands, but not in the bounds of a `dyn` type."""
    if not term.head.startswith("dyn("):
        for argument in term.arguments:
            yield from closed_aliases(argument, names)
        if is_alias(term, names) and is_closed(term) and not any(has_alias(argument, names) for argument in term.arguments):
            yield term


def replaced(term: Term, old: Term, new: Term) -> Term:
    """The term with one type in the place of another."""
    if term == old:
        return new
    return term.with_arguments(tuple(replaced(argument, old, new) for argument in term.arguments))


def substitute(term: Term, found: Dict[str, Term]) -> Term:
    """The term with its parameters replaced; one that isn't found gets a variable of its own."""
    if term.head.startswith("#"):
        if term.head not in found:
            found[term.head] = Term("$%d" % (128 + len(found)))
        return found[term.head]
    return term.with_arguments(tuple(substitute(argument, found) for argument in term.arguments))
