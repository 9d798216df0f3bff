"""Regions that binders bind: `'k` of the innermost binder around it, `'d.k` of the one that has d others inside.

Function pointers, bounds of `dyn` types and clauses are binders. All other regions are static, and aren't written.
"""

import re
from typing import Callable, Dict, Iterator, List, Optional, Tuple

from cargo_coherence.to_text.model import Term
from cargo_coherence.to_text.report import Unsaid

REFERENCE = re.compile(r"(&|&mut) '(?:(\d+)\.)?(\d+)$")
MAX_BOUND = 16  # regions of a binder

Place = Tuple[int, int]  # where a region is bound: by which of the binders around, the outermost first, and which one of its regions


class Binder:
    """A binder that is read: the names of its regions. `takes_new` says that each region which is left out is a new one; else it's `answer`.

    One without names may stand for another, `of`: for a binder around a definition's use where the definition itself is read.
    """

    def __init__(self, names: List[str], of: "Optional[Binder]" = None) -> None:
        self.names = names
        self.takes_new = False
        self.answer: Optional[str] = None
        self.of = of
        self.loses = False  # whether a region that it binds stands where the text has no word for it

    def lose(self) -> None:
        """Notes that a region which it binds has no word."""
        self.loses = True
        if self.of is not None:
            self.of.lose()

    def is_new(self) -> bool:
        """Whether nothing is said yet of regions that are left out."""
        return not self.takes_new and self.answer is None

    def new(self) -> str:
        """The name of a new region."""
        self.names.append("'%d" % len(self.names))
        return self.names[-1]

    def begin_answer(self, inputs: object) -> None:
        """Behind the inputs of a function: what is left out in its answer is the one region that they have."""
        found = list(_lifetimes(inputs))
        named = {name for name in found if name not in (None, "'_")}
        count = len(named) + len(found) - sum(name in named for name in found)
        self.takes_new, self.answer = False, ""
        if count == 1 and named:
            self.answer = named.pop()
        elif count == 1:
            self.answer = self.names[-1] if self.names and self.names[-1][1:].isdigit() else self.new()


def _lifetimes(shown: object) -> Iterator[Optional[str]]:
    """The regions of inputs, but not those of functions within."""
    if isinstance(shown, list):
        for part in shown:
            yield from _lifetimes(part)
    elif isinstance(shown, dict):
        if set(shown) == {"lifetime"} or "is_mutable" in shown and "lifetime" in shown:
            yield shown["lifetime"]
        for key, part in shown.items():
            if key not in ("function_pointer", "parenthesized", "generic_params"):
                yield from _lifetimes(part)


def has_regions(shown: object) -> bool:
    """Whether a region stands in what is shown, also one that is left out."""
    return any(True for _ in _lifetimes(shown))


def names_of(generic_params: List[dict]) -> List[str]:
    """The names of the regions of a `for<..>`."""
    return [parameter["name"] for parameter in generic_params if "lifetime" in parameter["kind"]]


def region_at(name: Optional[str], binders: Tuple[Binder, ...], given: Dict[str, Optional[Place]]) -> Optional[Place]:
    """Where a region is bound, which may be left out; nothing where it's static. `given` are those that a definition's parameters stand for."""
    if name in (None, "'_"):
        binder = next((binder for binder in reversed(binders) if not binder.is_new()), None)
        if binder is None:
            return None
        name = binder.new() if binder.takes_new else binder.answer
    for level in reversed(range(len(binders))):
        if name in binders[level].names:
            return level, binders[level].names.index(name)
    return given.get(name or "")


def lose(name: Optional[str], binders: Tuple[Binder, ...], given: Dict[str, Optional[Place]]) -> None:
    """Notes of the binder that binds a region, if one does, that the region has no word."""
    place = region_at(name, binders, given)
    if place is not None:
        binders[place[0]].lose()


def lose_given(generics: Optional[dict], shown: object, binders: Tuple[Binder, ...], given: Dict[str, Optional[Place]]) -> None:
    """Notes it of each region that is written, or left out, for those of a definition whose parameters for regions have no words."""
    for place in given_regions(generics, shown, binders, given).values() if generics and binders else ():
        if place is not None:
            binders[place[0]].lose()


def lose_written(shown: object, binders: Tuple[Binder, ...], given: Dict[str, Optional[Place]]) -> None:
    """Notes it of each region that is written among arguments which have no words."""
    content = shown.get("angle_bracketed", {}) if isinstance(shown, dict) and binders else {}
    for argument in content.get("args", []):
        if argument != "infer" and "lifetime" in argument:
            lose(argument["lifetime"], binders, given)


def given_regions(generics: dict, shown: object, binders: Tuple[Binder, ...], given: Dict[str, Optional[Place]]) -> Dict[str, Optional[Place]]:
    """By the names of a definition's regions where those are bound that are written for them, or left out."""
    names = names_of(generics["params"]) if binders else []
    content = shown.get("angle_bracketed", {}) if isinstance(shown, dict) else {}
    written = [argument["lifetime"] for argument in content.get("args", []) if argument != "infer" and "lifetime" in argument]
    written += [None] * (len(names) - len(written))
    return {name: region_at(region, binders, given) for name, region in zip(names, written)}


def reference_words(is_mutable: bool, place: Optional[Place], binders: Tuple[Binder, ...]) -> str:
    """The first words of a reference, with its region if that is bound."""
    head = "&mut" if is_mutable else "&"
    return "%s %s" % (head, _word(len(binders) - 1 - place[0], place[1])) if place else head


def _word(depth: int, index: int) -> str:
    return "'%d.%d" % (depth, index) if depth else "'%d" % index


def is_function(head: str) -> bool:
    """Whether these are the first words of a function pointer."""
    return "fn(" in head


def is_binder(term: Term) -> bool:
    """Whether a region is bound by the term itself, or by one of the bounds that stand in it."""
    return is_function(term.head) or term.head.startswith("dyn(")


def changed(term: Term, change: Callable[[int, int], Optional[Place]], depth: int = 0) -> Term:
    """The term with other regions for those that are bound outside it: how far outside, and which one there; nothing is the static one."""
    head, found = term.head, REFERENCE.match(term.head)
    if found and int(found.group(2) or 0) >= depth:
        place = change(int(found.group(2) or 0) - depth, int(found.group(3)))
        head = "%s %s" % (found.group(1), _word(place[0] + depth, place[1])) if place else found.group(1)
    inner = depth + is_binder(term)
    return Term(head, tuple(changed(argument, change, inner) for argument in term.arguments), term.binds, term.loses)


def shifted(term: Term, by: int) -> Term:
    """The term inside so many binders more."""
    return changed(term, lambda outside, index: (outside + by, index))


def without_binder(clause: Term) -> Term:
    """A clause whose own regions are static: an evaluator reads no region of a goal."""
    return Term(clause.head, changed(clause, lambda outside, index: None).arguments, 0, clause.loses) if clause.binds else clause


def has_bound(term: Term) -> bool:
    """Whether a binder stands in the term that binds a region."""
    return bool(term.binds) or any(map(has_bound, term.arguments))


def erased(term: Term) -> Term:
    """The term in which each region is the static one, so that no binder binds any."""
    found = REFERENCE.match(term.head)
    return Term(found.group(1) if found else term.head, tuple(map(erased, term.arguments)))


def bound_outside(term: Term, depth: int = 0) -> Iterator[int]:
    """How far outside the regions are bound that a term doesn't bind itself: 0 is the innermost binder around it."""
    found = REFERENCE.match(term.head)
    if found and int(found.group(2) or 0) >= depth:
        yield int(found.group(2) or 0) - depth
    for argument in term.arguments:
        yield from bound_outside(argument, depth + is_binder(term))


def bound(head: str, arguments: Tuple[Term, ...], binder: Optional[Binder] = None) -> Term:
    """A term that binds the regions of the innermost binder, as far as they stand in it, in the order in which they do. Raises `Unsaid` for too many."""
    order: Dict[int, int] = {}

    def renumbered(outside: int, index: int) -> Place:
        return (outside, order.setdefault(index, len(order)) if outside == 0 else index)

    written = tuple(changed(argument, renumbered) for argument in arguments)
    if len(order) > MAX_BOUND:
        raise Unsaid("more than %d regions of a binder" % MAX_BOUND)
    return Term(head, written, len(order), binder is not None and binder.loses)
