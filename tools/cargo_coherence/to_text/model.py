"""What crates declare, in the words of a text: data types, traits, associated types and impls over terms."""

from dataclasses import dataclass, field
from typing import Dict, List, Optional, Tuple

ARRAY = "[;]"  # the head of an array, whose arguments are what it is of and its length; the text has the length in its word
MOST_LETTERS = 32  # parameters that a text can have where one of them is a constant


@dataclass(frozen=True)
class Term:
    """A type, a constant, a bound of a `dyn` type or a clause: its first words in the text, what stands behind them, and how many regions it binds.

    The first words of a reference are with its region, as `& '0`, and those of a function pointer as `unsafe fn(1)`. `loses` says that it binds
    a region for which no word stands, as an argument of a data type is one.
    """

    head: str
    arguments: Tuple["Term", ...] = ()
    binds: int = 0
    loses: bool = field(default=False, compare=False)

    def words(self) -> str:
        """The words of the term, the head first."""
        if self.head == ARRAY:
            return "[%s] %s" % (self.arguments[1].words(), self.arguments[0].words())
        front = ["for(%d)" % self.binds] if self.binds else []
        return " ".join(front + [self.head] + [argument.words() for argument in self.arguments])

    def with_arguments(self, arguments: Tuple["Term", ...]) -> "Term":
        """The same with others behind the head."""
        return Term(self.head, arguments, self.binds, self.loses)

    def loses_region(self) -> bool:
        """Whether it, or what stands in it, binds a region for which no word stands."""
        return self.loses or any(argument.loses_region() for argument in self.arguments)


@dataclass
class Place:
    """Where something is declared, and how Rust spells it."""

    file: Optional[str]
    line: int
    spelled: str
    span: Tuple[int, int, int, int] = (0, 0, 0, 0)  # of an impl: line and column where it begins, and where it has ended

    def told(self) -> str:
        """File and line, or that there is none."""
        return "%s:%d" % (self.file, self.line) if self.file else "(no place)"


@dataclass
class Named:
    """A name of the text. `kind` is the word for it in the file of places, `constants` has for each parameter the type of the constant, or `""`."""

    name: str
    kind: str
    path: str
    constants: List[str]
    crate: int
    place: Place
    of: Optional[str] = None  # the trait of an associated type
    defaults: List[Optional["Term"]] = field(default_factory=list)

    @property
    def parameters(self) -> int:
        """How many parameters it has."""
        return len(self.constants)


def can_be_said(constants: List[str]) -> bool:
    """Whether a text can tell these parameters."""
    return len(constants) <= MOST_LETTERS or not any(constants)


@dataclass
class DataType:
    """A struct, enum or union, or what is read as one."""

    named: Named
    flags: List[str] = field(default_factory=list)
    fields: List[Term] = field(default_factory=list)
    sized_by: Optional[Term] = None


@dataclass
class AssociatedType:
    """An associated type of a trait, with its bounds."""

    named: Named
    bounds: List[Term] = field(default_factory=list)


@dataclass
class Trait:
    """A trait: `supers` hold where it does, `clauses` are asked for it."""

    named: Named
    flags: List[str] = field(default_factory=list)
    language_item: Optional[str] = None
    supers: List[Term] = field(default_factory=list)
    clauses: List[Term] = field(default_factory=list)
    associated: Dict[str, AssociatedType] = field(default_factory=dict)


@dataclass
class Impl:
    """An impl: `header` is the reference that it is for. `widened` says which parts of the header are read as any type,
    `unsaid` why where clauses are left out.
    """

    named: Named
    sign: str
    header: Term
    clauses: List[Term] = field(default_factory=list)
    values: List[Term] = field(default_factory=list)
    widened: List[str] = field(default_factory=list)
    unsaid: List[str] = field(default_factory=list)
    parameter_names: List[str] = field(default_factory=list)
    members: Optional[List[str]] = None  # the names of its items, if they are known

    def is_whole(self) -> bool:
        """Whether a text for the check has all of it: each part of the header, each where clause, and those for all of their regions."""
        return not self.widened and not self.unsaid and not self.loses_regions()

    def loses_regions(self) -> bool:
        """Whether a where clause binds a region, which decides nothing, or a binder in the header or in a clause has one that is left out."""
        return any(clause.binds for clause in self.clauses) or any(term.loses_region() for term in [self.header, *self.clauses])

    def loses_in_values(self) -> bool:
        """Whether a binder in what an associated type is has a region that is left out."""
        return any(value.loses_region() for value in self.values)


@dataclass
class World:
    """All that is declared, in the order in which it is written."""

    data_types: List[DataType] = field(default_factory=list)
    foreign_types: List[Named] = field(default_factory=list)
    traits: List[Trait] = field(default_factory=list)
    impls: List[Impl] = field(default_factory=list)
    crates: Dict[str, int] = field(default_factory=dict)

    def names(self) -> List[Named]:
        """Each name of the text but those of impls."""
        found = [data_type.named for data_type in self.data_types] + list(self.foreign_types)
        for trait in self.traits:
            found.append(trait.named)
            found += [associated.named for associated in trait.associated.values()]
        return found
