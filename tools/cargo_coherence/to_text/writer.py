"""Writes a `World` as a text (docs/TEXT.md), and the file of places beside it."""

from typing import Dict, Iterator, List

from cargo_coherence.to_text.model import DataType, Impl, Trait, World
from cargo_coherence.to_text.regions import without_binder


def lines(world: World, for_check: bool = True) -> Iterator[str]:
    """The lines of the text: first each name, then what the definitions hold, then the impls; the mode is that of coherence.

    In a text for the check the where clauses of impls are about static regions, where a binder binds them: what is refused of these is refused
    of all, and the program lets no clause decide in which a bound region stands.
    """
    yield "local 0"
    for data_type in world.data_types:
        named = data_type.named
        yield " ".join(["adt", str(named.crate), named.name, parameters(named.constants)] + data_type.flags)
    for named in world.foreign_types:
        yield "foreign %d %s" % (named.crate, named.name)
    for trait in world.traits:
        yield from _trait_names(trait)
    for trait in world.traits:
        yield from _trait_content(trait)
    for data_type in world.data_types:
        yield from _data_type_content(data_type)
    for written in world.impls:
        yield from _impl(written, for_check)
    yield "mode coherence"


def parameters(constants: List[str]) -> str:
    """The word for parameters: their number, or a letter for each where one is a constant."""
    return "".join("c" if constant else "t" for constant in constants) if any(constants) else str(len(constants))


def _trait_names(trait: Trait) -> Iterator[str]:
    named = trait.named
    yield " ".join(["trait", str(named.crate), named.name, parameters(named.constants)] + trait.flags)
    for associated in trait.associated.values():
        yield "assoc %s %s" % (named.name, associated.named.name)
    if trait.language_item:
        yield "lang %s %s" % (trait.language_item, named.name)


def _trait_content(trait: Trait) -> Iterator[str]:
    for clause in trait.supers:
        yield "super %s %s" % (trait.named.name, clause.words())
    for clause in trait.clauses:
        yield "where %s %s" % (trait.named.name, clause.words())
    for associated in trait.associated.values():
        for bound in associated.bounds:
            yield "bound %s %s" % (associated.named.name, bound.words())


def _data_type_content(data_type: DataType) -> Iterator[str]:
    for field in data_type.fields:
        yield "field %s %s" % (data_type.named.name, field.words())
    if data_type.sized_by:
        yield "sized %s %s" % (data_type.named.name, data_type.sized_by.words())


def impl_line(written: Impl) -> str:
    """The line that declares an impl."""
    named = written.named
    return "impl %d %s %s %s %s" % (named.crate, named.name, parameters(named.constants), written.sign, written.header.words())


def _impl(written: Impl, for_check: bool) -> Iterator[str]:
    named = written.named
    yield impl_line(written)
    for clause in map(without_binder, written.clauses) if for_check else written.clauses:
        yield "iwhere %s %s" % (named.name, clause.words())
    for value in written.values:
        yield "value %s %s" % (named.name, value.words())


def places(world: World) -> Dict[str, dict]:
    """Each impl and each other name of the text, with its place and Rust's spelling."""
    impls = {}
    for written in world.impls:
        place = written.named.place
        impls[written.named.name] = {
            "file": place.file,
            "line": place.line,
            "header": place.spelled,
            "crate": written.named.path,
            "local": written.named.crate == 0,
            "widened": written.widened,
            "parameters": written.parameter_names,
        }
    names = {}
    for named in world.names():
        names[named.name] = {
            "kind": named.kind,
            "path": named.path,
            "spelled": named.place.spelled,
            "parameters": named.parameters,
            "constants": named.constants,
            "file": named.place.file,
            "line": named.place.line,
            "of": named.of,
            "defaults": [default.words() if default else None for default in named.defaults],
        }
    return {"crates": world.crates, "impls": impls, "names": names}
