"""From what rustdoc says of crates to what a text declares.

`Translator.translate` takes crates and gives a `World`. What it does about what a text can't say keeps overlaps from being missed: a part of a
header that can't be said is any type, a where clause that can't be said is left out. Each such thing is noted in a `Report`.
"""

import re
from dataclasses import replace
from typing import Dict, List, Optional

from cargo_coherence.to_text.model import MOST_LETTERS, AssociatedType, DataType, Impl, Named, Place, Term, Trait, World, can_be_said
from cargo_coherence.to_text.names import PRIMITIVES
from cargo_coherence.to_text.report import Report, Unsaid
from cargo_coherence.from_rustdoc.rust_json import DECLARING, CrateJson, Item
from cargo_coherence.to_text.spelling import spell_impl
from cargo_coherence.to_text.terms import Definition, Scope, Types, Widening, constants_of, numbered, parameters_of

LANGUAGE_ITEMS = set(
    "Sized MetaSized Copy Clone TrivialClone Fn FnMut FnOnce FnPtrTrait Tuple PointeeTrait DiscriminantKind Destruct Drop "
    "BikeshedGuaranteedNoDrop Unsize".split()
)
TOO_MANY = "more than %d parameters, of which one is a constant" % MOST_LETTERS


class Translator(Types):
    """Declarations of rustdoc's JSON as those of a text."""

    def __init__(self, crates: List[CrateJson], report: Report) -> None:
        super().__init__(report)
        self.crates: List[CrateJson] = []
        self.waiting = crates
        self.counted = [0, 0]
        self.data_types: Dict[str, DataType] = {}

    def translate(self) -> World:
        """All that the crates declare."""
        self.add(self.waiting)
        self.waiting = []
        return self.world

    def add(self, crates: List[CrateJson]) -> None:
        """Adds what further crates declare, which those before them don't name."""
        self.crates = self.crates + crates
        self.world.crates.update({crate.key: crate.number for crate in crates})
        definitions = self._name_everything(crates)
        for definition in definitions:
            if definition.path in self.named:
                self._defaults(definition, self.named[definition.path])
        for definition in definitions:
            if definition.path in self.traits:
                self._trait_content(definition)
            elif definition.path in self.data_types:
                self._data_type_content(definition)
        for crate in crates:
            for item in crate.impls():
                self.counted[0] += 1
                written = self._impl(crate, item)
                if written is not None:
                    self.world.impls.append(written)
                    self.counted[1] += not written.widened

    def forget_items(self) -> None:
        """Forgets what of the crates is translated and isn't looked at any more."""
        for crate in self.crates:
            crate.items = {identifier: item for identifier, item in crate.items.items() if item.kind in DECLARING}

    # Names

    def _name_everything(self, crates: List[CrateJson]) -> List[Definition]:
        """The definitions of crates, of which each that a text can say has a name now."""
        found = []
        for crate in crates:
            for item in crate.declared():
                path = crate.path(item.identifier)
                definition = Definition(path, crate, item)
                self.definitions[path] = definition
                found.append(definition)
                if not can_be_said(constants_of(definition.parameters())):
                    self.report.add("declaration left out", TOO_MANY, path)
                elif item.kind == "trait":
                    self._name_trait(definition)
                elif item.kind not in ("type_alias", "trait_alias"):
                    self._name_type(definition)
        return found

    def _named(self, definition: Definition) -> Named:
        item = definition.item
        place = Place(item.file, item.line, item.name)
        kind = item.kind.replace("_", " ")
        constants = constants_of(definition.parameters())
        named = Named(self.names.fresh(item.name), kind, definition.path, constants, definition.crate.number, place)
        self.named[definition.path] = named
        return named

    def _name_type(self, definition: Definition) -> None:
        item = definition.item
        named = self._named(definition)
        if item.kind == "extern_type":
            self.world.foreign_types.append(named)
            return
        flags = ["fundamental"] if "attr = Fundamental" in item.attributes else []
        flags += [word for word, lang in (("phantom", "PhantomData"), ("manually_drop", "ManuallyDrop")) if "Lang(%s)" % lang in item.attributes]
        self.data_types[definition.path] = DataType(named, flags + ([item.kind] if item.kind != "struct" else []))
        self.world.data_types.append(self.data_types[definition.path])

    def _name_trait(self, definition: Definition) -> None:
        item, content = definition.item, definition.item.content
        if "Lang(PointeeSized)" in item.attributes:
            self.unsized.add(definition.path)
            return
        trait = Trait(self._named(definition))
        found = re.search(r"attr = Lang\((\w+)\)", item.attributes)
        if found and found.group(1) in LANGUAGE_ITEMS:
            trait.language_item = found.group(1)
        if trait.language_item == "MetaSized":
            self.unsized.add(definition.path)
        marks = (
            ("auto", content["is_auto"]),
            ("unsafe", content["is_unsafe"]),
            ("fundamental", "attr = Fundamental" in item.attributes),
            ("dyn", content["is_dyn_compatible"]),
            ("default", trait.language_item == "Sized"),
            ("by_head", content["is_auto"]),
            ("marker", "attr = Marker" in item.attributes),
        )
        trait.flags = [word for word, holds in marks if holds]
        for part in definition.crate.parts(content["items"], "assoc_type"):
            self._name_associated(definition, trait, part)
        self.world.traits.append(trait)
        self.traits[definition.path] = trait

    def _name_associated(self, definition: Definition, trait: Trait, part: Item) -> None:
        if parameters_of(part.content["generics"]):
            self.report.add("associated type left out", "it is generic", "%s::%s" % (definition.path, part.name))
            return
        name = self.names.fresh("%s_%s" % (definition.item.name, part.name))
        path = "%s::%s" % (definition.path, part.name)
        place = Place(part.file, part.line, part.name)
        named = Named(name, "associated type", path, ["", *trait.named.constants], trait.named.crate, place, trait.named.name)
        trait.associated[part.name] = AssociatedType(named)

    def _defaults(self, definition: Definition, named: Named) -> None:
        """Notes the defaults of parameters, which an answer leaves out in Rust's spelling."""
        is_trait = definition.item.kind == "trait"
        parameters = definition.parameters()
        scope = Scope(definition.crate, numbered(parameters, is_trait), Term("#0") if is_trait else None)
        for parameter in parameters:
            try:
                named.defaults.append(self._default(scope, parameter))
            except Unsaid:
                named.defaults.append(None)

    # What definitions hold

    def _fault(self, done: str, path: str):
        return lambda reason: self.report.add(done, reason, path)

    def _trait_content(self, definition: Definition) -> None:
        content, trait = definition.item.content, self.traits[definition.path]
        own = Term("#0")
        scope = Scope(definition.crate, numbered(definition.parameters(), 1), own)
        fault = self._fault("supertrait left out", definition.path)
        clauses, _ = self.bounds(scope, own, content["bounds"], fault)
        others = []
        for predicate in content["generics"]["where_predicates"]:
            bound = predicate.get("bound_predicate")
            if bound and bound["type"] == {"generic": "Self"}:
                clauses += self.bounds(scope, own, bound["bounds"], fault)[0]
            else:
                others.append(predicate)
        # Function pointers alone are of this trait, by a rule of the language that asks for no supertrait. With these a refusal would decide
        # nothing wherever `Copy` leads to unsizing, and core has a blanket impl of `Debug` by it.
        if trait.language_item != "FnPtrTrait":
            trait.supers = [clause for clause in clauses if clause.arguments[0] == own]
        rest = dict(content["generics"], where_predicates=others)
        trait.clauses = [clause for clause in clauses if clause.arguments[0] != own]
        trait.clauses += self.clauses(scope, rest, self._fault("where clause of a trait left out", definition.path))
        for part in definition.crate.parts(content["items"], "assoc_type"):
            if part.name in trait.associated:
                self._associated_content(definition, trait, scope, part)

    def _associated_content(self, definition: Definition, trait: Trait, scope: Scope, part: Item) -> None:
        associated = trait.associated[part.name]
        alias = Term(associated.named.name, (Term("#0"),) + tuple(scope.parameters.values()))
        fault = self._fault("bound of an associated type left out", associated.named.path)
        bounds, is_sized = self.bounds(scope, alias, part.content["bounds"], fault)
        associated.bounds = (self.sizes([alias]) if is_sized else []) + bounds

    def _data_type_content(self, definition: Definition) -> None:
        item, crate = definition.item, definition.crate
        data_type = self.data_types[definition.path]
        parameters = numbered(definition.parameters())
        own = Term(data_type.named.name, tuple(parameters.values()))
        scope = Scope(crate, parameters, own)
        if "phantom" in data_type.flags:
            return
        last = None
        for part in crate.parts(fields_of(crate, item), "struct_field"):
            try:
                last = self.term(scope, part.content)
                data_type.fields.append(last)
            except Unsaid as reason:
                last = None
                self.incomplete[data_type.named.name] = definition.path
                self.report.add("field left out", reason, "%s::%s" % (definition.path, part.name))
        if item.kind == "struct" and last is not None and self._may_be_unsized(definition, last):
            data_type.sized_by = last

    def _may_be_unsized(self, definition: Definition, last: Term) -> bool:
        """Whether a type may have no size: it isn't one that always has."""
        if last.head.startswith("#"):
            parameter = definition.parameters()[int(last.head[1:])]
            return lifts_size(parameter, definition.item.content["generics"])
        return last.head in ("[]", "str") or last.head.startswith("dyn(") or last.head[0].isalpha() and last.head not in PRIMITIVES

    # Impls

    def _impl(self, crate: CrateJson, item: Item) -> Optional[Impl]:
        content = item.content
        place = Place(item.file, item.line, spell_impl(content), item.span)
        told = "%s: %s (%s)" % (crate.key, place.spelled, place.told())
        try:
            definition = self._trait_definition(Scope(crate, {}), content["trait"])
            if definition.path not in self.traits:
                raise Unsaid("a trait that every type has")
        except Unsaid as reason:
            self.report.add("impl left out", reason, told)
            return None
        parameters = parameters_of(content["generics"])
        scope = Scope(crate, numbered(parameters), None, Widening(constants_of(parameters), []))
        scope.self_type = own = self.term(scope, content["for"])
        arguments = self._header_arguments(scope, definition, content["trait"]["args"], told)
        if arguments is None:
            return None
        widening, faults = scope.widening, []
        clauses = self.clauses(replace(scope, widening=None), content["generics"], faults.append)
        trait = self.traits[definition.path]
        sign = self._sign(content, item)
        if sign == "-" and "auto" in trait.flags and (faults or widening.reasons):
            self.report.add("impl left out", "a negative one of an auto trait, with a part that can't be said", told)
            return None
        self._note("where clause left out", faults, told)
        self._note("part of a header read as any type", widening.reasons, told)
        name = self.names.fresh("impl_%s_%d" % (crate.name, item.identifier))
        named = Named(name, "impl", crate.key, widening.constants, crate.number, place)
        header = Term(trait.named.name, (own,) + tuple(arguments))
        written = Impl(named, sign, header, clauses, [], widening.reasons, faults, [parameter["name"] for parameter in parameters])
        written.members = item.members
        written.values = self._values(crate, content, trait, replace(scope, widening=None), told)
        return written

    def _header_arguments(self, scope: Scope, definition: Definition, shown, told: str) -> Optional[List[Term]]:
        """The arguments of an impl's trait, or nothing where the impl is left out."""
        try:
            arguments, _ = self.arguments(scope, definition, shown, scope.self_type)
            if not can_be_said(scope.widening.constants):
                raise Unsaid(TOO_MANY)
        except Unsaid as reason:
            self.report.add("impl left out", reason, told)
            return None
        return arguments

    def _note(self, done: str, reasons: list, told: str) -> None:
        for reason in reasons:
            self.report.add(done, reason, told)

    @staticmethod
    def _sign(content: dict, item: Item) -> str:
        if "RustcReservationImpl" in item.attributes:
            return "reservation"
        return "-" if content["is_negative"] else "+"

    def _values(self, crate: CrateJson, content: dict, trait: Trait, scope: Scope, told: str) -> List[Term]:
        values = []
        for part in crate.parts(content["items"], "assoc_type"):
            if part.name in trait.associated and part.content["type"]:
                try:
                    value = self.term(scope, part.content["type"])
                    values.append(Term(trait.associated[part.name].named.name, (value,)))
                except Unsaid as reason:
                    self.report.add("value of an associated type left out", reason, told)
        return values


def fields_of(crate: CrateJson, item: Item) -> List[Optional[int]]:
    """The numbers of the fields of a data type, those of all its variants."""
    if item.kind == "union":
        return item.content["fields"]
    if item.kind == "struct":
        return _fields(item.content["kind"], "plain")
    found: List[Optional[int]] = []
    for variant in crate.parts(item.content["variants"], "variant"):
        found += _fields(variant.content["kind"], "struct")
    return found


def _fields(kind, word: str) -> List[Optional[int]]:
    if isinstance(kind, str):
        return []
    return kind["tuple"] if "tuple" in kind else kind[word]["fields"]


def lifts_size(parameter: dict, generics: dict) -> bool:
    """Whether a parameter of a data type may be a type without a size."""
    bounds = list(parameter["kind"].get("type", {}).get("bounds", []))
    for predicate in generics["where_predicates"]:
        if predicate.get("bound_predicate", {}).get("type") == {"generic": parameter["name"]}:
            bounds += predicate["bound_predicate"]["bounds"]
    return any(
        bound["trait_bound"]["modifier"] == "maybe" or bound["trait_bound"]["trait"]["path"].split("::")[-1] in ("PointeeSized", "MetaSized")
        for bound in bounds
        if "trait_bound" in bound
    )
