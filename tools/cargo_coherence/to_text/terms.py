"""Types, arguments and clauses of rustdoc's JSON as terms of a text.

What a text has no words for raises `Unsaid`, but for a part of an impl's header, for which a parameter of its own stands.
"""

from dataclasses import dataclass, field, replace
from typing import Dict, List, Optional, Sequence, Tuple

from cargo_coherence.to_text.constants import fits, literal, number, parameter_name
from cargo_coherence.to_text.model import ARRAY, DataType, Impl, Named, Place, Term, Trait, World
from cargo_coherence.to_text.names import PRIMITIVES, Names
from cargo_coherence.to_text.regions import Binder, bound, bound_outside, changed, given_regions, has_regions, lose, lose_given, lose_written
from cargo_coherence.to_text.regions import names_of, reference_words, region_at, shifted
from cargo_coherence.to_text.report import Report, Unsaid
from cargo_coherence.from_rustdoc.rust_json import CrateJson, Item
from cargo_coherence.to_text.spelling import spell_abi, spell_type

UNIT = Term("(0)")
LANGUAGE = "core"  # the crate of what the language has by itself
SAID_ABIS = ("Rust", "C")  # of function pointers that the text has words for
ASKED_CONSTANT = "a goal can't ask for a constant: `_` stands for a type"
UNREAD = 255  # the number for types of crates that aren't read; the local crate never has it


@dataclass
class Definition:
    """What a path leads to: a data type, a trait or an alias of a crate."""

    path: str
    crate: CrateJson
    item: Item

    def parameters(self) -> List[dict]:
        """Its parameters, without those for regions."""
        return parameters_of(self.item.content.get("generics"))


@dataclass
class Widening:
    """What is any type in a header: each such part takes a parameter behind those that the impl has."""

    constants: List[str]  # as in `Named`
    reasons: List[str]

    def fresh(self, reason: Unsaid, constant: str = "") -> Term:
        """The parameter that stands for a part which can't be said."""
        self.reasons.append(str(reason))
        self.constants.append(constant)
        return Term("#%d" % (len(self.constants) - 1))


@dataclass
class Scope:
    """What names stand for where something is read."""

    crate: CrateJson
    parameters: Dict[str, Term]
    self_type: Optional[Term] = None
    widening: Optional[Widening] = None
    variables: Optional[List[int]] = None  # of a goal: the number of the next `_`
    binders: Tuple[Binder, ...] = ()  # those around what is read, the innermost last
    base: int = 0  # how many binders are around what the parameters stand for
    regions: Dict[str, Optional[Tuple[int, int]]] = field(default_factory=dict)  # what the regions among the parameters stand for, as `region_at` has it

    def within(self, binder: Binder) -> "Scope":
        """The scope inside a binder."""
        return replace(self, binders=self.binders + (binder,))

    def of(self, definition: Definition, arguments: List[Term], own: Optional[Term], shown) -> "Scope":
        """The scope of a definition, whose parameters stand for what was read and shown here. The binders around here have no names there."""
        names = {parameter["name"]: term for parameter, term in zip(definition.parameters(), arguments)}
        regions = given_regions(definition.item.content["generics"], shown, self.binders, self.regions)
        hidden = tuple(Binder([], binder) for binder in self.binders)
        return replace(self, crate=definition.crate, parameters=names, self_type=own, binders=hidden, base=len(hidden), regions=regions)


def parameters_of(generics: Optional[dict]) -> List[dict]:
    """The parameters for types and constants."""
    if not generics:
        return []
    return [p for p in generics["params"] if "lifetime" not in p["kind"] and not p["kind"].get("type", {}).get("is_synthetic")]


def constants_of(parameters: List[dict]) -> List[str]:
    """For each parameter the type of the constant that it is, or nothing, as in `Named`."""
    return [spell_type(p["kind"]["const"]["type"]) if "const" in p["kind"] else "" for p in parameters]


def numbered(parameters: List[dict], first: int = 0) -> Dict[str, Term]:
    """Each parameter's name, and `#k` for it."""
    return {parameter["name"]: Term("#%d" % (first + i)) for i, parameter in enumerate(parameters)}


class Types:
    """Types, arguments and clauses of rustdoc's JSON as terms."""

    def __init__(self, report: Report) -> None:
        self.report = report
        self.names = Names()
        self.world = World()
        self.definitions: Dict[str, Definition] = {}
        self.named: Dict[str, Named] = {}
        self.traits: Dict[str, Trait] = {}
        self.unsized: set = set()  # the paths of the traits that a bound lifts `Sized` by
        self.made: Dict[str, DataType] = {}
        self.incomplete: Dict[str, str] = {}  # the data types of which a field is left out, by name

    # Types

    def term(self, scope: Scope, shown) -> Term:
        """A type. Raises `Unsaid`, but in a header, where a parameter stands for what can't be said, and for all of the outermost binder around it.

        For what stands there may have a region that the binder binds, and no parameter has.
        """
        try:
            kind, content = next(iter(shown.items())) if isinstance(shown, dict) else (shown, None)
            read = getattr(self, "_type_" + kind, None)
            if read is None:
                raise Unsaid("a type by `%s`" % kind)
            return read(scope, content)
        except Unsaid as reason:
            if scope.widening is None or scope.binders:
                raise
            return scope.widening.fresh(reason)

    def _type_primitive(self, scope: Scope, name: str) -> Term:
        if name in PRIMITIVES:
            return Term(name)
        if name in ("never", "unit"):
            return Term("!") if name == "never" else UNIT
        raise Unsaid("the primitive type `%s`" % name)

    def _type_generic(self, scope: Scope, name: str) -> Term:
        found = scope.self_type if name == "Self" and scope.self_type else scope.parameters.get(name)
        if found is None:
            raise Unsaid("a parameter of something else")
        inside = len(scope.binders) - scope.base
        return shifted(found, inside) if inside else found

    def _type_infer(self, scope: Scope, _) -> Term:
        if scope.variables is None:
            raise Unsaid("a type that is inferred")
        scope.variables[0] += 1
        return Term("$%d" % (scope.variables[0] - 1))

    def _type_resolved_path(self, scope: Scope, content: dict) -> Term:
        if "id" in content and scope.crate.path(content["id"]) not in self.definitions:
            return self._type_not_shown(scope, content)
        definition = self._definition(scope, content)
        if definition.item.kind == "type_alias":
            return self._aliased(scope, definition, content)
        if definition.path not in self.named or definition.item.kind in ("trait", "trait_alias"):
            raise Unsaid("a type by the path of a %s" % definition.item.kind)
        arguments, _ = self.arguments(scope, definition, content["args"], None)
        return Term(self.named[definition.path].name, tuple(arguments))

    def _type_not_shown(self, scope: Scope, content: dict) -> Term:
        """A data type that is known by its uses: one of a crate that isn't read, or of a function's body, where rustdoc has put in aliases."""
        path = scope.crate.path(content["id"])
        within_function = is_within_function(path)
        if not within_function and scope.crate.kind(content["id"]) not in ("struct", "enum", "union"):
            raise Unsaid("a type or trait of the crate %s, which isn't read" % path.split("::")[0])
        terms, _ = self._written_arguments(scope, content["args"])
        lose_written(content["args"], scope.binders, scope.regions)
        constants = written_constants(content["args"])
        if path not in self.made:
            whose = "a function's body" if within_function else "the crate %s, which isn't read" % path.split("::")[0]
            self.report.add("read as a data type without fields", "one of " + whose, "%s: %s" % (scope.crate.key, content["path"]))
            name = (content["path"] if within_function else path).split("::")[-1]
            made = self._made(path, "struct", name, constants, name, scope.crate.number if within_function else UNREAD)
            self.incomplete[made] = path
        if self.made[path].named.constants != constants:
            # Another number of arguments: one of them may be a default.
            raise Unsaid("a type that is known by its uses, with a default")
        return Term(self.made[path].named.name, tuple(terms))

    def _definition(self, scope: Scope, content: dict) -> Definition:
        path = content["key"] if "key" in content else scope.crate.path(content["id"])
        definition = self.definitions.get(path)
        if definition is None:
            kept = "a function's body" if is_within_function(path) else "the crate " + path.split("::")[0]
            raise Unsaid("a type or trait of %s, which isn't read" % kept)
        return definition

    def _aliased(self, scope: Scope, definition: Definition, content: dict) -> Term:
        arguments, _ = self.arguments(scope, definition, content["args"], None)
        return self.term(scope.of(definition, arguments, None, content["args"]), definition.item.content["type"])

    def _type_tuple(self, scope: Scope, content: list) -> Term:
        return Term("(%d)" % len(content), tuple(self.term(scope, shown) for shown in content))

    def _type_slice(self, scope: Scope, content) -> Term:
        return Term("[]", (self.term(scope, content),))

    def _type_array(self, scope: Scope, content: dict) -> Term:
        return Term(ARRAY, (self.term(scope, content["type"]), self.constant(scope, content["len"], None, "usize")))

    def _type_raw_pointer(self, scope: Scope, content: dict) -> Term:
        return Term("*mut" if content["is_mutable"] else "*const", (self.term(scope, content["type"]),))

    def _type_borrowed_ref(self, scope: Scope, content: dict) -> Term:
        place = region_at(content["lifetime"], scope.binders, scope.regions)
        if place and isinstance(content["type"], dict) and "dyn_trait" in content["type"] and not content["type"]["dyn_trait"]["lifetime"]:
            scope.binders[place[0]].lose()  # what is behind a reference lives as long by default
        return Term(reference_words(content["is_mutable"], place, scope.binders), (self.term(scope, content["type"]),))

    def _type_pat(self, scope: Scope, content: dict) -> Term:
        pattern = content["__pat_unstable_do_not_use"]
        name = self._made("Pattern_" + pattern, "pattern", pattern, [""])
        return Term(name, (self.term(scope, content["type"]),))

    def _type_qualified_path(self, scope: Scope, content: dict) -> Term:
        if not content["trait"]:
            raise Unsaid("an inherent associated type")
        if has_types(content["args"]):
            raise Unsaid("a generic associated type")
        if scope.widening and scope.binders and has_regions(content):
            raise Unsaid("an associated type with a region, inside a binder")
        definition = self._trait_definition(scope, content["trait"])
        own = self.term(scope, content["self_type"])
        arguments, _ = self.arguments(scope, definition, content["trait"]["args"], own)
        trait = self.traits[definition.path]
        if content["name"] not in trait.associated:
            raise Unsaid("a generic associated type")
        lose_written(content["args"], scope.binders, scope.regions)
        return Term(trait.associated[content["name"]].named.name, (own,) + tuple(arguments))

    def _type_dyn_trait(self, scope: Scope, content: dict) -> Term:
        principals, projections, autos = [], [], []
        for shown in content["traits"]:
            definition = self._trait_definition(scope, shown["trait"])
            if definition.path in self.unsized:
                continue
            binder = Binder(names_of(shown["generic_params"]))
            inner = scope.within(binder)
            arguments, constraints = self.arguments(inner, definition, shown["trait"]["args"], None)
            trait = self.traits[definition.path]
            args = shown["trait"]["args"]
            written = [self._dyn_projection(inner, definition, args, arguments, constraint) for constraint in constraints]
            (autos if "auto" in trait.flags else principals).append(bound(trait.named.name, tuple(arguments), binder))
            projections += [bound(projection.head, projection.arguments, binder) for projection in written]
        autos = sorted(set(autos), key=Term.words)
        bounds = principals + sorted(set(projections), key=Term.words) + autos
        if content["lifetime"]:
            lose(content["lifetime"], scope.binders, scope.regions)
        return Term("dyn(%d)" % len(bounds), tuple(bounds))

    def _dyn_projection(self, scope: Scope, definition: Definition, shown, arguments: List[Term], constraint: dict) -> Term:
        binding = constraint["binding"]
        if "equality" not in binding or "type" not in binding["equality"] or has_types(constraint["args"]):
            raise Unsaid("a bound of a `dyn` type")
        trait, found = self.associated(scope, definition, constraint["name"], None, arguments, shown)
        lose_written(constraint["args"], scope.binders, scope.regions)
        name = trait.associated[constraint["name"]].named.name
        return Term(name, tuple(found) + (self.term(scope, binding["equality"]["type"]),))

    def _type_function_pointer(self, scope: Scope, content: dict) -> Term:
        signature, header = content["sig"], content["header"]
        abi = spell_abi(header["abi"])
        if abi not in SAID_ABIS:
            return self._other_function_pointer(scope, abi, content)
        binder = Binder(names_of(content["generic_params"]))
        terms = self._signature(scope.within(binder), signature, binder)
        words = ["unsafe"] if header["is_unsafe"] else []
        words += ["extern"] if abi != "Rust" else []
        words.append("fn(%d%s)" % (len(signature["inputs"]), ".." if signature["is_c_variadic"] else ""))
        return bound(" ".join(words), tuple(terms), binder)

    def _signature(self, scope: Scope, signature: dict, binder: Optional[Binder] = None) -> List[Term]:
        """What a function takes, and what it answers. Regions that are left out are the binder's."""
        shown = [content for _, content in signature["inputs"]]
        if binder:
            binder.takes_new = True
        terms = [self.term(scope, content) for content in shown]
        if binder:
            binder.begin_answer(shown)
        return terms + [self.term(scope, signature["output"]) if signature["output"] else UNIT]

    def _other_function_pointer(self, scope: Scope, abi: str, content: dict) -> Term:
        """One of an ABI that has no word: a data type, which binds nothing."""
        if content["generic_params"]:
            self.report.add("read without its regions", "a binder `for<..>` of a function pointer with an ABI that has no word", scope.crate.name)
        binder = Binder(names_of(content["generic_params"]))
        terms = self._signature(scope.within(binder), content["sig"], binder)
        loses = binder.loses or any(0 in bound_outside(term) for term in terms)
        static = tuple(changed(term, lambda outside, index: (outside - 1, index) if outside else None) for term in terms)
        return Term(self._other_function(content["header"], content["sig"]), static, 0, loses)

    def _other_function(self, header: dict, signature: dict) -> str:
        """The data type for function pointers with this ABI, this safety and so many arguments."""
        abi, count = spell_abi(header["abi"]), len(signature["inputs"])
        spelled = "%s%sfn" % ("unsafe " if header["is_unsafe"] else "", 'extern "%s" ' % abi if abi != "Rust" else "")
        if signature["is_c_variadic"]:
            spelled += " (..)"
        key = "Fn_%s%s%s_%d" % ("unsafe_" if header["is_unsafe"] else "", abi, "_variadic" if signature["is_c_variadic"] else "", count)
        is_new = key not in self.made
        name = self._made(key, "function pointer", spelled, [""] * (count + 1))
        if is_new:
            self._impls_of_function(name, count, not header["is_unsafe"] and not signature["is_c_variadic"])
        return name

    def _impls_of_function(self, name: str, count: int, is_callable: bool) -> None:
        """The impls that stand for what the language says of a function pointer."""
        own = Term(name, tuple(Term("#%d" % i) for i in range(count + 1)))
        inputs = Term("(%d)" % count, own.arguments[:count])
        for trait in self.world.traits:
            item = trait.language_item
            if item in ("Copy", "Clone", "FnPtrTrait"):
                header = Term(trait.named.name, (own,))
            elif item in ("Fn", "FnMut", "FnOnce") and is_callable:
                header = Term(trait.named.name, (own, inputs))
            else:
                continue
            place = Place(None, 0, "impl %s for %s pointers (a rule of the language)" % (trait.named.place.spelled, self.made_spelling(name)))
            named = Named(self.names.fresh("rule_%s_%s" % (name, trait.named.name)), "impl", LANGUAGE, [""] * (count + 1), self.language_number(), place)
            self.world.impls.append(Impl(named, "+", header))

    def made_spelling(self, name: str) -> str:
        """How Rust spells a data type that was made for what is none."""
        return next(d.named.place.spelled for d in self.made.values() if d.named.name == name)

    def language_number(self) -> int:
        """The number of the crate that has what the language has."""
        return self.world.crates.get(LANGUAGE, 1)

    def _made(self, key: str, kind: str, spelled: str, constants: List[str], wanted: str = "", crate: Optional[int] = None) -> str:
        """The name of the data type that stands for something that no line of a crate declares, made where it wasn't yet."""
        if key not in self.made:
            number = self.language_number() if crate is None else crate
            named = Named(self.names.fresh(wanted or key), kind, spelled, constants, number, Place(None, 0, spelled))
            self.made[key] = DataType(named)
            self.world.data_types.append(self.made[key])
        return self.made[key].named.name

    # Constants

    def constant(self, scope: Scope, expression: str, value: Optional[str], of_type: str) -> Term:
        """A constant of a type, which is known by its name if at all: a parameter, or the number for a literal."""
        named = scope.parameters.get(parameter_name(expression))
        if named is not None:
            return named
        written = next((word for word in (value, expression) if word and literal(word) is not None), None)
        found = number(literal(written), of_type) if written and fits(written, of_type) else None
        if found is not None:
            return Term(found)
        if expression == "_" and scope.variables is not None:
            raise Unsaid(ASKED_CONSTANT)
        reason = Unsaid("a constant that is no literal")
        if written:
            reason = Unsaid("a constant of more than 64 bits" if fits(written, of_type) else "`%s` is no `%s`" % (written, of_type))
        if scope.widening is None or scope.binders:
            raise reason
        return scope.widening.fresh(reason, "_")

    # Arguments and clauses

    def arguments(self, scope: Scope, definition: Definition, shown, own: Optional[Term]) -> Tuple[List[Term], List[dict]]:
        """The arguments that are written, and then the defaults; and what is said of associated types."""
        parameters = definition.parameters()
        terms, constraints = self._written_arguments(scope, shown, constants_of(parameters))
        if definition.item.kind != "type_alias":
            lose_given(definition.item.content.get("generics"), shown, scope.binders, scope.regions)
        if len(terms) > len(parameters):
            raise Unsaid("more arguments than parameters")
        for parameter in parameters[len(terms):]:
            terms.append(self._default(scope.of(definition, terms, own, shown), parameter))
        for parameter, term in zip(parameters, terms):
            if term.head[0] == "$" and "const" in parameter["kind"]:
                raise Unsaid(ASKED_CONSTANT)
            if term.head[0] != "#" and is_constant(term) != ("const" in parameter["kind"]):
                raise Unsaid("a constant for a type" if is_constant(term) else "a type for a constant")
        return terms, constraints

    def _written_arguments(self, scope: Scope, shown, constants: Sequence[str] = ()) -> Tuple[List[Term], List[dict]]:
        """The arguments that are written, and what is said of associated types. `constants` are the types of the parameters, as in `Named`."""
        if not shown:
            return [], []
        if isinstance(shown, str):
            raise Unsaid("a bound on what a method answers")
        if "parenthesized" in shown:
            content = shown["parenthesized"]
            inputs = self._inputs(scope, content["inputs"])
            output = content["output"] or {"tuple": []}
            return [inputs], [{"name": "Output", "args": None, "binding": {"equality": {"type": output}}}]
        terms = []
        for argument in shown["angle_bracketed"]["args"]:
            if argument == "infer":
                terms.append(self.term(scope, "infer"))
            elif "type" in argument:
                terms.append(self.term(scope, argument["type"]))
            elif "const" in argument:
                of_type = constants[len(terms)] if len(terms) < len(constants) else ""
                terms.append(self.constant(scope, argument["const"]["expr"], argument["const"]["value"], of_type))
        return terms, shown["angle_bracketed"]["constraints"]

    def _inputs(self, scope: Scope, shown: list) -> Term:
        """What stands in `Fn(..)`. The binder of the bound has the regions that are left out, and knows then those of the answer."""
        is_bound = bool(scope.binders) and scope.binders[-1].is_new()
        if is_bound:
            scope.binders[-1].takes_new = True
        inputs = self._type_tuple(scope, shown)
        if is_bound:
            scope.binders[-1].begin_answer(shown)
        return inputs

    def _default(self, scope: Scope, parameter: dict) -> Term:
        kind = parameter["kind"]
        if "type" in kind and kind["type"]["default"] is not None:
            return self.term(scope, kind["type"]["default"])
        if "const" in kind and kind["const"]["default"] is not None:
            return self.constant(scope, kind["const"]["default"], None, spell_type(kind["const"]["type"]))
        if scope.variables is not None and "type" in kind:
            return self._type_infer(scope, None)
        raise Unsaid("an argument that is missing")

    def _trait_definition(self, scope: Scope, content: dict) -> Definition:
        definition = self._definition(scope, content)
        if definition.item.kind != "trait":
            raise Unsaid("a %s for a trait" % definition.item.kind)
        return definition

    def associated(
        self, around: Scope, definition: Definition, name: str, own: Optional[Term], arguments: List[Term], shown
    ) -> Tuple[Trait, List[Term]]:
        """The trait that has the associated type, this one or a supertrait, with its arguments, which were shown and read in a scope. Raises `Unsaid`."""
        trait = self.traits[definition.path]
        if name in trait.associated:
            return trait, arguments
        scope = around.of(definition, arguments, own, shown)
        for path in supertraits(definition.item.content):
            above = self._trait_definition(scope, path)
            if above.path in self.unsized:
                continue
            try:
                found, _ = self.arguments(scope, above, path["args"], own)
                return self.associated(scope, above, name, own, found, path["args"])
            except Unsaid:
                continue
        raise Unsaid("an associated type that is generic, or of a trait that isn't read")

    def bounds(self, scope: Scope, subject: Term, shown: List[dict], on_fault, names: Tuple[str, ...] = ()) -> Tuple[List[Term], bool]:
        """The clauses of `subject: ..`, and whether it has a size then by default. What can't be said goes to `on_fault`.

        `names` are the regions that a binder in front of the subject binds: each clause binds them and those of its own bound.
        """
        clauses, is_sized = [], True
        for part in shown:
            if "trait_bound" not in part:
                continue
            content = part["trait_bound"]
            if content["modifier"] == "maybe":
                is_sized = False
                continue
            try:
                definition = self._trait_definition(scope, content["trait"])
                if definition.path in self.unsized:
                    is_sized = False
                if definition.path in self.traits:
                    binder = Binder([*names, *names_of(content["generic_params"])])
                    found = self._clause(scope.within(binder), subject, definition, content["trait"]["args"], on_fault)
                    clauses += losing(found, binder)
            except Unsaid as reason:
                on_fault(reason)
        return clauses, is_sized

    def _clause(self, scope: Scope, subject: Term, definition: Definition, shown, on_fault) -> List[Term]:
        arguments, constraints = self.arguments(scope, definition, shown, subject)
        clauses = [bound(self.traits[definition.path].named.name, (subject,) + tuple(arguments))]
        for constraint in constraints:
            try:
                clauses += self._constraint(scope, subject, definition, shown, arguments, constraint, on_fault)
            except Unsaid as reason:
                on_fault(reason)
        return clauses

    def _constraint(
        self, scope: Scope, subject: Term, definition: Definition, shown, arguments: List[Term], constraint: dict, on_fault
    ) -> List[Term]:
        if has_types(constraint["args"]):
            raise Unsaid("a generic associated type")
        binding = constraint["binding"]
        if "equality" in binding and "type" not in binding["equality"]:
            raise Unsaid("an associated constant")
        trait, found = self.associated(scope, definition, constraint["name"], subject, arguments, shown)
        lose_written(constraint["args"], scope.binders, scope.regions)
        alias = Term(trait.associated[constraint["name"]].named.name, (subject,) + tuple(found))
        if "constraint" in binding:
            around = replace(scope, binders=scope.binders[:-1])
            return self.bounds(around, alias, binding["constraint"], on_fault, tuple(scope.binders[-1].names))[0]
        return [bound(alias.head, alias.arguments + (self.term(scope, binding["equality"]["type"]),))]

    def clauses(self, scope: Scope, generics: dict, on_fault) -> List[Term]:
        """What parameters and where clauses ask for: sizes first."""
        clauses, sized = [], {}
        for parameter in parameters_of(generics):
            if "type" in parameter["kind"]:
                subject = scope.parameters[parameter["name"]]
                found, is_sized = self.bounds(scope, subject, parameter["kind"]["type"]["bounds"], on_fault)
                clauses += found
                sized[subject] = is_sized
        for predicate in generics["where_predicates"]:
            if "bound_predicate" in predicate:
                content = predicate["bound_predicate"]
                try:
                    names = tuple(names_of(content["generic_params"]))
                    binder = Binder(list(names))
                    subject = self.term(scope.within(binder), content["type"])
                    found, is_sized = self.bounds(scope, subject, content["bounds"], on_fault, names)
                    clauses += losing(found, binder)
                    if subject in sized:
                        sized[subject] &= is_sized
                except Unsaid as reason:
                    on_fault(reason)
            elif "eq_predicate" in predicate:
                on_fault(Unsaid("that two types are one"))
        return self.sizes([subject for subject, is_sized in sized.items() if is_sized]) + clauses

    def sizes(self, subjects: List[Term]) -> List[Term]:
        """The clauses that these have a size, if the trait for that is read."""
        name = next((trait.named.name for trait in self.world.traits if trait.language_item == "Sized"), None)
        return [Term(name, (subject,)) for subject in subjects] if name else []


def losing(clauses: List[Term], binder: Binder) -> List[Term]:
    """The clauses of a binder, which say it where the binder loses a region."""
    return [replace(clause, loses=True) for clause in clauses] if binder.loses else clauses


def is_constant(term: Term) -> bool:
    """Whether a term is a number. A parameter may be one, too."""
    return term.head.isdigit()


def written_constants(shown) -> List[str]:
    """For each argument that is written whether it's a constant, as in `Named`."""
    if not shown or isinstance(shown, str) or "parenthesized" in shown:
        return [""] if shown and "parenthesized" in shown else []
    written = [argument for argument in shown["angle_bracketed"]["args"] if argument == "infer" or "lifetime" not in argument]
    return ["_" if argument != "infer" and "const" in argument else "" for argument in written]


def is_within_function(path: str) -> bool:
    """Whether this is what `CrateJson.path` answers of an item that no path leads to."""
    return "::?" in path


def has_types(shown) -> bool:
    """Whether there are arguments that aren't regions."""
    if not shown or isinstance(shown, str):
        return bool(shown)
    if "angle_bracketed" not in shown:
        return True
    return any(argument == "infer" or "lifetime" not in argument for argument in shown["angle_bracketed"]["args"])


def supertraits(content: dict) -> List[dict]:
    """The paths of a trait's bounds, and of its where clauses on `Self`."""
    bounds = list(content["bounds"])
    for predicate in content["generics"]["where_predicates"]:
        if predicate.get("bound_predicate", {}).get("type") == {"generic": "Self"}:
            bounds += predicate["bound_predicate"]["bounds"]
    return [bound["trait_bound"]["trait"] for bound in bounds if bound.get("trait_bound", {}).get("modifier") in ("none", "maybe_const")]
