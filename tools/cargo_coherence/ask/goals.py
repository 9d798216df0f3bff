"""Goals in Rust's syntax, `Vec<u8>: Clone`, as terms of a text.

The reader makes what rustdoc's JSON would say of such a type, so that aliases, defaults and associated types are read in one way.
"""

from dataclasses import dataclass
from typing import List, Tuple

from cargo_coherence.from_rustdoc.aside import Token, tokens_of
from cargo_coherence.to_text.model import Term
from cargo_coherence.to_text.names import PRIMITIVES
from cargo_coherence.to_text.report import Unsaid
from cargo_coherence.from_rustdoc.rust_json import CrateJson
from cargo_coherence.to_text.terms import Definition, Scope
from cargo_coherence.to_text.translate import Translator

OWN_CRATES = ("core", "alloc", "std")
TYPES = {"struct", "enum", "union", "extern_type", "type_alias"}


class BadGoal(Exception):
    """A goal that can't be read. Its text says why."""


class WrongKind(BadGoal):
    """A name of a type where a trait is wanted, or the other way round."""


@dataclass
class Goal:
    """A goal: its clause, in which each `_` is a variable; what associated types are to be; and whether a `for<..>` stands in front."""

    clause: Term
    equal: List[Tuple[Term, Term]]
    has_binder: bool


def read_goal(text: str, translator: Translator, local: CrateJson) -> Goal:
    """The goal that is written in Rust's syntax. Raises `BadGoal`."""
    reader = _GoalReader(text, translator, local)
    has_binder = reader.take_binder()
    try:
        own = reader.type()
    except WrongKind as error:
        raise BadGoal("; ".join([str(error), *reader.wrong_trait()]))
    reader.expect(":")
    trait = reader.path({"trait"})
    reader.expect("")
    scope = Scope(local, {}, variables=[0])
    try:
        subject = translator.term(scope, own)
        definition = translator.definitions[trait["key"]]
        arguments, constraints = translator.arguments(scope, definition, trait["args"], subject)
        if definition.path not in translator.traits:
            raise BadGoal("%s: every type has that trait" % text)
        if trait["args"] and not trait["args"].get("parenthesized", {"output": True})["output"]:
            constraints = []
        equal = [_equal(translator, scope, definition, subject, arguments, trait["args"], constraint) for constraint in constraints]
    except Unsaid as reason:
        raise BadGoal("%s: a text can't say it (%s)" % (text, reason))
    return Goal(Term(translator.traits[definition.path].named.name, (subject,) + tuple(arguments)), equal, has_binder)


def _equal(translator: Translator, scope: Scope, definition: Definition, subject: Term, arguments: List[Term], shown: dict, constraint: dict) -> Tuple[Term, Term]:
    """An associated type, and the type that it is to be. Raises `Unsaid`."""
    trait, found = translator.associated(scope, definition, constraint["name"], subject, arguments, shown)
    alias = Term(trait.associated[constraint["name"]].named.name, (subject,) + tuple(found))
    return alias, translator.term(scope, constraint["binding"]["equality"]["type"])


class _GoalReader:
    """Reads types and paths from the tokens of a goal."""

    def __init__(self, text: str, translator: Translator, local: CrateJson) -> None:
        self.tokens: List[Token] = tokens_of(text)
        self.at = 0
        self.translator = translator
        self.local = local

    def text(self, ahead: int = 0) -> str:
        """The next token, or one behind it; nothing at the end."""
        at = self.at + ahead
        return self.tokens[at].text if at < len(self.tokens) else ""

    def take(self, *words: str) -> bool:
        """Whether the next token is one of these, which is passed over then."""
        if self.text() in words and self.text():
            self.at += 1
            return True
        return False

    def expect(self, word: str) -> None:
        """Passes over a token, or the end. Raises `BadGoal` where it is another."""
        if self.text() != word:
            raise BadGoal("%s is expected where %s stands" % (quoted(word), quoted(self.text())))
        self.at += 1

    def take_binder(self) -> bool:
        """Passes over a `for<..>` that belongs to no function pointer, and answers whether there was one."""
        begun = self.at
        if self._binder() and self.text() not in ("unsafe", "extern", "fn"):
            return True
        self.at = begun
        return False

    def wrong_trait(self) -> List[str]:
        """What is wrong with the kind of what stands for the trait, where something is wrong with that for the type."""
        while self.text() and not self.take(":"):
            self.at += 1
        try:
            self.path({"trait"})
        except BadGoal as error:
            return [str(error)] if isinstance(error, WrongKind) else []
        return []

    def name(self) -> str:
        """The next token, a name. Raises `BadGoal`."""
        word = self.text()
        if not word or not (word[0].isalpha() or word[0] == "_"):
            raise BadGoal("a name is expected where %s stands" % quoted(word))
        self.at += 1
        return word

    def separated(self, end: str) -> List[dict]:
        """Types with commas between, up to a closing sign."""
        found = []
        while not self.take(end):
            found.append(self.type())
            if not self.take(","):
                self.expect(end)
                break
        return found

    def type(self) -> dict:
        """A type, as rustdoc's JSON has it."""
        word = self.text()
        if self.take("&", "&&"):
            reference = self._reference()
            return reference if word == "&" else {"borrowed_ref": {"lifetime": None, "is_mutable": False, "type": reference}}
        if self.take("*"):
            is_mutable = self.text() == "mut"
            if not self.take("mut", "const"):
                raise BadGoal("`mut` or `const` is expected behind `*`")
            return {"raw_pointer": {"is_mutable": is_mutable, "type": self.type()}}
        if self.take("["):
            return self._slice()
        if self.take("("):
            return self._tuple()
        if self.take("!"):
            return {"primitive": "never"}
        if self.take("_"):
            return "infer"
        if self.take("<"):
            return self._projection()
        if self.take("dyn"):
            return self._dyn()
        if word in ("fn", "unsafe", "extern", "for"):
            return self._function()
        if word in PRIMITIVES:
            self.at += 1
            return {"primitive": word}
        return {"resolved_path": self.path(TYPES)}

    def _reference(self) -> dict:
        lifetime = None
        if is_region(self.text()):
            lifetime = self.text()
            self.at += 1
        is_mutable = self.take("mut")
        return {"borrowed_ref": {"lifetime": lifetime, "is_mutable": is_mutable, "type": self.type()}}

    def _slice(self) -> dict:
        content = self.type()
        if self.take("]"):
            return {"slice": content}
        self.expect(";")
        length = self._constant("]")
        self.expect("]")
        return {"array": {"type": content, "len": length}}

    def _tuple(self) -> dict:
        found = []
        while not self.take(")"):
            found.append(self.type())
            if self.take(")"):
                return found[0] if len(found) == 1 else {"tuple": found}
            self.expect(",")
        return {"tuple": found}

    def _projection(self) -> dict:
        own = self.type()
        self.expect("as")
        trait = self.path({"trait"})
        self.expect(">")
        self.expect("::")
        return {"qualified_path": {"name": self.name(), "args": None, "self_type": own, "trait": trait}}

    def _dyn(self) -> dict:
        traits, lifetime = [], None
        while True:
            if is_region(self.text()):
                lifetime = self.text()
                self.at += 1
            else:
                bound = self._binder()
                traits.append({"trait": self.path({"trait"}), "generic_params": bound})
            if not self.take("+"):
                return {"dyn_trait": {"traits": traits, "lifetime": lifetime}}

    def _function(self) -> dict:
        bound = self._binder()
        is_unsafe = self.take("unsafe")
        abi = "Rust"
        if self.take("extern"):
            abi = "C"
            if self.text().startswith('"'):
                abi = self.text().strip('"')
                self.at += 1
        self.expect("fn")
        self.expect("(")
        inputs, is_variadic = self._inputs()
        output = self.type() if self.take("->") else None
        header = {"is_const": False, "is_unsafe": is_unsafe, "is_async": False, "abi": _abi(abi)}
        signature = {"inputs": inputs, "output": output, "is_c_variadic": is_variadic}
        return {"function_pointer": {"sig": signature, "generic_params": bound, "header": header}}

    def _inputs(self) -> Tuple[list, bool]:
        """What a function takes, and whether `...` stands at the end."""
        found: list = []
        while not self.take(")"):
            if self.take("..."):
                self.take(",")
                self.expect(")")
                return found, True
            found.append(["_", self.type()])
            if not self.take(","):
                self.expect(")")
                break
        return found, False

    def _binder(self) -> List[dict]:
        """The regions of a `for<..>`, which may stand there, as rustdoc's JSON has them."""
        found: List[dict] = []
        if self.take("for"):
            self.expect("<")
            while not self.take(">"):
                found.append({"name": self.text(), "kind": {"lifetime": {"outlives": []}}})
                self.at += 1
                self.take(",")
        return found

    def path(self, kinds: set) -> dict:
        """A path to a trait or type, with its arguments."""
        self.take("::")
        names = [self.name()]
        arguments = None
        while True:
            if self.text() == "::" and self.text(1) != "<":
                self.at += 1
                names.append(self.name())
                continue
            self.take("::")
            if self.take("<"):
                arguments = self._arguments()
            elif self.text() == "(" and "trait" in kinds:
                self.at += 1
                arguments = self._called()
            break
        return {"key": self._resolve(names, kinds), "path": "::".join(names), "args": arguments}

    def _called(self) -> dict:
        """What stands behind `Fn(`, and what is answered, if that is said."""
        shown = self.separated(")")
        return {"parenthesized": {"inputs": shown, "output": self.type() if self.take("->") else None}}

    def _arguments(self) -> dict:
        found, constraints = [], []
        while not self.take(">"):
            word = self.text()
            if is_region(word):
                found.append({"lifetime": word})
                self.at += 1
            elif word[:1].isdigit() or word[:1] == "'" or word in ("true", "false", "-", "{"):
                found.append({"const": {"expr": self._constant(">"), "value": None, "is_literal": True}})
            elif self.text(1) == "=":
                self.at += 2
                binding = {"equality": {"type": self.type()}}
                constraints.append({"name": word, "args": None, "binding": binding})
            else:
                found.append({"type": self.type()})
            if not self.take(","):
                self.expect(">")
                break
        return {"angle_bracketed": {"args": found, "constraints": constraints}}

    def _constant(self, end: str) -> str:
        text = ""
        while self.text() not in (",", end, ""):
            text += self.text()
            self.at += 1
        return text

    def _resolve(self, names: List[str], kinds: set) -> str:
        """The path of the definition that names lead to."""
        names = [self.local.name if name == "crate" else name for name in names]
        matching = []
        for path, definition in self.translator.definitions.items():
            if definition.item.kind in kinds and path.split("::")[-1] == names[-1]:
                crate = definition.crate.name
                parts = [crate] + path.split("::")[1:]
                if _leads_to(names, parts, crate):
                    matching.append(path)
        matching = self._nearest(matching)
        if not matching:
            self._refuse_kind(names, kinds)
            shown = ["::".join(names), *self._similar(names[-1], kinds)]
            words = "; did you mean %s?" % " or ".join(map(quoted, shown[1:])) if shown[1:] else ""
            raise BadGoal("no %s `%s`%s" % ("trait" if "trait" in kinds else "type", shown[0], words))
        if len(matching) > 1:
            raise BadGoal("`%s` may be %s" % ("::".join(names), " or ".join("`%s`" % path for path in sorted(matching)[:10])))
        return matching[0]

    def _refuse_kind(self, names: List[str], kinds: set) -> None:
        """Raises `BadGoal` where names lead to a type and a trait is wanted, or the other way round."""
        wants_trait = "trait" in kinds
        others = TYPES if wants_trait else {"trait"}
        for path, definition in self.translator.definitions.items():
            is_named = definition.item.kind in others and path.split("::")[-1] == names[-1]
            if is_named and _leads_to(names, [definition.crate.name, *path.split("::")[1:]], definition.crate.name):
                raise WrongKind("`%s` is a %s, and a %s is wanted" % ("::".join(names), *(("type", "trait") if wants_trait else ("trait", "type"))))
        if wants_trait and names[-1] in PRIMITIVES:
            raise WrongKind("`%s` is a type, and a trait is wanted" % names[-1])

    def _similar(self, name: str, kinds: set) -> List[str]:
        """The paths whose last names are nearest to one that nothing has, if they are within two letters."""
        paths = {path: path.split("::")[-1] for path, definition in self.translator.definitions.items() if definition.item.kind in kinds}
        if "trait" not in kinds:
            paths.update({word: word for word in PRIMITIVES})
        limit = 2 if len(name) > 3 else 1
        near = {word: letters_between(name, word) for word in set(paths.values()) if abs(len(word) - len(name)) <= limit}
        least = min(near.values(), default=limit + 1)
        if least > limit:
            return []
        found = self._nearest([path for path, word in paths.items() if near.get(word) == least])
        return sorted(map(self._shown, found))[:3]

    def _shown(self, path: str) -> str:
        """A path with the name of its crate, as a goal may have it."""
        definition = self.translator.definitions.get(path)
        return "::".join([definition.crate.name, *path.split("::")[1:]]) if definition else path

    def _nearest(self, paths: List[str]) -> List[str]:
        """Of several those of the local crate, else the shortest."""
        own = [path for path in paths if path.split("::")[0] == self.local.key]
        paths = own or paths
        shortest = min((path.count("::") for path in paths), default=0)
        return [path for path in paths if path.count("::") == shortest]


def _leads_to(names: List[str], parts: List[str], crate: str) -> bool:
    """Whether names, in their order, stand in a path. The crates of Rust's own are one, since each shows what another declares."""
    if names[0] in OWN_CRATES and crate in OWN_CRATES:
        names, parts = names[1:], parts[1:]
    rest = iter(parts)
    return all(any(name == part for part in rest) for name in names)


def letters_between(first: str, second: str) -> int:
    """How many letters are to be put in, left out, replaced or swapped with the next one, to make a word of another."""
    above: List[int] = []
    row = list(range(len(second) + 1))
    for i, letter in enumerate(first):
        before, above, row = above, row, [i + 1]
        for j, other in enumerate(second):
            least = min(above[j] + (letter != other), above[j + 1] + 1, row[j] + 1)
            if i and j and letter == second[j - 1] and other == first[i - 1]:
                least = min(least, before[j - 1] + 1)
            row.append(least)
    return row[-1]


def quoted(word: str) -> str:
    """A token in a message; none is the end."""
    return "`%s`" % word if word else "the end"


def is_region(word: str) -> bool:
    """Whether a token is a region, and no character."""
    return word[:1] == "'" and word[-1:] != "'"


def _abi(name: str):
    return name if name == "Rust" else {"Other": name}
