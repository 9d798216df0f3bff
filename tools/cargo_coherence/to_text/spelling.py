"""Rust's own spelling of what rustdoc's JSON says: types, bounds and the headers of impls."""

from typing import List, Optional

MODIFIERS = {"none": "", "maybe": "?", "maybe_const": "[const] "}


def spell_type(shown) -> str:
    """A type, as Rust writes it."""
    kind, content = next(iter(shown.items())) if isinstance(shown, dict) else (shown, None)
    return SPELLED[kind](content)


def _path(content) -> str:
    name = content.get("path") or content.get("name") or "?"
    return name + spell_arguments(content.get("args"))


def spell_arguments(arguments: Optional[dict]) -> str:
    """What stands behind a path: `<T, 3>`, or `(u8) -> u8`."""
    if not arguments or isinstance(arguments, str):
        return ""
    if "parenthesized" in arguments:
        content = arguments["parenthesized"]
        inputs = ", ".join(map(spell_type, content["inputs"]))
        return "(%s)%s" % (inputs, _answer(content["output"]))
    content = arguments["angle_bracketed"]
    shown = [_argument(argument) for argument in content["args"]]
    shown += [_constraint(constraint) for constraint in content["constraints"]]
    return "<%s>" % ", ".join(shown) if shown else ""


def _argument(argument) -> str:
    if argument == "infer":
        return "_"
    if "lifetime" in argument:
        return argument["lifetime"]
    if "type" in argument:
        return spell_type(argument["type"])
    return argument["const"]["expr"]


def _constraint(constraint: dict) -> str:
    name = constraint["name"] + spell_arguments(constraint["args"])
    binding = constraint["binding"]
    if "constraint" in binding:
        return "%s: %s" % (name, spell_bounds(binding["constraint"]))
    term = binding["equality"]
    return "%s = %s" % (name, spell_type(term["type"]) if "type" in term else term["constant"]["expr"])


def _answer(output) -> str:
    return " -> " + spell_type(output) if output else ""


def _dyn(content: dict) -> str:
    bounds = [_binder(bound["generic_params"]) + _path(bound["trait"]) for bound in content["traits"]]
    return "dyn " + " + ".join(bounds + ([content["lifetime"]] if content["lifetime"] else []))


def _function_pointer(content: dict) -> str:
    header, signature = content["header"], content["sig"]
    words = _binder(content["generic_params"]) + ("unsafe " if header["is_unsafe"] else "")
    abi = spell_abi(header["abi"])
    inputs = [spell_type(shown) for _, shown in signature["inputs"]] + (["..."] if signature["is_c_variadic"] else [])
    return "%s%sfn(%s)%s" % (words, 'extern "%s" ' % abi if abi != "Rust" else "", ", ".join(inputs), _answer(signature["output"]))


def spell_abi(abi) -> str:
    """The name of an ABI, as it stands behind `extern`: all but those of Rust and C are in small letters."""
    if isinstance(abi, str):
        return abi
    (name, content), = abi.items()
    if name == "Other":
        return content.strip('"')
    return (name if name == "C" else name.lower()) + ("-unwind" if content["unwind"] else "")


def _binder(parameters: List[dict]) -> str:
    return "for<%s> " % ", ".join(parameter["name"] for parameter in parameters) if parameters else ""


def _projection(content: dict) -> str:
    own = spell_type(content["self_type"])
    trait = content["trait"]
    name = content["name"] + spell_arguments(content["args"])
    if not trait:
        return "%s::%s" % (own, name)
    if "generic" in content["self_type"] and not spell_arguments(trait["args"]):
        return "%s::%s" % (own, name)
    return "<%s as %s>::%s" % (own, _path(trait), name)


def _tuple(content: list) -> str:
    return "(%s%s)" % (", ".join(map(spell_type, content)), "," if len(content) == 1 else "")


def _reference(content: dict) -> str:
    lifetime = content["lifetime"] + " " if content["lifetime"] else ""
    return "&%s%s%s" % (lifetime, "mut " if content["is_mutable"] else "", spell_type(content["type"]))


SPELLED = {
    "resolved_path": _path,
    "dyn_trait": _dyn,
    "generic": str,
    "primitive": lambda name: {"never": "!", "unit": "()"}.get(name, name),
    "function_pointer": _function_pointer,
    "tuple": _tuple,
    "slice": lambda content: "[%s]" % spell_type(content),
    "array": lambda content: "[%s; %s]" % (spell_type(content["type"]), content["len"]),
    "pat": lambda content: "%s is %s" % (spell_type(content["type"]), content["__pat_unstable_do_not_use"]),
    "impl_trait": lambda bounds: "impl " + spell_bounds(bounds),
    "infer": lambda _: "_",
    "raw_pointer": lambda content: "*%s %s" % ("mut" if content["is_mutable"] else "const", spell_type(content["type"])),
    "borrowed_ref": _reference,
    "qualified_path": _projection,
}


def spell_bounds(bounds: List[dict]) -> str:
    """Bounds, with `+` between them."""
    shown = []
    for bound in bounds:
        if "trait_bound" in bound:
            content = bound["trait_bound"]
            shown.append(_binder(content["generic_params"]) + MODIFIERS.get(content["modifier"], "") + _path(content["trait"]))
        elif "outlives" in bound:
            shown.append(bound["outlives"])
    return " + ".join(shown)


def _parameter(parameter: dict) -> str:
    kind = parameter["kind"]
    if "const" in kind:
        return "const %s: %s" % (parameter["name"], spell_type(kind["const"]["type"]))
    bounds = spell_bounds(kind["type"]["bounds"]) if "type" in kind else " + ".join(kind["lifetime"]["outlives"])
    return parameter["name"] + (": " + bounds if bounds else "")


def _predicate(predicate: dict) -> Optional[str]:
    if "bound_predicate" not in predicate:
        return None
    content = predicate["bound_predicate"]
    return "%s%s: %s" % (_binder(content["generic_params"]), spell_type(content["type"]), spell_bounds(content["bounds"]))


def spell_impl(content: dict) -> str:
    """The header of an impl, as `impl<T: Display> Show for T`."""
    generics = content["generics"]
    written = [parameter for parameter in generics["params"] if not parameter["kind"].get("type", {}).get("is_synthetic")]
    parameters = "<%s>" % ", ".join(map(_parameter, written)) if written else ""
    sign = "!" if content["is_negative"] else ""
    clauses = [clause for clause in map(_predicate, generics["where_predicates"]) if clause]
    where = " where " + ", ".join(clauses) if clauses else ""
    return "impl%s %s%s for %s%s" % (parameters, sign, _path(content["trait"]), spell_type(content["for"]), where)
