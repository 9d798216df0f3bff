"""Reads what `rustdoc --output-format json` says of one crate.

In goes a file, out comes a `CrateJson`: the items that declare something, with their paths. What rustdoc says of functions, modules, links
and documents is passed over, and so are the impls that rustdoc makes up: those of auto traits, and each blanket impl once more for each type.
"""

import json
import os
from dataclasses import dataclass, field
from typing import Dict, Iterator, List, Optional, Tuple

# The numbers of the format that are read: 57 is what rustdoc 1.95 and 1.96 write. What 57 has and 56 hasn't is the path of a crate's file,
# which is looked at where it is there.
FORMATS = (56, 57)

# An impl that rustdoc refuses to document is handed to it as a function of this name (see `aside.py`).
ASIDE = "__rilgomut_aside_"

SPECIALIZATION = "specialization"  # a part of the names of the two features by which impls may specialise others

DECLARING = {"struct", "enum", "union", "extern_type", "trait", "trait_alias", "type_alias"}
PARTS = {"assoc_type", "struct_field", "variant"}
KEPT = DECLARING | PARTS | {"impl"}
PATHS = {"struct", "enum", "union", "foreign_type", "extern_type", "trait", "trait_alias", "type_alias"}  # the kinds of items that types name
MARKS = ("Lang(", "Fundamental", "Marker", "RustcReservationImpl", "Feature(")  # the attributes that count


class Unreadable(Exception):
    """A file that is no JSON of rustdoc, or one of another format. Its text is one line."""


@dataclass
class Item:
    """One item of a crate: what rustdoc says of it under `inner`, by its kind."""

    identifier: int
    kind: str
    name: Optional[str]
    content: dict
    attributes: str
    file: Optional[str]
    line: int
    span: Tuple[int, int, int, int] = (0, 0, 0, 0)  # line and column where it begins, and where it has ended
    members: Optional[List[str]] = None  # of an impl: the names of its items, if they are known


@dataclass
class CrateJson:
    """One crate. `key` tells it from all others, also from another version of the same name."""

    name: str
    key: str
    items: Dict[int, Item]
    paths: Dict[int, Tuple[int, List[str], str]]
    externals: Dict[int, Tuple[str, str]]
    has_private_items: bool
    number: int = -1
    keys: Dict[str, str] = field(default_factory=dict)
    may_specialize: bool = False  # whether the feature is on by which impls may specialise others

    def path(self, identifier: int) -> str:
        """The path of an item, with the key of its crate in front; one that no path leads to has its number."""
        found = self.paths.get(identifier)
        if found is None:
            item = self.items.get(identifier)
            return "%s::?%s#%d" % (self.key, item.name if item else "", identifier)
        crate, path, _ = found
        return "::".join([self.crate_key(crate)] + path[1:])

    def kind(self, identifier: int) -> str:
        """What kind of item a path leads to."""
        return self.paths[identifier][2] if identifier in self.paths else ""

    def crate_key(self, crate: int) -> str:
        """The key of the crate that has this number here."""
        if crate == 0:
            return self.key
        name, file = self.externals.get(crate, ("?", ""))
        return self.keys.get(os.path.basename(file), name)

    def declared(self) -> Iterator[Item]:
        """The data types, traits and aliases of this crate, in the order of their numbers."""
        return (item for _, item in sorted(self.items.items()) if item.kind in DECLARING)

    def impls(self) -> Iterator[Item]:
        """The impls of traits that stand in this crate's source, in the order of their numbers."""
        for _, item in sorted(self.items.items()):
            if item.kind == "impl":
                yield item

    def parts(self, identifiers: List[Optional[int]], kind: str) -> Iterator[Item]:
        """Those of the items that are here and of this kind."""
        for identifier in identifiers:
            item = self.items.get(identifier) if identifier is not None else None
            if item is not None and item.kind == kind:
                yield item


def read_crate(file: str, key: Optional[str] = None, any_format: bool = False) -> CrateJson:
    """The crate that a file tells of. Raises `Unreadable`."""
    try:
        with open(file, encoding="utf-8") as source:
            data = json.load(source)
    except (OSError, ValueError) as error:
        raise Unreadable("%s: %s" % (file, error))
    if not isinstance(data, dict) or "format_version" not in data:
        raise Unreadable("%s: no JSON of rustdoc" % file)
    version = data["format_version"]
    if version not in FORMATS and not any_format:
        read = ", ".join(map(str, FORMATS))
        raise Unreadable("%s: format %s isn't read, but %s (rustdoc 1.95 and 1.96 write 57; --any-format tries)" % (file, version, read))
    try:
        return _crate(data, key)
    except (KeyError, TypeError, AttributeError, ValueError, StopIteration) as error:
        raise Unreadable("%s: it has another form than format %s (%s)" % (file, version, told_error(error))) from error


def told_error(error: Exception) -> str:
    """What Python says of a form that is another one than expected."""
    return "%s: %s" % (type(error).__name__, error)


def _crate(data: dict, key: Optional[str]) -> CrateJson:
    """The crate of a JSON of a known format."""
    name = data["index"][str(data["root"])]["name"]
    items = {}
    for identifier, raw in data["index"].items():
        if raw["crate_id"] == 0:
            item = _item(int(identifier), raw)
            if item is not None:
                items[item.identifier] = item
                if item.kind == "impl":
                    item.members = member_names(item.content, data["index"])
    paths = {int(i): (p["crate_id"], p["path"], p["kind"]) for i, p in data["paths"].items()}
    externals = {int(i): (c["name"], c.get("path", "")) for i, c in data["external_crates"].items()}
    crate = CrateJson(name, key or name, items, paths, externals, data["includes_private"])
    marks = map(str, data["index"][str(data["root"])]["attrs"])
    crate.may_specialize = any("Feature(" in mark and SPECIALIZATION in mark for mark in marks)
    return crate


def member_names(content: dict, index: Dict[str, dict]) -> Optional[List[str]]:
    """The names of what an impl has: the word `names` of a JSON that was stripped, or those of its items. Nothing if one isn't known."""
    if "names" in content:
        return content["names"]
    found = [index.get(str(identifier)) for identifier in content["items"]]
    return [item["name"] for item in found] if all(found) else None


def _item(identifier: int, raw: dict) -> Optional[Item]:
    """The item, or nothing if it declares nothing that a text has a line for."""
    inner = raw["inner"]
    kind, content = next(iter(inner.items())) if isinstance(inner, dict) else (inner, {})
    span = raw["span"] or {}
    place = (*span["begin"], *span["end"]) if span else (0, 0, 0, 0)
    if kind == "function" and (raw["name"] or "").startswith(ASIDE):
        kind, content, place = "impl", _impl_put_aside(raw["name"], content), _place_put_aside(raw["name"])
    elif kind == "impl":
        if content["is_synthetic"] or content["blanket_impl"] is not None or not content["trait"]:
            return None
    elif kind not in DECLARING and kind not in PARTS:
        return None
    return Item(identifier, kind, raw["name"], content, json.dumps(raw["attrs"]), span.get("filename"), place[0], place)


def _place_put_aside(name: str) -> Tuple[int, int, int, int]:
    """Where the impl stands, as the name of its function says."""
    first_line, first, last_line, last = map(int, name.split("_")[-4:])
    return first_line, first, last_line, last


def _impl_put_aside(name: str, function: dict) -> dict:
    """The impl that was written as a function: a pointer to its type, and its trait, are what the function takes."""
    (_, own), (_, header) = function["sig"]["inputs"]
    return {
        "is_unsafe": False,
        "generics": function["generics"],
        "trait": header["impl_trait"][0]["trait_bound"]["trait"],
        "for": own["raw_pointer"]["type"],
        "items": [],
        "names": None,
        "is_negative": name.startswith(ASIDE + "negative"),
        "is_synthetic": False,
        "blanket_impl": None,
    }


def slim(node: dict) -> dict:
    """What of an object of rustdoc's JSON `strip` looks at: of the items that no text has a line for the names alone."""
    if "inner" not in node or "crate_id" not in node:
        return node
    inner = node["inner"]
    kind, content = next(iter(inner.items())) if isinstance(inner, dict) else (inner, {})
    made_up = kind == "impl" and (content["is_synthetic"] or content["blanket_impl"] is not None)
    is_aside = kind == "function" and (node["name"] or "").startswith(ASIDE)
    if kind in KEPT and not made_up or is_aside or kind == "module":
        marks = [mark for mark in node["attrs"] if any(word in str(mark) for word in MARKS)]
        return dict(node, docs=None, links={}, attrs=marks)
    return {"id": node["id"], "crate_id": -1, "name": node["name"], "inner": "other"}


def strip(data: dict) -> dict:
    """A JSON of rustdoc, read with `slim`, without what no text has a line for: it's read in a fraction of the time."""
    index = {}
    for identifier, item in data["index"].items():
        kind = next(iter(item["inner"])) if isinstance(item["inner"], dict) else item["inner"]
        if item["crate_id"] == 0 and kind != "module" or identifier == str(data["root"]):
            index[identifier] = item
            if kind == "impl":
                item["inner"]["impl"]["names"] = member_names(item["inner"]["impl"], data["index"])
    data["index"] = index
    data["paths"] = {identifier: path for identifier, path in data["paths"].items() if path["kind"] in PATHS}
    return data


def strip_file(source: str, target: str) -> None:
    """Copies a JSON of rustdoc without what no text has a line for."""
    with open(source, encoding="utf-8") as file:
        data = json.load(file, object_hook=slim)
    with open(target, "w", encoding="utf-8") as file:
        json.dump(strip(data), file)
