#!/usr/bin/env python3
"""A small std for tests: `python3 tools/small_std.py STD FOLDER` keeps of the JSON of core, alloc and std the traits and types that are named here.

An impl is kept where all that its header and clauses name is kept. Fields of types are left out. What comes out is no part of Rust's std as it is,
but enough for the examples in `tools/examples`, and a hundredth of its size: tests read it where there is no JSON of std. Rust's std is by the Rust
project's authors, under MIT or Apache 2.0.
"""

import json
import os
import sys
from typing import Dict, Iterator, Set

STD = ("core", "alloc", "std")
TRAITS = """
Sized MetaSized PointeeSized Copy Clone TrivialClone Display Debug Iterator IntoIterator From Into Fn FnMut FnOnce FnPtr Tuple Send Sync Default Drop
Unsize Allocator Deref Borrow ToString ToOwned
""".split()
TYPES = "Vec Box Rc Arc String Option Result Global PhantomData ManuallyDrop Formatter IntoIter Cow Cell RefCell".split()
NAMED = {
    "core": "alloc marker clone fmt iter convert ops cmp hash default option result panic borrow cell mem error array ptr".split(),
    "alloc": "vec boxed rc sync string alloc borrow".split(),
    "std": [],
}


def is_kept(path: dict) -> bool:
    """Whether a path leads to something that is kept."""
    parts = path["path"]
    name, kind = parts[-1], path["kind"]
    is_named = kind == "trait" and name in TRAITS or kind in ("struct", "enum", "union") and name in TYPES
    return is_named and parts[0] in NAMED and len(parts) > 2 and parts[1] in NAMED[parts[0]]


def ids_in(node) -> Iterator[int]:
    """The numbers of the items that a type, a bound or a clause names."""
    if isinstance(node, dict):
        if "path" in node and isinstance(node.get("id"), int):
            yield node["id"]
        for value in node.values():
            yield from ids_in(value)
    elif isinstance(node, list):
        for value in node:
            yield from ids_in(value)


def small(data: dict) -> dict:
    """The JSON of a crate with what is kept."""
    kept: Set[int] = {int(identifier) for identifier, path in data["paths"].items() if is_kept(path)}
    index: Dict[str, dict] = {str(data["root"]): data["index"][str(data["root"])]}
    parts: Set[int] = set()
    for identifier, item in data["index"].items():
        kind, content = next(iter(item["inner"].items())) if isinstance(item["inner"], dict) else (item["inner"], {})
        if int(identifier) in kept and kind in ("struct", "enum", "union", "trait"):
            index[identifier] = dict(item, inner={kind: bare(kind, content, kept)})
            parts |= set(content.get("items", []))
        elif kind == "impl" and content["trait"] and kept.issuperset(ids_in([content["trait"], content["for"], content["generics"]])):
            index[identifier] = item
            parts |= set(content["items"])
    for identifier in parts:
        item = data["index"].get(str(identifier))
        if item is not None and "assoc_type" in item["inner"] and kept.issuperset(ids_in(item["inner"])):
            index[str(identifier)] = item
    index[str(data["root"])]["inner"] = {"module": {"items": [], "is_crate": True, "is_stripped": False}}
    paths = {identifier: path for identifier, path in data["paths"].items() if int(identifier) in kept}
    return dict(data, index=index, paths=paths)


def bare(kind: str, content: dict, kept: Set[int]) -> dict:
    """A definition without its fields, and without bounds that name what isn't kept."""
    content = dict(content, impls=[], implementations=[])
    if kind == "struct":
        content["kind"] = "unit"
    elif kind == "enum":
        content["variants"] = []
    elif kind == "trait":
        content["bounds"] = [bound for bound in content["bounds"] if kept.issuperset(ids_in(bound))]
    return content


def main() -> int:
    if len(sys.argv) != 3:
        print(__doc__.split("\n", maxsplit=1)[0], file=sys.stderr)
        return 2
    os.makedirs(sys.argv[2], exist_ok=True)
    for name in STD:
        with open(os.path.join(sys.argv[1], name + ".json"), encoding="utf-8") as file:
            data = small(json.load(file))
        for item in data["index"].values():
            item.update(docs=None, links={}, span=None)
        with open(os.path.join(sys.argv[2], name + ".json"), "w", encoding="utf-8") as file:
            json.dump(data, file, separators=(",", ":"), sort_keys=True)
            file.write("\n")
    return 0


if __name__ == "__main__":
    sys.exit(main())
