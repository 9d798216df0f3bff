#!/usr/bin/env python3
"""The public calls, types and traits of the library crates, each with its comment and its contract.

    calls.py            prints each public call with the first sentence of its comment
    calls.py --check    prints the public items without a comment; status 1 where there is one
    calls.py --same     prints those whose comment begins with 'The same', which need what stands above them

What is public is what `definitions.py` takes as public: what a `pub` module or a `pub use` lets out. `make.py` makes pages of them.
"""

import argparse
import collections
import os
import re
import sys

sys.path.insert(0, os.path.dirname(os.path.abspath(__file__)))
import definitions

ROOT = definitions.ROOT
LIBRARIES = "ir_trees ir_context ir_folds ir_builder candidate_eval candidate_assembly projection_goals rounds_judge candidate_rounds derivations overlaps spelling assembly_notation assembly_text".split()
FUNCTION = re.compile(r"^(?P<indent> *)(?P<pub>pub )?(?:final )?(?:const )?fn (?P<name>\w+)")
TYPE = re.compile(r"^pub (?P<kind>struct|enum|trait|const|type) (?P<name>\w+)")
HOLDER = re.compile(r"^(?P<pub>pub )?(?P<kind>impl|trait)\b(?P<rest>.*)")
CLAUSE = re.compile(r"^\s*(?:requires|ensures|ghost|where)\b")
SENTENCE = re.compile(r".*?[.:](?=\s|$)|.+")


class Item:
    """A public item: its crate and module, its kind, its name with that of its type or trait, its comment, and the lines of its head and contract."""

    def __init__(self, crate, module, kind, name, comment, head=()):
        self.crate, self.module, self.kind, self.name, self.comment, self.head = crate, module, kind, name, comment, list(head)

    def first_sentence(self):
        """The first sentence of the comment."""
        return SENTENCE.match(" ".join(self.comment))[0].rstrip(".:") if self.comment else ""

    def place(self):
        """Its path, from the crate on."""
        return "::".join([self.crate, *filter(None, self.module.split("/")), self.name])


def comment_above(lines, at):
    """The `///` comment above a line, past attributes."""
    found = []
    while at > 0:
        line = lines[at - 1].strip()
        if line.startswith("///"):
            found.insert(0, line[3:].strip())
        elif not line.startswith("#["):
            break
        at -= 1
    return found


def holder_of(code, at, line, rest):
    """The name of an impl's type or a trait, and whether its calls are public: all of them, `pub` ones, or none."""
    kind = HOLDER.match(line)["kind"]
    if kind == "trait":
        name = re.match(r"\s*(\w+)", rest)[1]
        return name, "all" if line.startswith("pub ") else "none"
    trait, of = definitions.sides(rest)
    return of, "none" if trait or not code.is_public(at, of) else "pub"


def head_of(lines, number):
    """The lines of a function from its name on, up to its body: its arguments and its contract."""
    found = []
    for line in lines[number:]:
        if re.match(r"^ *[{}]", line) or found and FUNCTION.match(line):
            break
        found.append(line)
        if line.endswith(";") or not CLAUSE.match(line) and line.endswith(("{", "{}")):
            break
    indent = len(lines[number]) - len(lines[number].lstrip())
    return [line[indent:].removesuffix("{").removesuffix("{}").rstrip() for line in found]


def items_of(code, at, path):
    """The public items of a file."""
    crate, module = at
    lines = definitions.read(path).split("\n")
    holder, lets = "", "pub"
    found = []
    for number, line in enumerate(lines):
        of = HOLDER.match(line)
        if of:
            head = " ".join(lines[number : number + 6]).split("{")[0]
            holder, lets = holder_of(code, at, line, HOLDER.match(head)["rest"])
        elif line.startswith("}"):
            holder, lets = "", "pub"
        function, kind = FUNCTION.match(line), TYPE.match(line)
        if function and len(function["indent"]) == (4 if holder else 0) and (lets == "all" or lets == "pub" and function["pub"]):
            name = f"{holder}::{function['name']}" if holder else function["name"]
            found.append(Item(crate, module, "fn", name, comment_above(lines, number), head_of(lines, number)))
        if kind and code.is_public(at, kind["name"]):
            found.append(Item(crate, module, kind["kind"], kind["name"], comment_above(lines, number)))
    return found


def public_items():
    """All public items of the libraries, by crate."""
    definitions.CRATES = LIBRARIES
    code = definitions.Code()
    found = collections.defaultdict(list)
    for crate in LIBRARIES:
        for at in sorted(code.public):
            if at[0] == crate:
                path = os.path.join(ROOT, "crates", crate, "src", (at[1] or "lib") + ".rt")
                found[crate] += items_of(code, at, path)
    return found


def main():
    parser = argparse.ArgumentParser(description=__doc__, formatter_class=argparse.RawDescriptionHelpFormatter)
    for flag in "check", "same":
        parser.add_argument(f"--{flag}", action="store_true")
    given = parser.parse_args()
    every = [it for of in public_items().values() for it in of]
    missing = [it for it in every if not it.comment]
    if given.check:
        print("\n".join([*(f"{it.place()} has no comment" for it in missing), f"{len(every)} public items, {len(missing)} without a comment"]))
        return 1 if missing else 0
    for it in every:
        if it.comment and it.comment[0].startswith("The same") if given.same else it.kind == "fn":
            print(f"{it.place()}: {it.first_sentence()}")
    return 0


if __name__ == "__main__":
    sys.exit(main())
