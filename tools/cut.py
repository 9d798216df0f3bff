#!/usr/bin/env python3
"""A part of a text: `python3 tools/cut.py TEXT TRAIT.. > PART` keeps the impls of these traits, and what they and what is kept name.

Impls of other traits are left out, so that a clause on such a trait is refused where the trait is one of the local crate. Fields, super clauses,
where clauses and bounds are kept of all that is kept; so are the lines that say which traits the language knows.
"""

import sys
from typing import Dict, List, Set

DECLARES = {"adt": 2, "foreign": 2, "trait": 2, "assoc": 2, "opaque": 2, "impl": 2}
HOLDS = {"field", "sized", "metasized", "unsizing", "super", "where", "bound", "nbound", "iwhere", "value", "default", "specializes"}


def kept(lines: List[List[str]], traits: Set[str]) -> List[List[str]]:
    """The lines that are kept, in their order."""
    declared: Dict[str, List[str]] = {words[DECLARES[words[0]]]: words for words in lines if words[0] in DECLARES}
    held: Dict[str, List[List[str]]] = {}
    for words in lines:
        if words[0] in HOLDS:
            held.setdefault(words[1], []).append(words)
    names: Set[str] = set()
    waiting = [words[2] for words in lines if words[0] == "impl" and words[5] in traits]
    while waiting:
        name = waiting.pop()
        if name in names or name not in declared:
            continue
        names.add(name)
        for words in [declared[name], *held.get(name, [])]:
            waiting += [word for word in words[1:] if word in declared and word not in names]
    return [words for words in lines if stays(words, names)]


def stays(words: List[str], names: Set[str]) -> bool:
    """Whether a line is about what is kept."""
    if words[0] in DECLARES:
        return words[DECLARES[words[0]]] in names
    return words[1] in names if words[0] in HOLDS else words[0] != "lang" or words[2] in names


def main() -> int:
    if len(sys.argv) < 3:
        print(__doc__.split("\n")[0], file=sys.stderr)
        return 2
    with open(sys.argv[1], encoding="utf-8") as file:
        lines = [line.split() for line in file if line.strip() and not line.startswith("//")]
    for words in kept(lines, set(sys.argv[2:])):
        print(" ".join(words))
    return 0


if __name__ == "__main__":
    sys.exit(main())
