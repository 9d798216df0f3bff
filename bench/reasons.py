#!/usr/bin/env python3
"""Why `check *` finds something in crates that rustc accepts: the findings of `real.py`, counted by their reasons.

`python3 bench/reasons.py FOLDER [--program PATH] CRATE ..` reads the JSON that `real.py --make` left in FOLDER, and prints a row for each reason and
kind of finding, with how many there are in each crate. The reasons are the words of `docs/DIFFERENCES.md`; `open` is one that none of them says.
In the row of `none` nothing is found: these are the pairs of which the tools find out that one impl specialises the other.
"""

import argparse
import gc
import os
import re
import sys
from collections import Counter
from typing import Dict, List, Optional

from real import read_all, read_for

from cargo_coherence.ask.answers import Speller  # noqa: E402
from cargo_coherence.ask.findings import Finding, Reasons  # noqa: E402
from cargo_coherence.to_text.model import Impl, Place, Term  # noqa: E402
from cargo_coherence.ask.program import ask, find_program  # noqa: E402
from cargo_coherence.to_text.report import Report  # noqa: E402
from cargo_coherence.to_text.crates import translate  # noqa: E402
from cargo_coherence.specialization.special import check  # noqa: E402
from cargo_coherence.to_text.writer import lines, places  # noqa: E402

LONGEST = 300  # lines of an impl that are looked through
DEFAULT = re.compile(r"\bdefault\b[^\n]*\b(fn|type|const|impl)\b|\w*default\w*!")  # `default fn`, or a macro that writes such


def specialises(general: Impl, special: Impl) -> bool:
    """Whether one impl is for an instance of the other's header, and the other has items that may be written again."""
    return _is_instance(general.header, special.header, {}) and DEFAULT.search(_source(general.named.place)) is not None


def _is_instance(general: Term, special: Term, found: Dict[str, Term]) -> bool:
    if general.head[0] == "#":
        return found.setdefault(general.head, special) == special
    pairs = list(zip(general.arguments, special.arguments))
    return general.head == special.head and all(_is_instance(left, right, found) for left, right in pairs)


def _source(place: Optional[Place]) -> str:
    """The lines of an impl in its file: to the first one that closes a brace as far to the left as it begins."""
    if place is None or place.file is None or not os.path.exists(place.file):
        return ""
    with open(place.file, encoding="utf-8") as file:
        found = file.read().split("\n")[place.line - 1:][:LONGEST]
    indent = re.match(" *", found[0])[0]
    end = next((at for at, line in enumerate(found) if line.startswith(indent + "}")), len(found))
    return "\n".join(found[:end])


def reason_of(finding: Finding, negated: List[str]) -> str:
    """The word for why rustc accepts two impls. `negated` are the traits that have a negative impl."""
    told = " | ".join(finding.reasons)
    if finding.second is not None:
        pair = (finding.first, finding.second)
        if specialises(*pair) or specialises(*pair[::-1]):
            return "special"
    if ": FnPtr holds" in told:
        return "pointer"
    if "an associated type in a header" in told:
        return "alias"
    if "leads to unsizing, so" in told:
        return "unsizing"
    if any(re.search(r"stream crate may add .*: %s holds|uses this one .*: %s holds" % (trait, trait), told) for trait in negated):
        return "negative"
    return "projection" if "what an associated type is decides nothing" in told else "open"


def count(key: str, crates: dict, depends: dict, program: str) -> Counter:
    """The findings of a crate, by reason and kind."""
    translator = translate(read_for(key, crates, depends), key, Report())
    text = "\n".join(lines(translator.world)) + "\n"
    checked = check(program, text, translator, "/")
    found = [finding for finding in checked.found if finding.is_local()]
    speller = Speller(places(translator.world)["names"])
    reasons = Reasons(speller, translator.world.impls)
    queries = reasons.queries(found)
    if queries:
        reasons.read(ask(program, checked.text, queries), ask(program, checked.text, ["mode post_analysis"] + queries[::2]))
    impls = translator.world.impls
    negated = sorted({speller.names[written.header.head]["path"].split("::")[-1] for written in impls if written.sign == "-"})
    counted = Counter((reason_of(finding, negated), finding.kind) for finding in found)
    return counted + Counter({("special", "none"): len(checked.pairs)})


def main() -> int:
    """Reads the command line. Answers the status."""
    parser = argparse.ArgumentParser(description=__doc__.split("\n", maxsplit=1)[0])
    parser.add_argument("folder", metavar="FOLDER")
    parser.add_argument("names", metavar="CRATE", nargs="+")
    parser.add_argument("--program", metavar="PATH", help="the program, if it needn't be built")
    options = parser.parse_intermixed_args()
    gc.disable()
    program = find_program(options.program, os.path.expanduser("~/.cache/rilgomut"))
    crates, depends = read_all(options.folder)
    keys = {key.split("@")[0]: key for key in crates}
    counts = {name: count(keys[name], crates, depends, program) for name in options.names}
    print("| reason | finding | %s |" % " | ".join(counts))
    print("|---|---|%s" % ("--:|" * len(counts)))
    for row in sorted({row for found in counts.values() for row in found}):
        print("| `%s` | `%s` | %s |" % (*row, " | ".join(str(found[row]) for found in counts.values())))
    return 0


if __name__ == "__main__":
    sys.exit(main())
