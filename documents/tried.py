#!/usr/bin/env python3
"""Which rows and tests try which public call.

`python3 documents/tried.py` prints, as a table, each public call of the libraries that can stop (its answer names `Stop`, `DeclFault` or what
holds one) with the files of rows, tests and clients that call it by that name, and 0 where none does. `--all` prints every public call,
`--missing` those alone that none calls. Rows are run with growths refused in the gate (`./check "row growths"`), and so is the program
(`refuse.py --built`).
"""

import argparse
import glob
import os
import re
import sys

sys.path.insert(0, os.path.dirname(os.path.abspath(__file__)))
import calls

ROOT = os.path.dirname(os.path.dirname(os.path.abspath(__file__)))
LIBRARIES = (
    "ir_trees ir_context ir_folds ir_builder candidate_eval candidate_assembly rounds_judge derivations candidate_rounds "
    "projection_goals overlaps examples"
).split()
CALLERS = "texts projection_goals overlaps examples".split()
TEXT = ["assembly_notation", "assembly_text"]
STOPS = re.compile(r"\b(Stop|DeclFault|NoSolutionOrStop|OrphanStop|NormalizeErr|StopOrAmbiguous|Ambiguous)\b")
CLAUSES = ("requires", "ensures", "ghost", "where")


def sources(crates):
    for crate in crates:
        for path in sorted(glob.glob(os.path.join(ROOT, "crates", crate, "src", "**", "*.rt"), recursive=True)):
            with open(path) as file:
                yield os.path.relpath(path, os.path.join(ROOT, "crates")), re.sub(r"//[^\n]*", "", file.read())


def rows():
    """The sources that make the calls of rows, and the tests of calls beside them."""
    for path in sorted(glob.glob(os.path.join(ROOT, "tests", "rows", "*", "**", "*.rs"), recursive=True)):
        with open(path) as file:
            yield os.path.relpath(path, ROOT), re.sub(r"//[^\n]*", "", file.read())


def named_calls():
    """The public calls of the libraries: by their names their paths, and their crates."""
    every = [it for of in calls.public_items().values() for it in of if it.kind == "fn" and it.crate in LIBRARIES]
    return {it.name.rpartition("::")[2]: (it.place(), it.crate) for it in every}


def signatures():
    """What each function of the libraries answers, by its name; several of one name are joined."""
    found = {}
    for _, text in sources(LIBRARIES):
        for name, rest in re.findall(r"\bfn (\w+)\b([^{;]*)", text):
            answer = rest.rpartition("->")[2] if "->" in rest else ""
            for word in CLAUSES:
                answer = re.split(r"\n\s+%s\b" % word, answer)[0]
            found[name] = found.get(name, "") + answer
    return found


def callers(last, crate, texts):
    """The files that call a function of that name, besides those of its crate. Where a crate has a function of that name itself, what its
    files call by the name alone is that one, unless they import it from a library."""
    call = r"\b%s(::<[^>]*>)?\(" % last
    free, declared = re.compile(r"(?<![.:\w])" + call), re.compile(r"\bfn %s\b" % last)
    imported = re.compile(r"\buse (?:%s)::[^;]*\b%s\b" % ("|".join(LIBRARIES), last))
    own = {of_crate(path) for path, text in texts if re.search(r"^(pub(\(\w+\))? )?fn %s\b" % last, text, re.M)}
    found = []
    for path, text in texts:
        called = declared.sub("", text)
        if of_crate(path) in own and not imported.search(text):
            called = free.sub("", called)
        if of_crate(path) != crate and re.search(call, called):
            found.append(path)
    return found


def of_crate(path):
    return path.partition(os.sep)[0]


def main():
    words = argparse.ArgumentParser(description=__doc__, formatter_class=argparse.RawDescriptionHelpFormatter)
    words.add_argument("--all", action="store_true", help="calls that can't stop, too")
    words.add_argument("--missing", action="store_true", help="those alone that nothing calls")
    asked = words.parse_args()
    answers, texts = signatures(), [*sources(CALLERS + TEXT), *rows()]
    print("| call | rows, tests and clients |\n|---|---|")
    for last, (name, crate) in named_calls().items():
        if last not in answers or not (asked.all or STOPS.search(answers[last])):
            continue
        found = callers(last, crate, texts)
        if asked.missing and found:
            continue
        print("| `%s` | %s |" % (name, ", ".join(path.replace("/src/", "/").removesuffix(".rt") for path in found[:4]) or "0"))


if __name__ == "__main__":
    main()
