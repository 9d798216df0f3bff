#!/usr/bin/env python3
"""Whether docs/UPSTREAM.md is up to date.

`python3 documents/upstream.py` checks each place that the document names: the module is a file or a folder of the crate's sources, and what it
ends with is a function, a type or a module there. With `--files FOLDER`, where the four upstream files lie, each of their functions must have a row in
its section, and each row a function. It ends with status 1 where something is missing.
"""

import argparse
import glob
import os
import re
import sys

ROOT = os.path.dirname(os.path.dirname(os.path.abspath(__file__)))
DOCUMENT = os.path.join(ROOT, "docs", "UPSTREAM.md")

ROW = re.compile(r"^\| `(\w+)` \| (?:`([\w:]+)`)? ?\|", re.MULTILINE)
SECTION = re.compile(r"^## (\S+\.rs)\n(.*?)(?=^## )", re.MULTILINE | re.DOTALL)
PLACE = re.compile(r"`((?:candidate|projection|overlaps)\w*(?:::\w+)+)`")
FUNCTION = re.compile(r"^\s*(?:pub(?:\([\w: ]+\))? )?(?:const )?(?:unsafe )?fn (\w+)", re.MULTILINE)


def sources(crate, modules):
    """The files in which a path of modules ends."""
    base = os.path.join(ROOT, "crates", crate, "src", *modules)
    return [path for path in (base + ".rt", os.path.join(base, "lib.rt")) if os.path.isfile(path)]


def is_there(place):
    """Whether a place is an item of its module, or a module."""
    crate, *path = place.split("::")
    if sources(crate, path):
        return True
    item = re.compile(r"\b(?:fn|struct|enum|trait|const) %s\b" % path[-1])
    for file in sources(crate, path[:-1]):
        with open(file) as given:
            if item.search(given.read()):
                return True
    return False


def functions_of(folder, name):
    """The functions of an upstream file, or `None` where it isn't at hand."""
    if folder is None:
        return None
    flat = name.replace("/", "--")
    found = glob.glob(os.path.join(folder, flat + "*")) or glob.glob(os.path.join(folder, name))
    if not found:
        return None
    with open(found[0]) as given:
        return set(FUNCTION.findall(given.read()))


def main():
    words = argparse.ArgumentParser(description=__doc__, formatter_class=argparse.RawDescriptionHelpFormatter)
    words.add_argument("--files", help="the folder of the four upstream files")
    folder = words.parse_args().files
    with open(DOCUMENT) as given:
        text = given.read()
    missing = ["%s isn't there" % place for place in PLACE.findall(text) if not is_there(place)]
    rows = 0
    for name, section in SECTION.findall(text):
        told = {row[0] for row in ROW.findall(section)}
        rows += len(ROW.findall(section))
        real = functions_of(folder, name)
        if real is not None:
            missing += ["%s: no row for %s" % (name, one) for one in sorted(real - told)]
            missing += ["%s: no function %s" % (name, one) for one in sorted(told - real)]
    for line in missing:
        print(line)
    print("%d rows, %d missing" % (rows, len(missing)))
    sys.exit(1 if missing else 0)


if __name__ == "__main__":
    main()
