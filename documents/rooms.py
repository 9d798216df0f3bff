#!/usr/bin/env python3
"""What is in each source, each file of definitions and each file of lemmas: the first sentence in it.

    rooms.py            prints each file with its first sentence, by crate
    rooms.py --check    prints the files that have none; status 1 where there is one

Answers to the goals of a function aren't listed. They stand in `proofs/` at the path of the function. `make.py` makes a page of the list.
"""

import argparse
import glob
import os
import re
import sys

ROOT = os.path.dirname(os.path.dirname(os.path.abspath(__file__)))

# The folders of a crate, each with the kind of its files, the mark of their comments, what its files are, and those that aren't listed.
FOLDERS = (
    ("src", ".rt", "//!", "Sources", ()),
    ("specs", ".antt", "--", "Definitions", ()),
    ("proofs", ".antt", "--", "Lemmas", ("Answers", "Invariants", "Proof")),
)


def crates():
    """The crates in the order of `crates.txt`."""
    with open(os.path.join(ROOT, "crates.txt")) as lines:
        return [line.split(":")[0].split()[0] for line in lines if line.strip() and not line.startswith("#")]


def first_sentence(path, mark):
    """What a file says of itself: the first sentence of its first comment, or `None`."""
    words = []
    with open(path) as given:
        for line in given:
            if not line.startswith(mark) or not line[len(mark) :].strip():
                break
            words += line[len(mark) :].split()
            if words[-1].endswith((".", ":")):
                break
    said = re.match(r".*?[.:](?=\s|$)|.+", " ".join(words))
    return said.group().rstrip(":.") if said else None


def is_index(path):
    """Whether a file lists others and has nothing of its own: the index of a room."""
    with open(path) as given:
        return all(line.startswith(("pub mod", "mod ")) or not line.strip() for line in given)


def files_of(crate, folder):
    """The files of a folder of a crate that are listed: each with its place in the folder, and its first sentence or `None`."""
    name, end, mark, _, left_out = folder
    base = os.path.join(ROOT, "crates", crate, name)
    for path in sorted(glob.glob(os.path.join(base, "**", "*" + end), recursive=True)):
        place = os.path.relpath(path, base)[: -len(end)]
        if os.path.basename(place) not in left_out and not (end == ".antt" and is_index(path)):
            yield path, place, first_sentence(path, mark)


def main():
    words = argparse.ArgumentParser(description=__doc__, formatter_class=argparse.RawDescriptionHelpFormatter)
    words.add_argument("--check", action="store_true", help="prints the files that don't say what is in them; status 1 where there is one")
    is_check = words.parse_args().check
    missing = count = 0
    for crate in crates():
        for folder in FOLDERS:
            for path, _, told in files_of(crate, folder):
                count, missing = count + 1, missing + (told is None)
                if not is_check or told is None:
                    print("%s: %s" % (os.path.relpath(path, ROOT), told or "doesn't say what is in it"))
    if is_check:
        print("%d files, %d don't say what is in them" % (count, missing))
    sys.exit(1 if is_check and missing else 0)


if __name__ == "__main__":
    main()
