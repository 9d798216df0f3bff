#!/usr/bin/env python3
"""What the rows in `tests/rows/data` are answered by plain Rust of the sources, beside what stands there.

    rows.py [context|rules ..]    shows each row whose answer would change; of both files where none is named
    rows.py --accept [..]         writes those answers into the files, too
    rows.py --build FOLDER [..]   leaves the Cargo workspace of plain Rust in the folder, and keeps what was compiled there of the same sources

A file has rows, each with ` => ` and its answer behind it; a row without one is a row that would change. `docs/ROWS.md` says how rows are written.
Status 1 says that something would change, or that the program failed. Whether an answer is right is for its reader to say.
"""

import argparse
import os
import subprocess
import sys
import tempfile

import plain
from plain import ROOT

DATA = os.path.join(ROOT, "tests", "rows", "data")
FILES = ["context", "rules"]

# Between a row and its answer.
ANSWER = " => "


def built(folder):
    """The program of rows, made in the folder."""
    plain.write_cargo(folder)
    done = subprocess.run(["cargo", "build", "--offline", "--quiet", "-p", "rows"], cwd=folder)
    if done.returncode:
        sys.exit("rows: plain Rust of the sources isn't compiled")
    return os.path.join(os.environ.get("CARGO_TARGET_DIR", os.path.join(folder, "target")), "debug", "rows")


def compare(name, program, is_accepting):
    """Shows the rows of a file that would change, and writes their answers; says how many change, or None where the program failed."""
    path = os.path.join(DATA, name + ".txt")
    with open(path) as given:
        old = given.read().splitlines()
    rows = [line.partition(ANSWER)[0] for line in old]
    done = subprocess.run([program, name], input="\n".join(rows) + "\n", capture_output=True, text=True)
    new = done.stdout.splitlines()
    if done.returncode or [line.partition(ANSWER)[0] for line in new] != rows:
        print("! %s ends with status %d: %s" % (name, done.returncode, done.stderr))
        return None
    changed = 0
    for number, (was, line) in enumerate(zip(old, new), 1):
        if was != line:
            changed += 1
            print("tests/rows/data/%s.txt:%d: %s" % (name, number, rows[number - 1]))
            for side, text in (("-", was), ("+", line)):
                if ANSWER in text:
                    print("%s %s" % (side, text.partition(ANSWER)[2]))
    if is_accepting and changed:
        with open(path, "w") as taken:
            taken.write("\n".join(new) + "\n")
    print("%s: %d rows, %d %s" % (name, sum(ANSWER in line for line in new), changed, "written" if is_accepting else "would change"))
    return changed


def main():
    words = argparse.ArgumentParser(description=__doc__, formatter_class=argparse.RawDescriptionHelpFormatter)
    words.add_argument("names", nargs="*", metavar="NAME", help="context or rules; both if left out")
    words.add_argument("--accept", action="store_true", help="write the answers")
    words.add_argument("--build", metavar="FOLDER", help="where plain Rust is left; a temporary folder if left out")
    asked = words.parse_args()
    for name in asked.names:
        if name not in FILES:
            words.error("%s is none of %s" % (name, ", ".join(FILES)))
    with tempfile.TemporaryDirectory() as folder:
        program = built(asked.build or folder)
        found = [compare(name, program, asked.accept) for name in asked.names or FILES]
    sys.exit(1 if None in found or (any(found) and not asked.accept) else 0)


if __name__ == "__main__":
    main()
