#!/usr/bin/env python3
"""Checks one crate over the libraries that `rt ci` built in a checkout, which takes half a minute for a small client.

    check.py CRATE --built FOLDER [--test] [rattle's flags]

FOLDER is a checkout in which the whole `rt ci` ran, or the gate, with the same sources of the libraries: it has them in `crates/NAME/out/rlib`. What was
checked is kept in the crate's folder `out/over`, so that a check after an edit takes less. It is no verdict: that is the gate's. With `--test` the
tests are checked, too. Further flags are rattle's, as `--only FUNCTION` and `--short-goals`.
"""

import argparse
import os
import subprocess
import sys

from wrong_bodies import ROOT, Crate


def main():
    words = argparse.ArgumentParser(description=__doc__, formatter_class=argparse.RawDescriptionHelpFormatter)
    words.add_argument("crate", help="the crate")
    words.add_argument("--built", required=True, metavar="FOLDER", help="a checkout in which the libraries below are built")
    asked, flags = words.parse_known_args()
    crate = Crate(asked.crate, os.path.abspath(asked.built))
    missing = [name for name in crate.below() if not os.path.isdir(crate.rlib(name))]
    if missing:
        sys.exit(f"check: not built in {asked.built}: {' '.join(missing)}")
    folder = os.path.join(ROOT, "crates", asked.crate)
    kept = os.path.join(folder, "out", "over")
    os.makedirs(kept, exist_ok=True)
    return subprocess.run([*crate.command(), "--incremental", kept, *flags], cwd=folder).returncode


if __name__ == "__main__":
    sys.exit(main())
