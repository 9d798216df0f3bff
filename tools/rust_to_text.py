#!/usr/bin/env python3
"""A text for the program `assembly` out of what rustdoc says of crates.

`python3 tools/rust_to_text.py NAME.json .. [--local NAME] [--places FILE] > TEXT` reads files that `rustdoc --output-format json` wrote, and
writes a text that `check *` may follow. The last crate is the local one, or the one that `--local` names; core, alloc and std belong to the
crates. What a text can't say is counted and named on the standard error. The file of places has, for each impl and each other name of the
text, its file, its line and Rust's spelling. See docs/RUST.md.
"""

import argparse
import gc
import json
import sys
from typing import List, Optional

from cargo_coherence.to_text.report import Report
from cargo_coherence.from_rustdoc.rust_json import Unreadable, read_crate
from cargo_coherence.to_text.crates import said, told_shared, translate
from cargo_coherence.to_text.writer import lines, places


def main(arguments: Optional[List[str]] = None) -> int:
    """Reads the command line and writes the text. Answers the status."""
    parser = argparse.ArgumentParser(description=__doc__.split("\n")[0])
    parser.add_argument("files", nargs="+", metavar="NAME.json")
    parser.add_argument("--local", metavar="NAME", help="the crate that is checked (the last one if absent)")
    parser.add_argument("--places", metavar="FILE", help="write where each name of the text is declared")
    parser.add_argument("--quiet", action="store_true", help="count what can't be said, and don't name it")
    parser.add_argument("--any-format", action="store_true", help="also read formats of other numbers")
    options = parser.parse_args(arguments)
    try:
        crates = [read_crate(file, None, options.any_format) for file in options.files]
    except Unreadable as error:
        print("rust_to_text: %s" % error, file=sys.stderr)
        return 2
    local = options.local or crates[-1].key
    keys = [crate.key for crate in crates]
    twice = {key for key in keys if keys.count(key) > 1}
    if local not in keys or twice:
        print("rust_to_text: %s" % ("two crates are named %s" % min(twice) if twice else "no crate is named %s" % local), file=sys.stderr)
        return 2
    report = Report()
    translator = translate(crates, local, report)
    for line in lines(translator.world):
        print(line)
    if options.places:
        with open(options.places, "w", encoding="utf-8") as file:
            json.dump(places(translator.world), file, indent=1)
    report.tell(options.quiet)
    if told_shared(crates):
        print(told_shared(crates), file=sys.stderr)
    print(said(translator, report), file=sys.stderr)
    return 0


if __name__ == "__main__":
    gc.disable()  # what is read stays
    sys.exit(main())
