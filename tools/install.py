#!/usr/bin/env python3
"""Installs `cargo coherence` and `rilgomut`: `python3 tools/install.py` from a clone.

It builds the program that decides, copies it with the Python package into a folder of the user, and puts the commands `cargo-coherence` and
`rilgomut` where cargo finds them. The clone isn't needed any more then. No network is used. What is missing is said in a line, which doesn't end it unless it is rustc.
"""

import argparse
import os
import shutil
import sys
from typing import List, Optional

HERE = os.path.dirname(os.path.abspath(__file__))
sys.path.insert(0, HERE)

from cargo_coherence import VERSION  # noqa: E402
from cargo_coherence.ask.program import find_program  # noqa: E402
from cargo_coherence.from_rustdoc.toolchain import NO_SOURCES, StepFailed, find_toolchain, std_sources  # noqa: E402

LAUNCHER = """#!/bin/sh
exec "%s" -c 'import sys; sys.path.insert(0, sys.argv.pop(1)); from cargo_coherence.command import main; sys.exit(main())' "%s" "$@"
"""


def install(folder: str, bin_folder: str, cache: str) -> str:
    """Copies all that is needed into a folder, and the program beside the command, which it answers. Raises `StepFailed`."""
    program = find_program(None, cache)
    package = os.path.join(folder, "cargo_coherence")
    shutil.rmtree(package, ignore_errors=True)
    shutil.copytree(os.path.join(HERE, "cargo_coherence"), package, ignore=shutil.ignore_patterns("__pycache__"))
    os.makedirs(bin_folder, exist_ok=True)
    for place in (folder, bin_folder):
        shutil.copy2(program, os.path.join(place, "rilgomut"))
    command = os.path.join(bin_folder, "cargo-coherence")
    with open(command, "w", encoding="utf-8") as file:
        file.write(LAUNCHER % (sys.executable, folder))
    os.chmod(command, 0o755)
    return command


def lacking(bin_folder: str) -> List[str]:
    """What is missing for the command to run, a line each. Raises `StepFailed` where there is no rustc."""
    toolchain = find_toolchain()
    found = [] if std_sources(toolchain) else [NO_SOURCES]
    on_path = [os.path.realpath(place) for place in os.environ.get("PATH", "").split(os.pathsep) if place]
    if os.path.realpath(bin_folder) not in on_path:
        found.append("%s isn't on the PATH: cargo finds the command all the same if it is the folder `bin` of CARGO_HOME" % bin_folder)
    return found


def main(arguments: Optional[List[str]] = None) -> int:
    """Installs. Answers the status: 2 where a step failed."""
    data = os.environ.get("XDG_DATA_HOME") or os.path.expanduser("~/.local/share")
    cargo = os.environ.get("CARGO_HOME") or os.path.expanduser("~/.cargo")
    words = argparse.ArgumentParser(description=__doc__.split("\n", maxsplit=1)[0])
    words.add_argument("--into", metavar="FOLDER", default=os.path.join(data, "cargo-coherence"), help="where the package is copied to")
    words.add_argument("--bin", metavar="FOLDER", default=os.path.join(cargo, "bin"), help="where the command is put")
    words.add_argument("--cache", metavar="FOLDER", default=os.path.expanduser("~/.cache/rilgomut"), help="where what is built is kept")
    options = words.parse_args(arguments)
    try:
        for line in lacking(options.bin):
            print("missing: %s" % line, flush=True)
        command = install(os.path.abspath(options.into), os.path.abspath(options.bin), os.path.abspath(options.cache))
    except (StepFailed, OSError) as error:
        print("install: %s" % error, file=sys.stderr)
        return 2
    print("installed cargo-coherence %s as %s" % (VERSION, command))
    return 0


if __name__ == "__main__":
    sys.exit(main())
