"""The command line, with cargo's own words where cargo has them."""

import argparse
import os
from typing import List, Optional

from cargo_coherence import VERSION
from cargo_coherence.from_rustdoc.cargo_json import Request

KINDS = (("bin", "bins", "programs"), ("example", "examples", "examples"), ("test", "tests", "integration tests"), ("bench", "benches", "benchmarks"))
FORMATS = ("human", "short", "json", "sarif")
EPILOG = """status: 0 nothing is refused; 1 an error, what --deny says, or a goal that doesn't hold; 2 nothing was checked, since a step failed.
CARGO, RUSTC and RUSTDOC may name the toolchain. See docs/RUST.md of the project."""


def parser() -> argparse.ArgumentParser:
    """The options that there are."""
    words = argparse.ArgumentParser(
        prog="cargo coherence",
        description="Checks the impls of a Cargo package: which of them conflict, which break the orphan rule, and why does a goal hold?",
        epilog=EPILOG,
        formatter_class=argparse.RawDescriptionHelpFormatter,
    )
    words.add_argument("--version", action="version", version="cargo-coherence " + VERSION)
    words.add_argument("-q", "--quiet", action="store_true", help="print no more than what is found")
    words.add_argument("-v", "--verbose", action="store_true", help="say how much of the crates is read")
    _add_output(words.add_argument_group("what is printed"))
    _add_goals(words.add_argument_group("goals"))
    _add_packages(words.add_argument_group("packages, as cargo has them"))
    _add_targets(words.add_argument_group("targets, as cargo has them"))
    _add_features(words.add_argument_group("features and compilation, as cargo has them"))
    _add_further(words.add_argument_group("further"))
    return words


def _add_output(words) -> None:
    words.add_argument("--message-format", choices=FORMATS, default="human", metavar="FORMAT", help="one of " + ", ".join(FORMATS))
    words.add_argument("--color", choices=("auto", "always", "never"), default="auto", metavar="WHEN", help="auto, always or never")
    words.add_argument("--deny", choices=("undecided", "warnings"), action="append", default=[], metavar="WHAT", help="`undecided` or `warnings` count as errors")
    words.add_argument("--baseline", metavar="FILE", help="pass over what is listed in the file")
    words.add_argument("--write-baseline", metavar="FILE", help="list all that is found in the file, and end with status 0")
    words.add_argument("--all-crates", action="store_true", help="also tell what is found among dependencies")
    words.add_argument("--unsaid", action="store_true", help="name what can't be translated")


class _Goal(argparse.Action):
    """Keeps goals of all kinds in their order."""

    def __call__(self, _parser, namespace, value, option=None):
        kind = "candidates" if option == "--candidates" else "why"
        namespace.goals = [*namespace.goals, (kind, value)]


def _add_goals(words) -> None:
    words.add_argument("--ask", "--why", metavar="GOAL", action=_Goal, nargs="?", dest="goals", default=[], help="why does a goal hold, as `Vec<u8>: Clone`; a prompt without a goal")
    words.add_argument("--candidates", metavar="GOAL", action=_Goal, dest="goals", default=[], help="in which ways may a goal hold?")
    words.add_argument("--why-overlap", metavar=("A", "B"), nargs=2, help="why do two impls overlap or not? Each is FILE:LINE")
    words.add_argument("--coherence", action="store_true", help="ask goals as the check does: what other crates may add counts")


def _add_packages(words) -> None:
    words.add_argument("-p", "--package", metavar="SPEC", action="append", default=[], help="check this package")
    words.add_argument("--workspace", action="store_true", help="check all packages of the workspace")
    words.add_argument("--exclude", metavar="SPEC", action="append", default=[], help="leave this package of the workspace out")
    words.add_argument("--manifest-path", metavar="PATH", help="the Cargo.toml of the package or workspace")


def _add_targets(words) -> None:
    words.add_argument("--lib", action="store_true", help="check the library")
    for kind, several, told in KINDS:
        words.add_argument("--" + several, action="store_true", help="check all " + told)
        words.add_argument("--" + kind, metavar="NAME", action="append", default=[], help="check this one")
    words.add_argument("--all-targets", action="store_true", help="check all of these")


def _add_features(words) -> None:
    words.add_argument("-F", "--features", metavar="FEATURES", action="append", default=[], help="features that are on")
    words.add_argument("--all-features", action="store_true", help="all features are on")
    words.add_argument("--no-default-features", action="store_true", help="the `default` feature is off")
    words.add_argument("--target", metavar="TRIPLE", help="the target that is compiled for")
    words.add_argument("-r", "--release", action="store_true", help="compile dependencies in release mode")
    words.add_argument("--profile", metavar="NAME", help="compile dependencies in this profile")
    words.add_argument("-j", "--jobs", metavar="N", help="how many jobs cargo may run at once")
    for word in ("offline", "locked", "frozen"):
        words.add_argument("--" + word, action="store_true", help="as cargo has it")
    words.add_argument("--config", metavar="KEY=VALUE", action="append", default=[], help="as cargo has it")


def _add_further(words) -> None:
    words.add_argument("--std", metavar="FOLDER", help="where core.json, alloc.json and std.json are")
    words.add_argument("--program", metavar="PATH", help="the program that decides, if it needn't be built")
    words.add_argument("--cache", metavar="FOLDER", default=os.path.expanduser("~/.cache/rilgomut"), help="where what is made is kept")
    words.add_argument("--text", metavar="FILE", help="keep the program's text of the last crate")
    words.add_argument("--any-format", action="store_true", help="also read rustdoc's JSON of formats with other numbers")


def options_of(arguments: List[str]) -> argparse.Namespace:
    """The options of a command line, where cargo may have put the command's own name first."""
    if arguments[:1] == ["coherence"]:
        arguments = arguments[1:]
    options = parser().parse_args(arguments)
    options.cache = os.path.abspath(options.cache)
    return options


def find_manifest(given: Optional[str], folder: str) -> Optional[str]:
    """The manifest that is given, or the one in a folder or the nearest one above it; nothing if there is none."""
    if given is not None:
        path = os.path.join(given, "Cargo.toml") if os.path.isdir(given) else given
        return os.path.abspath(path) if os.path.exists(path) else None
    while not os.path.exists(os.path.join(folder, "Cargo.toml")):
        above = os.path.dirname(folder)
        if above == folder:
            return None
        folder = above
    return os.path.join(folder, "Cargo.toml")


def request_of(options: argparse.Namespace, manifest: str) -> Request:
    """What is asked of cargo."""
    request = Request(manifest, options.package, options.exclude, options.workspace, triple=options.target)
    if options.all_targets:
        request.kinds = {"lib", *(kind for kind, _, _ in KINDS)}
    request.kinds |= {"lib"} if options.lib else set()
    for kind, several, _ in KINDS:
        request.kinds |= {kind} if getattr(options, several) else set()
        request.names += [(kind, name) for name in getattr(options, kind)]
    request.features = [word for features in options.features for word in ("--features", features)]
    request.features += ["--all-features"] * options.all_features + ["--no-default-features"] * options.no_default_features
    request.further = ["--" + word for word in ("release", "offline", "locked", "frozen") if getattr(options, word)]
    for word in ("profile", "jobs"):
        request.further += ["--" + word, getattr(options, word)] if getattr(options, word) else []
    request.further += [word for config in options.config for word in ("--config", config)]
    return request
