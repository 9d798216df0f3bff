"""How diagnostics are printed: for people, as cargo's JSON, or as SARIF; and files of those that are passed over."""

import argparse
import json
import os
import sys
from typing import Dict, List, Optional

from cargo_coherence import VERSION
from cargo_coherence.from_rustdoc.toolchain import StepFailed
from cargo_coherence.run import Result
from cargo_coherence.verdict.diagnostics import LEVELS, Diagnostic, Renderer, as_json
from cargo_coherence.verdict.sources import Span

BASELINE = 1  # the number of the form of these files
SARIF = "https://json.schemastore.org/sarif-2.1.0.json"


class Output:
    """Prints diagnostics, each when it is found."""

    def __init__(self, colours: bool = False) -> None:
        self.colours = colours

    def tell(self, result: Result, diagnostic: Diagnostic) -> None:
        """Prints one."""
        print(Renderer(result.sources, self.colours).render(diagnostic), flush=True)

    def end(self, success: bool) -> None:
        """Prints what comes behind the last one."""


class Short(Output):
    """A line for each, as rustc's `--error-format short` has it."""

    def tell(self, result: Result, diagnostic: Diagnostic) -> None:
        span = diagnostic.primary()
        place = "%s:%d:%d: " % (span.file, span.line_start, span.column_start) if span else ""
        code = "[%s]" % diagnostic.code if diagnostic.code and diagnostic.code.startswith("E") else ""
        print("%s%s%s: %s" % (place, diagnostic.level, code, diagnostic.message), flush=True)


class Json(Output):
    """An object in a line, as cargo's `--message-format json` has it."""

    def tell(self, result: Result, diagnostic: Diagnostic) -> None:
        unit = result.unit
        rendered = Renderer(result.sources).render(diagnostic) + "\n"
        target = {"kind": [unit.target.kind], "crate_types": [unit.target.kind], "name": unit.target.name, "src_path": unit.target.source}
        message = {
            "reason": "compiler-message",
            "package_id": unit.package.identifier,
            "manifest_path": os.path.join(unit.package.folder, "Cargo.toml"),
            "target": target,
            "message": as_json(diagnostic, result.sources, rendered),
        }
        print(json.dumps(message), flush=True)

    def end(self, success: bool) -> None:
        print(json.dumps({"reason": "build-finished", "success": success}))


class Sarif(Output):
    """One object at the end."""

    def __init__(self) -> None:
        super().__init__()
        self.results: List[dict] = []

    def tell(self, result: Result, diagnostic: Diagnostic) -> None:
        primary = diagnostic.primary()
        others = [span for span in diagnostic.spans if span is not primary]
        notes = [note.message for note in diagnostic.notes if not note.spans]
        self.results.append({
            "ruleId": diagnostic.name(),
            "level": LEVELS[diagnostic.level],
            "message": {"text": "\n".join([diagnostic.message, *notes])},
            "locations": [_location(primary)] if primary else [],
            "relatedLocations": [dict(_location(span), message={"text": span.label or ""}) for span in others],
            "partialFingerprints": {"coherence/v1": diagnostic.key},
        })

    def end(self, success: bool) -> None:
        rules = [{"id": name} for name in sorted({result["ruleId"] for result in self.results})]
        driver = {"name": "cargo-coherence", "version": VERSION, "rules": rules}
        run = {"tool": {"driver": driver}, "columnKind": "unicodeCodePoints", "results": self.results}
        print(json.dumps({"$schema": SARIF, "version": "2.1.0", "runs": [run]}, indent=1))


def _location(span: Span) -> Dict[str, object]:
    region = {"startLine": span.line_start, "startColumn": span.column_start, "endLine": span.line_end, "endColumn": span.column_end}
    return {"physicalLocation": {"artifactLocation": {"uri": span.file.replace(os.sep, "/")}, "region": region}}


def output_of(options: argparse.Namespace) -> Output:
    """What prints in the form that is asked for."""
    if options.message_format == "json":
        return Json()
    if options.message_format == "sarif":
        return Sarif()
    if options.message_format == "short":
        return Short()
    colours = options.color == "always" or options.color == "auto" and sys.stdout.isatty() and "NO_COLOR" not in os.environ
    return Output(colours)


def read_baseline(file: Optional[str]) -> List[str]:
    """The keys of the diagnostics that are passed over. Raises `StepFailed` where the file isn't one that `write_baseline` wrote."""
    if file is None:
        return []
    try:
        with open(file, encoding="utf-8") as source:
            data = json.load(source)
        if data["baseline"] != BASELINE:
            raise StepFailed("--baseline %s: its form %s isn't read, but %d" % (file, data["baseline"], BASELINE))
        return [str(key) for key in data["found"]]
    except (OSError, ValueError, KeyError, TypeError) as error:
        raise StepFailed("--baseline %s: %s" % (file, error or "no baseline")) from error


def write_baseline(file: str, found: List[Diagnostic]) -> None:
    """Writes the keys of diagnostics. Raises `StepFailed`."""
    keys = sorted({diagnostic.key for diagnostic in found})
    try:
        with open(file, "w", encoding="utf-8") as target:
            json.dump({"baseline": BASELINE, "found": keys}, target, indent=1)
            target.write("\n")
    except OSError as error:
        raise StepFailed("--write-baseline %s: %s" % (file, error)) from error
