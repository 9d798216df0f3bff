#!/usr/bin/env python3
"""Stands for `rustdoc` where cargo calls it for `cargo coherence`: writes JSON of the crates that are wanted, and nothing of others.

RILGOMUT_PLAN names a file that says what is wanted, as `Plan` has it. Where rustdoc refuses a crate that is checked for impls that overlap, or
that break the orphan rule, these are put aside in a copy of the package (see `aside.py`). Where RILGOMUT_TIMES is set, the seconds of
`wf_checking`, the part of rustdoc that holds coherence, are left beside the JSON.
"""

import json
import os
import re
import subprocess
import sys
import tempfile
from dataclasses import asdict, dataclass
from typing import Dict, List, Optional, Tuple

if __package__ in (None, ""):
    sys.path.insert(0, os.path.dirname(os.path.dirname(os.path.dirname(os.path.abspath(__file__)))))

from cargo_coherence.from_rustdoc.aside import Edited, line_and_column, offset_of
from cargo_coherence.from_rustdoc.rust_json import slim, strip

FLAGS = ["-Z", "unstable-options", "--output-format", "json", "--document-private-items", "--document-hidden-items"]
ASIDE_FLAGS = ["-Z", "crate-attr=feature(trivial_bounds)"]
CAPPED = ["--cap-lints", "warn"]  # a lint that a crate denies is no reason to end
COHERENCE = {"E0117", "E0119", "E0210", "E0751"}
ROUNDS = 20
TIMED = ["-Z", "time-passes"]
PASSED_OVER = (".git", "target")


@dataclass
class Wanted:
    """A crate whose JSON is wanted: the word for it that no other one has, and whether it is checked."""

    key: str
    is_local: bool


@dataclass
class Plan:
    """What is wanted: the real rustdoc, the folder of the JSON files, and by its source and name each crate."""

    rustdoc: str
    out: str
    wanted: Dict[str, Wanted]

    @staticmethod
    def read(file: str) -> "Plan":
        """The plan that a file has. Raises `OSError` or `ValueError`."""
        with open(file, encoding="utf-8") as source:
            data = json.load(source)
        return Plan(data["rustdoc"], data["out"], {crate: Wanted(**wanted) for crate, wanted in data["wanted"].items()})

    def write(self, file: str) -> None:
        """Writes the plan into a file."""
        with open(file, "w", encoding="utf-8") as target:
            json.dump(asdict(self), target)

    def of(self, arguments: List[str]) -> Optional[Wanted]:
        """The crate that these arguments of rustdoc are for, if it is wanted."""
        if "--crate-name" not in arguments:
            return None
        name = arguments[arguments.index("--crate-name") + 1]
        sources = [os.path.realpath(argument) for argument in arguments if argument.endswith(".rs")]
        return next((self.wanted[crate_of(source, name)] for source in sources if crate_of(source, name) in self.wanted), None)


def crate_of(source: str, name: str) -> str:
    """The word for a crate in a plan: its first source file, and its name."""
    return "%s %s" % (source, name.replace("-", "_"))


def main(arguments: List[str]) -> int:
    """Answers the status of rustdoc."""
    plan = Plan.read(os.environ["RILGOMUT_PLAN"])
    if "--crate-name" not in arguments:
        return subprocess.call([plan.rustdoc] + arguments)
    wanted = plan.of(arguments)
    name = arguments[arguments.index("--crate-name") + 1]
    if wanted is None:
        _mark(arguments, name)
        return 0
    with tempfile.TemporaryDirectory(prefix="rilgomut-") as folder:
        out = os.path.join(folder, "out")
        given, arguments = arguments, _with_output(arguments, out) + FLAGS + ([] if "--cap-lints" in arguments else CAPPED)
        status, messages = run(plan.rustdoc, arguments + (TIMED if "RILGOMUT_TIMES" in os.environ else []), None)
        messages = _without_times(messages, os.path.join(plan.out, wanted.key + ".seconds"))
        copy = None
        refused = refusals(messages)
        if status and wanted.is_local:
            copy = Copy(os.path.join(folder, "copy"), arguments)
            status, messages = copy.document(plan.rustdoc, messages)
            refused = copy.refused
        sys.stderr.write(without_warnings(messages))
        if status == 0:
            _keep(os.path.join(out, name + ".json"), os.path.join(plan.out, wanted.key), copy, refused)
            _mark(given, name)
    return status


def _mark(arguments: List[str], name: str) -> None:
    """Leaves the file by which cargo knows that a crate is documented."""
    for word in ("-o", "--out-dir"):
        if word in arguments:
            page = os.path.join(arguments[arguments.index(word) + 1], name, "index.html")
            os.makedirs(os.path.dirname(page), exist_ok=True)
            with open(page, "w", encoding="utf-8"):
                pass


def run(rustdoc: str, arguments: List[str], folder: Optional[str]) -> Tuple[int, str]:
    """The status of rustdoc, and what it says."""
    environment = dict(os.environ, RUSTC_BOOTSTRAP="1")
    done = subprocess.run([rustdoc] + arguments, cwd=folder, env=environment, stderr=subprocess.PIPE, text=True, check=False, close_fds=False)
    return done.returncode, done.stderr


def without_warnings(messages: str) -> str:
    """What rustdoc says but its warnings, which are of no concern here."""
    return "".join(line for line in messages.splitlines(keepends=True) if not _is_warning(line))


def _is_warning(line: str) -> bool:
    return line.startswith("{") and json.loads(line).get("level") == "warning"


def seconds_of_checking(messages: str) -> Optional[str]:
    """The seconds of `wf_checking` that `-Z time-passes` prints."""
    found = re.search(r"(?m)^time: +([0-9.]+);.*\bwf_checking$", messages)
    return found.group(1) if found else None


def _without_times(messages: str, file: str) -> str:
    """What else rustdoc says. The seconds are written into a file."""
    seconds = seconds_of_checking(messages)
    if seconds is None:
        return messages
    with open(file, "w", encoding="utf-8") as target:
        target.write(seconds + "\n")
    return "".join(line for line in messages.splitlines(keepends=True) if not line.startswith("time: "))


def _with_output(arguments: List[str], out: str) -> List[str]:
    changed = list(arguments)
    for word in ("-o", "--out-dir"):
        if word in changed:
            changed[changed.index(word) + 1] = out
    return changed


def _keep(written: str, place: str, copy: Optional["Copy"], refused: List[dict]) -> None:
    """Keeps of the JSON what a text has lines for, and beside it what rustc refused; the files of a copy are named as those that were copied."""
    with open(written, encoding="utf-8") as file:
        data = json.load(file, object_hook=slim)
    text = json.dumps(strip(data))
    if copy is not None:
        text = text.replace(json.dumps(copy.folder)[1:-1], "")
    for name, content in ((place + ".json", text), (place + ".refused.json", json.dumps(refused))):
        with open(name + ".new", "w", encoding="utf-8") as file:
            file.write(content)
        os.replace(name + ".new", name)


class Copy:
    """A copy of the package, in which impls are put aside.

    It has a folder for each folder of the package, and a link for each file but for those in which an impl is put aside. So it has links for all
    that lies beside the package and above it, since a module may be there.
    """

    def __init__(self, folder: str, arguments: List[str]) -> None:
        self.folder = os.path.realpath(folder) if os.path.exists(folder) else os.path.join(os.path.realpath(os.path.dirname(folder)), os.path.basename(folder))
        os.makedirs(self.folder)
        self.package = os.path.realpath(os.environ["CARGO_MANIFEST_DIR"])
        self.working = self.place(os.path.realpath(os.getcwd()))
        self._open(os.path.realpath(os.getcwd()))
        self._open(self.package)
        self._link_below(self.package)
        self.arguments = [self.place(argument) if argument.startswith(self.package + os.sep) else argument for argument in arguments]
        self.arguments += ASIDE_FLAGS
        self.files: Dict[str, Edited] = {}
        self.refused: List[dict] = []

    def place(self, path: str) -> str:
        """Where the copy has what has this absolute path."""
        return self.folder + path

    def _open(self, folder: str) -> None:
        """Makes a folder and those above it: in each there is a link for everything else."""
        parts = folder.strip(os.sep).split(os.sep)
        for depth in range(len(parts) + 1):
            original = os.sep + os.sep.join(parts[:depth])
            here = self.place(original).rstrip(os.sep)
            if os.path.islink(here):
                os.unlink(here)
            os.makedirs(here, exist_ok=True)
            self._link(original, here)

    @staticmethod
    def _link(original: str, here: str) -> None:
        """Makes a link for each thing in a folder that isn't there yet."""
        for name in os.listdir(original):
            target = os.path.join(here, name)
            if not os.path.lexists(target):
                os.symlink(os.path.join(original, name), target)

    def _link_below(self, package: str) -> None:
        for original, folders, _ in os.walk(package):
            folders[:] = [name for name in folders if name not in PASSED_OVER and not os.path.islink(os.path.join(original, name))]
            self._open(original)

    def document(self, rustdoc: str, messages: str) -> Tuple[int, str]:
        """Puts aside what rustdoc names, until it names nothing more."""
        status = 1
        for _ in range(ROUNDS):
            refused = self._refused(messages)
            if not self._put_aside(refused):
                break
            status, messages = run(rustdoc, self.arguments, self.working)
            if status == 0:
                self._refused(messages)
                break
        return status, messages

    def _refused(self, messages: str) -> List[dict]:
        """What rustdoc says of coherence, with the places of the sources as they are. It is kept."""
        found = refusals(messages)
        for message in found:
            for span in message["spans"]:
                self._move(span)
        self.refused += [message for message in found if message not in self.refused]
        return found

    def _move(self, span: dict) -> None:
        """Gives a span, and those of the macros that it is of, the places of the sources as they are."""
        edited = self.files.get(self._file(span["file_name"]))
        if edited is not None:
            text = edited.text()
            for end in ("start", "end"):
                offset = edited.original(offset_of(text, span["line_" + end], span["column_" + end]))
                span["line_" + end], span["column_" + end] = line_and_column(edited.source, offset)
        if span.get("expansion"):
            self._move(span["expansion"]["span"])

    def _file(self, name: str) -> str:
        return os.path.normpath(os.path.join(self.working, name))

    def _put_aside(self, refused: List[dict]) -> bool:
        """Puts the impls aside that messages name first, or else those beside them. Answers whether there was one."""
        waiting = list(refused)
        changed = set()
        for is_primary in (True, False):
            for message in list(waiting):
                for span in message["spans"]:
                    if span["is_primary"] == is_primary and self._put_span_aside(span):
                        changed.add(self._file(span["file_name"]))
                        waiting.remove(message)
                        break
        for file in changed:
            self._write(file, self.files[file].text())
        return bool(changed)

    def _put_span_aside(self, span: dict) -> bool:
        """Puts aside the impl that is around a span. Answers whether there is one that wasn't yet."""
        file = self._file(span["file_name"])
        if not os.path.exists(file):
            return False
        if file not in self.files:
            with open(file, encoding="utf-8") as source:
                self.files[file] = Edited(source.read())
        edited = self.files[file]
        return edited.put_aside(offset_of(edited.source, span["line_start"], span["column_start"]))

    def _write(self, file: str, text: str) -> None:
        """Writes a file of the copy, in the place of the link that there was."""
        if file.startswith(self.folder + os.sep):
            self._open(os.path.dirname(file)[len(self.folder):])
            if os.path.islink(file):
                os.unlink(file)
            with open(file, "w", encoding="utf-8") as target:
                target.write(text)


def refusals(messages: str) -> List[dict]:
    """The errors of coherence among what rustdoc says. It has no lints but its own."""
    found = []
    for line in messages.splitlines():
        message = json.loads(line) if line.startswith("{") else {}
        if (message.get("code") or {}).get("code") in COHERENCE:
            found.append({key: message[key] for key in ("code", "level", "message", "spans", "children")})
            found[-1]["code"] = {"code": message["code"]["code"]}
    return found


if __name__ == "__main__":
    sys.exit(main(sys.argv[1:]))
