"""The JSON of Cargo packages and of what they depend on, made by cargo with `rustdoc_wrapper.py` in the place of rustdoc."""

import glob
import hashlib
import json
import os
import shutil
import stat
import subprocess
import sys
import tempfile
from dataclasses import dataclass, field
from typing import Dict, Iterator, List, Optional, Set, Tuple

from cargo_coherence.from_rustdoc.rustdoc_wrapper import Plan, Wanted, crate_of
from cargo_coherence.from_rustdoc.toolchain import StepFailed, Toolchain

HERE = os.path.dirname(os.path.abspath(__file__))
LIBRARIES = {"lib", "rlib", "dylib", "cdylib", "staticlib"}
MACROS = "proc-macro"
OTHERS = ("bin", "example", "test", "bench")  # kinds of targets beside libraries
DEVELOPING = ("example", "test", "bench")  # those that see the dependencies for development


@dataclass(frozen=True)
class Target:
    """What cargo compiles as one crate. `kind` is `lib`, `proc-macro`, `bin`, `example`, `test` or `bench`."""

    kind: str
    name: str
    source: str


@dataclass
class Package:
    """A package, by cargo's id; `word` tells it from all others, also from another one of the same name and version."""

    identifier: str
    name: str
    version: str
    folder: str
    targets: List[Target]
    word: str
    depends: List[str] = field(default_factory=list)  # the ids of what its code depends on
    develops: List[str] = field(default_factory=list)  # and those for its examples and tests

    def key(self) -> str:
        """The word for its library in names of files and paths, or for its program where it has no library."""
        return self.word

    def library(self) -> Optional[Target]:
        """Its library, if there is one that isn't for macros."""
        return next((target for target in self.targets if target.kind == "lib"), None)


@dataclass
class Unit:
    """A crate that is checked, and the packages whose libraries it sees, each behind its own dependencies."""

    package: Package
    target: Target
    below: List[Package]

    def key(self) -> str:
        """The word for it that no other crate has."""
        if self.target.kind in ("lib", MACROS) or self.package.library() is None and self.target.kind == "bin" and len(self.package.targets) == 1:
            return self.package.key()
        return "%s-%s-%s" % (self.package.key(), self.target.kind, self.target.name)

    def told(self) -> str:
        """It in words."""
        kind = {"lib": "lib", MACROS: "lib"}.get(self.target.kind, "%s %s" % (self.target.kind, self.target.name))
        return "%s (%s)" % (self.package.name, kind)


@dataclass
class Request:
    """What of a package or workspace is asked for, with cargo's own words."""

    manifest: str
    packages: List[str] = field(default_factory=list)
    exclude: List[str] = field(default_factory=list)
    workspace: bool = False
    kinds: Set[str] = field(default_factory=set)  # of targets: all of a kind
    names: List[Tuple[str, str]] = field(default_factory=list)  # of targets: a kind and a name
    triple: Optional[str] = None
    features: List[str] = field(default_factory=list)  # `--features X`, `--all-features`, `--no-default-features`
    further: List[str] = field(default_factory=list)  # `--offline`, `--locked`, `--release` and the like

    def wants(self, target: Target) -> bool:
        """Whether this target is asked for: without a word for it, libraries and programs."""
        kind = "lib" if target.kind == MACROS else target.kind
        if not self.kinds and not self.names:
            return kind in ("lib", "bin")
        return kind in self.kinds or (kind, target.name) in self.names


@dataclass
class Made:
    """What cargo made of one crate: files of JSON by key, those of dependencies first, and which file of a library is of which crate.

    `root` is the folder of the workspace, in which rustdoc names files.
    """

    local: Unit
    packages: List[Package]
    files: Dict[str, str]
    keys: Dict[str, str]
    root: str


@dataclass
class Ran:
    """What cargo did: its status, what it said on the standard error, its messages, and which file of a library is of which crate."""

    status: int
    said: str
    rendered: List[str]
    keys: Dict[str, str]


class Workspace:
    """What `cargo metadata` says. Raises `StepFailed` with all that cargo says."""

    def __init__(self, request: Request, toolchain: Toolchain) -> None:
        self.request = request
        self.toolchain = toolchain
        data = self._metadata()
        self.root = data["workspace_root"]
        self.members: List[str] = data["workspace_members"]
        self.defaults: List[str] = data.get("workspace_default_members") or self.members
        self.packages = {package.identifier: package for package in packages_of(data)}

    def _metadata(self) -> dict:
        request = self.request
        command = [self.toolchain.cargo, "metadata", "--format-version", "1", "--manifest-path", request.manifest]
        command += ["--filter-platform", request.triple or self.toolchain.host] + request.features
        asked = [flag for flag in request.further if flag in ("--offline", "--locked", "--frozen")]
        folder = os.path.dirname(request.manifest)
        for further in ([*dict.fromkeys([*asked, "--offline"])], asked):
            done = subprocess.run(command + further, cwd=folder, stdout=subprocess.PIPE, stderr=subprocess.PIPE, text=True, check=False)
            if done.returncode == 0:
                return json.loads(done.stdout)
        raise StepFailed("cargo can't read %s\n%s" % (request.manifest, done.stderr.rstrip()))

    def selected(self) -> List[Package]:
        """The packages that are asked for. Raises `StepFailed` where a word names none."""
        request = self.request
        members = [self.packages[identifier] for identifier in self.members]
        for word in [*request.packages, *request.exclude]:
            if not any(_is_named(package, word) for package in members):
                raise StepFailed("no package of the workspace is named `%s`: there are %s" % (word, ", ".join(package.name for package in members)))
        if request.packages:
            return [package for package in members if any(_is_named(package, word) for word in request.packages)]
        if request.workspace:
            return [package for package in members if not any(_is_named(package, word) for word in request.exclude)]
        own = [package for package in members if os.path.samefile(os.path.join(package.folder, "Cargo.toml"), request.manifest)]
        return own or [package for package in members if package.identifier in self.defaults]

    def units(self) -> List[Unit]:
        """The crates that are asked for. Raises `StepFailed` where there is none."""
        found = []
        for package in self.selected():
            targets = [target for target in package.targets if self.request.wants(target)]
            found += [Unit(package, target, self.below(package, target)) for target in targets]
        for kind, name in self.request.names:
            if not any((unit.target.kind, unit.target.name) == (kind, name) for unit in found):
                raise StepFailed("no %s is named `%s`" % (kind, name))
        if not found:
            raise StepFailed("%s: nothing to check of what is asked for" % self.request.manifest)
        return found

    def below(self, package: Package, target: Target) -> List[Package]:
        """The packages that a target sees, each behind its own dependencies; its own library, too."""
        found: Dict[str, Package] = {}

        def visit(identifiers: List[str]) -> None:
            for identifier in identifiers:
                other = self.packages[identifier]
                if identifier not in found and other.library():
                    visit(other.depends)
                    found[identifier] = other

        sys.setrecursionlimit(10_000)
        visit(package.depends + (package.develops if target.kind in DEVELOPING else []))
        if target.kind in OTHERS and package.library():
            found[package.identifier] = package
        return list(found.values())


def packages_of(data: dict) -> Iterator[Package]:
    """The packages, each with a word of its own: its name and version, and a number where another package has these."""
    nodes = {node["id"]: node for node in (data["resolve"] or {"nodes": []})["nodes"]}
    given: Dict[str, int] = {}
    for package in data["packages"]:
        word = "%s@%s" % (package["name"], package["version"])
        given[word] = given.get(word, 0) + 1
        word += "-%d" % given[word] if given[word] > 1 else ""
        targets = [Target(kind, target["name"], os.path.realpath(target["src_path"])) for target in package["targets"] for kind in [_kind(target)] if kind]
        depends: Dict[bool, List[str]] = {True: [], False: []}
        for dependency in nodes.get(package["id"], {"deps": []})["deps"]:
            kinds = {kind["kind"] for kind in dependency["dep_kinds"]}
            if None in kinds or "dev" in kinds:
                depends[None in kinds].append(dependency["pkg"])
        folder = os.path.dirname(package["manifest_path"])
        yield Package(package["id"], package["name"], package["version"], folder, targets, word, depends[True], depends[False])


def _kind(target: dict) -> Optional[str]:
    kinds = set(target["kind"])
    return "lib" if LIBRARIES & kinds else next((kind for kind in (MACROS, *OTHERS) if kind in kinds), None)


def _is_named(package: Package, word: str) -> bool:
    return word in (package.name, "%s@%s" % (package.name, package.version), "%s:%s" % (package.name, package.version), package.identifier)


def make(folder: str, toolchain: Toolchain, cache: str, cargo_flags: List[str]) -> Made:
    """Runs cargo over the library, or else the program, of the package in a folder. Raises `StepFailed`."""
    request = Request(os.path.join(os.path.abspath(folder), "Cargo.toml"), further=cargo_flags)
    workspace = Workspace(request, toolchain)
    unit = workspace.units()[0]
    return next(make_all(workspace, [unit], cache))


def make_all(workspace: Workspace, units: List[Unit], cache: str, tell=None) -> Iterator[Made]:
    """Runs cargo over crates of a workspace. `tell` is called with the name of each crate that is made.

    Raises `StepFailed` behind the last one that could be made, where some couldn't.
    """
    toolchain, request = workspace.toolchain, workspace.request
    words = [workspace.root, toolchain.release, toolchain.commit, *request.features, *request.further, request.triple or ""]
    target = os.path.join(cache, "target", hashlib.sha256(" ".join(words).encode()).hexdigest()[:16])
    ran = _documented(workspace, units, target, tell)
    if ran.status == 0:
        yield from [_made(workspace, unit, target, ran.keys) for unit in units]
        return
    failed = []
    for unit in units:
        alone = _documented(workspace, [unit], target, tell) if len(units) > 1 else ran
        if alone.status == 0:
            yield _made(workspace, unit, target, alone.keys)
        else:
            failed.append((unit, "".join(alone.rendered) or alone.said))
    words = "".join(dict.fromkeys(text for _, text in failed)).rstrip()
    raise StepFailed("%s: cargo can't compile it, so that it wasn't checked\n%s" % (", ".join(unit.told() for unit, _ in failed), words))


def _documented(workspace: Workspace, units: List[Unit], target: str, tell) -> Ran:
    """Runs cargo, and once more where it takes for made what an earlier run didn't want."""
    ran = document(workspace, units, target, _out(target), tell)
    missing = [key for unit in units for key in _keys(unit) if not os.path.exists(_file(target, key))]
    if ran.status == 0 and missing:
        for marks in glob.glob(os.path.join(glob.escape(target), "**", ".fingerprint"), recursive=True):
            shutil.rmtree(marks, ignore_errors=True)
        ran = document(workspace, units, target, _out(target), tell)
    if ran.status == 0 and any(not os.path.exists(_file(target, unit.key())) for unit in units):
        ran.status, ran.said = 1, ran.said + "no JSON was made\n"
    return ran


def _out(target: str) -> str:
    return os.path.join(target, "rilgomut-json")


def _keys(unit: Unit) -> List[str]:
    return [package.key() for package in unit.below] + [unit.key()]


def _file(target: str, key: str) -> str:
    return os.path.join(_out(target), key + ".json")


def _made(workspace: Workspace, unit: Unit, target: str, keys: Dict[str, str]) -> Made:
    files = {key: _file(target, key) for key in _keys(unit)}
    for key in [key for key, file in files.items() if not os.path.exists(file)]:
        print("no JSON of %s: what names its types and traits can't be said" % key, file=sys.stderr)
        del files[key]
    return Made(unit, [package for package in unit.below if package.key() in files], files, keys, workspace.root)


def document(workspace: Workspace, units: List[Unit], target: str, out: str, tell=None) -> Ran:
    """Runs `cargo doc`, which leaves JSON in the folder `out`. Raises `StepFailed` where cargo can't be run."""
    os.makedirs(out, exist_ok=True)
    request, toolchain = workspace.request, workspace.toolchain
    wanted = {}
    for unit in units:
        for package in unit.below:
            wanted.setdefault(crate_of(package.library().source, package.library().name), Wanted(package.key(), False))
    for unit in units:
        wanted[crate_of(unit.target.source, unit.target.name)] = Wanted(unit.key(), True)
    plan = os.path.join(target, "rilgomut-plan.json")
    Plan(toolchain.rustdoc, out, wanted).write(plan)
    environment = dict(os.environ, RUSTC=toolchain.rustc, RUSTDOC=_launcher(target), RILGOMUT_PLAN=plan)
    result = Ran(0, "", [], {})
    for command in _commands(units):
        words = [toolchain.cargo, *command, "--manifest-path", request.manifest, "--target-dir", target, "--message-format", "json"]
        words += request.features + request.further + (["--target", request.triple] if request.triple else [])
        _run(words, environment, result, {package.identifier: package.key() for package in workspace.packages.values()}, tell)
    return result


def _commands(units: List[Unit]) -> Iterator[List[str]]:
    """The commands of cargo that document crates: one for all libraries, programs and examples, and one for each test."""
    together = [unit for unit in units if unit.target.kind not in ("test", "bench")]
    if together:
        packages = sorted({unit.package.identifier for unit in together})
        words = ["doc"] + [word for identifier in packages for word in ("-p", identifier)]
        if any(unit.target.kind in ("lib", MACROS) for unit in together):
            words.append("--lib")
        for unit in together:
            words += ["--" + unit.target.kind, unit.target.name] if unit.target.kind in ("bin", "example") else []
        yield words
    for unit in units:
        if unit not in together:
            yield ["rustdoc", "-p", unit.package.identifier, "--" + unit.target.kind, unit.target.name]


def _run(command: List[str], environment: Dict[str, str], result: Ran, keys: Dict[str, str], tell) -> None:
    """Runs a command of cargo, and adds what it did to the result."""
    with tempfile.TemporaryFile("w+", encoding="utf-8") as said:
        try:
            running = subprocess.Popen(command, env=environment, stdout=subprocess.PIPE, stderr=said, text=True)
        except OSError as error:
            raise StepFailed("%s: %s" % (command[0], error)) from error
        for line in running.communicate()[0].splitlines() if tell is None else running.stdout:
            message = json.loads(line) if line.startswith("{") else {}
            if message.get("reason") == "compiler-artifact":
                for file in message["filenames"]:
                    keys_of = keys.get(message["package_id"])
                    if keys_of and "bin" not in message["target"]["kind"]:
                        result.keys[os.path.basename(file)] = keys_of
                if tell and not message["fresh"]:
                    tell(message["target"]["name"])
            elif message.get("reason") == "compiler-message" and message["message"]["level"].startswith("error"):
                result.rendered.append(message["message"]["rendered"])
        status = running.wait()
        running.stdout.close()
        said.seek(0)
        result.status = result.status or status
        result.said += said.read()


def _launcher(target: str) -> str:
    """A program that runs the wrapper by the Python that runs this one."""
    launcher = os.path.join(target, "rilgomut-rustdoc")
    with open(launcher, "w", encoding="utf-8") as file:
        file.write('#!/bin/sh\nexec "%s" "%s" "$@"\n' % (sys.executable, os.path.join(HERE, "rustdoc_wrapper.py")))
    os.chmod(launcher, os.stat(launcher).st_mode | stat.S_IXUSR)
    return launcher
