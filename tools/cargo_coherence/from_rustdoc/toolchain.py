"""Rust's tools on this machine: which they are, and the JSON of core, alloc and std."""

import glob
import os
import shutil
import subprocess
import sys
import tempfile
from dataclasses import dataclass
from typing import Dict, List, Optional, Tuple

from cargo_coherence.from_rustdoc.rust_json import strip_file

STD = ("core", "alloc", "std")
# What std is made with, beside alloc and core: the crates that lie in the toolchain's folder of libraries.
STD_EXTERNALS = (
    "core alloc hashbrown libc cfg_if unwind panic_unwind panic_abort std_detect rustc_demangle addr2line object miniz_oxide".split()
)
JSON_FLAGS = ["-Z", "unstable-options", "--output-format", "json", "--document-private-items", "--document-hidden-items", "--cap-lints", "allow"]
STD_FLAGS = ["-Z", "force-unstable-if-unmarked", "--cfg", "backtrace_in_libstd", "--cfg", 'feature="backtrace"', "--cfg", 'feature="panic-unwind"']
STRIPPED = 2  # the number of what `strip` leaves: what an older one left is made anew
NO_SOURCES = (
    "the sources of std, which `rustup component add rust-src` brings "
    "(or Debian's rust-src or rust-web-src, with CARGO, RUSTC and RUSTDOC naming that toolchain)"
)


class StepFailed(Exception):
    """A step that failed. Its text says which, and what was left."""


@dataclass
class Toolchain:
    """The commands, and what rustc says of itself."""

    rustc: str
    rustdoc: str
    cargo: str
    sysroot: str
    release: str
    commit: str
    host: str


def find_toolchain() -> Toolchain:
    """The toolchain that RUSTC, RUSTDOC and CARGO name, or the one in the path. Raises `StepFailed`."""
    commands = [os.environ.get(word.upper()) or word for word in ("rustc", "rustdoc", "cargo")]
    missing = [command for command in commands if shutil.which(command) is None]
    if missing:
        raise StepFailed("%s: not found (RUSTC, RUSTDOC and CARGO may name them)" % ", ".join(missing))
    said: Dict[str, str] = {}
    for line in output([commands[0], "-vV"]).splitlines():
        word, _, value = line.partition(": ")
        said[word] = value
    sysroot = output([commands[0], "--print", "sysroot"]).strip()
    return Toolchain(*commands, sysroot, said.get("release", "?"), said.get("commit-hash", "?")[:9], said.get("host", "?"))


def output(command: List[str], **options) -> str:
    """What a command prints. Raises `StepFailed`."""
    try:
        done = subprocess.run(command, stdout=subprocess.PIPE, stderr=subprocess.PIPE, text=True, check=False, **options)
    except OSError as error:
        raise StepFailed("%s: %s" % (command[0], error))
    if done.returncode:
        raise StepFailed("`%s` failed: %s" % (" ".join(command[:4]), (done.stderr.strip().splitlines() or ["status %d" % done.returncode])[-1]))
    return done.stdout


def std_json(toolchain: Toolchain, given: Optional[str], cache: str) -> str:
    """The folder with the JSON of core, alloc and std. Raises `StepFailed`."""
    if given:
        missing = [name for name in STD if not os.path.exists(os.path.join(given, name + ".json"))]
        if "core" in missing:
            raise StepFailed("--std %s: no %s" % (given, ", ".join(name + ".json" for name in missing)))
        return given
    made = os.path.join(cache, "std-%d" % STRIPPED, "%s-%s" % (toolchain.release, toolchain.commit))
    if os.path.exists(os.path.join(made, "std.json")):
        return made
    sources = std_sources(toolchain)
    if sources:
        make_std(toolchain, sources, made)
        return made
    shipped = os.path.join(toolchain.sysroot, "share", "doc", "rust", "json")
    if os.path.exists(os.path.join(shipped, "core.json")):
        print("%s is without private items, so that more may be open" % shipped, file=sys.stderr)
        return shipped
    raise StepFailed("this toolchain lacks %s; --std FOLDER names JSON of std instead" % NO_SOURCES)


def std_sources(toolchain: Toolchain) -> Optional[str]:
    """The folder `library` of the toolchain's own sources, if there is one."""
    version = toolchain.release
    places = [os.path.join(toolchain.sysroot, "lib", "rustlib", "src", "rust"), "/usr/src/rustc-" + version, "/usr/share/rustc-" + version]
    for place in places:
        if os.path.exists(os.path.join(place, "library", "core", "src", "lib.rs")):
            return os.path.join(os.path.realpath(place), "library")
    return None


def make_std(toolchain: Toolchain, sources: str, folder: str) -> None:
    """Writes the JSON of core, alloc and std into a folder. Raises `StepFailed`."""
    os.makedirs(folder, exist_ok=True)
    for name in STD:
        print("JSON of %s %s" % (name, toolchain.release), file=sys.stderr)
        with tempfile.TemporaryDirectory(prefix="rilgomut-") as out:
            command, environment = std_command(toolchain, sources, name, out)
            output(command, env=environment)
            strip_file(os.path.join(out, name + ".json"), os.path.join(folder, name + ".json"))


def std_command(toolchain: Toolchain, sources: str, name: str, out: str) -> Tuple[List[str], Dict[str, str]]:
    """The command that writes the JSON of core, alloc or std into a folder, and its environment."""
    libraries = os.path.join(toolchain.sysroot, "lib", "rustlib", toolchain.host, "lib")
    source = os.path.join(sources, name, "src", "lib.rs")
    command = [toolchain.rustdoc, "--crate-name", name, source, "--edition", "2024", "-o", out] + JSON_FLAGS
    if name == "std":
        command += STD_FLAGS + external_flags(libraries, STD_EXTERNALS)
    return command, dict(os.environ, RUSTC_BOOTSTRAP="1", STD_ENV_ARCH=toolchain.host.split("-")[0])


def external_flags(libraries: str, names: List[str]) -> List[str]:
    """`--extern` for each of these crates that lies in the folder."""
    flags = []
    for name in names:
        found = glob.glob(os.path.join(libraries, "lib%s-*.rmeta" % name)) or glob.glob(os.path.join(libraries, "lib%s-*.rlib" % name))
        if found:
            flags += ["--extern", "%s=%s" % (name, found[0])]
    return flags
