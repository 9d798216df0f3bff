#!/usr/bin/env python3
"""What `check *` finds in core, alloc, std and in crates of Debian: a table.

`python3 bench/real.py --make FOLDER [CRATE ..]` makes rustdoc's JSON: it fetches Debian's packages of rustc (`rustc-web`, `rust-web-src` and what
they need) and of crates (`librust-*-dev`) by `apt-get download`, unpacks them into FOLDER without installing anything, and lets cargo and rustdoc
run over them. What can't be resolved or documented is named and left out. Half an hour of one processor and 4 GB of disk are wanted.

`python3 bench/real.py FOLDER [--program PATH] [CRATE ..]` reads the JSON, and prints a row for each crate as the local one, with core, alloc, std
and what it depends on. A row has the crate's impls and how many of them could be said whole; what `check *` finds where one of them takes part, and
how many pairs specialise; the seconds and memory of the program; and the seconds of rustdoc's `wf_checking`, which holds coherence.
`cargo coherence` runs the same steps for one package. This is no part of the gate.
"""

import argparse
import gc
import json
import os
import re
import shutil
import subprocess
import sys
import tempfile
import time
from collections import Counter
from typing import Dict, List, Optional, Tuple

ROOT = os.path.dirname(os.path.dirname(os.path.abspath(__file__)))
sys.path.insert(0, os.path.join(ROOT, "tools"))

from cargo_coherence.from_rustdoc.cargo_json import Request, Workspace, document  # noqa: E402
from cargo_coherence.ask.program import find_program  # noqa: E402
from cargo_coherence.to_text.report import Report  # noqa: E402
from cargo_coherence.from_rustdoc.rust_json import CrateJson, read_crate  # noqa: E402
from cargo_coherence.to_text.crates import translate  # noqa: E402
from cargo_coherence.from_rustdoc.rustdoc_wrapper import TIMED, seconds_of_checking  # noqa: E402
from cargo_coherence.specialization.special import check  # noqa: E402
from cargo_coherence.from_rustdoc.toolchain import STD, StepFailed, Toolchain, find_toolchain, make_std, output, std_command, std_sources  # noqa: E402
from cargo_coherence.to_text.writer import lines  # noqa: E402

TOOLCHAIN = "rustc-web rust-web-src libstd-rust-web-dev libllvm22".split()
CRATES = """
ahash aho-corasick anyhow approx arrayvec async-channel base64 bigdecimal bit-set bit-vec bitflags bitvec block-buffer bstr bytemuck byteorder bytes
cairo-rs chrono clap combine concurrent-queue crossbeam-channel crossbeam-deque crossbeam-epoch crossbeam-utils crypto-common csv curve25519-dalek
dashmap der digest either env_logger euclid event-listener fixedbitset flate2 fnv futures-channel futures-core futures-io futures-lite futures-sink
futures-util generic-array getrandom gimli glib glob globset h2 half hashbrown hex http http-body httparse hyper idna ignore image indexmap itertools
itoa lazy_static libc lock_api log matrixmultiply memchr mio miniz_oxide nalgebra ndarray nix nom num-bigint num-complex num-integer num-iter
num-rational num-traits object once_cell ordered-float palette parking_lot percent-encoding pest petgraph pin-project-lite png polling ppv-lite86
proc-macro2 quote rand rand_chacha rand_core rayon rayon-core regex regex-automata regex-syntax rgb rustls ryu semver serde serde_json sha1 sha2
signature slab smallvec smol_str socket2 spki strsim subtle syn tempfile textwrap thiserror time tinyvec tokio tokio-util toml tower tower-service
tracing tracing-core typenum unicode-normalization unicode-segmentation unicode-width url uuid void walkdir winnow zeroize
""".split()


# Making the JSON


def make(folder: str, crates: List[str]) -> None:
    """Fetches and unpacks what is wanted, and makes the JSON of std and of the crates."""
    folder = os.path.abspath(folder)
    os.makedirs(folder, exist_ok=True)
    _use_toolchain(folder)
    toolchain = find_toolchain()
    std = os.path.join(folder, "std")
    if not os.path.exists(os.path.join(std, "std.json")):
        sources = std_sources(toolchain)
        if sources is None:
            raise StepFailed("no sources of std for rustc %s" % toolchain.release)
        make_std(toolchain, sources, std)
        _time_std(toolchain, sources, std)
    registry = _fetch_crates(folder, crates)
    wanted = _resolvable(folder, registry, crates, toolchain)
    os.environ.setdefault("CARGO_BUILD_JOBS", "1")
    os.environ["RILGOMUT_TIMES"] = "1"
    manifest = _package(os.path.join(folder, "all"), registry, wanted)
    workspace = Workspace(Request(manifest, further=["--offline", "--keep-going"]), toolchain)
    units = workspace.units()
    ran = document(workspace, units, os.path.join(folder, "target"), os.path.join(folder, "crates"))
    below = [package for unit in units for package in unit.below]
    depends = {package.key(): [other.key() for other in workspace.below(package, package.library())] for package in below}
    described = {"keys": ran.keys, "depends": depends, "wanted": wanted}
    with open(os.path.join(folder, "described.json"), "w", encoding="utf-8") as file:
        json.dump(described, file, indent=1)


def _time_std(toolchain: Toolchain, sources: str, std: str) -> None:
    """Leaves the seconds that rustdoc checks core, alloc and std for, as `rustdoc_wrapper.py` does for other crates."""
    for name in STD:
        with tempfile.TemporaryDirectory(prefix="rilgomut-") as out:
            command, environment = std_command(toolchain, sources, name, out)
            done = subprocess.run(command + TIMED, env=environment, stdout=subprocess.DEVNULL, stderr=subprocess.PIPE, text=True, check=False)
        seconds = seconds_of_checking(done.stderr)
        if seconds is not None:
            with open(os.path.join(std, name + ".seconds"), "w", encoding="utf-8") as file:
                file.write(seconds + "\n")


def _download(packages: List[str], folder: str, into: str) -> None:
    """Fetches Debian packages and unpacks them."""
    os.makedirs(folder, exist_ok=True)
    for first in range(0, len(packages), 40):
        try:
            output(["apt-get", "download"] + packages[first:first + 40], cwd=folder)
        except StepFailed as error:
            print(error, file=sys.stderr)
    for file in sorted(os.listdir(folder)):
        if file.endswith(".deb"):
            output(["dpkg-deb", "-x", os.path.join(folder, file), into])


def _use_toolchain(folder: str) -> None:
    """Unpacks Debian's rustc, and lets RUSTC and RUSTDOC name it."""
    place = os.path.join(folder, "toolchain")
    if not os.path.exists(os.path.join(place, "usr", "bin", "rustc")):
        versions = output(["apt-cache", "depends", "rustc-web", "libstd-rust-web-dev"])
        libraries = sorted(set(re.findall(r"libstd-rust-web-[0-9.]+", versions)))
        _download(TOOLCHAIN + libraries, os.path.join(folder, "debs-toolchain"), place)
        _mend_links(place)
    use_made_toolchain(folder)


def use_made_toolchain(folder: str) -> None:
    """Lets RUSTC and RUSTDOC name what was unpacked in a folder."""
    place = os.path.join(folder, "toolchain")
    for word in ("rustc", "rustdoc"):
        launcher = os.path.join(folder, word)
        libraries = os.path.join(place, "usr", "lib", "x86_64-linux-gnu")
        with open(launcher, "w", encoding="utf-8") as file:
            binary = os.path.join(place, "usr", "bin", word)
            file.write('#!/bin/sh\nLD_LIBRARY_PATH="%s" exec "%s" "$@"\n' % (libraries, binary))
        os.chmod(launcher, 0o755)
        os.environ[word.upper()] = launcher


def _mend_links(place: str) -> None:
    """Debian's links to the sources are absolute."""
    link = os.path.join(place, "usr", "lib", "rustlib", "src", "rust")
    sources = [name for name in os.listdir(os.path.join(place, "usr", "src")) if name.startswith("rustc-")]
    if sources:
        os.makedirs(os.path.dirname(link), exist_ok=True)
        if os.path.lexists(link):
            os.remove(link)
        os.symlink(os.path.join("..", "..", "..", "src", sources[0]), link)


def _fetch_crates(folder: str, crates: List[str]) -> str:
    """Fetches crates and what they depend on. Answers the folder in which they lie unpacked."""
    place = os.path.join(folder, "registry")
    registry = os.path.join(place, "usr", "share", "cargo", "registry")
    if not os.path.exists(registry):
        names = ["librust-%s-dev" % crate.replace("_", "-") for crate in crates]
        command = ["apt-cache", "depends", "--recurse", "--no-recommends", "--no-suggests", "--no-conflicts", "--no-breaks", "--no-replaces"]
        listed = output(command + ["--no-enhances"] + _known(names))
        packages = sorted(set(re.findall(r"(?m)^(librust-[a-z0-9.+-]+)$", listed)))
        packages = [package for package in packages if "+" not in package]
        print("%d packages of crates" % len(packages), file=sys.stderr)
        _download(_known(packages), os.path.join(folder, "debs-crates"), place)
    return registry


def _known(names: List[str]) -> List[str]:
    known = set(output(["apt-cache", "pkgnames", "librust-"]).split())
    return [name for name in names if name in known]


def _package(folder: str, registry: str, crates: List[str], extra: str = "") -> str:
    """A package that depends on these crates, with the registry of Debian. Answers its Cargo.toml."""
    shutil.rmtree(folder, ignore_errors=True)
    os.makedirs(os.path.join(folder, "src"))
    os.makedirs(os.path.join(folder, ".cargo"))
    with open(os.path.join(folder, "src", "lib.rs"), "w", encoding="utf-8"):
        pass
    with open(os.path.join(folder, ".cargo", "config.toml"), "w", encoding="utf-8") as file:
        file.write('[source.crates-io]\nreplace-with = "debian"\n[source.debian]\ndirectory = "%s"\n' % registry)
    manifest = os.path.join(folder, "Cargo.toml")
    with open(manifest, "w", encoding="utf-8") as file:
        file.write('[package]\nname = "all-of-them"\nversion = "0.0.0"\nedition = "2021"\n[dependencies]\n')
        file.writelines("%s = %s\n" % (crate, '"*"' + extra) for crate in crates)
    return manifest


def _resolvable(folder: str, registry: str, crates: List[str], toolchain: Toolchain) -> List[str]:
    """The crates that cargo finds all dependencies of."""
    found = []
    for crate in crates:
        manifest = _package(os.path.join(folder, "one"), registry, [crate])
        command = [toolchain.cargo, "metadata", "--format-version", "1", "--offline", "--manifest-path", manifest]
        try:
            output(command, cwd=os.path.dirname(manifest))
            found.append(crate)
        except StepFailed:
            print("%s: cargo misses something that it depends on" % crate, file=sys.stderr)
    return found


# The table


def rows(folder: str, program: str, chosen: List[str], texts: Optional[str]) -> None:
    """Prints a row for each crate, and the sums. Where `texts` names a folder, each text is kept there."""
    crates, depends = read_all(folder)
    print("| crate | impls | said whole | `overlap` | `maybe` | orphan | specialise | s | MB | rustdoc's s |")
    print("|---|--:|--:|--:|--:|--:|--:|--:|--:|--:|")
    total: Counter = Counter()
    for key in list(STD) + sorted(depends):
        name = key.split("@")[0]
        if key not in crates or chosen and name not in chosen:
            continue
        row = measure(key, crates, depends, program, os.path.join(texts, key + ".txt") if texts else os.devnull) + [_seconds(folder, key)]
        print("| %s | %s |" % (key.replace("@", " "), " | ".join(row)), flush=True)
        total.update(crates=1, impls=int(row[0]), said=int(row[1]), without=int(row[2:5] == ["0", "0", "0"]))
    print("\n%(crates)d crates with %(impls)d impls, of which %(said)d could be said whole; %(without)d crates have no finding." % total)


def _seconds(folder: str, key: str) -> str:
    """The seconds that rustdoc took for the part that holds coherence."""
    file = os.path.join(folder, "std" if key in STD else "crates", key + ".seconds")
    if not os.path.exists(file):
        return ""
    with open(file, encoding="utf-8") as said:
        return "%.2f" % float(said.read())


def read_all(folder: str) -> Tuple[Dict[str, CrateJson], Dict[str, List[str]]]:
    """The crates whose JSON is in the folder, and by the key of a crate those that it depends on."""
    with open(os.path.join(folder, "described.json"), encoding="utf-8") as file:
        described = json.load(file)
    crates = {name: read_crate(os.path.join(folder, "std", name + ".json")) for name in STD}
    depends = {}
    for key, others in described["depends"].items():
        file = os.path.join(folder, "crates", key + ".json")
        if os.path.exists(file):
            crates[key] = read_crate(file, key)
            crates[key].keys = described["keys"]
            depends[key] = [other for other in others if os.path.exists(os.path.join(folder, "crates", other + ".json"))]
    return crates, depends


def read_for(key: str, crates: Dict[str, CrateJson], depends: Dict[str, List[str]]) -> List[CrateJson]:
    """The crates that a text of this one wants, it being the last."""
    if key in STD:
        return [crates[name] for name in STD[:STD.index(key) + 1]]
    return [crates[name] for name in STD] + [crates[other] for other in depends[key]] + [crates[key]]


def measure(key: str, crates: Dict[str, CrateJson], depends: Dict[str, List[str]], program: str, kept: str) -> List[str]:
    """The cells of a row, behind the crate's name. The text is written to the file `kept`."""
    translator = translate(read_for(key, crates, depends), key, Report())
    own = [written for written in translator.world.impls if written.named.crate == 0 and written.named.place.file]
    sizes = [str(sum(1 for _ in crates[key].impls())), str(sum(1 for written in own if not written.widened))]
    try:
        checked = check(program, "\n".join(lines(translator.world)) + "\n", translator, "/")
    except StepFailed as error:
        return sizes + ["-"] * 5 + [str(error)[-60:]]
    with open(kept, "w", encoding="utf-8") as file:
        file.write(checked.text)
    found = Counter(finding.kind for finding in checked.found if finding.is_local())
    counts = [str(found[kind]) for kind in ("overlap", "maybe", "orphan")] + [str(len(checked.pairs))]
    return sizes + counts + _cost(program, checked.text + "check *\n")


def _cost(program: str, text: str) -> List[str]:
    """The seconds and the megabytes that the program takes for a text."""
    command = ["/usr/bin/time", "-f", "%M"] if os.path.exists("/usr/bin/time") else []
    begun = time.monotonic()
    done = subprocess.run(command + [program], input=text, stdout=subprocess.DEVNULL, stderr=subprocess.PIPE, text=True, check=False)
    seconds = time.monotonic() - begun
    return ["%.1f" % seconds, "%d" % (int(done.stderr.split()[-1]) // 1024) if command else "?"]


def main() -> int:
    """Reads the command line. Answers the status."""
    parser = argparse.ArgumentParser(description=__doc__.split("\n", maxsplit=1)[0])
    parser.add_argument("folder", metavar="FOLDER")
    parser.add_argument("crates", metavar="CRATE", nargs="*")
    parser.add_argument("--make", action="store_true", help="make the JSON instead of reading it")
    parser.add_argument("--program", metavar="PATH", help="the program, if it needn't be built")
    parser.add_argument("--texts", metavar="FOLDER", help="keep the texts")
    options = parser.parse_intermixed_args()
    gc.disable()
    try:
        if options.make:
            make(options.folder, options.crates or CRATES)
        else:
            rows(options.folder, find_program(options.program, os.path.expanduser("~/.cache/rilgomut")), options.crates, options.texts)
    except StepFailed as error:
        print("real: %s" % error, file=sys.stderr)
        return 2
    return 0


if __name__ == "__main__":
    sys.exit(main())
