#!/usr/bin/env python3
"""Adds impls to real crates that may clash with those that are there, and asks rustc and the program.

`python3 bench/clash.py FOLDER [--program PATH] [--count N] [--seed N] CRATE ..` wants a folder that `bench/real.py --make` left. For N impls of a
crate it writes a second one behind the first: the same, an instance with a type for a parameter, or one for all types with a bound. With `--fresh` it
is one for a new type, which rustc accepts but where an impl for all types with some bound is in its way. rustdoc says, with rustc's words, which impls overlap (E0119, E0751) and which break the orphan rule (E0117, E0210); `check *` says it of the text that
`tools/cargo_coherence` makes of the same sources. Each difference is printed, and at last a table of how often they
answer what. The status is 1 where rustc reports an impl of which the program finds nothing.
"""

import argparse
import gc
import json
import os
import random
import re
import shutil
import subprocess
import sys
from collections import Counter
from dataclasses import dataclass
from typing import Dict, List, Optional, Tuple

ROOT = os.path.dirname(os.path.dirname(os.path.abspath(__file__)))
sys.path.insert(0, os.path.join(ROOT, "tools"))

from cargo_coherence.from_rustdoc.aside import WrittenImpl, impls_of  # noqa: E402
from cargo_coherence.from_rustdoc.cargo_json import make  # noqa: E402
from cargo_coherence.ask.findings import Finding, read_findings  # noqa: E402
from cargo_coherence.ask.program import find_program  # noqa: E402
from real import use_made_toolchain  # noqa: E402
from cargo_coherence.to_text.report import Report  # noqa: E402
from cargo_coherence.from_rustdoc.rust_json import read_crate  # noqa: E402
from cargo_coherence.to_text.crates import translate  # noqa: E402
from cargo_coherence.from_rustdoc.toolchain import STD, StepFailed, find_toolchain  # noqa: E402
from cargo_coherence.to_text.writer import lines  # noqa: E402

BOUNDS = "Clone Copy Default Iterator Send core::fmt::Display core::fmt::Debug core::ops::Fn()".split() + ["core::ops::Deref<Target = u8>"]
TYPES = ["u8", "&'static str", "()", "[u16; 3]", "fn(u8) -> u8", "core::option::Option<bool>"]
MARK = re.compile(r"/\*clash (\d+)\*/")
ROUNDS = 30


@dataclass
class Added:
    """An impl that was added: where, how it was made, and its text."""

    file: str
    offset: int
    kind: str
    text: str


def joined(tokens: list) -> str:
    """Tokens with spaces between."""
    return " ".join(token.text for token in tokens)


def second(written: WrittenImpl, randomly: random.Random) -> Tuple[str, str]:
    """An impl that may clash with this one, and how it was made."""
    trait, own, where = joined(written.trait), joined(written.own), joined(written.where)
    generics = joined(written.generics)
    names = re.findall(r"[<,] ([A-Z]\w*)(?= [:,>])", " " + generics.replace("<", "< "))
    sign = "! " if written.is_negative else ""
    clause = " where " + where if where else ""
    kind = randomly.choice(["same", "instance", "blanket", "blanket"])
    if kind == "instance" and names:
        name, chosen = randomly.choice(names), randomly.choice(TYPES)
        put = lambda text: re.sub(r"(?<![\w'])%s(?!\w)" % name, "(%s)" % chosen if "Fn" not in text else chosen, text)  # noqa: E731
        rest = re.sub(r"(?<=[<,]) %s( :[^,<>]*(<[^<>]*>)?[^,<>]*)?( ,|(?= >))" % name, "", " " + generics).strip()
        return "impl%s %s%s for %s%s {}" % (rest, sign, put(trait), put(own), put(clause)), kind
    if kind == "blanket":
        bounds = " + ".join(randomly.sample(BOUNDS, randomly.choice([1, 1, 2])))
        inside = randomly.choice(["Clashing", "Clashing", "&'static Clashing", "Option<Clashing>"])
        rest = generics.strip()[1:].strip() if generics else ">"
        comma = "" if rest == ">" else ", "
        lifetimes = re.match(r"((?:'\w+(?: :[^,>]*)?,? ?)+)", rest)
        front = lifetimes.group(1).rstrip(", ") + ", " if lifetimes else ""
        rest = rest[lifetimes.end():] if lifetimes else rest
        comma = "" if rest.strip() == ">" else comma
        return "impl<%sClashing: %s%s%s %s%s for %s%s {}" % (front, bounds, comma, rest, sign, trait, inside, clause), kind
    return "impl%s %s%s for %s%s {}" % (generics, sign, trait, own, clause), "same"


def for_new_type(written: WrittenImpl, text: str) -> Optional[str]:
    """The same impl for a type of its own, with the same items, if it has no parameters."""
    if written.generics or written.is_negative:
        return None
    name = "Clashing%d" % written.start
    return "pub struct %s; impl %s for %s %s" % (name, joined(written.trait), name, text[text.index("{", written.start):written.end])


class Crate:
    """A copy of a crate, to which impls are added."""

    def __init__(self, folder: str, key: str, randomly: random.Random) -> None:
        self.key = key
        self.source = self._registry(folder, key)
        self.folder = os.path.join(folder, "clash", key)
        self.randomly = randomly
        self.original = read_crate(os.path.join(folder, "crates", key + ".json"), key)
        self.registry = os.path.join(folder, "registry", "usr", "share", "cargo", "registry")

    @staticmethod
    def _registry(folder: str, key: str) -> str:
        registry = os.path.join(folder, "registry", "usr", "share", "cargo", "registry")
        name, version = key.split("@")
        for found in (name + "-" + version, name):
            if os.path.exists(os.path.join(registry, found)):
                return os.path.join(registry, found)
        raise StepFailed("%s: no sources" % key)

    def choose(self, count: int, is_fresh: bool) -> List[Added]:
        """Impls to add: for new types, or such that may clash."""
        inside = os.path.realpath(self.source) + os.sep
        places = [item for item in self.original.impls() if item.file and os.path.realpath(item.file).startswith(inside)]
        self.randomly.shuffle(places)
        added: List[Added] = []
        sources: Dict[str, Tuple[str, List[WrittenImpl]]] = {}
        for item in places:
            if len(added) == count:
                break
            file = os.path.relpath(os.path.realpath(item.file), os.path.realpath(self.source))
            if file not in sources:
                with open(os.path.join(self.source, file), encoding="utf-8") as source:
                    text = source.read()
                sources[file] = (text, impls_of(text))
            text, found = sources[file]
            written = next((w for w in found if text.count("\n", 0, w.start) + 1 == item.line), None)
            if written is not None and not any(other.offset == written.end and other.file == file for other in added):
                shown, kind = (for_new_type(written, text), "fresh") if is_fresh else second(written, self.randomly)
                if shown:
                    added.append(Added(file, written.end, kind, shown))
        return added

    def write(self, added: Dict[int, Added]) -> None:
        """Writes the copy with these impls."""
        shutil.rmtree(self.folder, ignore_errors=True)
        shutil.copytree(self.source, self.folder)
        manifest = os.path.join(self.folder, "Cargo.toml")
        with open(manifest, encoding="utf-8") as file:
            text = file.read()
        text = re.sub(r"(?ms)^\[(?:target\.[^\n]*\.)?dev-dependencies[^\n]*\].*?(?=^\[|\Z)", "", text)
        text = re.sub(r"(?ms)^\[\[(?:bench|test|example)\]\].*?(?=^\[|\Z)", "", text)
        with open(manifest, "w", encoding="utf-8") as file:
            file.write(text + "\n[workspace]\n")
        os.makedirs(os.path.join(self.folder, ".cargo"), exist_ok=True)
        with open(os.path.join(self.folder, ".cargo", "config.toml"), "w", encoding="utf-8") as file:
            file.write('[source.crates-io]\nreplace-with = "debian"\n[source.debian]\ndirectory = "%s"\n' % self.registry)
        for name in {impl.file for impl in added.values()}:
            with open(os.path.join(self.folder, name), encoding="utf-8") as file:
                text = file.read()
            for number, impl in sorted(added.items(), key=lambda found: -found[1].offset):
                if impl.file == name:
                    text = "%s\n/*clash %d*/ %s\n%s" % (text[:impl.offset], number, impl.text, text[impl.offset:])
            with open(os.path.join(self.folder, name), "w", encoding="utf-8") as file:
                file.write(text)

    def lines(self, added: Dict[int, Added]) -> Dict[Tuple[str, int], int]:
        """The lines in which the added impls stand, and their numbers."""
        found = {}
        for folder, _, names in os.walk(self.folder):
            for name in names:
                if name.endswith(".rs"):
                    file = os.path.join(folder, name)
                    with open(file, encoding="utf-8") as source:
                        for line, text in enumerate(source, 1):
                            for number in map(int, MARK.findall(text)):
                                places = range(line, line + 1 + added[number].text.count("\n"))
                                found.update({(os.path.relpath(file, self.folder), place): number for place in places})
        return found


def faulty(messages: str, lines_of: Dict[Tuple[str, int], int]) -> List[int]:
    """The added impls that rustdoc finds another fault in than one of coherence."""
    return [lines_of[place] for place in ((file, int(line)) for file, line in re.findall(r"--> ([^\s:]+):(\d+):", messages)) if place in lines_of]


def compare(crate: Crate, added: Dict[int, Added], std: str, program: str, cache: str) -> Counter:
    """Counts what rustc and the program say of each added impl, and prints the differences."""
    made = None
    for _ in range(ROUNDS):
        crate.write(added)
        place = crate.lines(added)
        try:
            with Captured() as captured:
                made = make(crate.folder, find_toolchain(), cache, ["--offline", "--quiet"])
            break
        except StepFailed as error:
            wrong = faulty(str(error), place)
            if not wrong:
                print("%s: %s" % (crate.key, str(error).strip()[-300:]), file=sys.stderr)
                return Counter()
            for number in wrong:
                added.pop(number, None)
    if made is None or not added:
        return Counter()
    with open(made.files[made.local.key()].replace(".json", ".refused.json"), encoding="utf-8") as file:
        refused = json.load(file)
    read = [read_crate(os.path.join(std, name + ".json")) for name in STD]
    others = [read_crate(file, key) for key, file in made.files.items()]
    for other in others:
        other.keys = made.keys
    translator = translate(read + others, made.local.key(), Report())
    text = "\n".join(lines(translator.world)) + "\ncheck *\n"
    done = subprocess.run([program], input=text, stdout=subprocess.PIPE, text=True, check=True)
    found = read_findings(done.stdout.splitlines(), {written.named.name: written for written in translator.world.impls})
    return tell(crate, added, by_rustc(refused, place), by_program(found, place))


def by_rustc(refused: List[dict], place: Dict[Tuple[str, int], int]) -> Dict[int, set]:
    """What rustc reports of each added impl."""
    said: Dict[int, set] = {}
    for message in refused:
        for span in message["spans"]:
            number = place.get((span["file_name"], span["line_start"]))
            if number is not None:
                said.setdefault(number, set()).add("overlap" if message["code"]["code"] in ("E0119", "E0751") else "orphan")
    return said


def by_program(found: List[Finding], place: Dict[Tuple[str, int], int]) -> Dict[int, set]:
    """What the program finds of each added impl."""
    said: Dict[int, set] = {}
    for finding in found:
        for written in (finding.first, finding.second):
            number = place.get((written.named.place.file or "", written.named.place.line)) if written else None
            if number is not None:
                said.setdefault(number, set()).add(finding.kind)
    return said


def tell(crate: Crate, added: Dict[int, Added], rustc: Dict[int, set], program: Dict[int, set]) -> Counter:
    """Counts, and prints each impl of which one says what the other doesn't."""
    counted: Counter = Counter()
    for number, impl in added.items():
        there, here = rustc.get(number, set()), program.get(number, set())
        counted["%s | %s" % (", ".join(sorted(there)) or "nothing", ", ".join(sorted(here)) or "nothing")] += 1
        missed = there and not here or "orphan" in there and "orphan" not in here or "overlap" in there and not here & {"overlap", "maybe"}
        # An impl that breaks the orphan rule may be all that rustc reports of it.
        more = here and not there
        if missed or more:
            word = "MISSED" if missed else "more"
            print("%s %s: %s (%s); rustc: %s; program: %s" % (word, crate.key, impl.text.split("{")[0], impl.kind, sorted(there), sorted(here)), flush=True)
            counted[word] += 1
    return counted


class Captured:
    """What is written to the standard error in the meantime, by processes, too."""

    def __init__(self) -> None:
        self.text = ""

    def __enter__(self) -> "Captured":
        self.file = open(os.path.join(os.environ.get("TMPDIR", "/tmp"), "clash-%d" % os.getpid()), "w+", encoding="utf-8")
        self.kept = os.dup(2)
        os.dup2(self.file.fileno(), 2)
        return self

    def __exit__(self, *_: Optional[object]) -> None:
        os.dup2(self.kept, 2)
        os.close(self.kept)
        self.file.seek(0)
        self.text = self.file.read()
        self.file.close()
        os.remove(self.file.name)


def main() -> int:
    """Reads the command line. Answers the status."""
    parser = argparse.ArgumentParser(description=__doc__.split("\n", maxsplit=1)[0])
    parser.add_argument("folder", metavar="FOLDER")
    parser.add_argument("crates", metavar="CRATE", nargs="+")
    parser.add_argument("--program", metavar="PATH")
    parser.add_argument("--count", type=int, default=20)
    parser.add_argument("--seed", type=int, default=1)
    parser.add_argument("--fresh", action="store_true", help="add impls for new types")
    options = parser.parse_intermixed_args()
    gc.disable()
    total: Counter = Counter()
    folder = os.path.abspath(options.folder)
    use_made_toolchain(folder)
    try:
        program = find_program(options.program, os.path.expanduser("~/.cache/rilgomut"))
        for name in options.crates:
            made = re.compile(re.escape(name) + r"@[^@]*(?<!refused)\.json$")
            key = max((file[:-5] for file in os.listdir(os.path.join(folder, "crates")) if made.match(file)), default=None)
            if key is None:
                print("%s: no JSON of it" % name, file=sys.stderr)
                continue
            crate = Crate(folder, key, random.Random("%d %s" % (options.seed, name)))
            added = dict(enumerate(crate.choose(options.count, options.fresh)))
            total.update(compare(crate, added, os.path.join(folder, "std"), program, os.path.join(folder, "clash-cache")))
    except StepFailed as error:
        print("clash: %s" % error, file=sys.stderr)
        return 2
    for words, count in total.most_common():
        print("%6d %s" % (count, words))
    return 1 if total["MISSED"] else 0


if __name__ == "__main__":
    sys.exit(main())
