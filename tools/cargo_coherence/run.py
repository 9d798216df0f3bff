"""The steps from a crate to its diagnostics, or to the answers of goals."""

import os
import sys
from dataclasses import dataclass
from typing import Callable, Dict, List, Optional

from cargo_coherence.ask.answers import Speller, closed_aliases, has_alias
from cargo_coherence.ask.asking import Asker
from cargo_coherence.ask.findings import Finding, drained
from cargo_coherence.ask.program import ask
from cargo_coherence.ask.refusals import read_refusals
from cargo_coherence.from_rustdoc.cargo_json import Made, Unit
from cargo_coherence.from_rustdoc.rust_json import CrateJson, Unreadable, read_crate, told_error
from cargo_coherence.from_rustdoc.toolchain import STD
from cargo_coherence.kept import Kept, stamps
from cargo_coherence.specialization.special import Checked, check
from cargo_coherence.to_text.crates import number_crates, said, told_shared
from cargo_coherence.to_text.report import Report
from cargo_coherence.to_text.translate import Translator
from cargo_coherence.to_text.writer import lines, places
from cargo_coherence.verdict.decide import Decider
from cargo_coherence.verdict.diagnostics import Diagnostic
from cargo_coherence.verdict.errors import Errors
from cargo_coherence.verdict.leaking import is_allowed, leaking
from cargo_coherence.verdict.sources import Sources


@dataclass
class Result:
    """What is found of one crate."""

    unit: Unit
    sources: Sources
    diagnostics: List[Diagnostic]


class Read:
    """A crate and what it depends on, read and translated. Raises `Unreadable`.

    What std and the dependencies declare is kept: only the crate itself is translated each time.
    """

    def __init__(self, made: Made, std: str, kept: Kept, any_format: bool = False) -> None:
        self.made = made
        self.any_format = any_format
        key = made.local.key()
        self.local = self._crate(made.files[key], key)
        named = {name for name, _ in self.local.externals.values()}
        own = {name: os.path.join(std, name + ".json") for name in STD if name == "core" or name in named}
        others = {other: file for other, file in made.files.items() if other != key}
        try:
            self.translator = self._translated(own, others, kept)
            number_crates([self.local], key)
            self.translator.add([self.local])
        except (KeyError, TypeError, AttributeError, ValueError) as error:
            raise Unreadable("%s: rustdoc's JSON has another form than the one that is read (%s)" % (key, told_error(error))) from error
        self.report, self.crates = self.translator.report, self.translator.crates
        self.text = "\n".join(lines(self.translator.world)) + "\n"
        self.names: Dict[str, dict] = places(self.translator.world)["names"]
        self.speller = Speller(self.names)

    def _crate(self, file: str, key: Optional[str]) -> CrateJson:
        crate = read_crate(file, key, self.any_format)
        if key is not None:
            crate.keys = self.made.keys
        return crate

    def _translated(self, own: Dict[str, str], others: Dict[str, str], kept: Kept) -> Translator:
        """The translator that has what std, and what the dependencies declare."""
        depends = stamps(own)

        def std() -> Translator:
            return self._added(Translator([], Report()), [self._crate(file, None) for file in own.values()])

        def all_of_them() -> Translator:
            return self._added(kept.get("crates", depends, std), [self._crate(file, key) for key, file in others.items()])

        keys = ["%s %s" % pair for pair in sorted(self.made.keys.items())]
        return kept.get("crates", depends + stamps(others) + keys, all_of_them) if others else kept.get("crates", depends, std)

    @staticmethod
    def _added(translator: Translator, crates: List[CrateJson]) -> Translator:
        number_crates(crates, None, translator.crates)
        translator.add(crates)
        translator.forget_items()
        return translator

    def told(self) -> List[str]:
        """How many crates and impls there are, and how much of them could be said."""
        shared = told_shared(self.crates)
        return ["%d crates%s" % (len(self.crates), "; " + shared if shared else ""), said(self.translator, self.report)]

    def result(self, program: str, all_crates: bool = False) -> Result:
        """What the program finds, with rustc's words. Raises `StepFailed`."""
        text = with_known_headers(program, self.text, self)
        checked = check(program, text, self.translator, self.made.root, all_crates)
        found = [finding for finding in checked.found if all_crates or finding.is_local()]
        found, floods = drained(self._with_leaks(program, checked, found))
        verdicts = Decider(program, checked, self.translator, self.speller).decide(found)
        sources = Sources(self.made.root)
        errors = Errors(sources, self.names, self.local.key, read_refusals(self.made.files[self.local.key]))
        return Result(self.made.local, sources, errors.diagnostics(verdicts, floods))

    def _with_leaks(self, program: str, checked: Checked, found: List[Finding]) -> List[Finding]:
        """The findings with those pairs that regions of binders alone keep apart."""
        sources, root = Sources(self.made.root), self.made.local.target.source
        leaks = leaking(program, checked, self.translator, self.speller)
        told = {frozenset((leak.first.named.name, leak.second.named.name)) for leak in leaks}
        rest = [finding for finding in found if finding.second is None or frozenset((finding.first.named.name, finding.second.named.name)) not in told]
        return rest + [leak for leak in leaks if not is_allowed(leak, root, sources)]

    def asker(self, program: str, in_coherence: bool) -> Asker:
        """What answers goals."""
        running = self.text if in_coherence else "\n".join(lines(self.translator.world, for_check=False)) + "\nmode post_analysis\n"
        return Asker(program, (running, self.text), self.translator, self.local, self.speller)


def result_of(made: Made, std: str, program: str, kept: Kept, all_crates: bool, read: Callable[[], Read]) -> Result:
    """What is found of a crate: what was kept, where nothing has changed."""
    files = {**made.files, "refused": made.files[made.local.key()].replace(".json", ".refused.json"), "program": program, "std": os.path.join(std, "core.json")}
    diagnostics = kept.get("found", stamps(files) + [made.root, str(all_crates)], lambda: read().result(program, all_crates).diagnostics)
    return Result(made.local, Sources(made.root), diagnostics)


def with_known_headers(program: str, text: str, read: Read) -> str:
    """The text with lines for what the associated types in the headers of local impls are, as far as the program knows."""
    impls = [written for written in read.translator.world.impls if written.named.crate == 0]
    found = {alias: None for written in impls for alias in closed_aliases(written.header, read.names) if "#" not in alias.words()}
    if not found:
        return text
    answers = ask(program, text, ["normalize * " + alias.words() for alias in found])
    known = []
    for alias, answer in zip(found, answers):
        word, _, words = answer.partition(" ")
        if word == "type" and "$" not in words and not has_alias(read.speller.type_at(words.split(), 0)[0], read.names):
            known.append("norm %s %s\n" % (alias.words(), words))
    return text + "".join(known)


def tell(words: str) -> None:
    """A line about what is done, for who waits."""
    print(words, file=sys.stderr)
