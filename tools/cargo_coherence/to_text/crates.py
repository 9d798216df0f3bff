"""All declarations of crates as one text: which number each crate has, and how much of them could be said."""

from typing import List, Optional, Sequence

from cargo_coherence.from_rustdoc.rust_json import CrateJson
from cargo_coherence.to_text.report import Report
from cargo_coherence.to_text.translate import Translator

OWN_NUMBERS = {"core": 1, "alloc": 2, "std": 3}
LAST_NUMBER = 255


def number_crates(crates: List[CrateJson], local: Optional[str], before: Sequence[CrateJson] = ()) -> None:
    """Gives the local crate 0, core, alloc and std theirs, and others the next ones behind those before, of which the last is shared."""
    following = max([*OWN_NUMBERS.values(), *(crate.number for crate in before)]) + 1
    for crate in crates:
        if crate.key == local:
            crate.number = 0
        elif crate.key in OWN_NUMBERS:
            crate.number = OWN_NUMBERS[crate.key]
        else:
            crate.number = min(following, LAST_NUMBER)
            following += 1


def told_shared(crates: List[CrateJson]) -> str:
    """Which crates share a number, or nothing."""
    shared = [crate.key for crate in crates if crate.number == LAST_NUMBER]
    return "crates that share number %d: %s" % (LAST_NUMBER, ", ".join(shared)) if len(shared) > 1 else ""


def translate(crates: List[CrateJson], local: str, report: Report) -> Translator:
    """A translator that has all declarations of the crates."""
    number_crates(crates, local)
    translator = Translator(crates, report)
    translator.translate()
    return translator


def said(translator: Translator, report: Report) -> str:
    """The last line: how many impls could be said."""
    total, whole = translator.counted
    widened = sum(1 for written in translator.world.impls if written.widened)
    left_out = report.count("impl left out")
    more = ["%d with a part that is any type" % widened] if widened else []
    more += ["%d left out" % left_out] if left_out else []
    return "%d of %d impls could be said%s" % (whole, total, " (" + ", ".join(more) + ")" if more else "")
