"""What rustc says of the coherence of a crate, and about which impls it is.

rustdoc shows no impl that is put aside in the body of a function or of a constant. rustc's words are all that is known of such a one.
"""

import json
from dataclasses import dataclass
from typing import List, Optional

from cargo_coherence.to_text.model import Impl

OVERLAP = ("E0119", "E0751")


@dataclass
class Refusal:
    """An error of rustc, as its JSON has it."""

    message: dict

    @property
    def code(self) -> str:
        """Its code."""
        return self.message["code"]["code"]

    def primary(self) -> dict:
        """The span that it is about."""
        return next(span for span in self.message["spans"] if span["is_primary"])

    def others(self) -> List[dict]:
        """The other spans."""
        return [span for span in self.message["spans"] if not span["is_primary"]]

    def is_of(self, code: str, later: Impl, first: Optional[Impl]) -> bool:
        """Whether it has a code, and is about an impl and, where it names one beside it, about the other one."""
        if self.code != code or not is_at(self.primary(), later):
            return False
        return first is None or first.named.crate != 0 or not self.others() or any(is_at(span, first) for span in self.others())


def is_at(span: dict, written: Impl) -> bool:
    """Whether a span of rustc is that of an impl, or within it, or of the macro's call that the impl is of."""
    first_line, first, last_line, last = written.named.place.span
    where = outermost(span)
    inside = (first_line, first) <= (where["line_start"], where["column_start"]) < (last_line, last)
    return where["file_name"] == written.named.place.file and inside


def outermost(span: dict) -> dict:
    """The span of the call in the source by which a span came to be; itself, where no macro has it."""
    while span.get("expansion"):
        span = span["expansion"]["span"]
    return span


def read_refusals(package: str) -> List[Refusal]:
    """What rustc refused of a crate, each once, by the name of its JSON: `rustdoc_wrapper.py` leaves it beside that."""
    with open(package[:-len(".json")] + ".refused.json", encoding="utf-8") as file:
        messages = json.load(file)
    return [Refusal(message) for i, message in enumerate(messages) if message not in messages[:i]]
