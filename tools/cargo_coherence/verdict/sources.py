"""Spans in the sources of a package, as rustc's JSON has them."""

import os
from dataclasses import dataclass, field
from typing import Dict, List, Optional, Tuple

from cargo_coherence.from_rustdoc.aside import OPENING, CLOSING, tokens_of
from cargo_coherence.specialization.defaults import source_of
from cargo_coherence.to_text.model import Place

FRONT = ("impl", "unsafe", "default", "const")  # the words that an impl may begin with


@dataclass
class Span:
    """A part of a file, with lines and columns from 1; the last column is behind it. `expansion` is the macro's call that it is of."""

    file: str
    line_start: int
    column_start: int
    line_end: int
    column_end: int
    label: Optional[str] = None
    is_primary: bool = False
    expansion: Optional["Expansion"] = None


@dataclass
class Expansion:
    """The call of a macro, and the macro's name as rustc tells it: `m!`, `#[derive(Clone)]`."""

    macro: str
    span: Span


@dataclass
class Sources:
    """The files of a package, by the folder in which rustdoc names them."""

    root: str
    starts: Dict[str, List[int]] = field(default_factory=dict)

    def text(self, file: str) -> str:
        """What a file holds, or nothing if it can't be read."""
        return source_of(os.path.join(self.root, file))

    def line(self, file: str, number: int) -> str:
        """A line of a file, or nothing."""
        lines = self.text(file).split("\n")
        return lines[number - 1] if 0 < number <= len(lines) else ""

    def byte(self, file: str, line: int, column: int) -> int:
        """How many bytes of a file stand before a line and column."""
        lines = self.text(file).split("\n")
        before = sum(len(text.encode()) + 1 for text in lines[:line - 1])
        return before + (len(lines[line - 1][:column - 1].encode()) if line <= len(lines) else 0)

    def is_written(self, place: Place) -> bool:
        """Whether an impl stands in the source itself, and isn't what a macro makes."""
        begun = self._cut(place)[:60].split(None, 1)
        return bool(begun) and begun[0].split("<")[0] in FRONT

    def header(self, place: Place) -> Span:
        """Where the header of an impl stands; of what a macro makes the macro's call."""
        first_line, first, last_line, last = place.span
        whole = Span(place.file or "", first_line, first, last_line, last)
        if not self.is_written(place):
            return whole
        text = self._cut(place)
        end = header_end(text)
        line = first_line + text.count("\n", 0, end)
        column = end - text.rfind("\n", 0, end) if line > first_line else first + end
        return Span(whole.file, first_line, first, line, column)

    def parameter(self, place: Place, name: str) -> Optional[Span]:
        """Where an impl that stands in the source declares a type parameter; nothing where a macro makes the impl."""
        if not self.is_written(place):
            return None
        text, inside, before = self._cut(place), 0, ""
        for token in tokens_of(text):
            inside += token.text in ("<", *OPENING)
            if inside == 1 and token.text == name and before in ("<", ","):
                line = place.span[0] + text.count("\n", 0, token.start)
                column = token.start - text.rfind("\n", 0, token.start) + (place.span[1] - 1 if line == place.span[0] else 0)
                return Span(place.file or "", line, column, line, column + len(name))
            inside -= token.text in (">", *CLOSING)
            if inside == 0 and token.text == ">":
                return None
            before = token.text
        return None

    def _cut(self, place: Place) -> str:
        """The text of an impl."""
        first_line, first, last_line, last = place.span
        lines = self.text(place.file or "").split("\n")[first_line - 1:last_line]
        if not lines:
            return ""
        lines[-1] = lines[-1][:last - 1]
        lines[0] = lines[0][first - 1:]
        return "\n".join(lines)


def header_end(text: str) -> int:
    """Where the header of an impl ends: before the brace that stands in no other brackets."""
    inside, angles, end = 0, 0, 0
    for token in tokens_of(text):
        if inside == 0 and angles <= 0 and token.text in ("{", ";"):
            break
        inside += (token.text in OPENING) - (token.text in CLOSING)
        if inside == 0:
            angles += (token.text == "<") - (token.text == ">")
        end = token.end
    return end


def span_of(raw: dict) -> Span:
    """A span of rustc's JSON."""
    expansion = raw.get("expansion")
    made = Expansion(expansion["macro_decl_name"], span_of(expansion["span"])) if expansion else None
    places: Tuple[int, int, int, int] = (raw["line_start"], raw["column_start"], raw["line_end"], raw["column_end"])
    return Span(raw["file_name"], *places, raw.get("label"), raw.get("is_primary", False), made)
