"""Diagnostics in rustc's form: as text with the lines of the source, and as cargo's JSON."""

from dataclasses import dataclass, field
from typing import Dict, Iterator, List, Optional

from cargo_coherence.verdict.sources import Sources, Span

UNDECIDED = "undecided"
LEVELS = {"error": "error", "warning": "warning", UNDECIDED: "warning"}  # those that cargo's JSON knows
COLOURS = {"error": "1;31", "warning": "1;33", UNDECIDED: "1;35", "note": "1;32"}
BLUE = "1;34"
MOST_LINES = 6  # of a span, that are shown


@dataclass
class Note:
    """What stands below a diagnostic: its level is `note` or `help`, and it may have spans of its own."""

    message: str
    level: str = "note"
    spans: List[Span] = field(default_factory=list)


@dataclass
class Diagnostic:
    """An error, the warning of a lint, or what is undecided. `key` tells it from others also where lines have moved."""

    level: str
    code: Optional[str]
    message: str
    spans: List[Span]
    notes: List[Note] = field(default_factory=list)
    key: str = ""

    def primary(self) -> Optional[Span]:
        """The span that it is about."""
        return next((span for span in self.spans if span.is_primary), None)

    def name(self) -> str:
        """Its code, or its level where it has none."""
        return self.code or self.level


class Renderer:
    """Writes diagnostics as rustc does."""

    def __init__(self, sources: Sources, colours: bool = False) -> None:
        self.sources = sources
        self.colours = colours

    def render(self, diagnostic: Diagnostic) -> str:
        """The diagnostic with its lines, and an empty line behind it."""
        code = "[%s]" % diagnostic.code if diagnostic.code and diagnostic.code.startswith("E") else ""
        head = self._coloured(COLOURS[diagnostic.level], diagnostic.level + code) + self._coloured("1", ": " + diagnostic.message)
        own = [span for span in with_expansions(diagnostic.spans) if span.file]
        beside = [span for note in diagnostic.notes for span in note.spans]
        width = len(str(max([span.line_end for span in own + beside], default=0)))
        lines = [head, *self._snippets(own, width)]
        notes = [note for note in diagnostic.notes if not note.spans]
        if notes and own:
            lines.append(self._gutter(width))
        for note in notes:
            lines += self._note(note, width)
        for note in [note for note in diagnostic.notes if note.spans]:
            lines.append("%s: %s" % (self._coloured(COLOURS["note"], note.level), note.message))
            lines += self._snippets(note.spans, width)
        return "\n".join(lines) + "\n"

    def _note(self, note: Note, width: int) -> List[str]:
        indent = " " * (width + 3 + len(note.level) + 2)
        first, *rest = note.message.split("\n")
        sign = self._coloured(BLUE, " " * (width + 1) + "= ")
        return ["%s%s: %s" % (sign, self._coloured("1", note.level), first)] + [indent + line for line in rest]

    def _snippets(self, spans: List[Span], width: int) -> List[str]:
        """The lines of each file, that of the primary span first."""
        lines: List[str] = []
        primary = next((span for span in spans if span.is_primary), spans[0] if spans else None)
        files = list(dict.fromkeys([span.file for span in ([primary] if primary else []) + spans]))
        for file in files:
            here = [span for span in spans if span.file == file]
            begun = primary if file == primary.file else here[0]
            arrow = "--> " if file == primary.file else "::: "
            lines.append(self._coloured(BLUE, " " * width + arrow) + "%s:%d:%d" % (file, begun.line_start, begun.column_start))
            lines.append(self._gutter(width))
            lines += self._file(file, here, width)
        return lines

    def _gutter(self, width: int) -> str:
        return self._coloured(BLUE, " " * (width + 1) + "|")

    def _file(self, file: str, spans: List[Span], width: int) -> Iterator[str]:
        """The marked lines of a file, with `...` for what is left out between two."""
        long = next((span for span in spans if self._is_drawn(file, span)), None)
        by_line: Dict[int, List[Span]] = {}
        for span in sorted(spans, key=lambda span: (span.line_start, -span.column_start)):
            by_line.setdefault(span.line_start, []).extend([span] if span is not long else [])
        for number in lines_of(long) if long else []:
            by_line.setdefault(number, [])
        before = 0
        for number, here in sorted(by_line.items()):
            if before and number == before + 2:
                yield self._line(file, before + 1, width, long)
            elif before and number > before + 2:
                yield self._coloured(BLUE, "...")
            yield self._line(file, number, width, long)
            yield from self._marks(file, here, width, long) if here else ()
            if long and number == long.line_end:
                yield self._gutter(width) + " " + self._sign(long, "|" + "_" * (long.column_end - 1) + "^") + " " + self._label(long)
            before = number

    def _is_drawn(self, file: str, span: Span) -> bool:
        """Whether a span has several lines, at the side of which a line is drawn."""
        return span.line_end > span.line_start and not self.sources.line(file, span.line_start)[:span.column_start - 1].strip()

    def _side(self, number: int, long: Optional[Span]) -> str:
        """What stands at the side of a line where a span has several."""
        if long is None:
            return ""
        if number == long.line_start:
            return self._sign(long, "/") + " "
        return self._sign(long, "|") + " " if long.line_start < number <= long.line_end else "  "

    def _sign(self, span: Span, signs: str) -> str:
        return self._coloured(COLOURS["error"] if span.is_primary else BLUE, signs)

    def _line(self, file: str, number: int, width: int, long: Optional[Span]) -> str:
        return (self._coloured(BLUE, "%*d |" % (width, number)) + " " + self._side(number, long) + self.sources.line(file, number).replace("\t", "    ")).rstrip()

    def _marks(self, file: str, spans: List[Span], width: int, long: Optional[Span]) -> Iterator[str]:
        """The signs below the spans of a line, and their labels: the last one beside the signs, the others below them."""
        line = self.sources.line(file, spans[0].line_start)
        ends = [span.column_end if span.line_end == span.line_start else len(line) + 1 for span in spans]
        row: Dict[int, str] = {}
        for span, end in sorted(zip(spans, ends), key=lambda both: both[0].column_start - both[1]):  # the longest first
            for column in range(span.column_start, max(end, span.column_start + 1)):
                row[column] = self._coloured(COLOURS["error"], "^") if span.is_primary else self._coloured(BLUE, "-")
        last, *others = sorted([span for span in spans if span.label], key=lambda span: (-span.column_start, -span.column_end)) or [None]
        tabs = 3 * line[:spans[0].column_start - 1].count("\t") + (2 if long else 0)
        signs = " " * tabs + "".join(row.get(column, " ") for column in range(1, max(row) + 1))
        yield self._gutter(width) + " " + signs + (" " + self._label(last) if last else "")
        for span in others:
            indent = " " * (tabs + span.column_start - 1)
            yield self._gutter(width) + " " + indent + self._label(span)

    def _label(self, span: Span) -> str:
        return self._coloured(COLOURS["error"] if span.is_primary else BLUE, span.label or "")

    def _coloured(self, colour: str, text: str) -> str:
        return "\033[%sm%s\033[0m" % (colour, text) if self.colours else text


def lines_of(span: Span) -> List[int]:
    """The lines of a span that are shown: of many the first ones and the last one."""
    numbers = list(range(span.line_start, span.line_end + 1))
    return numbers if len(numbers) <= MOST_LINES else numbers[:MOST_LINES - 2] + numbers[-1:]


def with_expansions(spans: List[Span]) -> List[Span]:
    """The spans, and behind each that a macro made the macro's call."""
    found: List[Span] = []
    for span in spans:
        found.append(span)
        call = span.expansion.span if span.expansion else None
        if call and (call.file, call.line_start, call.column_start) != (span.file, span.line_start, span.column_start):
            found.append(Span(call.file, call.line_start, call.column_start, call.line_end, call.column_end, "in this macro invocation"))
    return found


def as_json(diagnostic: Diagnostic, sources: Sources, rendered: str) -> dict:
    """The diagnostic as rustc's JSON has it. What is undecided is a warning with that code."""
    code = diagnostic.code or (UNDECIDED if diagnostic.level == UNDECIDED else None)
    return {
        "$message_type": "diagnostic",
        "message": diagnostic.message,
        "code": {"code": code, "explanation": None} if code else None,
        "level": LEVELS[diagnostic.level],
        "spans": [_span_as_json(span, sources) for span in diagnostic.spans],
        "children": [
            {
                "message": note.message,
                "code": None,
                "level": note.level,
                "spans": [_span_as_json(span, sources) for span in note.spans],
                "children": [],
                "rendered": None,
            }
            for note in diagnostic.notes
        ],
        "rendered": rendered,
    }


def _span_as_json(span: Span, sources: Sources) -> dict:
    text = []
    for number in range(span.line_start, span.line_end + 1):
        line = sources.line(span.file, number)
        start = span.column_start if number == span.line_start else 1
        end = span.column_end if number == span.line_end else len(line) + 1
        text.append({"text": line, "highlight_start": start, "highlight_end": end})
    expansion = None
    if span.expansion:
        expansion = {"span": _span_as_json(span.expansion.span, sources), "macro_decl_name": span.expansion.macro, "def_site_span": None}
    return {
        "file_name": span.file,
        "byte_start": sources.byte(span.file, span.line_start, span.column_start),
        "byte_end": sources.byte(span.file, span.line_end, span.column_end),
        "line_start": span.line_start,
        "line_end": span.line_end,
        "column_start": span.column_start,
        "column_end": span.column_end,
        "is_primary": span.is_primary,
        "text": text,
        "label": span.label,
        "suggested_replacement": None,
        "suggestion_applicability": None,
        "expansion": expansion,
    }
