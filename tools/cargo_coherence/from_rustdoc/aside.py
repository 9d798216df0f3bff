"""Puts impls aside that rustdoc refuses to document, since rustc finds a fault of coherence in them.

An impl `impl<T: Display> Show for T where W { .. }` is written as a function in the same place,
`fn NAME<T: Display>(own: *const (T), header: impl Show) where W {}`, which nothing is wrong with, and which `rust_json` reads as the impl.
No line moves. The name has the lines and columns of the impl, since what stands behind it in a line moves.
"""

import re
from dataclasses import dataclass, field
from typing import Dict, List, Optional, Tuple

from cargo_coherence.from_rustdoc.rust_json import ASIDE

TOKEN = re.compile(
    r"""(?P<space>\s+|//[^\n]*)
      | (?P<block>/\*)
      | (?P<raw>b?r(?P<hashes>\#*)".*?"(?P=hashes)|c?r(?P<more>\#*)".*?"(?P=more))
      | (?P<string>[bc]?"(?:\\.|[^"\\])*")
      | (?P<char>b?'(?:\\(?:u\{[^}]*\}|x..|.)|[^'\\])')
      | (?P<lifetime>'[A-Za-z_]\w*)
      | (?P<word>(?:r\#)?\w+)
      | (?P<sign>::|->|=>|\.\.=|\.\.\.|\.\.|==|!=|&&|\|\||.)""",
    re.VERBOSE | re.DOTALL,
)
OPENING, CLOSING = {"(": ")", "[": "]", "{": "}"}, {")", "]", "}"}


@dataclass
class Token:
    """A word or sign of Rust, and where it stands."""

    text: str
    start: int
    end: int


def tokens_of(source: str) -> List[Token]:
    """The words and signs, without spaces and comments."""
    tokens, at = [], 0
    while at < len(source):
        found = TOKEN.match(source, at)
        end = found.end()
        if found.group("block"):
            end = _block_end(source, at)
        elif not found.group("space"):
            tokens.append(Token(found.group(), at, end))
        at = end
    return tokens


def _block_end(source: str, at: int) -> int:
    depth = 0
    for found in re.compile(r"/\*|\*/").finditer(source, at):
        depth += 1 if found.group() == "/*" else -1
        if depth == 0:
            return found.end()
    return len(source)


@dataclass
class WrittenImpl:
    """An impl of a trait in a source, by its tokens."""

    start: int
    end: int
    generics: List[Token]
    is_negative: bool
    trait: List[Token]
    own: List[Token]
    where: List[Token]

    def as_function(self, number: str) -> str:
        """The function that says the same. The number is a part of its name."""
        own = _joined(self.own)
        clauses = _joined(_with_own(self.where, own))
        where = "where %s " % clauses if clauses else ""
        name = "%s%s%s" % (ASIDE, "negative_" if self.is_negative else "", number)
        header = _joined(_with_own(self.trait, own))
        return "fn %s%s(own: *const (%s), header: impl %s) %s{}" % (name, _joined(self.generics), own, header, where)


def _joined(tokens: List[Token]) -> str:
    return " ".join(token.text for token in tokens)


def _with_own(tokens: List[Token], own: str) -> List[Token]:
    """`Self` replaced by the type that it is."""
    replaced = []
    for i, token in enumerate(tokens):
        if token.text == "Self":
            follows = i + 1 < len(tokens) and tokens[i + 1].text == "::"
            token = Token("<%s>" % own if follows else "(%s)" % own, token.start, token.end)
        replaced.append(token)
    return replaced


class _Reader:
    """Reads impls from tokens."""

    def __init__(self, tokens: List[Token]) -> None:
        self.tokens = tokens
        self.at = 0

    def text(self) -> str:
        """The next token, or nothing at the end."""
        return self.tokens[self.at].text if self.at < len(self.tokens) else ""

    def until(self, stops: Tuple[str, ...]) -> List[Token]:
        """The tokens up to one of these that stands within no bracket."""
        first, brackets, angles = self.at, 0, 0
        while self.at < len(self.tokens):
            text = self.text()
            if brackets == 0 and angles == 0 and text in stops:
                break
            if text in OPENING:
                brackets += 1
            elif text in CLOSING:
                brackets -= 1
            elif text in ("<", ">") and brackets == 0:
                angles += 1 if text == "<" else -1
            self.at += 1
        return self.tokens[first:self.at]

    def generics(self) -> List[Token]:
        """What stands in `<..>`, with the signs."""
        if self.text() != "<":
            return []
        first, angles, brackets = self.at, 0, 0
        while self.at < len(self.tokens):
            text = self.text()
            brackets += (text in OPENING) - (text in CLOSING)
            if brackets == 0:
                angles += (text == "<") - (text == ">")
            self.at += 1
            if angles == 0:
                break
        return self.tokens[first:self.at]


def impls_of(source: str) -> List[WrittenImpl]:
    """The impls of traits that a source has, but for those with the parameters of a macro in them."""
    tokens = tokens_of(source)
    found = []
    for i, token in enumerate(tokens):
        if token.text == "impl":
            first = i
            while first > 0 and tokens[first - 1].text in ("unsafe", "default"):
                first -= 1
            if first == 0 or tokens[first - 1].text in (";", "}", "{", "]"):
                written = _impl(tokens, first, i + 1)
                if written is not None:
                    found.append(written)
    return found


def _impl(tokens: List[Token], first: int, after: int) -> Optional[WrittenImpl]:
    reader = _Reader(tokens)
    reader.at = after
    generics = reader.generics()
    trait = reader.until(("for", "where", "{", ";"))
    if reader.text() != "for":
        return None
    reader.at += 1
    own = reader.until(("where", "{", ";"))
    where: List[Token] = []
    if reader.text() == "where":
        reader.at += 1
        where = reader.until(("{", ";"))
    if reader.text() != "{":
        return None
    reader.at += 1
    reader.until(("}",))
    if reader.at >= len(tokens) or any(token.text == "$" for token in tokens[first:reader.at]):
        return None
    is_negative = bool(trait) and trait[0].text == "!"
    while trait and trait[0].text in ("!", "const"):
        trait = trait[1:]
    return WrittenImpl(tokens[first].start, tokens[reader.at].end, generics, is_negative, trait, own, where)


@dataclass
class Edited:
    """A source in which impls are put aside. `chosen` are these impls, by where they begin in the source as it was."""

    source: str
    chosen: Dict[int, WrittenImpl] = field(default_factory=dict)

    def text(self) -> str:
        """The source with the impls written as functions."""
        parts, at = [], 0
        for start, written in sorted(self.chosen.items()):
            parts += [self.source[at:start], self._function(written)]
            at = written.end
        return "".join(parts) + self.source[at:]

    def _function(self, written: WrittenImpl) -> str:
        place = [*line_and_column(self.source, written.start), *line_and_column(self.source, written.end)]
        lost = self.source.count("\n", written.start, written.end)
        return written.as_function("_".join(map(str, place))) + "\n" * lost

    def original(self, offset: int) -> int:
        """Where in the source stands what stands at an offset of the text; within a function the beginning of its impl."""
        moved = 0
        for start, written in sorted(self.chosen.items()):
            length = len(self._function(written))
            if offset < start + moved:
                break
            if offset < start + moved + length:
                return start
            moved += length - (written.end - start)
        return offset - moved

    def put_aside(self, offset: int) -> bool:
        """Puts the innermost impl aside that is around an offset of the source. Answers whether there is one that wasn't yet."""
        around = [written for written in impls_of(self.source) if written.start <= offset < written.end]
        if not around:
            return False
        innermost = max(around, key=lambda written: written.start)
        is_within = any(written.start < innermost.start < written.end for written in self.chosen.values())
        if innermost.start in self.chosen or is_within:
            return False
        for start in [start for start in self.chosen if innermost.start < start < innermost.end]:
            del self.chosen[start]
        self.chosen[innermost.start] = innermost
        return True


def line_and_column(source: str, offset: int) -> Tuple[int, int]:
    """The line and column of a place, both counted from 1."""
    return source.count("\n", 0, offset) + 1, offset - source.rfind("\n", 0, offset)


def offset_of(source: str, line: int, column: int) -> int:
    """The place of a line and a column, both counted from 1."""
    return sum(len(text) + 1 for text in source.split("\n")[:line - 1]) + column - 1
