"""Which items of an impl are `default`. rustdoc's JSON has no word for it, so that the source is read."""

import os
import re
from functools import lru_cache
from typing import Iterator, List, Set, Tuple

from cargo_coherence.from_rustdoc.aside import CLOSING, OPENING, Token, tokens_of
from cargo_coherence.to_text.model import Place

QUALIFIERS = {"unsafe", "async", "const", "safe", "extern"}


def default_items(place: Place, root: str) -> Set[str]:
    """The names of the items of an impl that are known to be `default`: none where the source isn't there or a macro hides them."""
    if place.file is None:
        return set()
    source = source_of(os.path.join(root, place.file))
    first_line, first, last_line, last = place.span
    lines = source.split("\n")[first_line - 1:last_line]
    if not lines:
        return set()
    lines[-1] = lines[-1][:last - 1]
    lines[0] = lines[0][first - 1:]
    return _names(tokens_of("\n".join(lines)), source)


def may_have_default_types(place: Place, root: str) -> bool:
    """Whether a `default type` stands anywhere in the file of an impl."""
    return place.file is not None and has_default_types(os.path.join(root, place.file))


@lru_cache(maxsize=None)
def has_default_types(file: str) -> bool:
    """Whether a `default type` stands in a file."""
    return re.search(r"\bdefault\s+type\b", source_of(file)) is not None


@lru_cache(maxsize=None)
def source_of(file: str) -> str:
    """What a file holds, or nothing if it can't be read."""
    try:
        with open(file, encoding="utf-8") as source:
            return source.read()
    except (OSError, UnicodeDecodeError):
        return ""


def _names(tokens: List[Token], source: str) -> Set[str]:
    """The names that are `default` wherever they are given, also by the macros of the same file that are called for items."""
    if not tokens:
        return set()
    inside = 1 if tokens[0].text in ("impl", "unsafe", "default") else 0
    given = list(_items(tokens, inside))
    for name in _called(tokens, inside):
        given += _items(_macro(name, source), 3 - inside)
    return {name for name, _ in given} - {name for name, is_default in given if not is_default}


def _items(tokens: List[Token], depth: int) -> Iterator[Tuple[str, bool]]:
    """The name of each function, type and constant inside so many brackets, and whether it is `default`."""
    inside = 0
    for at, token in enumerate(tokens[:-1]):
        inside += (token.text in OPENING) - (token.text in CLOSING)
        name = tokens[at + 1].text
        is_name = re.match(r"\w", name) is not None and name not in QUALIFIERS and name != "fn"
        if inside == depth and token.text in ("fn", "type", "const") and is_name:
            before = at - 1
            while before >= 0 and (tokens[before].text in QUALIFIERS or tokens[before].text.startswith('"')):
                before -= 1
            yield name, before >= 0 and tokens[before].text == "default"


def _called(tokens: List[Token], depth: int) -> Iterator[str]:
    """The macros that are called inside so many brackets."""
    inside = 0
    for at, token in enumerate(tokens):
        if inside == depth and token.text == "!" and at > 0:
            yield tokens[at - 1].text
        inside += (token.text in OPENING) - (token.text in CLOSING)


def _macro(name: str, source: str) -> List[Token]:
    """What a macro of the file consists of."""
    found = re.search(r"macro_rules!\s*%s\b" % re.escape(name), source)
    if found is None:
        return []
    tokens, inside = tokens_of(source[found.end():]), 0
    for at, token in enumerate(tokens):
        inside += (token.text in OPENING) - (token.text in CLOSING)
        if inside == 0:
            return tokens[:at]
    return tokens
