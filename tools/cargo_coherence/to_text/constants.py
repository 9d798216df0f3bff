"""Constants: which number of a text stands for one.

Two constants that are equal must be one number, or an overlap would be missed. So a literal is read as its value, and any other expression
is refused: whoever asks takes a parameter for it, or leaves out what it stands in.
"""

import re
from typing import Optional, Tuple

INTEGER = re.compile(r"(-?)\s*(0x[0-9a-f_]+|0o[0-7_]+|0b[01_]+|[0-9][0-9_]*)([iu](?:8|16|32|64|128|size))?$", re.IGNORECASE)
CHARACTER = re.compile(r"'(?:([^'\\])|\\u\{([0-9a-fA-F_]+)\}|\\x([0-9a-fA-F]{2})|\\([nrt\\0'\"]))'$")
ESCAPED = {"n": "\n", "r": "\r", "t": "\t", "\\": "\\", "0": "\0", "'": "'", '"': '"'}
BITS = 64
SIGNED = ("i8", "i16", "i32", "i64", "i128", "isize")
KINDS = (*SIGNED, "u8", "u16", "u32", "u64", "u128", "usize", "bool", "char")


def literal(expression: str) -> Optional[int]:
    """The value of a literal: 16 for `0x10usize`, 1 for `true`, the code point of a character. Nothing if the expression is none."""
    expression = _inside(expression)
    found = INTEGER.match(expression)
    if found:
        digits = found.group(2).lower().replace("_", "")
        base = {"0x": 16, "0o": 8, "0b": 2}.get(digits[:2], 10)
        value = int(digits[2:] if base != 10 else digits, base)
        return -value if found.group(1) else value
    if expression in ("true", "false"):
        return int(expression == "true")
    found = CHARACTER.match(expression)
    return _code_point(found) if found else None


def _inside(expression: str) -> str:
    """The expression without the braces around it."""
    expression = expression.strip()
    while expression.startswith("{") and expression.endswith("}"):
        expression = expression[1:-1].strip()
    return expression


def _code_point(found: "re.Match[str]") -> int:
    plain, wide, narrow, escaped = found.groups()
    if wide or narrow:
        return int((wide or narrow).replace("_", ""), 16)
    return ord(plain or ESCAPED[escaped])


def fits(expression: str, of_type: str) -> bool:
    """Whether a literal is one of a type, which is known by its name. Of an unknown type each literal is one."""
    value, of_character = literal(expression), CHARACTER.match(_inside(expression))
    of_integer = INTEGER.match(_inside(expression))
    if value is None or of_type not in KINDS:
        return True
    if of_type in ("bool", "char"):
        return bool(of_character) if of_type == "char" else not of_integer and not of_character
    least, above = range_of(of_type)
    return bool(of_integer) and of_integer.group(3) in (None, of_type) and least <= value < above


def range_of(of_type: str) -> Tuple[int, int]:
    """The least value of a type of numbers, and the one above the greatest. `usize` and `isize` have 64 bits."""
    bits = BITS if of_type.endswith("size") else int(of_type[1:])
    return (-(1 << bits - 1), 1 << bits - 1) if of_type in SIGNED else (0, 1 << bits)


def number(value: int, of_type: str) -> Optional[str]:
    """The number that stands for a value, of a negative one the two's complement. Nothing if it has more than 64 bits, or may be one of two then.

    What has 128 bits, or a type that isn't known, can be said as far as no two values have one number.
    """
    above = 1 << (BITS if of_type in KINDS and of_type not in SIGNED else BITS - 1)
    return str(value % (1 << BITS)) if -(1 << BITS - 1) <= value < above else None


def spell_constant(word: str, of_type: str) -> str:
    """A number as Rust writes the constant, whose type is known by its name."""
    if not word.isdigit():
        return word
    value = int(word)
    if of_type == "bool" and value < 2:
        return "true" if value else "false"
    if of_type == "char" and value <= 0x10FFFF and chr(value).isprintable():
        return "'%s'" % (chr(value) if chr(value) not in "\\'" else "\\" + chr(value))
    return str(value - (1 << BITS)) if of_type in SIGNED and value >= 1 << BITS - 1 else word


def parameter_name(expression: str) -> str:
    """The expression without the braces that Rust wants around one that isn't a name."""
    return expression.strip().strip("{}").strip()
