"""Names of a text: letters, digits and `_`, up to 64 of them, each given once."""

import re
from typing import Set

NUMBERS = {sign + width for sign in "iu" for width in ("8", "16", "32", "64", "128", "size")}
PRIMITIVES = NUMBERS | {"bool", "char", "str", "f16", "f32", "f64", "f128"}
TAKEN_WORDS = PRIMITIVES | {"error", "dyn", "fn"}


class Names:
    """The names that were given."""

    def __init__(self) -> None:
        self.given: Set[str] = set()

    def fresh(self, wanted: str) -> str:
        """A name that stands for nothing yet, as near to this one as can be."""
        base = re.sub(r"[^A-Za-z0-9_]", "_", wanted)[:54]
        if not re.match(r"[A-Za-z]", base):
            base = "n" + base
        name, number = base, 1
        while name in self.given or name in TAKEN_WORDS:
            number += 1
            name = "%s_%d" % (base, number)
        self.given.add(name)
        return name
