"""Counts and names what a text can't say."""

import sys
from collections import OrderedDict
from typing import List


class Unsaid(Exception):
    """What a text has no words for. Its text says what that is."""


class Report:
    """For each thing that was done about what can't be said, and each reason, the paths of the items."""

    def __init__(self) -> None:
        self.found: "OrderedDict[str, List[str]]" = OrderedDict()

    def add(self, done: str, reason: object, path: str) -> None:
        """Notes that something was done for this reason at this item."""
        self.found.setdefault("%s: %s" % (done, reason), []).append(path)

    def count(self, done: str) -> int:
        """How often this was done, for whatever reason."""
        return sum(len(paths) for what, paths in self.found.items() if what.startswith(done + ": "))

    def tell(self, quiet: bool, to=sys.stderr) -> None:
        """Prints each with its number, and the paths under it where not `quiet`."""
        for what, paths in sorted(self.found.items(), key=lambda found: -len(found[1])):
            print("%6d %s" % (len(paths), what), file=to)
            if not quiet:
                for path in paths:
                    print("         %s" % path, file=to)
