"""What is kept between runs in the user's cache folder: translated crates, and what was found of a crate.

The name of a file is made of all that it depends on: the files of JSON, the program, and the sources of this package. A file that can't be read is
made anew.
"""

import glob
import hashlib
import os
import pickle
from typing import Any, Callable, Dict, List, Optional

MOST_FILES = 60  # of each kind: the oldest ones go
HERE = os.path.dirname(os.path.abspath(__file__))
UNREADABLE = (OSError, pickle.UnpicklingError, EOFError, AttributeError, ImportError, IndexError, TypeError, ValueError)


class Kept:
    """The folder of what is kept."""

    def __init__(self, cache: str) -> None:
        self.folder = os.path.join(cache, "kept")
        self.sources = [stamp(file) for file in sorted(glob.glob(os.path.join(HERE, "**", "*.py"), recursive=True))]

    def get(self, kind: str, depends: List[str], make: Callable[[], Any]) -> Any:
        """What was kept under these words, or else what is made now, which is kept then."""
        digest = hashlib.sha256("\n".join([*self.sources, *depends]).encode()).hexdigest()[:24]
        file = os.path.join(self.folder, "%s-%s" % (kind, digest))
        found = self._read(file)
        if found is None:
            found = make()
            self._write(kind, file, found)
        return found

    @staticmethod
    def _read(file: str) -> Optional[Any]:
        try:
            with open(file, "rb") as source:
                found = pickle.load(source)
            os.utime(file)
            return found
        except UNREADABLE:
            return None

    def _write(self, kind: str, file: str, found: Any) -> None:
        try:
            os.makedirs(self.folder, exist_ok=True)
            with open("%s.%d" % (file, os.getpid()), "wb") as target:
                pickle.dump(found, target, protocol=pickle.HIGHEST_PROTOCOL)
            os.replace(target.name, file)
            old = sorted(glob.glob(os.path.join(glob.escape(self.folder), kind + "-*")), key=os.path.getmtime)
            for other in old[:-MOST_FILES]:
                os.unlink(other)
        except OSError:
            pass  # it is made anew the next time


def stamp(file: str) -> str:
    """A word for a file as it is now: it changes where the file does."""
    try:
        found = os.stat(file)
    except OSError:
        return "%s none" % file
    return "%s %d %d" % (file, found.st_size, found.st_mtime_ns)


def stamps(files: Dict[str, str]) -> List[str]:
    """The words for files of JSON, by key."""
    return ["%s %s" % (key, stamp(file)) for key, file in files.items()]
