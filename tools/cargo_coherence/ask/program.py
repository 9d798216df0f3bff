"""The program `rilgomut`: built where it isn't yet, and asked."""

import glob
import hashlib
import json
import os
import subprocess
import sys
from typing import List, Optional, Sequence

from cargo_coherence.from_rustdoc.toolchain import StepFailed

BESIDE = os.path.dirname(os.path.dirname(os.path.dirname(os.path.abspath(__file__))))  # where the Python package lies
ROOT = os.path.dirname(BESIDE)  # the repository, if it lies in a clone
INSTALLED = os.path.join(BESIDE, "rilgomut")

# The statuses with which it ends where a line is bad or a device failed. All others answer each query.
REFUSED = (2, 3)


def find_program(given: Optional[str], cache: str) -> str:
    """The program that is named, the one that is installed, or one built of this repository's sources. Raises `StepFailed`."""
    if given:
        if not os.access(given, os.X_OK):
            raise StepFailed("--program %s: can't be run" % given)
        return given
    if os.access(INSTALLED, os.X_OK):
        return INSTALLED
    digest = hashlib.sha256()
    for file in sorted(glob.glob(os.path.join(ROOT, "crates", "**", "*.rt"), recursive=True)):
        with open(file, "rb") as source:
            digest.update(source.read())
    folder = os.path.join(cache, "program-" + digest.hexdigest()[:16])
    program = os.path.join(folder, "rilgomut")
    if not os.path.exists(program):
        print("building the program (once, about a minute)", file=sys.stderr)
        os.makedirs(folder, exist_ok=True)
        command = [sys.executable, os.path.join(ROOT, "bench", "plain.py"), folder]
        done = subprocess.run(command, stdout=subprocess.PIPE, stderr=subprocess.STDOUT, text=True, check=False)
        if done.returncode or not os.path.exists(program):
            last = (done.stdout.strip().splitlines() or ["no word"])[-1]
            raise StepFailed("the program can't be built: `%s` says %s" % (" ".join(command[1:]), last))
    return program


def ask(program: str, text: str, queries: List[str], options: Sequence[str] = ()) -> List[str]:
    """The lines that the program answers behind a text. Raises `StepFailed`."""
    given = text + "\n".join(queries) + "\n"
    done = subprocess.run([program, *options], input=given, stdout=subprocess.PIPE, stderr=subprocess.PIPE, text=True, check=False)
    if done.returncode in REFUSED:
        reason = (done.stderr.strip() or done.stdout.strip() or "status %d" % done.returncode).splitlines()[0]
        raise StepFailed("the program refuses the text: %s" % reason)
    return done.stdout.splitlines()


class Session:
    """The program with a text that it has read, so that each further question takes no time for that."""

    def __init__(self, program: str, text: str) -> None:
        self.program = program
        self.text = text
        self.running: Optional[subprocess.Popen] = None

    def ask(self, query: str) -> List[str]:
        """The lines that the program answers to a question, with its reasons. Raises `StepFailed`."""
        if self.running is None:
            command = [self.program, "--json", "--reasons"]
            self.running = subprocess.Popen(command, stdin=subprocess.PIPE, stdout=subprocess.PIPE, stderr=subprocess.DEVNULL, text=True)
            self.running.stdin.write(self.text)
        try:
            self.running.stdin.write(query + "\n")
            self.running.stdin.flush()
        except BrokenPipeError:
            pass  # it has said why before it ended
        line = self.running.stdout.readline()
        answer = json.loads(line) if line else {"error": "it ended without an answer"}
        if "text" not in answer:
            self.close()
            raise StepFailed("the program refuses the text: %s" % answer.get("error", "no answer"))
        return answer["text"].split("\n")

    def close(self) -> None:
        """Ends the program."""
        if self.running is not None:
            self.running.kill()
            self.running.communicate()
            self.running = None
