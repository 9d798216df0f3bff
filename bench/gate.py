#!/usr/bin/env python3
"""Runs the gate: `./check`, `rt ci`, wrong bodies and refused memory; says of each step how long it took.

`./check` comes first, so that a fault that no proof has to find ends the gate in a minute or two. `rt ci` then proves all crates. Beside it run:

- wrong bodies (`edits.py --gate`): those of a crate begin once the libraries below it are built. Each counts as passed if it is refused, and else
  as failed.
- growths refused in plain Rust (`./check growths "row growths"`), on what the proofs leave of the processors.
- growths refused of the program as it is proved (`refuse.py --built`), from when that is built, where there is a C compiler.

It prints what `rt ci` prints, behind each step that ended its minutes on the clock and of the processors, then all steps, and last the line
that `rt ci` ends with, with what else passed and failed counted in. The status is 0 where nothing failed. A step is the proof of a crate or of its
tests, or all wrong bodies of a crate. Its time is read off the processes that work on it, once a second, so it is right to a second or two.

A kit that keeps what passed (13f) proves only what changed since; `--anew` makes it prove all. An older one (13b) always does.

After a run without failure the file `.git/gate-passed` has one line: the hash of the tree that passed, and whether anything
was uncommitted when the run began.
"""

import argparse
import glob
import os
import queue
import re
import resource
import shutil
import subprocess
import sys
import threading
import time

from wrong_bodies import Crate

ROOT = os.path.dirname(os.path.dirname(os.path.abspath(__file__)))
TICKS = os.sysconf("SC_CLK_TCK")
PROGRAM = "assembly"


def minutes(seconds):
    return "%d:%02d" % divmod(round(seconds), 60)


def text_of(path):
    try:
        with open(path, "rb") as file:
            return file.read().decode(errors="replace")
    except OSError:
        return ""


def step_of(pid):
    """The crate and the part of the gate that a process works on, if its command names them."""
    words = text_of(f"/proc/{pid}/cmdline").split("\0")
    if "--crate-name" not in words[:-1]:
        return None
    crate = words[words.index("--crate-name") + 1]
    try:
        is_edit = os.path.basename(os.readlink(f"/proc/{pid}/cwd")).startswith("wrong-bodies-")
    except OSError:
        is_edit = False
    return crate, "wrong bodies" if is_edit else "tests" if "--test" in words else "proof"


class Watch(threading.Thread):
    """Reads once a second what the processes below this one have used."""

    def __init__(self):
        super().__init__(daemon=True)
        self.used = {}
        self.spans = {}
        self.done = threading.Event()

    def run(self):
        while not self.done.wait(1):
            self.look()

    def look(self):
        now, below = time.monotonic(), {os.getpid()}
        parents = {}
        for name in filter(str.isdigit, os.listdir("/proc")):
            fields = text_of(f"/proc/{name}/stat").rpartition(")")[2].split()
            if len(fields) > 19:
                parents[int(name)] = int(fields[1]), (int(fields[11]) + int(fields[12])) / TICKS, fields[19]
        while more := {pid for pid in parents if pid not in below and parents[pid][0] in below}:
            below |= more
        for pid in below & parents.keys():
            step = step_of(pid)
            if step:
                self.used[step, pid, parents[pid][2]] = parents[pid][1]
                first, _ = self.spans.get(step, (now, now))
                self.spans[step] = first, now

    def time_of(self, step):
        first, last = self.spans.get(step, (0, 0))
        used = sum(time for (of, _, _), time in self.used.copy().items() if of == step)
        return f"{minutes(last - first)} min, {minutes(used)} of the processors"


def lanes():
    """How many checks may run side by side: one a processor, each of which takes 5 GB at most."""
    with open("/proc/meminfo") as file:
        free = int(re.search(r"MemAvailable:\s+(\d+)", file.read())[1]) * 1024
    return max(1, min(len(os.sched_getaffinity(0)), free // 5_000_000_000))


def git(*words):
    """What git says, or nothing outside a work tree."""
    ran = subprocess.run(["git", *words], cwd=ROOT, capture_output=True, text=True, errors="replace")
    return ran.stdout.strip() if ran.returncode == 0 else ""


def tree_at_hand():
    """The committed tree, and whether the files differ from it."""
    tree = git("rev-parse", "HEAD^{tree}")
    return f"{tree} {'uncommitted changes' if git('status', '--porcelain') else 'committed'}" if tree else ""


def note_passed(tree):
    """Keeps which tree passed beside what git keeps."""
    folder = git("rev-parse", "--absolute-git-dir")
    if tree and folder:
        with open(os.path.join(folder, "gate-passed"), "w") as file:
            print(tree, file=file)


def check_first():
    """Whether `./check` finds no fault."""
    return subprocess.run([sys.executable, os.path.join(ROOT, "check")], cwd=ROOT).returncode == 0


class Beside(threading.Thread):
    """A command that runs beside the proofs, and what it printed."""

    def __init__(self, *words):
        super().__init__(daemon=True)
        self.words, self.ran, self.said = words, None, ""

    def run(self):
        self.ran = subprocess.Popen(self.words, cwd=ROOT, stdout=subprocess.PIPE, stderr=subprocess.STDOUT, text=True, errors="replace")
        self.said = self.ran.communicate()[0]

    def end(self, is_wanted):
        """Whether all was as it should be, when it has ended; it isn't waited for where it isn't wanted any more."""
        if not self.ident:
            return False
        if not is_wanted and self.ran:
            self.ran.terminate()
        self.join()
        print(self.said, end="", flush=True)
        return self.ran.returncode == 0


def plain_growths():
    """Growths refused in plain Rust of the sources."""
    return Beside("nice", "-n", "10", sys.executable, os.path.join(ROOT, "check"), "growths", "row growths")


def proved_growths():
    """Growths refused of the program as it is proved, or `None` where that can't be tried."""
    if not shutil.which("cc"):
        print("gate: memory isn't refused: there is no cc")
        return None
    return Beside(sys.executable, os.path.join(ROOT, "bench", "refuse.py"), "--built")


class WrongBodies(threading.Thread):
    """Tries the wrong bodies of the gate, on half of the processors: those of a crate once the libraries below it are built."""

    def __init__(self):
        super().__init__(daemon=True)
        tried = {path.split(os.sep)[-3] for path in glob.glob(os.path.join(ROOT, "crates", "*", "wrong", "*.edit"))}
        self.awaited = {name: {*Crate(name, ROOT).below()} for name in sorted(tried)}
        self.ready, self.is_wanted, self.ran = queue.Queue(), True, None
        self.refused, self.missed = 0, 0
        self.is_built(None)

    def is_built(self, crate):
        """Notes that a library is built."""
        for name, below in [*self.awaited.items()]:
            below.discard(crate)
            if not below:
                del self.awaited[name]
                self.ready.put(name)

    def run(self):
        while (name := self.ready.get()) is not None:
            if self.is_wanted:
                self.try_all_of(name)

    def try_all_of(self, name):
        """Tries those of a crate; one that broke off counts as not refused."""
        script = os.path.join(ROOT, "bench", "edits.py")
        words = ["nice", "-n", "10", sys.executable, script, "--gate", "--lanes", str(max(1, lanes() // 2)), name]
        self.ran = subprocess.Popen(words, cwd=ROOT, stdout=subprocess.PIPE, text=True, errors="replace")
        last = ""
        for last in self.ran.stdout:
            print(f"{name}: {last}", end="", flush=True)
        counts = re.fullmatch(r"(\d+) refused, (\d+) not\n", last)
        is_whole = self.ran.wait() in (0, 1) and counts
        self.refused += int(counts[1]) if is_whole else 0
        self.missed += int(counts[2]) if is_whole else 1

    def end(self, is_wanted):
        """How many were refused, and how many not, when all were tried; they aren't waited for where they aren't wanted any more."""
        self.is_wanted = is_wanted
        if not is_wanted and self.ran:
            self.ran.terminate()
        self.ready.put(None)
        self.join()
        return self.refused, self.missed + len(self.awaited)


def last_line(line, passed, failed):
    """The line that `rt ci` ended with, with what else passed and failed."""
    counts = re.fullmatch(r"(\d+) passed, (\d+) failed\n?", line)
    return f"{int(counts[1]) + passed} passed, {int(counts[2]) + failed} failed\n" if counts else line


def run_ci(watch, built, flags):
    """Runs `rt ci` with what it prints, and calls `built` with each crate that is: its status, and its last line."""
    held = ""
    # What the gate itself takes for granted, a crate at a time where it is large, leaves processors idle for half of the run.
    jobs = {"RT_JOBS": str(lanes()), **os.environ}
    ran = subprocess.Popen(["rt", "ci", *flags], cwd=ROOT, env=jobs, stdout=subprocess.PIPE, text=True, errors="replace")
    for line in ran.stdout:
        print(held, end="", flush=True)
        ended = re.match(r"rt: (\w+?)(: its tests are)? (proved|NOT PROVED|is kept)\b", line)
        if ended and ended[3] != "is kept":
            watch.look()
            step = ended[1], "tests" if ended[2] else "proof"
            line = f"{line.rstrip()} ({watch.time_of(step)})\n"
        if ended and not ended[2] and ended[3] != "NOT PROVED":
            built(ended[1])
        held = line
    return ran.wait(), held


def run_all(watch, flags):
    """Runs `rt ci` and what runs beside it: the status, and the last line."""
    bodies, plain, proved = WrongBodies(), plain_growths(), proved_growths()
    bodies.start()
    plain.start()

    def built(crate):
        bodies.is_built(crate)
        if crate == PROGRAM and proved:
            proved.start()

    status, held = run_ci(watch, built, flags)
    passed, failed = bodies.end(status == 0)
    for beside in filter(None, [plain, proved]):
        is_well = beside.end(status == 0)
        passed, failed = passed + is_well, failed + (not is_well)
    # Where `rt ci` fails its own line says so, and what broke off for that is no failure besides.
    return (status, held) if status else (int(failed > 0), last_line(held, passed, failed))


def keeps():
    """Whether the kit keeps what passed."""
    return "--anew" in subprocess.run(["rt", "help"], capture_output=True, text=True, errors="replace").stdout


def main():
    words = argparse.ArgumentParser(description=__doc__, formatter_class=argparse.RawDescriptionHelpFormatter)
    words.add_argument("--anew", action="store_true", help="proves also what an earlier run on this machine passed")
    flags = ["--anew"] if words.parse_args().anew and keeps() else []
    start, watch, tree = time.monotonic(), Watch(), tree_at_hand()
    if not check_first():
        print("0 passed, 1 failed")
        return 1
    watch.start()
    status, held = run_all(watch, flags)
    if status == 0:
        note_passed(tree)
    watch.done.set()
    watch.join()
    for crate, part in sorted(watch.spans):
        print(f"gate: {crate}, {part}: {watch.time_of((crate, part))}")
    spent = resource.getrusage(resource.RUSAGE_CHILDREN)
    print(f"gate: all: {minutes(time.monotonic() - start)} min, {minutes(spent.ru_utime + spent.ru_stime)} of the processors")
    print(held, end="", flush=True)
    return status


if __name__ == "__main__":
    sys.exit(main())
