#!/usr/bin/env python3
"""Says how long each function of a crate takes to prove, and what of its proof takes it.

    profile.py CRATE [--anew] [--most N]            runs `rt check --jobs 1` in crates/CRATE and times its lines
    profile.py CRATE --built FOLDER [--most N]      checks it from nothing over the libraries that `rt ci` built in that checkout
    profile.py --log FILE [--most N]                reads such a run again (each of its lines begins with its second)

It prints the functions, the dearest first, with their seconds, the share of all that they and those above them take, and
how many times the median that is; then a sum for each module, and a sum for each part of a proof: `Proof` (tactics on goals
without an answer), `Lts` (borrows), `Answers`, `Goals`, `Tie` (calls), `Layout`, `Named`, `Mir` (the types that a signature
reaches). Last stand the functions that take more than twenty times the median, or more than ten seconds: each wants a
reason in `docs/DECISIONS.md`.

A function's time is the time between its line and the line before, so it has in it the lemma files that were checked for it
first. With --anew what earlier checks of the crate kept is removed before. Times are those of the clock: a busy machine
doubles them. A check takes over what other copies on the machine kept of the same files, so that a run from nothing needs a
machine, or a text, that has none; with --built none is taken over.
"""

import argparse
import collections
import glob
import os
import re
import shutil
import statistics
import subprocess
import sys
import time

from wrong_bodies import Crate

ROOT = os.path.dirname(os.path.dirname(os.path.abspath(__file__)))
CHECKED = re.compile(r"([\d.]+) checked (\S+), (\d+) of (\d+)")
PARTS = "Answers Code Given Goals Invariants Key Kinds Layout Lts Met Mir Named Proof Reads Statement Symbol Tie View".split()
MANY_TIMES, SECONDS = 20, 10


def command(crate, folder, built):
    """The command that checks the crate, over what is built there if that is named."""
    if not built:
        return ["rt", "check", "--jobs", "1"]
    kept = os.path.join(folder, "out", "incremental")
    shutil.rmtree(kept, ignore_errors=True)
    os.makedirs(kept)
    return [*Crate(crate, built).command(), "--progress", "--incremental", kept]


def run(crate, anew, built):
    """Checks the crate, and returns the log of its lines with their seconds."""
    folder = os.path.join(ROOT, "crates", crate)
    if anew:
        shutil.rmtree(os.path.join(folder, "out"), ignore_errors=True)
    path = os.path.join(folder, "out", "profile.log")
    os.makedirs(os.path.dirname(path), exist_ok=True)
    words, begun = command(crate, folder, built), time.time()
    with open(path, "w") as log:
        check = subprocess.Popen(words, cwd=folder, stdout=subprocess.PIPE, stderr=subprocess.STDOUT, text=True)
        for line in check.stdout:
            log.write(f"{time.time() - begun:.2f} {line}")
            log.flush()
    print(f"{path}: status {check.wait()}, {time.time() - begun:.0f} s")
    return path, begun


def times_of(path):
    """The functions of a log with their seconds, the dearest first."""
    rows, before = [], None
    with open(path, errors="replace") as log:
        for line in log:
            found = CHECKED.match(line)
            if found:
                now = float(found[1])
                rows.append((now - (now if before is None else before), found[2]))
                before = now
    return sorted(rows, reverse=True)


def show_functions(rows, most):
    total, median = sum(it for it, _ in rows), statistics.median(it for it, _ in rows)
    print(f"{len(rows)} functions, {total:.0f} s, median {median:.2f} s")
    so_far = 0
    for seconds, name in rows[:most]:
        so_far += seconds
        print(f"{seconds:8.2f}  {100 * so_far / total:3.0f}%  {seconds / median:5.1f} times  {name}")
    modules = collections.defaultdict(list)
    for seconds, name in rows:
        modules["::".join(name.split("::")[1:3])].append(seconds)
    print("module: seconds, functions, seconds each")
    for module, found in sorted(modules.items(), key=lambda it: -sum(it[1])):
        print(f"{sum(found):8.1f} {len(found):5d} {sum(found) / len(found):7.2f}  {module}")
    dear = [(it, name) for it, name in rows if it > MANY_TIMES * median or it > SECONDS]
    print(f"{len(dear)} functions over {MANY_TIMES} times the median or {SECONDS} s")
    for seconds, name in dear:
        print(f"{seconds:8.2f}  {name}")


def show_parts(crate, since):
    """Sums the gaps between the times at which the check wrote its files, by the part that each is of."""
    files = glob.glob(os.path.join(ROOT, "crates", crate, "out", "incremental", "antt-*", "*.oantt"))
    written = sorted((os.stat(it).st_mtime, os.path.basename(it)) for it in files if os.stat(it).st_mtime >= since)
    sums = collections.Counter()
    for (before, _), (now, name) in zip(written, written[1:]):
        part = re.match(r"[A-Z][a-z]+", name.split(".")[-2])
        sums[part[0] if part and part[0] in PARTS else "lemma files and the rest"] += now - before
    print("part: seconds")
    for part, seconds in sums.most_common():
        print(f"{seconds:8.1f}  {part}")


def main():
    words = argparse.ArgumentParser(description=__doc__, formatter_class=argparse.RawDescriptionHelpFormatter)
    words.add_argument("crate", nargs="?")
    words.add_argument("--anew", action="store_true", help="remove first what was kept of the crate")
    words.add_argument("--built", help="a checkout in which the libraries below are built")
    words.add_argument("--log", help="a log to read, in the place of a run")
    words.add_argument("--most", type=int, default=40, help="how many functions are printed")
    asked = words.parse_args()
    if not asked.log and not asked.crate:
        words.error("a crate, or --log FILE")
    path, begun = (asked.log, None) if asked.log else run(asked.crate, asked.anew, asked.built)
    rows = times_of(path)
    if not rows:
        sys.exit("no function was checked")
    show_functions(rows, asked.most)
    if begun:
        show_parts(asked.crate, begun)


if __name__ == "__main__":
    main()
