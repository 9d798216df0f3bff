#!/usr/bin/env python3
"""Tries wrong bodies: edits of the sources, each of which the prover has to refuse.

    edits.py [CRATE|CRATE/NAME ..]     tries `crates/CRATE/edits/*.edit`, which stand outside the gate; all if nothing is named
    edits.py --gate [CRATE ..]         tries `crates/CRATE/wrong/*.edit`, which stand in the gate
    edits.py --untried [CRATE ..]      tries those that `--left` names
    edits.py --left                    names those outside the gate that were never tried, or not since they were changed
    edits.py --unfit                   names those whose words don't stand in the sources as they are

    --lanes N          how many checks run at a time; each takes 5 GB at most (1)
    --built FOLDER     the checkout in which `rt ci` built the libraries below the crates (this one)

An edit has lines `file: `, `old: ` and `new: `, as `rt must-fail` has them, and may say by a line `by: ` which functions have to refuse it.
It is tried over open proofs of all other functions of its crate, together with others (`wrong_bodies.py`): some 20 seconds an edit. What
turns no function, as an edit of a definition, is tried over a check of the whole crate, in minutes. Each edit has a line of its own, with
what refuses it. The last line is `N refused, M not`, and the status is 0 where all are refused.

`bench/edits.log` keeps what was said last of each edit outside the gate, a line each: its crate and name, the commit at hand, and `refused`,
`not refused`, or `unclear`: where the edited text isn't taken, or only a proof names what the edit took away.
"""

import argparse
import concurrent.futures
import fcntl
import glob
import os
import re
import shutil
import subprocess
import sys
import tempfile
import threading

from wrong_bodies import ROOT, Batch, Crate, Edit, batches, is_of_names

LOG = os.path.join(ROOT, "bench", "edits.log")
MOST = 40  # edits that are tried in one run
GATE, OUTSIDE = "wrong", "edits"


def git(*words):
    return subprocess.run(["git", *words], cwd=ROOT, capture_output=True, text=True, errors="replace").stdout.strip()


def asked_for(names, folder):
    """The edits that are named, by crate."""
    found = {}
    for path in sorted(glob.glob(os.path.join(ROOT, "crates", "*", folder, "*.edit"))):
        edit = Edit(path)
        if not names or edit.crate in names or edit.label in names:
            found.setdefault(edit.crate, []).append(edit)
    return found


def said_before():
    """What the log says of each edit: the commit, and whether it was refused."""
    if not os.path.isfile(LOG):
        return {}
    with open(LOG) as log:
        return {line.split()[0]: line.split(maxsplit=2)[1:] for line in log.read().splitlines() if line.strip()}


def note(said):
    """Puts what was said just now into the log, in the place of what was said before. Several runs may do so at a time."""
    with open(os.path.join(tempfile.gettempdir(), "edits.lock"), "w") as lock:
        fcntl.flock(lock, fcntl.LOCK_EX)
        lines = {**said_before(), **said}
        with open(LOG, "w") as log:
            log.writelines(f"{name} {commit} {what.strip()}\n" for name, (commit, what) in sorted(lines.items()))


def is_left(edit, said):
    """Whether an edit was never tried, or not as it stands."""
    if edit.label not in said:
        return True
    return bool(git("log", "-1", "--format=%h", f"{said[edit.label][0]}..HEAD", "--", edit.path))


def is_unfit(edit):
    """Whether the texts that it replaces don't each stand once in their file."""
    return edit.applied(Crate(edit.crate, ROOT).text_of) is None


class Trial:
    """Tries edits, and says what came of each as soon as it is known."""

    def __init__(self, built, lanes, is_gate):
        self.built, self.lanes, self.is_gate = built, lanes, is_gate
        self.commit, self.refused, self.alone = git("rev-parse", "--short", "HEAD"), 0, threading.Lock()

    def run(self, asked):
        with concurrent.futures.ThreadPoolExecutor(self.lanes) as pool:
            tasks = []
            for name, edits in asked.items():
                found, left = batches(Crate(name, self.built), edits, MOST)
                parts = max(1, self.lanes // len(asked))
                tasks += [pool.submit(self.try_batches, found[at::parts]) for at in range(parts)]
                tasks += [pool.submit(self.try_whole, name, left[at::parts]) for at in range(min(parts, len(left)))]
            for task in tasks:
                task.result()
        return self.refused

    def try_batches(self, found):
        """Tries batches of one crate; the functions of all of them are tried as they stand first."""
        if not found:
            return
        whole = Batch(found[0].crate)
        for batch in found:
            whole.edits.update(batch.edits)
        before = {edit: (what, why) for edit, what, why in whole.verdicts(whole.run(is_edited=False))}
        for batch in found:
            self.try_batch(batch, before)

    def try_batch(self, batch, before):
        """Tries the edits of a batch; where the edited sources aren't taken at all, each half of them by itself."""
        said = batch.run()
        if "\nfn " not in said and len(batch.edits) > 1:
            edits = list(batch.edits)
            for half in (edits[: len(edits) // 2], edits[len(edits) // 2 :]):
                for part in batches(batch.crate, half, MOST)[0]:
                    self.try_batch(part, before)
            return
        for edit, what, why in batch.verdicts(said):
            if before[edit][0] != "not refused":
                what, why = "unclear", f"as it stands {before[edit][1]}"
            elif what == "refused" and is_of_names(why):
                what, why = "unclear", f"only a proof names what the edit took away: {why}"
            self.tell(edit.label, what, why)

    def try_whole(self, crate, edits):
        """Tries edits over a check of the whole crate: what `rt ci` says of them in a copy of the tree, in which no others are tried."""
        with tempfile.TemporaryDirectory(prefix="edits-") as room:
            tree = os.path.join(room, "tree")
            shutil.copytree(ROOT, tree, ignore=shutil.ignore_patterns(".git", "out"), symlinks=True)
            folder = os.path.join(tree, "crates", crate, "must-fail")
            os.makedirs(folder)
            for edit in edits:
                shutil.copy(edit.path, folder)
            subprocess.run(["git", "init", "-q", tree], check=True)
            ran = subprocess.run(["rt", "ci", crate], cwd=tree, capture_output=True, text=True, errors="replace")
        told = {it[1]: it[2] for it in re.finditer(rf"must-fail ({crate}/\S+?)\.edit: (.*)", ran.stdout)}
        for edit in edits:
            said = told.get(edit.label, "not tried")
            self.tell(edit.label, "refused" if "refused, as it must be" in said else "not refused", said)

    def tell(self, label, what, why):
        with self.alone:
            self.refused += what == "refused"
            print(f"edits: {label}: {what}, as it must be: {why}" if what == "refused" else f"edits: {label}: {what.upper()}: {why}", flush=True)
            if not self.is_gate:
                note({label: (self.commit, what)})


def lacking(asked, built):
    """The libraries below the crates that aren't built there."""
    found = [Crate(name, built) for name in asked]
    return sorted({it for crate in found for it in crate.below() if not os.path.isdir(crate.rlib(it))})


def show(given, asked):
    """Prints the edits that were left out, or don't fit; 1 where some don't, and else 0."""
    said, edits = said_before(), [it for found in asked.values() for it in found]
    found = [it.label for it in edits if (is_unfit(it) if given.unfit else is_left(it, said))]
    print("\n".join([*found, f"{len(found)} of {len(edits)}"]))
    return 1 if given.unfit and found else 0


def main():
    parser = argparse.ArgumentParser(description=__doc__, formatter_class=argparse.RawDescriptionHelpFormatter)
    parser.add_argument("names", nargs="*", help="crates, or edits as CRATE/NAME")
    parser.add_argument("--gate", action="store_true", help="those of the gate")
    parser.add_argument("--lanes", type=int, default=1, help="how many checks run at a time")
    parser.add_argument("--built", default=ROOT, help="the checkout in which the libraries are built")
    parser.add_argument("--untried", action="store_true", help="those that were not tried as they stand")
    parser.add_argument("--left", action="store_true", help="name those that were not tried as they stand")
    parser.add_argument("--unfit", action="store_true", help="name those that can't be applied to the sources")
    given = parser.parse_args()
    asked = asked_for(given.names, GATE if given.gate else OUTSIDE)
    if given.unfit and not given.gate:
        for crate, edits in asked_for(given.names, GATE).items():
            asked[crate] = asked.get(crate, []) + edits
    if given.left or given.unfit:
        return show(given, asked)
    if given.untried:
        said = said_before()
        asked = {crate: left for crate, edits in asked.items() if (left := [it for it in edits if is_left(it, said)])}
    if lacking(asked, given.built):
        sys.exit(f"edits: not built: {' '.join(lacking(asked, given.built))} (run `rt ci` in a clone, and name it by --built)")
    wanted = sum(len(edits) for edits in asked.values())
    refused = Trial(given.built, given.lanes, given.gate).run(asked)
    print(f"{refused} refused, {wanted - refused} not")
    return 0 if refused == wanted else 1


if __name__ == "__main__":
    sys.exit(main())
