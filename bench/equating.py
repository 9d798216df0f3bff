#!/usr/bin/env python3
"""How fast the evaluator makes types equal.

    equating.py            builds the sources of the evaluator of rounds as plain Rust (`plain.py`), and measures them

`bench/plain/evaluator.rs` makes 100,000 equations in one state, 100,000 probes that each give three variables values, make a response and
undo it all, and 100 chains of 1,000 variables, each in a probe of its own; and a tenth of each. The script prints the processor time, how
it grows, and the peak of memory, and how these stand beside a lean program with the same algorithm and data (`bench/plain/equating.rs`);
where `valgrind` is there, the instructions of a tenth are counted. It judges nothing.
"""

import argparse
import os
import re
import resource
import shutil
import subprocess
import sys
import tempfile

import plain

EVALUATOR = os.path.join(plain.ROOT, "bench", "plain", "evaluator.rs")
LEAN = os.path.join(plain.ROOT, "bench", "plain", "equating.rs")
LIBRARY = "candidate_rounds"
WORK = [("equations", 100_000), ("probes", 100_000), ("chains", 100)]


def build_lean(folder):
    """The lean program, which is made in the folder."""
    made = os.path.join(folder, "lean")
    subprocess.run(["rustc", "--edition", "2021", "-O", "-o", made, LEAN], check=True, stderr=subprocess.DEVNULL)
    return made


def run(program, work, count):
    """Seconds of the processor and the peak of memory in MiB. The program has to accept each equation."""
    child = subprocess.Popen([program, work, str(count)], stdout=subprocess.PIPE)
    answer = child.stdout.read()
    _, status, used = os.wait4(child.pid, 0)
    child.returncode = os.waitstatus_to_exitcode(status)
    if child.returncode != 0 or answer.strip() != str(count).encode():
        sys.exit("%s %s %d ended with status %d" % (program, work, count, child.returncode))
    return used.ru_utime + used.ru_stime, used.ru_maxrss / 1024


def instructions(program, work, count):
    """How many instructions a run takes, or nothing where nothing counts them."""
    if shutil.which("valgrind") is None:
        return None
    counted = ["valgrind", "--tool=callgrind", "--callgrind-out-file=/dev/null", program, work, str(count)]
    done = subprocess.run(counted, stdout=subprocess.DEVNULL, stderr=subprocess.PIPE)
    return int(re.search(rb"I +refs: +([0-9,]+)", done.stderr).group(1).replace(b",", b""))


def measure(program, work, count, lean):
    small, _ = run(program, work, count // 10)
    seconds, memory = run(program, work, count)
    print("%s, %d" % (work, count))
    print("  processor time     %.2f s, %.1f times that of a tenth" % (seconds, seconds / small))
    print("  peak of memory     %.1f MiB" % memory)
    lean_seconds, lean_memory = run(lean, work, count)
    print("  beside the lean    %.2f times the time, %.2f times the memory" % (seconds / lean_seconds, memory / lean_memory))
    counted = instructions(program, work, count // 10)
    if counted is not None:
        beside = instructions(lean, work, count // 10)
        print("  of a tenth         %.0f million instructions, %.2f times those of the lean program" % (counted / 1e6, counted / beside))


def main():
    argparse.ArgumentParser(description=__doc__, formatter_class=argparse.RawDescriptionHelpFormatter).parse_args()
    resource.setrlimit(resource.RLIMIT_CORE, (0, 0))
    if shutil.which("rustc") is None:
        sys.exit("there is no rustc")
    with tempfile.TemporaryDirectory() as folder:
        program, lean = plain.build_over(folder, EVALUATOR, LIBRARY), build_lean(folder)
        for work, count in WORK:
            measure(program, work, count, lean)


if __name__ == "__main__":
    main()
