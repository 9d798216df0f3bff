#!/usr/bin/env python3
"""How long the program `assembly` takes to answer `solve`, and how much memory, beside plain Rust.

`python3 bench/solving.py` builds the program with its proofs and lets it answer queries over made declarations: of impls of many
traits, and of one trait; of chains of goals, each of which asks for the next, with and without a variable at the end; of a goal that asks
for many at once; of goals in a circle, which no round makes final; of super traits in a row; of types that double. Each is asked in two
sizes, and it prints the processor time, the peak of memory, and how they grow. Where `rustc` is there, the same stands beside it of the
program that `bench/plain.py` makes of the same sources, which has to answer the same. Where `valgrind` is there, the instructions are
counted too, which takes some minutes. It judges nothing. With `--plain FOLDER` it proves nothing and measures plain Rust alone, the program
that `bench/plain.py` left in the folder.
"""

import argparse
import filecmp
import os
import shutil
import sys
import tempfile

import plain
from run import PROGRAM, build, instructions_of_run, memory_of_run, seconds_of_run

# What is measured, in which unit it is printed, and how many of what a run takes are one of it.
MEASURED = [("time", "%.3f s", 1), ("memory", "%.1f MiB", 1024), ("instructions", "%.0f million", 1e6)]


def of_impls(count, traits):
    """So many impls of so many traits, each for a type of its own, and a query for each."""
    lines = ["trait 1 T%d 0" % each for each in range(traits)]
    lines += ["adt 0 A%d 0" % each for each in range(count)]
    lines += ["impl 0 of%d 0 + T%d A%d" % (each, each % traits, each) for each in range(count)]
    return lines + ["solve 1 T%d A%d" % (each % traits, each) for each in range(count)]


def of_chain(count):
    """A goal that waits for one below it, and so on."""
    lines = ["trait 1 T 0", "adt 1 Vec 1", "impl 1 of_vec 1 + T Vec #0", "iwhere of_vec T #0", "impl 1 last 0 + T u8"]
    return lines + ["solve * T " + "Vec " * count + "u8"]


def of_many(count):
    """A goal that waits for so many."""
    lines = ["trait 1 T 0", "trait 1 U 0", "adt 1 Root 0", "impl 1 root 0 + U Root"]
    lines += ["adt 1 A%d 0" % each for each in range(count)]
    lines += ["iwhere root T A%d" % each for each in range(count)]
    lines += ["impl 1 of%d 0 + T A%d" % (each, each) for each in range(count)]
    return lines + ["solve 3 U Root"]


def of_open_chain(count):
    """The same where a variable stands below all, so that the last goal stays open."""
    return of_chain(count)[:-1] + ["solve %d T " % (2 * count + 10) + "Vec " * count + "$0"]


def of_circle(count):
    """So many goals, each of which waits for the next, and the last for the first: no round makes one final."""
    lines = ["trait 1 T 0"] + ["adt 1 A%d 0" % each for each in range(count)]
    for each in range(count):
        lines += ["impl 1 of%d 0 + T A%d" % (each, each), "iwhere of%d T A%d" % (each, (each + 1) % count)]
    return lines + ["solve * T A0"]


def of_supers(count):
    """So many traits in a row, each a super trait of the one before, in coherence, for a type that others may name."""
    lines = ["trait 1 T%d 0" % each for each in range(count)]
    lines += ["super T%d T%d #0" % (each, each + 1) for each in range(count - 1)]
    return lines + ["adt 1 Vec 1", "mode coherence", "solve 3 T0 Vec $0"]


def of_doubled(count, last="#0"):
    """A chain of goals whose type has the last one's twice, with a variable in it, and an impl of the last one's trait."""
    lines = ["adt 1 Pair 2"] + ["trait 1 T%d 0" % each for each in range(count + 1)]
    for each in range(count):
        lines += ["impl 1 of%d 1 + T%d #0" % (each, each), "iwhere of%d T%d Pair #0 #0" % (each, each + 1)]
    return lines + ["impl 1 last 1 + T%d %s" % (count, last), "solve %d T0 Pair u8 $0" % (2 * count + 3)]


def of_doubled_met(count):
    """The same, where the last impl is for pairs whose parts are one type, so that two types are equated that are the same."""
    return of_doubled(count, "Pair #0 #0")


def of_doubled_bound(count):
    """The same with a binder in the types, which an equation enters at each place in which it stands."""
    return of_doubled_met(count)[:-1] + ["solve %d T0 fn(1) u8 $0" % (2 * count + 3)]


WORK = [
    ("impls of a tenth as many traits, and as many queries", (10_000, 20_000), lambda size: of_impls(size, size // 10)),
    ("impls of one trait, and as many queries", (5_000, 10_000), lambda size: of_impls(size, 1)),
    ("goals in a chain", (100, 200), of_chain),
    ("goals in a chain with a variable at its end", (50, 100), of_open_chain),
    ("goals that one waits for", (500, 1_000), of_many),
    ("goals in a circle", (20, 200), of_circle),
    ("super traits in a row", (400, 800), of_supers),
    ("types that double, with a variable", (20, 40), of_doubled),
    ("types that double, equated with themselves", (20, 40), of_doubled_met),
    ("types that double, with a binder, equated with themselves", (12, 14), of_doubled_bound),
]


def measure(folder, lines, programs, rounds):
    """What each of the programs takes for these lines, by the order of what is measured."""
    text = os.path.join(folder, "text")
    with open(text, "w") as taken:
        taken.write("\n".join(["local 0", *lines, ""]))
    runs = [(text, os.path.join(folder, "answers %d" % each), program) for each, program in enumerate(programs)]
    # One after the other, so that other work slows all of them down.
    times = [[seconds_of_run(*each) for each in runs] for _ in range(rounds)]
    if not all(filecmp.cmp(runs[0][1], answers, shallow=False) for _, answers, _ in runs):
        sys.exit("plain Rust answers otherwise")
    seconds = [min(each) for each in zip(*times)]
    memory = [max(memory_of_run(*each) for _ in range(rounds)) for each in runs]
    return list(zip(seconds, memory, [instructions_of_run(text, program) for program in programs]))


def show(taken):
    """Prints what the program took, and how many times what plain Rust did."""
    for place, (name, unit, one) in enumerate(MEASURED):
        ours, *others = [each[place] for each in taken]
        if ours is None:
            continue
        beside = ["%.2f times plain Rust, which takes %s" % (ours / max(other, 1e-9), unit % (other / one)) for other in others]
        print("    %-12s  %s" % (name, ", ".join([unit % (ours / one), *beside])))


def show_growth(small, large):
    """Prints how many times as much the larger size takes."""
    for place, (name, _, _) in enumerate(MEASURED):
        if small[0][place] is None:
            continue
        grown = ["%.1f times" % (more[place] / max(less[place], 1e-9)) for less, more in zip(small, large)]
        print("    %-12s  %s" % (name, ", and in plain Rust ".join(grown)))


def proved_and_plain(folder):
    """The proved program, and behind it plain Rust, which is made in the folder, where there is a compiler for it."""
    build()
    return [PROGRAM] + ([plain.build(os.path.join(folder, "plain"))] if shutil.which("rustc") is not None else [])


def main():
    options = argparse.ArgumentParser(description=__doc__, formatter_class=argparse.RawDescriptionHelpFormatter)
    options.add_argument("--rounds", type=int, default=5, help="of so many runs the fastest counts")
    options.add_argument("--plain", metavar="FOLDER", help="measure plain Rust alone, which is there")
    given = options.parse_args()
    with tempfile.TemporaryDirectory() as folder:
        programs = [os.path.join(given.plain, plain.PROGRAM)] if given.plain else proved_and_plain(folder)
        for name, sizes, made in WORK:
            taken = [measure(folder, made(size), programs, given.rounds) for size in sizes]
            print(name)
            for size, each in zip(sizes, taken):
                print("  %d" % size)
                show(each)
            print("  %.1f times as many" % (sizes[1] / sizes[0]))
            show_growth(*taken)


if __name__ == "__main__":
    main()
