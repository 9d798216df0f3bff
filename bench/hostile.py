#!/usr/bin/env python3
"""What names cost that an adversary picked, beside ordinary ones.

`python3 bench/hostile.py` makes 100,000 declarations whose names are picked at random, as many whose
names begin alike, and as many whose names begin and end alike. The program keeps a name by the number of
its last eight bytes, in one of many trees; so names of the last kind are all in one tree, and each comparison
goes through what they have in common. All names
have one length. It runs the program `assembly` on each, declarations and queries, and prints
the times and their ratios, and those of instructions where `valgrind` is there to count them. Then it
runs texts of short lines that claim much (definitions of 65,535 parameters, types that are nested
deep), and prints the peak of memory beside the size of the text. Where `rustc` is there, it makes 50,000 fields whose
types are arrays, with lengths that fall together in the table of nodes where its seed is 0, beside as many with the first
lengths. The program takes a seed from the system, and so is as fast on both; the program of `bench/plain.py`
(`--program FOLDER/assembly`) is also run without one. It builds nothing: run
`bench/run.py` first, or name a program. It judges nothing.
"""

import argparse
import os
import random
import shutil
import string
import subprocess
import tempfile
import time

from run import instructions_of_run, memory_of_run

ROOT = os.path.dirname(os.path.dirname(os.path.abspath(__file__)))
PROGRAM = os.path.join(ROOT, "crates", "assembly", "out", "assembly")
LENGTHS = os.path.join(ROOT, "bench", "plain", "lengths.rs")

ALLOWED = string.ascii_letters + string.digits
LENGTH = 48
# So many last bytes of a name pick its tree.
ENDING = 8


def random_name(source, length=LENGTH):
    return source.choice(string.ascii_letters) + "".join(source.choices(ALLOWED, k=length - 1))


def of_one_beginning(source):
    beginning = random_name(source, LENGTH - 6)
    return lambda: beginning + "".join(source.choices(ALLOWED, k=6))


def of_one_tree(source):
    beginning = random_name(source, LENGTH - ENDING - 6)
    ending = "".join(source.choices(ALLOWED, k=ENDING))
    return lambda: beginning + "".join(source.choices(ALLOWED, k=6)) + ending


def names(source, size, make):
    found = set()
    while len(found) < size:
        found.add(make())
    return sorted(found, key=lambda _: source.random())


def write_text(path, chosen):
    with open(path, "w") as taken:
        taken.write("trait 1 T 0\n")
        for name in chosen:
            taken.write("adt 1 %s 0\n" % name)
        for name in chosen:
            taken.write("orphan local T %s\n" % name)


def seconds(program, text, rounds, **variables):
    fastest = None
    environment = dict(os.environ, **variables)
    for _ in range(rounds):
        with open(text, "rb") as given:
            begin = time.perf_counter()
            subprocess.run([program], stdin=given, stdout=subprocess.DEVNULL, check=True, env=environment)
            took = time.perf_counter() - begin
        fastest = took if fastest is None else min(fastest, took)
    return fastest


def write_lengths(path, lengths):
    with open(path, "w") as taken:
        taken.write("adt 0 A 0\n")
        for length in lengths:
            taken.write("field A [%s] u8\n" % length)
        taken.write("trait 0 T 0\nknowable T A\n")


def arrays(program, folder, rounds):
    """Prints what arrays cost whose lengths were picked. The seed is 0 where a program in plain Rust has no random bytes."""
    if shutil.which("rustc") is None:
        return
    pick = os.path.join(folder, "lengths")
    subprocess.run(["rustc", "--edition", "2021", "-O", "-o", pick, LENGTHS], check=True)
    text = os.path.join(folder, "text")
    for kind, chosen in [("first", ["first"]), ("picked", [])]:
        found = subprocess.run([pick, "50000"] + chosen, stdout=subprocess.PIPE, check=True)
        write_lengths(text, found.stdout.decode().split())
        seeded = seconds(program, text, rounds)
        unseeded = seconds(program, text, rounds, NO_RANDOM_BYTES="1")
        print("50000 lengths, %s: %.3f s; in plain Rust without random bytes: %.3f s" % (kind, seeded, unseeded))


def write_parameters(path, size):
    with open(path, "w") as taken:
        taken.write("trait 0 T 65535\n")
        for number in range(size // 2):
            taken.write("adt 0 A%d 65535\nassoc T O%d\n" % (number, number))
        taken.write("knowable T\n")


def write_depth(path, size):
    with open(path, "w") as taken:
        taken.write("trait 0 T 0\n")
        for _ in range(size // 100):
            taken.write("orphan local T" + " &" * 1023 + " u8\n")


def write_lists(path, size):
    with open(path, "w") as taken:
        taken.write("trait 0 T 0\n")
        for _ in range(size // 100):
            taken.write("orphan local T (999)" + " (0)" * 999 + "\n")


def peaks(program, folder, size):
    text = os.path.join(folder, "text")
    for kind, write in [("many parameters", write_parameters), ("deep types", write_depth), ("many lists", write_lists)]:
        write(text, size)
        with open(os.path.join(folder, "answers"), "wb"):
            pass
        memory = memory_of_run(text, os.path.join(folder, "answers"), program) * 1024
        count = os.path.getsize(text)
        print("%s: %.1f MiB for %.1f MiB of text, %.0f bytes a byte" % (kind, memory / 2**20, count / 2**20, memory / count))


def main():
    options = argparse.ArgumentParser(description=__doc__, formatter_class=argparse.RawDescriptionHelpFormatter)
    options.add_argument("--size", type=int, default=100000, help="how many names")
    options.add_argument("--seed", type=int, default=1)
    options.add_argument("--rounds", type=int, default=3, help="of so many runs the fastest counts")
    options.add_argument("--program", default=PROGRAM)
    given = options.parse_args()
    source = random.Random(given.seed)
    kinds = [
        ("ordinary", lambda: random_name(source)),
        ("of one beginning", of_one_beginning(source)),
        ("of one tree", of_one_tree(source)),
    ]
    ordinary = None
    counted = None
    with tempfile.TemporaryDirectory() as folder:
        text = os.path.join(folder, "text")
        for kind, make in kinds:
            write_text(text, names(source, given.size, make))
            took = seconds(given.program, text, given.rounds)
            ordinary = ordinary or took
            print("%d names, %s: %.3f s, %.2f times the ordinary ones" % (given.size, kind, took, took / ordinary))
            count = instructions_of_run(text, given.program)
            counted = counted or count
            if count is not None:
                print("  %.0f million instructions, %.2f times" % (count / 1e6, count / counted))
        arrays(given.program, folder, given.rounds)
        peaks(given.program, folder, given.size)


if __name__ == "__main__":
    main()
