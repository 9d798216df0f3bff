#!/usr/bin/env python3
"""How fast the program `assembly` answers, and how much memory it takes.

`python3 bench/run.py` builds the program with its proofs, makes 100,000 declarations and 100,000
queries, a tenth and a hundredth of both, and runs the program on each. Of all lines a tenth each are impls, super
clauses and fields. It prints queries a second, by processor time, the peak of
memory, the time beside that of only reading the same input and writing the same output, and how
time and memory grow from each text to the next larger one. Where `rustc` is there, time and peak of
memory stand beside those of two programs in plain Rust (`bench/plain`): one with the same algorithm and
data, and a lean one. Where `valgrind` is there, the instructions are counted too. It judges nothing. `solve` is measured
by `solving.py`.
"""

import argparse
import filecmp
import os
import random
import re
import shutil
import subprocess
import sys
import tempfile
import time

ROOT = os.path.dirname(os.path.dirname(os.path.abspath(__file__)))
CRATE = os.path.join(ROOT, "crates", "assembly")
PROGRAM = os.path.join(CRATE, "out", "assembly")
PLAIN = os.path.join(ROOT, "bench", "plain")
# The same algorithm and data in plain Rust, and what a lean program does.
PLAIN_PROGRAMS = [("plain Rust", "assembly.rs"), ("lean plain Rust", "lean.rs")]

PRIMITIVES = ["bool", "char", "str", "!", "u8", "i32", "u64", "usize", "f64"]
POINTERS = ["&", "&mut", "*const", "*mut", "[]"]
SELDOM_FLAGS = ["phantom", "manually_drop", "unsafe_fields", "enum", "union"]
TRAIT_FLAGS = ["auto", "alias", "unsafe", "fundamental", "dyn", "default"]
QUERIES = ["orphan local", "orphan compat", "orphan remote", "knowable"]


class Text:
    """Declarations and queries, the same ones for the same seed and size."""

    def __init__(self, size, seed):
        self.random = random.Random(seed)
        self.local = []
        self.fundamental = []
        self.others = []
        self.traits = []
        self.auto_traits = []
        self.principals = []
        self.aliases = set()
        self.associated = []
        self.adts = []
        # How many parameters may stand in the types of the line, or none where it asks.
        self.parameters = None
        self.declarations = [self.declaration(i, kind) for i, kind in enumerate(self.kinds(size))]
        self.parameters = None
        self.queries = [self.query() for _ in range(size)]

    def kinds(self, size):
        """What each line declares. Impls, super clauses and fields are a tenth of all lines each, queries among them."""
        # What the first of them speak of stands before them.
        first = ["principal", "principal", "adt"]
        held = ["impl", "super", "field"] * (size // 5)
        others = [self.definition() for _ in range(size - len(first) - len(held))]
        mixed = held + others
        self.random.shuffle(mixed)
        return first + mixed

    def definition(self):
        chance = self.random.random()
        if chance < 0.25:
            return "trait"
        if chance < 0.3:
            return "foreign"
        if chance < 0.4:
            return "assoc"
        return "adt"

    def declaration(self, i, kind):
        krate = self.random.randrange(10)
        if kind == "impl":
            return self.impl(krate, "Impl%d" % i)
        if kind == "super":
            return self.super_clause()
        if kind == "field":
            return self.field()
        if kind == "principal":
            return self.trait(krate, "Trait%d" % i, False)
        if kind == "trait":
            return self.trait(krate, "Trait%d" % i, self.random.random() < 0.05)
        if kind == "foreign":
            return self.foreign(krate, "Foreign%d" % i)
        if kind == "assoc":
            return self.assoc("Item%d" % i)
        return self.adt(krate, "Type%d" % i)

    def impl(self, krate, name):
        self.parameters = self.random.choice([0, 1, 1, 2, 2, 3])
        trait, arity = self.random.choice(self.traits)
        sign = self.random.choice(["+"] * 18 + ["-", "reservation"])
        words = ["impl", str(krate), name, str(self.parameters), sign, trait]
        self.add_named(words, self.random.choice(self.data_types()), 2)
        for _ in range(arity):
            self.add_type(words, self.random.randrange(3))
        return " ".join(words)

    def data_types(self):
        """The lists of declared types that have members."""
        return [kind for kind in (self.local, self.fundamental, self.others) if kind]

    def super_clause(self):
        """A clause about `Self`, by a trait that was declared before the other, so that no cycle comes. A trait alias has none."""
        numbers = range(1, len(self.principals))
        number = self.random.choice([at for at in numbers if self.principals[at][0] not in self.aliases] or numbers)
        trait, arity = self.principals[number]
        self.parameters = arity + 1
        if self.associated and self.random.random() < 0.2:
            name, types = self.random.choice(self.associated)
            types += 1
        else:
            name, types = self.principals[self.random.randrange(number)]
        words = ["super", trait, name, "#0"]
        for _ in range(types):
            self.add_type(words, self.random.randrange(3))
        return " ".join(words)

    def field(self):
        name, self.parameters = self.random.choice(self.adts)
        words = ["field", name]
        self.add_type(words, self.random.randrange(4))
        return " ".join(words)

    def trait(self, krate, name, auto):
        arity = 0 if auto else self.random.choice([0, 0, 0, 1, 1, 2])
        flags = ["auto"] if auto else []
        if self.random.random() < 0.1:
            flags.append(self.random.choice(TRAIT_FLAGS[1:]))
        if "alias" in flags:
            self.aliases.add(name)
        self.traits.append((name, arity))
        (self.auto_traits if auto else self.principals).append((name, arity))
        return " ".join(["trait", str(krate), name, str(arity)] + flags)

    def foreign(self, krate, name):
        (self.local if krate == 0 else self.others).append((name, 0))
        return "foreign %d %s" % (krate, name)

    def assoc(self, name):
        trait, arity = self.random.choice(self.traits)
        self.associated.append((name, arity))
        flag = " sized_self" if self.random.random() < 0.2 else ""
        return "assoc %s %s%s" % (trait, name, flag)

    def adt(self, krate, name):
        fundamental = self.random.random() < 0.15
        arity = self.random.choice([0, 0, 1, 1, 2, 3])
        flags = ["fundamental"] if fundamental else []
        if arity > 0 and self.random.random() < 0.1:
            flags.append(self.random.choice(SELDOM_FLAGS))
        if krate == 0:
            kind = self.local
        elif fundamental:
            kind = self.fundamental
        else:
            kind = self.others
        kind.append((name, arity))
        self.adts.append((name, arity))
        return " ".join(["adt", str(krate), name, str(arity)] + flags)

    def query(self):
        trait, arity = self.random.choice(self.traits)
        words = [self.random.choice(QUERIES), trait]
        for _ in range(1 + arity):
            # Most types are flat, some are deep, and few are a long chain of references.
            chance = self.random.random()
            if chance < 0.01:
                words.extend(["&"] * self.random.randrange(1, 300))
            self.add_type(words, 0 if chance < 0.3 else self.random.randrange(1, 7))
        return " ".join(words)

    def add_type(self, words, depth):
        if depth == 0:
            words.append(self.leaf())
            return
        chance = self.random.random()
        if chance < 0.25:
            words.append(self.random.choice(POINTERS))
            self.add_type(words, depth - 1)
        elif chance < 0.4:
            count = self.random.randrange(4)
            words.append("(%d)" % count)
            self.add_types(words, count, depth - 1)
        elif chance < 0.45:
            self.add_dyn(words, depth)
        elif chance < 0.5 and self.associated:
            name, arity = self.random.choice(self.associated)
            words.append(name)
            self.add_types(words, arity + 1, depth - 1)
        elif chance < 0.75 and self.fundamental:
            self.add_named(words, self.fundamental, depth)
        elif chance < 0.9 and self.others:
            self.add_named(words, self.others, depth)
        elif self.local:
            self.add_named(words, self.local, depth)
        else:
            words.append(self.leaf())

    def add_named(self, words, kind, depth):
        name, arity = self.random.choice(kind)
        words.append(name)
        self.add_types(words, arity, depth - 1)

    def add_dyn(self, words, depth):
        kinds = []
        if self.principals and self.random.random() < 0.8:
            kinds.append((self.principals, 0))
        for _ in range(self.random.randrange(3)):
            kinds.append(self.random.choice([(self.auto_traits, 0), (self.associated, 1)]))
        kinds = [(kind, terms) for kind, terms in kinds if kind]
        words.append("dyn(%d)" % len(kinds))
        for kind, terms in kinds:
            name, arity = self.random.choice(kind)
            words.append(name)
            self.add_types(words, arity + terms, depth - 1)

    def add_types(self, words, count, depth):
        for i in range(count):
            # One argument goes all the way down, so that no tree has very many nodes.
            self.add_type(words, depth if i == 0 else self.random.randrange(min(depth, 1) + 1))

    def leaf(self):
        chance = self.random.random()
        if self.parameters is not None:
            if chance < 0.4 and self.parameters > 0:
                return "#%d" % self.random.randrange(self.parameters)
            return self.random.choice(PRIMITIVES)
        if chance < 0.15:
            return "$%d" % self.random.randrange(256)
        if chance < 0.2:
            return "!%d" % self.random.randrange(256)
        if chance < 0.22:
            return "error"
        return self.random.choice(PRIMITIVES)


def build():
    """Leaves the proved program in its place."""
    with open(os.path.join(CRATE, "stdin"), "rb") as given:
        done = subprocess.run(
            ["rt", "run"],
            cwd=CRATE,
            stdin=given,
            stdout=subprocess.DEVNULL,
            stderr=subprocess.PIPE,
        )
    if done.returncode != 0:
        sys.stderr.write(done.stderr.decode(errors="replace")[-2000:])
        sys.exit("the program can't be built")


def build_plain(folder):
    """The programs in plain Rust by their names; none where there is no compiler for them."""
    if shutil.which("rustc") is None:
        return []
    programs = []
    for name, source in PLAIN_PROGRAMS:
        made = os.path.join(folder, os.path.splitext(source)[0])
        subprocess.run(["rustc", "--edition", "2021", "-O", "-o", made, os.path.join(PLAIN, source)], check=True)
        programs.append((name, made))
    return programs


def instructions_of_run(text, program):
    """How many instructions a run takes, or nothing where `valgrind` isn't there to count them."""
    if shutil.which("valgrind") is None:
        return None
    count = ["valgrind", "--tool=callgrind", "--callgrind-out-file=/dev/null", program]
    with open(text, "rb") as given:
        done = subprocess.run(count, stdin=given, stdout=subprocess.DEVNULL, stderr=subprocess.PIPE)
    return int(re.search(rb"I +refs: +([0-9,]+)", done.stderr).group(1).replace(b",", b""))


def start(text, answers, program=PROGRAM):
    with open(text, "rb") as given, open(answers, "wb") as taken:
        return subprocess.Popen([program], stdin=given, stdout=taken)


def seconds_of_run(text, answers, program=PROGRAM):
    """The processor time of a run, which other work on the machine changes less than what a clock says."""
    child = start(text, answers, program)
    _, status, used = os.wait4(child.pid, 0)
    child.returncode = os.waitstatus_to_exitcode(status)
    if child.returncode != 0:
        sys.exit("the program ended with status %d" % child.returncode)
    return used.ru_utime + used.ru_stime


def peak_of(pid):
    """The most memory, in KiB, that the process has had so far, or 0 once it has ended."""
    try:
        with open("/proc/%d/status" % pid) as lines:
            for line in lines:
                if line.startswith("VmHWM:"):
                    return int(line.split()[1])
    except (FileNotFoundError, ProcessLookupError):
        pass
    return 0


def memory_of_run(text, answers, program=PROGRAM):
    """The peak of a run in KiB. It is looked at all the time, since the end of a run takes it away."""
    child = start(text, answers, program)
    peak = 0
    while child.poll() is None:
        peak = max(peak, peak_of(child.pid))
    return peak


def seconds_of_copy(text, answers, to):
    """The time that reading the text and writing the answers takes by themselves."""
    with open(answers, "rb") as given:
        output = given.read()
    begin = time.process_time()
    with open(text, "rb", buffering=0) as given:
        while given.read(8192):
            pass
    with open(to, "wb", buffering=0) as taken:
        for at in range(0, len(output), 8192):
            taken.write(output[at : at + 8192])
    return time.process_time() - begin


def compare(text, answers, memory, rounds, plain):
    """Prints what the run took beside programs in plain Rust, which have to answer the same."""
    counted = instructions_of_run(text, PROGRAM)
    if counted is not None:
        print("  instructions       %.0f million" % (counted / 1e6))
    for name, program in plain:
        theirs = answers + " in plain Rust"
        # One after the other, so that other work slows both down.
        times = [(seconds_of_run(text, answers), seconds_of_run(text, theirs, program)) for _ in range(rounds)]
        if not filecmp.cmp(answers, theirs, shallow=False):
            sys.exit("%s answers otherwise" % name)
        print("  beside %s" % name)
        if counted is not None:
            print("    instructions     %.2f times" % (counted / instructions_of_run(text, program)))
        print("    time             %.2f times" % (min(ours for ours, _ in times) / min(other for _, other in times)))
        taken = max(memory_of_run(text, theirs, program) for _ in range(rounds))
        print("    memory           %.2f times" % (memory / max(taken, 1)))


def measure(folder, size, seed, rounds, plain):
    """Runs the program over that many declarations and queries, and prints what it took."""
    made = Text(size, seed)
    text = os.path.join(folder, "text")
    declared = os.path.join(folder, "declared")
    answers = os.path.join(folder, "answers")
    with open(text, "w") as taken:
        for line in made.declarations + made.queries:
            taken.write(line + "\n")
    # One query ends the declarations, so that they are finished in this run too.
    with open(declared, "w") as taken:
        for line in made.declarations + made.queries[:1]:
            taken.write(line + "\n")
    del made
    before = min(seconds_of_run(declared, os.devnull) for _ in range(rounds))
    whole = min(seconds_of_run(text, answers) for _ in range(rounds))
    memory = max(memory_of_run(text, answers) for _ in range(rounds))
    copy = min(seconds_of_copy(text, answers, os.path.join(folder, "copy")) for _ in range(rounds))
    in_queries = max(whole - before, 1e-9)
    print("%d declarations and %d queries" % (size, size))
    print("  input and output   %d and %d bytes" % (os.path.getsize(text), os.path.getsize(answers)))
    print("  time               %.3f s, of which queries %.3f s" % (whole, in_queries))
    print("  queries a second   %.0f (%.0f with the declarations counted in)" % (size / in_queries, size / whole))
    print("  beside a copy      %.1f times as long (a copy takes %.4f s)" % (whole / copy, copy))
    print("  peak of memory     %.1f MiB, %.0f bytes a line" % (memory / 1024, memory * 1024 / (2 * size)))
    compare(text, answers, memory, rounds, plain)
    return whole, memory, os.path.getsize(text)


def growth(name, small, large, ratio):
    grown = large / small
    verdict = "linear" if grown <= 1.3 * ratio else "more than linear"
    print("%s: %.1f times as much for a text %.1f times as long: %s" % (name, grown, ratio, verdict))


def main():
    options = argparse.ArgumentParser(description=__doc__, formatter_class=argparse.RawDescriptionHelpFormatter)
    options.add_argument("--size", type=int, default=100000, help="how many declarations, and how many queries")
    options.add_argument("--seed", type=int, default=1)
    options.add_argument("--rounds", type=int, default=5, help="of so many runs the fastest counts")
    given = options.parse_args()
    build()
    with tempfile.TemporaryDirectory() as folder:
        plain = build_plain(folder)
        sizes = [max(given.size // part, 10) for part in (100, 10, 1)]
        measured = [measure(folder, size, given.seed, given.rounds, plain) for size in sizes]
    for small, large in zip(measured, measured[1:]):
        ratio = large[2] / small[2]
        growth("time", small[0], large[0], ratio)
        growth("memory", small[1], large[1], ratio)


if __name__ == "__main__":
    main()
