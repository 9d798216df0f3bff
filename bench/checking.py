#!/usr/bin/env python3
"""Whether `check` finds what `orphan` and `overlap` answer, and how long it takes by the number of impls.

`python3 bench/checking.py FOLDER` takes the plain Rust program that `bench/plain.py` left in the folder. It makes random texts of impls, with
parameters, aliases, binders, where clauses and negative impls, lets `check K` answer each, and compares that with a text that asks `orphan
local` of each impl of the local crate for a trait of another one, with variables in the place of parameters, and `overlap K` of each two
impls: what isn't `ok`, `disjoint` or `allowed` has to be a line of `check`, in order, and nothing else. Each two are asked about in the other order, too,
and have to answer the same, `first` and `second` exchanged. It ends with status 1 at the first text for which it isn't so. Then it
measures `check *` over many impls of two crates, and prints the processor time and the peak of memory.
"""

import argparse
import os
import random
import subprocess
import sys
import tempfile

import plain
from run import memory_of_run, seconds_of_run

MODES = ["coherence"] * 6 + ["analysis", "post_analysis"]
WORDS = ["u8", "u16", "bool", "char", "str", "!"]
SIGNS = ["+"] * 8 + ["-", "reservation"]

# How many impls are measured, of how many traits each.
SIZES = [(10_000, 1_000), (100_000, 10_000)]


class Text:
    """Random declarations of impls, and what may be asked of them."""

    def __init__(self, seed):
        self.draw = random.Random(seed)
        self.count = self.draw.choice(["*", "*", "1", "2", "3", "65535"])
        self.local = self.draw.choice([0, 0, 1])
        self.lines = ["local %d" % self.local, "mode %s" % self.draw.choice(MODES)]
        if self.draw.random() < 0.05:
            self.lines.append("limit %s %d" % (self.draw.choice(["walk", "alias", "recursion"]), self.draw.randint(1, 3)))
        self.constructors = [("&", 1), ("[]", 1), ("(2)", 2), ("fn(1)", 2), ("[3]", 1)]
        self.traits = []
        self.crates = {}
        self.aliases = []
        self.impls = []
        for number in range(self.draw.randint(2, 5)):
            arity = self.draw.randint(0, 2)
            flags = self.draw.choice(["", " fundamental"]) if arity else ""
            self.lines.append("adt %d A%d %d%s" % (self.crate(), number, arity, flags))
            self.constructors.append(("A%d" % number, arity))
        for number in range(self.draw.randint(1, 3)):
            self.add_trait(number)
        for number in range(self.draw.randint(1, 9)):
            self.add_impl(number)

    def crate(self):
        return self.draw.choice([0, 0, 1, 2])

    def add_trait(self, number):
        arity, krate = self.draw.choice([0, 0, 1, 2]), self.crate()
        self.crates["T%d" % number] = krate
        self.lines.append("trait %d T%d %d" % (krate, number, arity))
        self.traits.append(("T%d" % number, arity))
        if self.draw.random() < 0.3:
            self.lines.append("assoc T%d O%d" % (number, number))
            self.aliases.append(("O%d" % number, arity + 1))

    def type(self, parameters, depth):
        drawn = self.draw.random()
        if parameters and drawn < 0.35:
            return "#%d" % self.draw.randrange(parameters)
        if drawn < 0.45 or depth == 0:
            return self.draw.choice(WORDS)
        if self.aliases and drawn < 0.5:
            name, arity = self.draw.choice(self.aliases)
        elif drawn < 0.51:
            return "error"
        else:
            name, arity = self.draw.choice(self.constructors)
        return " ".join([name, *self.types(arity, parameters, depth - 1)])

    def types(self, count, parameters, depth):
        return [self.type(parameters, depth) for _ in range(count)]

    def reference(self, parameters, depth):
        name, arity = self.draw.choice(self.traits)
        return " ".join([name, *self.types(arity + 1, parameters, depth)])

    def add_impl(self, number):
        parameters = self.draw.choice([0, 0, 1, 1, 2, 3])
        krate, reference = self.crate(), self.reference(parameters, 2)
        self.lines.append("impl %d of%d %d %s %s" % (krate, number, parameters, self.draw.choice(SIGNS), reference))
        self.impls.append(("of%d" % number, len(self.lines), krate, reference))
        for _ in range(self.draw.choice([0, 0, 1, 2])):
            # Where goals may grow, many rounds take too long.
            self.lines.append("iwhere of%d %s" % (number, self.reference(parameters, 1 if self.count in "123" else 0)))

    def pairs(self):
        return [(one, other) for place, one in enumerate(self.impls) for other in self.impls[place + 1 :]]

    def asked(self):
        """The impls of the local crate for traits of others."""
        return [each for each in self.impls if each[2] == self.local and self.crates[each[3].split()[0]] != self.local]

    def queries(self):
        """A line for each of those, and for each two."""
        own = [reference.replace("#", "$") for _, _, _, reference in self.asked()]
        checks = ["orphan %s %s" % (word, reference) for reference in own for word in ("local", "compat")]
        return checks + ["overlap %s %s %s" % (self.count, one[0], other[0]) for one, other in self.pairs()]

    def queries_in_the_other_order(self):
        return ["overlap %s %s %s" % (self.count, other[0], one[0]) for one, other in self.pairs()]

    def found(self, answers):
        """What `check` has to answer, where those are the answers to the queries."""
        answers = iter(answers)
        own = {name: check_of(next(answers), next(answers)) for name, _, _, _ in self.asked()}
        both = {(one[0], other[0]): next(answers) for one, other in self.pairs()}
        lines = []
        for place, (name, line, _, _) in enumerate(self.impls):
            if own.get(name):
                lines.append("impl %s (line %d): %s" % (name, line, own[name]))
            for other, behind, _, _ in self.impls[place + 1 :]:
                if not both[name, other].startswith(("disjoint", "allowed")):
                    lines.append("impl %s (line %d) and impl %s (line %d): %s" % (name, line, other, behind, both[name, other]))
        return lines or ["ok"]


def check_of(proper, compatible):
    """What is said of an impl alone by what the two checks answer, if anything."""
    if proper == "ok":
        return None
    if proper.startswith("stop"):
        return "orphan " + proper
    return "lint orphan " + proper if compatible == "ok" else "orphan " + compatible


def answers_of(program, lines):
    done = subprocess.run([program], input="\n".join([*lines, ""]).encode(), capture_output=True, timeout=60)
    return done.returncode, done.stdout.decode().splitlines()


def exchanged(answer):
    """What is answered of two impls in the other order."""
    sides = {"first": "second", "second": "first"}
    return " ".join(sides.get(word, word) for word in answer.split(" "))


def compare(program, seed, seen):
    """Stops where `check` answers otherwise than the two queries do, or one of them otherwise in the other order; notes how many lines of each
    kind were seen."""
    text = Text(seed)
    check = "check %s" % text.count
    status, answers = answers_of(program, text.lines + text.queries())
    if status == 2:
        seen["refused"] = seen.get("refused", 0) + 1
        return
    turned = answers_of(program, text.lines + text.queries_in_the_other_order())[1]
    for query, one, other in zip(text.queries()[-len(turned) :], answers[-len(turned) :], turned):
        if exchanged(other) != one:
            sys.exit("\n".join([*text.lines, query, "is answered", one, "and in the other order", other]))
    checked = answers_of(program, text.lines + [check, check])
    wanted = text.found(answers)
    if checked != (0, wanted + wanted):
        sys.exit("\n".join([*text.lines, check, "is answered", *checked[1], "and not", *wanted]))
    for line in wanted:
        kind = " and" if " and " in line else "lint" if " lint " in line else "orphan" if "orphan" in line else "ok"
        kind += " stop" if ": stop" in line or "orphan stop" in line else ""
        seen[kind] = seen.get(kind, 0) + 1


def many(count, traits):
    """So many impls of so many traits, of two crates, with few overlaps: for types of their own, for references to them, with a parameter."""
    lines = ["local 0", "mode coherence", "adt 1 Vec 1", "adt 1 Pair 2"]
    lines += ["trait %d T%d 0" % (each % 2, each) for each in range(traits)]
    lines += ["adt %d A%d 1" % (each % 2, each) for each in range(count)]
    for each in range(count):
        header = ["A%d #0", "& A%d #0", "Vec A%d u8", "Pair A%d #0 #0"][each // traits % 4] % each
        lines.append("impl %d of%d 1 + T%d %s" % (each % 2, each, each % traits, header))
    for each in range(0, count, 1_000):
        lines.append("impl 0 again%d 1 + T%d A%d #0" % (each, each % traits, each))
    return lines + ["check *"]


def measure(program, folder, count, traits):
    text, answers = os.path.join(folder, "text"), os.path.join(folder, "answers")
    with open(text, "w") as taken:
        taken.write("\n".join([*many(count, traits), ""]))
    seconds = min(seconds_of_run(text, answers, program) for _ in range(3))
    with open(answers) as given:
        lines = given.read().splitlines()
    return seconds, memory_of_run(text, answers, program), len(lines)


def main():
    options = argparse.ArgumentParser(description=__doc__, formatter_class=argparse.RawDescriptionHelpFormatter)
    options.add_argument("folder", help="where the plain program is")
    options.add_argument("--texts", type=int, default=3_000, help="so many random texts")
    options.add_argument("--seed", type=int, default=1, help="the seed of the first")
    given = options.parse_args()
    program = os.path.join(given.folder, plain.PROGRAM)
    seen = {}
    for seed in range(given.seed, given.seed + given.texts):
        compare(program, seed, seen)
    print("%d texts are answered alike; lines seen: %s" % (given.texts, seen))
    with tempfile.TemporaryDirectory() as folder:
        for count, traits in SIZES:
            seconds, memory, lines = measure(program, folder, count, traits)
            print("%d impls of %d traits: %.3f s, %.1f MiB, %d lines" % (count, traits, seconds, memory / 1024, lines))


if __name__ == "__main__":
    main()
