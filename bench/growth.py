#!/usr/bin/env python3
"""How long goals take that an adversary picked, by the bytes of their text.

`python3 bench/growth.py` makes texts of many shapes, each one twice as large as the one before until a run takes a second, runs the
program `assembly` on each, and prints the bytes and the seconds of the last two and the exponent between them: 1 where what a text costs
grows as the text does, 2 where it grows as its square. A shape that never takes a twentieth of a second is said to be quick. Behind them
come types that double in each step, by the number of doublings, up to 40: here a line also says how many bytes were printed. Last come
goals that grow without end, by the number of rounds: these stop at a height of 1,024, whatever the text's length is.

`python3 bench/growth.py --rustc` measures ten of these shapes of one size each, and the same in Rust by `rustc -Znext-solver=globally`.

It builds nothing: run `bench/run.py` first, or name a program (`--program FOLDER/assembly`, as `bench/plain.py` leaves one). It judges
nothing.
"""

import argparse
import math
import os
import resource
import subprocess
import sys

sys.path.insert(0, os.path.dirname(os.path.abspath(__file__)))
import growth_rust

ROOT = os.path.dirname(os.path.dirname(os.path.abspath(__file__)))
PROGRAM = os.path.join(ROOT, "crates", "assembly", "out", "assembly")

# The largest size, the seconds from which a run counts, the seconds after which no larger text is tried, and those after which a run is ended.
LARGEST, LEAST, ENOUGH, LONGEST = 1 << 15, 0.05, 1.0, 300

UNSIZE = "trait 1 Unsize 1\nlang Unsize Unsize\n"
SIZED = "trait 1 Sized 0\nlang Sized Sized\n"


def lines(count, line):
    return "".join(line % {"i": i, "next": i + 1, "around": (i + 1) % count} for i in range(count))


def arrays(count):
    return " ".join("[%d] u8" % i for i in range(count))


def diamond(levels):
    traits = lines(levels, "trait 1 A%(i)d 0\ntrait 1 B%(i)d 0\n")
    supers = lines(levels - 1, "".join("super %s%%(i)d %s%%(next)d #0\n" % (one, other) for one in "AB" for other in "AB"))
    return traits + supers + "mode coherence\nadt 0 L 0\nsolve 3 A0 L\n"


def circle_of_all(count):
    wheres = "".join("iwhere x%d T%d #0\n" % (one, other) for one in range(count) for other in range(count))
    return lines(count, "trait 1 T%(i)d 0\nimpl 1 x%(i)d 1 + T%(i)d #0\n") + wheres + "solve * T0 u8\n"


def bounds_of_dyn(count, others):
    bounds = " ".join("I [%d] u8" % i for i in range(count))
    return UNSIZE + "trait 1 A 0 dyn\nassoc A I\nsolve 1 Unsize dyn(%d) A %s dyn(%d) A %s\n" % (count + 1, bounds, count + 1, others)


def chain(goals):
    return "adt 1 V 1\ntrait 1 T 0\nimpl 1 x 1 + T V #0\niwhere x T #0\nimpl 1 y 0 + T u8\nsolve * T %su8\n" % ("V " * goals)


def traits(count, arguments):
    """So many traits and one more, each with that number of arguments."""
    return lines(count + 1, "trait 1 T%%(i)d %d\n" % arguments)


def chain_with_variable(goals):
    impls = lines(goals, "impl 1 x%(i)d 2 + T%(i)d #0 #1\niwhere x%(i)d T%(next)d #0 #1\n")
    return traits(goals, 1) + impls + "impl 1 y 1 + T%d #0 u8\nsolve * T0 u8 $0\n" % goals


def blanket_chain(goals):
    impls = lines(goals, "impl 1 x%(i)d 1 + T%(i)d #0\niwhere x%(i)d T%(next)d #0\n")
    return traits(goals, 0) + impls + "impl 1 y 0 + T%d u8\nsolve * T0 u8\n" % goals


def grid(side):
    impls = "impl 1 x 2 + T S #0 S #1\niwhere x T #0 S #1\niwhere x T S #0 #1\nimpl 1 y 1 + T Z #0\nimpl 1 z 1 + T S #0 Z\n"
    return "adt 1 S 1\nadt 1 Z 0\ntrait 1 T 1\n" + impls + "solve * T %sZ %sZ\n" % ("S " * side, "S " * side)


def counter(bits):
    """A goal for each number of so many bits, each of which asks for the next one."""
    told = "adt 1 O 0\nadt 1 I 0\ntrait 1 C %d\n" % (bits - 1)
    for ones in range(bits):
        high = ["#%d" % place for place in range(bits - ones - 1)]
        told += "impl 1 x%d %d + C %s\n" % (ones, len(high), " ".join(high + ["O"] + ["I"] * ones))
        told += "iwhere x%d C %s\n" % (ones, " ".join(high + ["I"] + ["O"] * ones))
    return told + "impl 1 y 0 + C%s\nsolve * C%s\n" % (" I" * bits, " O" * bits)


def supertraits(count):
    return "mode coherence\n" + traits(count, 0) + lines(count, "super T%(i)d T%(next)d #0\n") + "solve 3 T0 u8\n"


def impls_to_check(count):
    impls = lines(count, "adt 0 A%(i)d 0\nimpl 0 x%(i)d 0 + T X A%(i)d\n")
    return "mode coherence\ntrait 1 T 1\nadt 0 X 0\n" + impls + "check *\n"


def norms_to_check(count):
    impls = lines(count, "adt 0 A%(i)d 0\nnorm Out A%(i)d u8\nimpl 0 x%(i)d 0 + U Out A%(i)d\n")
    return "mode coherence\ntrait 1 T 0\nassoc T Out\ntrait 1 U 0\n" + impls + "check 3\n"


def clauses_walked(count):
    return "trait 1 T 1\ntrait 1 U 0\nimpl 1 x 1 + U #0\niwhere x T #0 u8\n" + lines(count, "env T !0 [%(i)d] u8\n") + "solve 3 U !0\n"


def two_chains(goals):
    impls = "".join(lines(goals, "impl 1 %s%%(i)d 1 + %s%%(i)d #0\niwhere %s%%(i)d %s%%(next)d #0\n" % ((one,) * 4)) for one in "AB")
    ends = lines(goals + 1, "trait 1 A%(i)d 0\ntrait 1 B%(i)d 0\n") + "trait 1 O 0\n"
    return ends + impls + "impl 1 one 1 + O #0\niwhere one A0 #0\nimpl 1 two 1 + O #0\niwhere two B0 #0\nmode coherence\noverlap * one two\n"


def doubled(leaf, other, declared=""):
    """Both arguments double in each step, and are then made equal."""
    def text(steps):
        ends = traits(steps, 2) + "trait 1 E 1\nimpl 1 e 1 + E #0 #0\nimpl 1 y 3 + T%d #0 #1 #2\niwhere y E #1 #2\n" % steps
        each = "impl 1 x%(i)d 3 + T%(i)d #0 #1 #2\niwhere x%(i)d T%(next)d #0 (2) #1 #1 (2) #2 #2\n"
        return declared + ends + lines(steps, each) + "solve %d T0 u8 %s %s\n" % (2 * steps + 6, leaf, other)

    return text


def doubled_and_printed(query):
    """The goal's variable gets a type that doubles in each step."""
    def text(steps):
        each = "impl 1 x%(i)d 2 + T%(i)d #0 (2) #1 #1\niwhere x%(i)d T%(next)d #0 #1\n"
        end = traits(steps, 1) + "impl 1 y 1 + T%d #0 u8\n" % steps
        return end + lines(steps, each) + "%s %d T0 u8 $0\n" % (query, 2 * steps + 6)

    return text


def orphans(steps):
    """The arguments of a fundamental type double in each step, and the last goal is asked for in coherence."""
    each = "impl 1 x%(i)d 2 + T%(i)d #0 #1\niwhere x%(i)d T%(next)d #0 P #1 #1\n"
    declared = "adt 1 P 2 fundamental\nadt 0 L 0\nmode coherence\n" + traits(steps, 1)
    return declared + lines(steps, each) + "impl 1 y 0 + T%d u8 u8\nsolve %d T0 L u8\n" % (steps, 2 * steps + 6)


def own_projections(steps):
    each = lines(steps, "super T%(i)d T%(next)d #0 (2) #1 #1\n")
    declared = "trait 1 A 0 dyn\nassoc A Out\n" + lines(steps + 1, "trait 1 T%(i)d 1 dyn\n")
    return declared + each + "super A T0 #0 Out #0\nsolve 3 A dyn(2) A Out u8\n"


SHAPES = {
    "a wide tuple of distinct arrays, sized": lambda n: SIZED + "solve 3 Sized (%d) %s\n" % (n, arrays(n)),
    "the same, of an auto trait": lambda n: "trait 1 Send 0 auto\nsolve 3 Send (%d) %s\n" % (n, arrays(n)),
    "a data type with many fields, of an auto trait": lambda n: "trait 1 S 0 auto\nadt 0 F 0\n" + lines(n, "field F [%(i)d] u8\n") + "solve 3 S F\n",
    "`dyn` with many auto traits, upcast": lambda n: UNSIZE
    + "trait 1 A 0 dyn\n"
    + lines(n, "trait 1 S%(i)d 0 auto\n")
    + "solve 3 Unsize dyn(%d) A%s dyn(%d)%s\n" % (n + 1, lines(n, " S%(i)d"), n, lines(n, " S%(i)d")),
    "`dyn` with many projection bounds, of its own trait": lambda n: "trait 1 A 0 dyn\n"
    + lines(n, "assoc A I%(i)d\nnbound I%(i)d A I%(i)d #0\n")
    + "solve 3 A dyn(%d) A%s\n" % (n + 1, lines(n, " I%(i)d u8")),
    "`dyn` with many bounds of one projection, upcast": lambda n: bounds_of_dyn(n, " ".join("I [%d] u8" % (n - i) for i in range(n))),
    "the same, to bounds with a variable": lambda n: bounds_of_dyn(n, " ".join(["I $0"] * n)),
    "a chain of supertraits, upcast": lambda n: UNSIZE
    + lines(n, "trait 1 T%(i)d 0 dyn\n")
    + lines(n - 1, "super T%(i)d T%(next)d #0\n")
    + "solve 1 Unsize dyn(1) T0 dyn(1) T%d\n" % (n - 1),
    "supertraits in a diamond, in coherence": diamond,
    "a clause whose supertraits grow": lambda n: lines(n, "trait 1 T%(i)d 1\n")
    + lines(n - 1, "super T%(i)d T%(next)d #0 (2) #1 #1\n")
    + "env T0 !0 u8\nsolve 1 T%d !0 u8\n" % (n - 1),
    "a structure with many unsizing parameters": lambda n: UNSIZE
    + "adt 0 F %d\nfield F (%d)%s\n" % (n, n, lines(n, " #%(i)d"))
    + lines(n, "unsizing F %(i)d\n")
    + "solve 3 Unsize F %s F %s\n" % (" ".join(["[3] u8"] * n), " ".join(["[] u8"] * n)),
    "many clauses of one trait": lambda n: "trait 1 T 1\n" + lines(n, "env T !0 [%(i)d] u8\n") + "solve 2 T !0 $0\n",
    "many impls of one trait that all apply": lambda n: "trait 1 T 1\n" + lines(n, "impl 1 x%(i)d 1 + T #0 [%(i)d] u8\n") + "solve 2 T u8 $0\n",
    "the same, each of which specialises the one before": lambda n: "trait 1 T 0\n"
    + lines(n, "impl 1 x%(i)d 1 + T #0\n")
    + lines(n - 1, "specializes x%(next)d x%(i)d\n")
    + "solve 1 T u8\n",
    "an impl with many where clauses": lambda n: "trait 1 T 0\ntrait 1 U 1\nimpl 1 x 1 + T #0\n"
    + lines(n, "iwhere x U #0 [%(i)d] u8\n")
    + "impl 1 y 2 + U #0 #1\nsolve 5 T u8\n",
    "impls in a circle": lambda n: lines(n, "trait 1 T%(i)d 0\n") + lines(n, "impl 1 x%(i)d 1 + T%(i)d #0\niwhere x%(i)d T%(around)d #0\n") + "solve * T0 u8\n",
    "impls each of which asks for all": circle_of_all,
    "associated types with bounds of one another": lambda n: "trait 1 T 0\n"
    + lines(n, "assoc T O%(i)d\n")
    + lines(n, "nbound O%(i)d T O%(around)d #0\n")
    + "solve 20 T%s !0\n" % lines(min(n, 63), " O%(i)d"),
    "normal forms one after the other": lambda n: "trait 1 T 0\nassoc T O\n"
    + lines(n, "norm O [%(i)d] u8 [%(next)d] u8\n")
    + "impl 1 a 0 + T u8\nsolve 3 T O O O O [0] u8\n",
    "a chain of goals": chain,
    "the same, with a variable at its end": chain_with_variable,
    "the same, by blanket impls": blanket_chain,
    "a grid of goals": grid,
    "supertraits in a row, in coherence": supertraits,
    "impls for one type, of which all are checked": impls_to_check,
    "normal forms of impls that are checked": norms_to_check,
    "clauses of an environment that are walked": clauses_walked,
    "two chains of where clauses, whose impls may overlap": two_chains,
    "two tuples of variables": lambda n: "trait 1 T 1\nimpl 1 a 1 + T #0 #0\nsolve 2 T (%d)%s (%d)%s\n"
    % (n, "".join(" $%d" % (i % 256) for i in range(n)), n, "".join(" $%d" % ((i + 1) % 256) for i in range(n))),
}


def growing(argument):
    return lambda rounds: "trait 1 T 1\nimpl 1 x 2 + T #0 #1\niwhere x T #0 (2) #1 #1\nsolve %d T u8 %s\n" % (rounds, argument)


ENDLESS = {"goals that double": growing("u8"), "goals that double, with a variable": growing("$0")}

ALIAS = "trait 1 A 0 dyn\nassoc A Out\n"

DOUBLED = {
    "an equation with a variable": doubled("$0", "u8"),
    "the same, with `fn` at the leaves": doubled("fn(1) u8 $0", "fn(1) u8 u8"),
    "the same, with `dyn`": doubled("dyn(2) A Out $0", "dyn(2) A Out u8", ALIAS),
    "the same, with an alias": doubled("(2) Out !0 $0", "(2) Out !0 u8", ALIAS),
    "an answer that is printed": doubled_and_printed("answer"),
    "a derivation that is printed": doubled_and_printed("why"),
    "a fundamental type in coherence": orphans,
    "an object's own projections": own_projections,
}

# The numbers of doublings that are tried.
DOUBLINGS = (10, 20, 30, 40)

# What is measured beside rustc: the name of a shape, how large, and the same in Rust.
BESIDE_RUSTC = {
    "a chain of 400 goals": (chain(400), growth_rust.chain(400)),
    "a chain of 400 goals, by blanket impls": (blanket_chain(400), growth_rust.blanket_chain(400)),
    "a chain of 100 goals, with a variable at its end": (chain_with_variable(100), growth_rust.chain_with_variable(100)),
    "a grid of 64 x 64 goals": (grid(64), growth_rust.grid(64)),
    "a counter of 8 bits": (counter(8), growth_rust.counter(8)),
    "800 supertraits in a row": (supertraits(800), growth_rust.supertraits(800)),
    "3,000 impls `T<A_i> for X`, checked": (impls_to_check(3000), growth_rust.impls_to_check(3000)),
    "an equation of types that double 16 times": (doubled("$0", "u8")(16), growth_rust.doubled(16)),
    "a type that doubles 16 times, printed": (doubled_and_printed("answer")(16), growth_rust.doubled_and_printed(16)),
    "many impls of one trait, 1,000": (
        "trait 1 T 1\n" + lines(1000, "impl 1 x%(i)d 1 + T #0 [%(i)d] u8\n") + "solve 3 T u8 [7] u8\n",
        growth_rust.many_impls(1000),
    ),
}


def measured(words, text, longest=LONGEST):
    """The processor time of a run and how many bytes it printed, or `None` where it was ended."""
    before = resource.getrusage(resource.RUSAGE_CHILDREN)
    try:
        ran = subprocess.run(words, input=text.encode(), capture_output=True, timeout=longest)
    except subprocess.TimeoutExpired:
        return None
    after = resource.getrusage(resource.RUSAGE_CHILDREN)
    return after.ru_utime + after.ru_stime - before.ru_utime - before.ru_stime, len(ran.stdout)


def seconds(program, text):
    """The processor time of a run, or `None` where it was ended."""
    found = measured([program], text)
    return found and found[0]


def exponent(small, large):
    return math.log(large[1] / small[1]) / math.log(large[0] / small[0])


def grown(program, make, size, by_bytes):
    """Runs texts that are twice as large each time: what each is measured by, and its seconds."""
    seen = []
    while size <= LARGEST:
        text = make(size)
        took = seconds(program, text)
        if took is None:
            return seen, True
        if took >= LEAST:
            seen.append((len(text) if by_bytes else size, took))
        if took > ENOUGH:
            break
        size *= 2
    return seen, False


def tell_doubled(program):
    """Prints for each type that doubles the seconds and the bytes printed, up to the first run that takes a second."""
    for name, make in DOUBLED.items():
        told = []
        for steps in DOUBLINGS:
            found = measured([program], make(steps), ENOUGH * 10)
            if found is None:
                told.append("%d: over %d s" % (steps, ENOUGH * 10))
                break
            told.append("%d: %.2f s, %d bytes" % (steps, *found))
            if found[0] > ENOUGH:
                break
        print("doublings, %s: %s" % (name, "; ".join(told)), flush=True)


def tell_beside_rustc(program):
    """Prints the seconds of each text, and those of rustc of the same program, less those of an empty one."""
    empty = growth_rust.seconds("")
    print("an empty crate: rustc %.2f s, taken away below" % empty)
    for name, (text, rust) in BESIDE_RUSTC.items():
        found = measured([program], text)
        here = "over %d" % LONGEST if found is None else "%.2f" % found[0]
        print("| %s | %d | %s | %s |" % (name, len(text), here, growth_rust.told(rust, empty)), flush=True)


def main():
    words = argparse.ArgumentParser(description=__doc__, formatter_class=argparse.RawDescriptionHelpFormatter)
    words.add_argument("--program", default=PROGRAM, help="the program; that of crates/assembly if left out")
    words.add_argument("--rustc", action="store_true", help="ten shapes beside rustc, and nothing else")
    asked = words.parse_args()
    program = asked.program
    if asked.rustc:
        tell_beside_rustc(program)
        return
    for shapes, size, unit in ((SHAPES, 16, "bytes"), (ENDLESS, 50, "rounds")):
        for name, make in shapes.items():
            seen, is_ended = grown(program, make, size, unit == "bytes")
            told = ", ".join("%d %s %.2f s" % (much, unit, took) for much, took in seen[-2:]) or "quick"
            power = ", exponent %.1f" % exponent(*seen[-2:]) if len(seen) > 1 else ""
            print("%s: %s%s%s" % (name, told, power, ", then over %d s" % LONGEST if is_ended else ""), flush=True)
        if shapes is SHAPES:
            tell_doubled(program)


if __name__ == "__main__":
    main()
