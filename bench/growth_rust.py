"""Shapes of `growth.py` in Rust, and how long rustc takes for them by its next trait solver."""

import os
import resource
import subprocess
import tempfile

LONGEST = 300

FLAGS = ["--crate-type=lib", "--emit=metadata", "--edition=2021", "--cap-lints=allow", "-Znext-solver=globally"]

LIMITS = '#![recursion_limit = "65535"]\n#![type_length_limit = "4294967295"]\n'

def lines(count, line):
    return "".join(line % {"i": i, "next": i + 1} for i in range(count))


def asking(wanted, shown="()"):
    """A function that asks for a bound, and one that calls it."""
    return "fn asked<X: %s>() {}\npub fn ask() { asked::<%s>() }\n" % (wanted, shown)


def nested(outer, depth, inner):
    return outer * depth + inner + ">" * depth


def chain(goals):
    return "pub struct V<X>(X);\ntrait T {}\nimpl<X: T> T for V<X> {}\nimpl T for u8 {}\n" + asking("T", nested("V<", goals, "u8"))


def blanket_chain(goals):
    impls = lines(goals, "trait T%(i)d {}\nimpl<X: T%(next)d> T%(i)d for X {}\n")
    return impls + "trait T%d {}\nimpl T%d for u8 {}\n" % (goals, goals) + asking("T0", "u8")


def chain_with_variable(goals):
    impls = lines(goals, "trait T%(i)d<Y> {}\nimpl<X: T%(next)d<Y>, Y> T%(i)d<Y> for X {}\n")
    ends = "trait T%d<Y> {}\nimpl<X> T%d<u8> for X {}\n" % (goals, goals)
    return impls + ends + "fn asked<X: T0<Y>, Y>(_: X) {}\npub fn ask() { asked(0u8) }\n"


def grid(side):
    impls = "impl<X, Y> T<S<Y>> for S<X> where X: T<S<Y>>, S<X>: T<Y> {}\nimpl<X> T<X> for Z {}\nimpl<X> T<Z> for S<X> {}\n"
    both = nested("S<", side, "Z")
    return "pub struct S<X>(X);\npub struct Z;\ntrait T<Y> {}\n" + impls + asking("T<%s>" % both, both)


def counter(bits):
    told = "pub struct O;\npub struct I;\ntrait C {}\n"
    for ones in range(bits):
        high = ["B%d" % place for place in range(bits - ones - 1)]
        now, then = high + ["O"] + ["I"] * ones, high + ["I"] + ["O"] * ones
        told += "impl<%s> C for (%s,) where (%s,): C {}\n" % (", ".join(high), ", ".join(now), ", ".join(then))
    return told + "impl C for (%s,) {}\n" % ", ".join(["I"] * bits) + asking("C", "(%s,)" % ", ".join(["O"] * bits))


def supertraits(count):
    return lines(count, "trait T%(i)d: T%(next)d {}\n") + "trait T%d {}\npub struct L;\ntrait W {}\nimpl<X: T0> W for X {}\nimpl W for L {}\n" % count


def impls_to_check(count):
    return "pub trait T<Y> {}\npub struct X;\n" + lines(count, "pub struct A%(i)d;\nimpl T<A%(i)d> for X {}\n")


def doubled(steps):
    each = "trait T%(i)d<Y, Z> {}\nimpl<X: T%(next)d<(Y, Y), (Z, Z)>, Y, Z> T%(i)d<Y, Z> for X {}\n"
    ends = "trait E<Y> {}\nimpl<X> E<X> for X {}\ntrait T%d<Y, Z> {}\nimpl<X, Y: E<Z>, Z> T%d<Y, Z> for X {}\n" % (steps, steps)
    return ends + lines(steps, each) + "fn asked<X: T0<Y, u8>, Y>(_: X) {}\npub fn ask() { asked(0u8) }\n"


def doubled_and_printed(steps):
    each = "trait T%(i)d<Y> {}\nimpl<X: T%(next)d<Y>, Y> T%(i)d<(Y, Y)> for X {}\n"
    end = "trait T%d<Y> {}\nimpl<X> T%d<u8> for X {}\n" % (steps, steps)
    return end + lines(steps, each) + "fn asked<X: T0<Y>, Y>(_: X) -> Y { loop {} }\npub fn ask() { let () = asked(0u8); }\n"


def many_impls(count):
    return "trait T<Y> {}\n" + lines(count, "impl<X> T<[u8; %(i)d]> for X {}\n") + asking("T<[u8; 7]>", "u8")


def run(program):
    """The processor time of rustc, and whether it reports nothing; `None` where it was ended."""
    with tempfile.TemporaryDirectory() as folder:
        path = os.path.join(folder, "lib.rs")
        with open(path, "w") as taken:
            taken.write(LIMITS + program)
        words = ["rustc", *FLAGS, "--out-dir", folder, path]
        before = resource.getrusage(resource.RUSAGE_CHILDREN)
        try:
            ran = subprocess.run(words, env={**os.environ, "RUSTC_BOOTSTRAP": "1"}, capture_output=True, timeout=LONGEST)
        except subprocess.TimeoutExpired:
            return None
        after = resource.getrusage(resource.RUSAGE_CHILDREN)
        return after.ru_utime + after.ru_stime - before.ru_utime - before.ru_stime, ran.returncode, ran.stderr.decode(errors="replace")


def seconds(program):
    return run(program)[0]


def told(program, empty):
    """Its seconds beyond those of an empty crate, and the code of its first error, if it reports one."""
    ran = run(program)
    if ran is None:
        return "over %d" % LONGEST
    code = ran[2][ran[2].find("error[") :][6:11] if "error[" in ran[2] else ("error" if ran[1] else "")
    return ("%.2f %s" % (max(ran[0] - empty, 0), code)).strip()
