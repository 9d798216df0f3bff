#!/usr/bin/env python3
"""How much of the machine's stack a query takes whose types are as deep as types may be.

`python3 bench/stack.py FOLDER/assembly` runs texts whose types are 1,015 deep, which is what a line of 1,024 levels leaves for a type. For
each it looks for the least stack, in steps of 8 KiB, with which the program answers as it does with 64 MiB, and prints it. The program
is that of `bench/plain.py`, or the proved one.
"""

import argparse
import resource
import subprocess

DEEP = 1_015

LARGEST, STEP = 65_536, 8

VEC = "adt 1 Vec 1\ntrait 1 T 0\ntrait 1 W 1\nassoc T Out\n"


def texts(depth):
    """For each kind of query a text with a type of that depth."""
    vec, open_vec = "Vec " * depth + "u8", "Vec " * depth + "$0"
    above = "Vec " * (depth - 1)
    pair = "impl 1 x 1 + W #0 %s#0\nimpl 1 y 1 + W #0 %su8\nmode coherence\n" % (above, above)
    return {
        "solve": "impl 1 x 1 + T Vec #0\niwhere x T #0\nimpl 1 y 0 + T u8\nsolve 3 T %s\n" % vec,
        "solve, an equation with a variable": "impl 1 x 1 + W #0 #0\nsolve 3 W %s %s\n" % (vec, open_vec),
        "solve, a clause of the environment": "env T %s\nsolve 3 T %s\n" % (vec, vec),
        "solve, an auto trait": "trait 1 Send 0 auto\nfield Vec #0\nsolve 3 Send %s\n" % vec,
        "solve, a `dyn` type": "trait 1 A 1 dyn\nsolve 3 A dyn(1) A %s %s\n" % (vec, vec),
        "answer": "impl 1 x 1 + W #0 #0\nanswer 3 W %s $0\n" % vec,
        "candidates": "impl 1 x 1 + W #0 #0\ncandidates 3 W %s %s\n" % (vec, vec),
        "why": "impl 1 x 1 + W #0 #0\nwhy 3 W %s %s\n" % (vec, vec),
        "normalize": "impl 1 x 1 + T Vec #0\nvalue x Out (1) #0\nnormalize 3 Out %s\n" % vec,
        "orphan": "adt 0 L 0\norphan local W %s L\n" % vec,
        "knowable": "knowable W %s u8\n" % vec,
        "overlap": pair + "overlap 3 x y\n",
        "check": pair + "check 3\n",
    }


def answer(program, text, kibibytes):
    """What the program answers with so much stack."""

    def limit():
        resource.setrlimit(resource.RLIMIT_STACK, (kibibytes * 1024, kibibytes * 1024))

    ran = subprocess.run([program], input=text.encode(), capture_output=True, preexec_fn=limit)
    return ran.returncode, ran.stdout


def least_stack(program, text):
    wanted = answer(program, text, LARGEST)
    too_little, enough = 0, LARGEST
    while enough - too_little > STEP:
        between = (too_little + enough) // 2
        if answer(program, text, between) == wanted:
            enough = between
        else:
            too_little = between
    return enough, wanted[0]


def main():
    words = argparse.ArgumentParser(description=__doc__, formatter_class=argparse.RawDescriptionHelpFormatter)
    words.add_argument("program", help="the program `assembly`")
    program = words.parse_args().program
    for name, text in texts(DEEP).items():
        enough, status = least_stack(program, VEC + text)
        print("%s: %d KiB%s" % (name, enough, "" if status == 0 else ", status %d" % status), flush=True)


if __name__ == "__main__":
    main()
