#!/usr/bin/env python3
"""What the texts in `crates/texts/data` are answered by plain Rust of the sources, beside what stands there.

    texts.py [FILE ..]              shows each text that is answered otherwise; of all files where none is named
    texts.py --accept [FILE ..]     writes those answers into the files, too, and the counts into `crates/texts/stdout`; into `worked`,
                                    whose answers say what the language means, it writes none
    texts.py --build FOLDER ..      leaves the plain program in the folder, and keeps one that is there of the same sources

How a file is written is said at the head of `crates/texts/src/main.rt`. To add a text, write its lines below a line `==== TITLE`, without answers: they
are shown as ones that would change, and `--accept` puts each behind the line that it answers. Of a line with ` => ` the first word alone is
compared; `against_rustc.py --write` writes those. Status 1 says that something would change, or that it can't be taken over.

What is taken over is plain Rust's: the gate says whether the proved program answers the same, and whether an answer is right is for its
reader to say.
"""

import argparse
import concurrent.futures
import difflib
import os
import subprocess
import sys
import tempfile

ROOT = os.path.dirname(os.path.dirname(os.path.abspath(__file__)))
CRATE = os.path.join(ROOT, "crates", "texts")
DATA = os.path.join(CRATE, "data")

# Files whose answers are written by hand.
BY_HAND = {"worked"}

# Between a query and the first word of its answer.
ANSWER = " => "

# How a run ends that a bad line ends, and how runs end that read all their lines.
BAD_LINE = 2
ENDS = (0, 1, BAD_LINE, 4)

# What stands before a text's own lines: what it prints, what it says on the standard error, and how it ends.
MARKS = ("> ", "! ", "= ")


def names():
    """The files of texts, in the order in which the program reads them; all that are there have to be among them."""
    with open(os.path.join(CRATE, "args")) as given:
        found = given.read().split()
    there = {name[: -len(".txt")] for name in os.listdir(DATA) if name.endswith(".txt")}
    if set(found) != there:
        sys.exit("crates/texts/args: files that only one of args and data has: %s" % " ".join(sorted(set(found) ^ there)))
    return found


class Section:
    """What a section says of its texts: what they begin with, how long a chain is, and which argument the program is given."""

    def __init__(self):
        self.before, self.chain, self.argument = "", "", None

    def read(self, line):
        """Takes in a line at the section's head."""
        word, _, rest = line.partition(" ")
        if word == "after":
            with open(os.path.join(DATA, "before", rest + ".txt")) as given:
                self.before = given.read()
        elif word == "chain":
            self.chain = " &" * int(rest)
        elif word == "with":
            self.argument = rest


class Text:
    """A text of a file: where its lines stand there, what is run, and what it has to print and to say."""

    def __init__(self, file, title, start, lines, section):
        while lines and not lines[-1]:
            lines = lines[:-1]
        self.file, self.title, self.start, self.lines = file, title, start, lines
        self.before, self.chain, self.argument = section.before, section.chain, section.argument
        self.asked = [line for line in lines if not line.startswith(MARKS)]
        self.is_brief = any(ANSWER in line for line in self.asked)
        self.text = (self.before + self.whole(self.asked)).encode()
        self.answers = "".join(line[2:] + "\n" for line in lines if line.startswith("> "))
        if self.is_brief:
            self.answers = "".join(line.partition(ANSWER)[2].split()[0] + "\n" for line in self.asked if ANSWER in line)
        self.said = "".join(line[2:] + "\n" for line in lines if line.startswith("! "))
        ends = [int(line[2:]) for line in lines if line.startswith("= ")]
        self.status = ends[-1] if ends else self.usual_status(self.said)

    @staticmethod
    def usual_status(said):
        """How a text ends that says nothing else."""
        return BAD_LINE if said else 0

    def whole(self, asked):
        """What lines of the file stand for."""
        return "\n".join(line.partition(ANSWER)[0] for line in asked).replace(" &..", self.chain)

    def place(self):
        return "%s:%d: %s" % (os.path.relpath(path_of(self.file), ROOT), self.start, self.title)

    def holds(self, status, printed, said):
        """Whether a run that ended so, printed that and said that is as it has to be."""
        if self.is_brief:
            printed = "".join(line.split(" ")[0] + "\n" for line in printed.splitlines())
        return (status, printed, said) == (self.status, self.answers, self.said)

    def filled(self, program, status, printed, said):
        """The lines with these answers, each behind the line that it answers; None where the file can't hold them."""
        if self.is_brief or status not in ENDS:
            return None
        lines, rest, given = [], printed.splitlines(), 0
        for at, line in enumerate(self.asked):
            lines.append(line)
            last = at + 1 == len(self.asked)
            begun = (self.before + self.whole(self.asked[: at + 1])).encode()
            found = rest if last or given == len(rest) else run(program, begun, self.argument)[1].splitlines()
            if found == rest[: len(found)]:
                lines += ["> " + answer for answer in rest[given : len(found)]]
                given = max(given, len(found))
        ends = ["= %d" % status] if status != self.usual_status(said) else []
        return lines + ["! " + line for line in said.splitlines()] + ends


def path_of(file):
    return os.path.join(DATA, file + ".txt")


def texts_of(file):
    """The texts of a file."""
    with open(path_of(file)) as given:
        lines = given.read().splitlines()
    section, title, begin = Section(), None, 0
    for at, line in enumerate([*lines, "#### "]):
        is_section = line.startswith("#### ")
        if is_section or line.startswith("==== "):
            if title is not None:
                yield Text(file, title, begin, lines[begin:at], section)
            title, begin = (None, 0) if is_section else (line[5:], at + 1)
            section = Section() if is_section else section
        elif title is None:
            section.read(line)


def tested():
    """The texts by the names of their files, each with the status and the answers that it has to end with; those of which the first words alone
    are kept, and those that are run with an argument, aren't among them."""
    found = {file: [(it.text, it.status, it.answers.encode()) for it in texts_of(file) if not it.is_brief and not it.argument] for file in names()}
    return {file: texts for file, texts in found.items() if texts}


def program_with_arguments(program):
    """The program that takes arguments, which lies beside `assembly`."""
    return os.path.join(os.path.dirname(program), "rilgomut")


def run(program, text, argument=None):
    """How a run over a text ended, what it printed, and what it said; `FILE` is a file with the text. Where there is an argument it is given to
    the program beside this one that takes arguments."""
    program = program_with_arguments(program) if argument else program
    with tempfile.NamedTemporaryFile() as file:
        words = [argument] if argument else []
        if argument == "FILE":
            file.write(text)
            file.flush()
            words = [file.name]
        done = subprocess.run([program, *words], input=text, capture_output=True)
    return done.returncode, done.stdout.decode(errors="backslashreplace"), done.stderr.decode(errors="backslashreplace")


def each_run(program, texts):
    """Each of the texts with how its run ended."""
    with concurrent.futures.ThreadPoolExecutor(os.cpu_count()) as workers:
        yield from zip(texts, workers.map(lambda it: run(program, it.text, it.argument), texts))


def show(text, printed, said, status):
    """Prints where a text stands, and what would be otherwise."""
    print(text.place())
    for line in text.asked if not text.is_brief else []:
        print("    " + line)
    old = ["> " + line for line in text.answers.splitlines()] + ["! " + line for line in text.said.splitlines()] + ["= %d" % text.status]
    new = ["> " + line for line in printed.splitlines()] + ["! " + line for line in said.splitlines()] + ["= %d" % status]
    for line in difflib.unified_diff(old, new, n=len(old) + len(new), lineterm=""):
        if not line.startswith(("---", "+++", "@@")):
            print(line[0] + " " + line[1:])


def compare(program, files, is_accepting):
    """Shows the texts that are answered otherwise, and writes their answers; says how many there are, and how many can't be written."""
    changed, stuck, count, edits = 0, 0, 0, {}
    for text, (status, printed, said) in each_run(program, [text for file in files for text in texts_of(file)]):
        count += 1
        if text.holds(status, printed, said):
            continue
        changed += 1
        show(text, printed, said, status)
        lines = text.filled(program, status, printed, said)
        if lines is None or text.file in BY_HAND:
            print("  it can't be written" if lines is None else "  its answers are written by hand")
            stuck += 1
        elif is_accepting:
            edits.setdefault(text.file, []).append((text.start, len(text.lines), lines))
    for file, found in edits.items():
        rewrite(path_of(file), found)
    print("%d texts, %d %s%s" % (count, changed - stuck if is_accepting else changed, "written" if is_accepting else "would change", ", %d can't be written" % stuck if stuck else ""))
    return changed, stuck


def rewrite(path, found):
    """Makes the edits of a file, from the last one on."""
    with open(path) as given:
        lines = given.read().splitlines()
    for start, count, new in sorted(found, reverse=True):
        lines[start : start + count] = new
    with open(path, "w") as taken:
        taken.write("\n".join(lines) + "\n")


def counts():
    """What the proved program prints where all is as it has to be."""
    return "".join("%s: %d texts\n" % (file, sum(1 for _ in texts_of(file))) for file in names()) + "0 differ\n"


def check_counts(is_accepting):
    """Whether the counts in the stored output are those of the files; writes them if they aren't."""
    path = os.path.join(CRATE, "stdout")
    with open(path) as given:
        is_well = given.read() == counts()
    if not is_well and is_accepting:
        with open(path, "w") as taken:
            taken.write(counts())
    elif not is_well:
        print("crates/texts/stdout has other counts; --accept writes them")
    return is_well or is_accepting


def main():
    words = argparse.ArgumentParser(description=__doc__, formatter_class=argparse.RawDescriptionHelpFormatter)
    words.add_argument("files", nargs="*", metavar="FILE", help="names of files without .txt; all if left out")
    words.add_argument("--accept", action="store_true", help="write the answers")
    words.add_argument("--build", metavar="FOLDER", help="where the plain program is left; a temporary folder if left out")
    asked = words.parse_args()
    for file in asked.files:
        if file not in names():
            words.error("%s is none of %s" % (file, ", ".join(names())))
    import plain

    with tempfile.TemporaryDirectory() as folder:
        program = plain.build_all(asked.build or folder, [plain.PROGRAM, plain.FOR_PEOPLE], bool(asked.build))[0]
        changed, stuck = compare(program, asked.files or names(), asked.accept)
    is_well = check_counts(asked.accept)
    sys.exit(1 if stuck or not is_well or (changed and not asked.accept) else 0)


if __name__ == "__main__":
    main()
