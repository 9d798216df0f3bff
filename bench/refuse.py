#!/usr/bin/env python3
"""What the programs print where memory is refused.

    refuse.py                            the program `assembly`
    refuse.py --built                    the same as `rt ci` built it, as the gate does it
    refuse.py --rows FOLDER              the rows, by the program `rows` that `cargo build` left in that folder of plain Rust
    refuse.py --rows FOLDER context|rules [--most N]      all rows of one of the files, with N of its growths (all if left out)

`assembly` is built with its proofs, and run on the stored run, on a text with every command, and on made texts. The growths
of each run are counted, and the program is run again with each growth refused, and once more with each growth and all later
ones refused. In the place of an answer a query may print `stop 1` then, and a line may end the run with
`line N: stop 1`; all else must stay. Some growths of each run may be refused without a trace: quick rejection notes the pairs that it saw as far as
there is memory, and goes into a pair once more where it has no note. Behind `*` it is noted as far as there is memory what goals look up, and all
goals are computed where a note is missing. So it is for the texts in `crates/texts/data`, which plain Rust of the sources answers: `tests/rows/tests/growths.rs`.

Rows are answered by plain Rust, too, of whose collections each growth can be refused (`bench/plain/kit.rs`). The run is the same but for `stop 1` as
the answer of one row, which the program asks once more then, or for a row `asks` that counts fewer calls. Where its text or its answers have no
room it prints nothing, and its status is 1. What follows the row is the same, but for five kinds of rows, behind which it
is compared with what the program answers to other rows where nothing is refused:

- `finish` isn't asked once more: up to the next `begin` each row is answered `condition`;
- neither is the start of a probe: what follows is answered as where it doesn't stand there;
- of a `run` of several rounds those before the one that stops stay, and all where only the answer had no room: as behind a run of so many;
- of a `pick` a variable may stay: as behind a `fresh T`;
- of a call that notes a bug that bug may stay: as behind the same row.

With --most the growths are spread over the run. Without a file's name that is done for some growths of all rows, and for each growth of a few rows for
each verb, and of the last rows of `rules`. There no row but the one that stops may be answered otherwise, but behind `finish`, and
behind a run of which only the answer had no room; that is so for no growth but the last one of its row.

It prints what it saw, and ends with status 1 where a run did anything else. `assembly` needs a C compiler, `cc`.
"""

import argparse
import collections
import concurrent.futures
import os
import re
import subprocess
import sys
import tempfile

from run import CRATE, PROGRAM, ROOT, Text, build

DATA = os.path.join(ROOT, "tests", "rows", "data")

# Stands between the program and its memory. It refuses the growth of the number REFUSE, and all
# later ones where LATER is set; without REFUSE it says at the end how many there were.
REFUSING = r"""
#include <errno.h>
#include <stdio.h>
#include <stdlib.h>

extern void *__libc_malloc(size_t size);
extern void *__libc_realloc(void *old, size_t size);

static long growths;

static int is_refused(void) {
    const char *number = getenv("REFUSE");
    growths++;
    if (number == NULL || (growths < atol(number))) return 0;
    if (growths > atol(number) && getenv("LATER") == NULL) return 0;
    errno = ENOMEM;
    return 1;
}

void *malloc(size_t size) { return is_refused() ? NULL : __libc_malloc(size); }

void *realloc(void *old, size_t size) { return is_refused() ? NULL : __libc_realloc(old, size); }

__attribute__((destructor)) static void end(void) {
    if (getenv("REFUSE") == NULL) dprintf(2, "%ld\n", growths);
}
"""

EVERY_COMMAND = """local 0
adt 1 Vec 1
adt 1 Box 1 fundamental
adt 1 Pair 2 fundamental phantom
adt 1 Unit0 0 fundamental
adt 0 LocalType 0 enum unsafe_fields
adt 0 Wrap 1 union manually_drop
foreign 0 LocalForeign
foreign 1 Foreign
trait 1 Trait 0
trait 1 Trait1 1 alias unsafe
trait 1 Trait2 2 fundamental dyn default
trait 0 LocalTrait 0
trait 1 Send 0 auto
trait 1 Headed 0 auto by_head
trait 1 Marked 0 marker
assoc Trait Out
assoc Trait2 Two sized_self
opaque 1 Opaque 1 fn(1) #0 [3] Vec #0
impl 1 plain 0 + Trait u8
impl 0 general 1 - Trait1 Vec #0 dyn(1) Trait1 #0
impl 1 kept 0 reservation Trait Opaque u8
value plain Out Vec bool
field Vec #0
field Vec [] (2) #0 &mut u8
sized Vec #0
metasized Box #0
unsizing Vec 0
super Trait2 Trait #0
where Trait1 Out #0 #1
bound Out Trait1 Out #0 u8
bound Opaque Trait Opaque #0
nbound Two Trait #1
iwhere general Trait #0
default general
specializes general plain
lang Sized Trait
lang Fn Trait1
env Trait Vec !0
env Out !0 [3] !1
norm Out !0 fn(0) u8
mode coherence
feature specialization
limit walk 300
limit alias 3
limit const 4
limit recursion 5
// The queries.
orphan local Trait Pair Vec (0) Box LocalType
orphan local Trait Vec LocalType
orphan local Trait1 Box $0 LocalType
orphan compat Trait1 Out $0 LocalType
orphan remote Trait1 Wrap u8 Vec $0
orphan local Trait dyn(4) Send Trait2 u8 & bool Send Two char (1) str & u8
orphan local Trait1 LocalForeign Foreign
orphan local Trait1 Foreign *const [] &mut !3
orphan local Trait1 (2) i32 f64 Out u8
orphan local Trait & & & & & & error
knowable Trait $0
knowable Trait Vec $0
knowable Trait LocalType
knowable Trait2 Vec u8 Vec u16 Two str u8 u16
orphan local Trait1 u8 LocalForeign
orphan local Trait1 fn(2) u8 [7] LocalType ! Opaque $0
solve 3 Trait u8
solve 4 - Trait1 Vec u8 dyn(1) Trait1 u8
solve 5 Trait Vec Opaque u8
solve 5 LocalTrait Vec $0
solve 2 Trait Out u8
solve 3 Send (2) u8 Vec u8
answer * Trait $0
normalize 2 Out u8
normalize * Out Vec !0
overlap * plain kept
check 1
overlap 2 plain plain
candidates 2 Trait u8
candidates * Trait $0
why * Trait u8
why 2 Trait Vec u8
why * plain kept
why 2 general general
check *
"""

# The table of all commands.
COMMANDS = os.path.join(ROOT, "crates", "assembly_text", "src", "commands.rt")

STOP = "stop 1\n"

# For how many seconds a run may take: it takes less than one, but for what else the machine does.
LONGEST = 600

# How a run ended in which a refused growth changed nothing, and how many of these a text may have.
UNNOTICED = "the same"
MOST_UNNOTICED = 24

# A program draws a seed for its tables in each run, which seldom moves a growth or adds a few. What holds of the growth behind
# another one is looked for in so many runs.
SEEDS = 3

# How a row that stopped is answered.
STOPPED = " => stop 1"

# In an answer the number of a line, which is another one where a row more stands before it.
LINE_NUMBER = re.compile(r"(?<= => )(unknown word.*) in line \d+$", re.MULTILINE)

# A row of which nothing but the answer had no room, so that asking once more does it once more.
UNANSWERED = "done, and stopped at its answer"

# In how many of its first rounds it is looked for where a run stopped.
MAX_ROUNDS = 100

# How many growths of all rows of each file are refused, spread over the run.
ROWS_REFUSED = {"context": 30, "rules": 600}

# With these words the rows of `rules` begin that show what a stop leaves.
WHAT_STOPS_LEAVE = "// Rows of which each growth is refused in turn"

# How many rows of a verb and its first word a short text has.
OF_A_VERB = 2

# What a row repeats so often that it takes long, and what it has in that place in a short text.
LONG = re.compile(r"(?<![\w?^!#'.])\d{3,}(?=\*|$)|(?<=chain )\d+|(?<=fan )\d+")
SHORTER = "9"

# Rows that others need.
NEEDED = {"let", "rounds", "leave", "probe", "end", "root", "fresh", "placeholders", "member", "clear", "candidate"}


def lines_of(text):
    """The lines of the bytes, each with its end. A text may have any bytes."""
    return re.findall(r"[^\n]*\n|[^\n]+", text.decode(errors="surrogateescape"))


def answers_of(text):
    """The lines that the program printed, where those that `check` or `why` answers are one, which `stop 1` may stand in the place of.

    What two of them find one right behind the other is taken for one answer, so no text of the tests asks like that.
    """
    return re.findall(r"(?:impl [^\n]*\n)+|[^\n]*\n(?:  [^\n]*\n)*|[^\n]+", text.decode(errors="surrogateescape"))


# What is said of lines on the standard error: of bad ones, or a hint.
OF_LINES = re.compile(r"\A(?:line \d+(?:, column \d+)?: [^\n]+\n)+(?:and \d+ more\n)?")


class Program:
    """The program over one text, with its memory in our hands."""

    def __init__(self, library, text):
        self.library = library
        self.text = text
        with open(text, "rb") as given:
            self.lines = lines_of(given.read())

    def run(self, **refused):
        """The status, the answers that it printed, and what it wrote on the standard error besides what it says of lines."""
        # It reads a file, since reads of a pipe may be cut anywhere, and then the growths differ.
        with open(self.text, "rb") as given:
            done = subprocess.run(
                [PROGRAM],
                stdin=given,
                capture_output=True,
                env={"LD_PRELOAD": self.library, **refused},
                timeout=LONGEST,
            )
        return done.returncode, answers_of(done.stdout), OF_LINES.sub("", done.stderr.decode())

    def queries_before(self, number):
        """How many of the lines before the one of that number ask something."""
        before = self.lines[: number - 1]
        return sum(line.lstrip(" \t").startswith(("orphan", "knowable", "solve", "answer", "normalize", "overlap", "check", "candidates", "why")) for line in before)

    def kind(self, answers, status, printed, most_stops):
        """How a run ended of which a growth was refused, or None where it may not end so."""
        ended = re.fullmatch(r"line (\d+): stop 1\n", printed[-1]) if printed else None
        if ended:
            printed = printed[:-1]
        stops = sum(line == STOP for line in printed)
        kept = all(line in (answer, STOP) for line, answer in zip(printed, answers))
        if not kept or stops + bool(ended) > most_stops:
            return None
        if ended and status == 2 and len(printed) == self.queries_before(int(ended[1])):
            return "ended at a line"
        if not ended and status == 0 and len(printed) == len(answers) and stops > 0:
            return "stopped at a query"
        return None


def plain_run(name, program):
    """The answers of a run to which nothing is refused, and how many growths it asks for; no answers where it failed."""
    status, answers, growths = program.run()
    if status != 0 or not growths.strip().isdigit():
        print("%s: the plain run ended with status %d: %s" % (name, status, growths))
        return None, 0
    return answers, int(growths)


def spread(count, most):
    """The numbers of so many growths, spread over a run of `count`, or of all where `most` is 0."""
    return range(1, count + 1, max(1, -(-count // most)) if most else 1)


def refuse_each(name, library, text):
    """Refuses each growth of a run over that file, and says whether all was as it should be."""
    program = Program(library, text)
    answers, count = plain_run(name, program)
    if answers is None:
        return False
    print("%s: %d answers, %d growths" % (name, len(answers), count))
    is_well = True
    for later, most_stops in (({}, 1), ({"LATER": "1"}, len(answers) + 1)):
        kinds = collections.Counter()
        for number in range(1, count + 1):
            status, printed, said = program.run(REFUSE=str(number), **later)
            kind = program.kind(answers, status, printed, most_stops)
            if kind is None and (status, printed) == (0, answers):
                kind = UNNOTICED
            if kind is None or said:
                is_well = False
                print("  growth %d: status %d, %r %s" % (number, status, printed[-2:], said))
            kinds[kind] += 1
        is_well = is_well and kinds[UNNOTICED] <= MOST_UNNOTICED
        after = str(count + 1)
        is_well = is_well and any(program.run(REFUSE=after, **later)[:2] == (0, answers) for _ in range(SEEDS))
        seen = ", ".join("%d %s" % (many, kind) for kind, many in sorted(kinds.items(), key=str))
        print("  each %s: %s" % ("and all later ones" if later else "alone", seen))
    return is_well


def unnumbered(printed):
    """The text that a program of rows printed, without the numbers of lines in its answers."""
    return LINE_NUMBER.sub(r"\1", printed.decode())


def short_text(text):
    """The text with a few rows for each verb and its first word, each with what is declared for it, and shorter ones for those that take
    long."""
    seen = collections.Counter()
    kept = []
    for block in re.split(r"^(?=begin)", text, flags=re.MULTILINE):
        rows = [LONG.sub(SHORTER, row) for row in block.split("\n") if not row.startswith("//")]
        declared = rows.index("finish") + 1 if "finish" in rows else len(rows)
        asked = [row for row in rows[declared:] if row and is_needed(row, seen)]
        if any(row.partition(" ")[0] not in NEEDED for row in asked) or "common" in rows:
            kept += [*rows[:declared], "", *asked, ""]
    return "\n".join(kept)


def is_needed(row, seen):
    """Whether a short text has the row, of whose verb and first word so many were seen."""
    words = row.split(" ")
    seen[tuple(words[:2])] += 1
    return words[0] in NEEDED or seen[tuple(words[:2])] <= OF_A_VERB


def without_answers(text):
    """The rows of a file without their answers."""
    return "".join(line.partition(" => ")[0] + "\n" for line in text.splitlines())


class Rows:
    """The program of rows over the rows of a file or other ones, with its memory in our hands."""

    def __init__(self, name, program, text=None):
        self.words = [program, name]
        with open(os.path.join(DATA, name + ".txt")) as given:
            self.rows = (text or without_answers(given.read())).split("\n")
        self.text = "\n".join(self.rows).encode()
        # What was answered to other rows.
        self.answered = {}

    def run(self, **refused):
        """The status, the lines that it printed, and what it wrote on the standard error."""
        done = subprocess.run(self.words, input=self.text, capture_output=True, env=refused or {"COUNT_GROWTHS": "1"}, timeout=LONGEST)
        return done.returncode, unnumbered(done.stdout).splitlines(), done.stderr.decode()

    def answers_to(self, rows):
        """What is printed for these rows in the place of the program's own, where nothing is refused."""
        text = "\n".join(rows)
        if text not in self.answered:
            done = subprocess.run(self.words, input=text.encode(), capture_output=True, timeout=LONGEST)
            self.answered[text] = unnumbered(done.stdout).splitlines()
        return self.answered[text]

    def kind(self, answers, number, ended, is_strict):
        """How the run ended of which the growth of that number was refused, or None where it may not end so. Strictly, no row but the one
        that stops may be answered otherwise, unless that is `finish`, or a run of which only the answer had no room."""
        status, printed, said = ended
        if status != 0:
            return "no room for the text or the answers" if (status, printed, said) == (1, [], "") else None
        if len(printed) != len(answers) or said:
            return None
        at, others = differing(answers, printed)
        if at is None:
            return "the same"
        row, _, answer = answers[at].partition(" => ")
        verb = row.partition(" ")[0]
        if printed[at] != row + STOPPED:
            return "counted fewer calls" if verb == "asks" and others == 1 and is_fewer(printed[at], row, answer) else None
        if others == 1:
            return "stopped at a row"
        if verb == "finish":
            return "stopped at `finish`" if printed == without_declarations(answers, at) else None
        for kind, rows, added in self.texts_after(verb, row, at):
            lines = list(self.answers_to(rows))
            lines[at : at + added + 1] = [row + STOPPED]
            if lines != printed or (is_strict and kind != UNANSWERED):
                continue
            # The growth of the answer is the last one of its row.
            if kind == UNANSWERED and all(self.stops_at(answers, number + 1) == at for _ in range(SEEDS)):
                continue
            return kind
        return None

    def stops_at(self, answers, number):
        """Which answer is the first other one where the growth of that number is refused, or None."""
        return differing(answers, self.run(REFUSE=str(number))[1])[0]

    def texts_after(self, verb, row, at):
        """The rows that are answered as those of a run may be that stopped at that row, each with the kind of such a run, and with how many
        rows stand before that row that the run doesn't have."""
        before, behind = self.rows[:at], self.rows[at:]
        if verb == "probe":
            # What stands in a probe that doesn't begin is asked outside of it, and its `end` ends the probe around it or none.
            yield "stopped at `probe`", [*before, "// " + row, *behind[1:]], 0
        elif verb == "run":
            # The rounds before one that stops stay.
            _, most, goal = row.split(" ", 2)
            yield UNANSWERED, [*before, row, *behind], 1
            for rounds in range(1, MAX_ROUNDS if most == "*" else min(int(most), MAX_ROUNDS)):
                yield "stopped in a later round", [*before, "run %d %s" % (rounds, goal), *behind], 1
        elif verb == "pick":
            yield "left a variable", [*before, "fresh T", *behind], 1
        else:
            # A bug that a call noted before it stopped stays, and it is noted once more where the row is asked once more.
            yield "noted a bug", [*before, row, *behind], 1


def is_fewer(line, row, answer):
    """Whether the line is the row with a number that is smaller than this one."""
    counted = re.fullmatch(re.escape(row) + r" => (\d+)", line)
    return bool(counted) and int(counted[1]) < int(answer)


def differing(answers, printed):
    """Where the answers differ first, or None, and at how many places."""
    places = [at for at, (line, answer) in enumerate(zip(printed, answers)) if line != answer]
    return (places[0] if places else None), len(places)


def without_declarations(answers, at):
    """The answers where `finish` stops at that place: with it all that was declared is gone, up to the next `begin`."""
    lines = list(answers)
    lines[at] = lines[at].partition(" => ")[0] + STOPPED
    for behind in range(at + 1, len(lines)):
        row, asked, _ = lines[behind].partition(" => ")
        verb = row.partition(" ")[0]
        if verb == "begin":
            break
        if asked and verb != "common":
            lines[behind] = row + " => condition"
    return lines


def refuse_rows(name, built, most, text=None, is_strict=False):
    """Refuses growths of a program of rows in turn, and says whether all was as it should be."""
    program = Rows(name, built, text)
    answers, count = plain_run(name, program)
    if answers is None:
        return False
    tried = spread(count, most)
    print("%s: %d lines, %d growths, %d of them refused in turn" % (name, len(answers), count, len(tried)))
    kinds = collections.Counter()
    with concurrent.futures.ThreadPoolExecutor(os.cpu_count()) as workers:
        for number, (status, printed, said) in zip(tried, workers.map(lambda n: program.run(REFUSE=str(n)), tried)):
            kind = program.kind(answers, number, (status, printed, said), is_strict)
            if kind is None:
                other = [line for line, answer in zip(printed, answers) if line != answer]
                print("  growth %d: status %d, %d lines: %r" % (number, status, len(printed), other[:3]))
            kinds[kind] += 1
    print("  " + ", ".join("%d %s" % (many, kind) for kind, many in sorted(kinds.items(), key=str)))
    return None not in kinds


def refuse_of(name, built, part, is_strict):
    """Refuses each growth of a part of a file's rows, and says whether all was as it should be."""
    with open(os.path.join(DATA, name + ".txt")) as given:
        return refuse_rows(name, built, 0, part(without_answers(given.read())), is_strict)


def last_rows(text):
    """The rows that show what a stop leaves."""
    return text[text.index(WHAT_STOPS_LEAVE) :]


def made_library(folder):
    """What refuses growths, compiled."""
    source, library = os.path.join(folder, "refusing.c"), os.path.join(folder, "refusing.so")
    with open(source, "w") as taken:
        taken.write(REFUSING)
    subprocess.run(["cc", "-O1", "-shared", "-fPIC", "-o", library, source], check=True)
    return library


def check_commands():
    """Stops where the text with every command lacks one. The texts of the tests have the prelude, which would take its names."""
    with open(COMMANDS) as given:
        commands = set(re.findall(r'\bword: "(\w+)"', given.read()))
    lacking = commands - {"prelude"} - {line.split()[0] for line in EVERY_COMMAND.splitlines()}
    if not commands or lacking:
        sys.exit("the text with every command has no %s" % ", ".join(sorted(lacking) or ["command"]))


def refuse_assembly(library):
    """Refuses each growth of runs of `assembly`, and says whether all was as it should be."""
    check_commands()
    with open(os.path.join(CRATE, "stdin")) as given:
        texts = [("the stored run", given.read()), ("every command", EVERY_COMMAND)]
    for seed in (1, 2):
        made = Text(60, seed)
        lines = made.declarations + made.queries
        texts.append(("a made text", "\n".join(lines) + "\n"))
    well = []
    with tempfile.TemporaryDirectory() as folder:
        for name, lines in texts:
            text = os.path.join(folder, "text")
            with open(text, "w") as taken:
                taken.write(lines)
            well.append(refuse_each(name, library, text))
    return all(well)


def refuse_all_rows(built):
    """Refuses growths of the rows, and says whether all was as it should be."""
    well = []
    for name, most in ROWS_REFUSED.items():
        well += [refuse_rows(name, built, most), refuse_of(name, built, short_text, False)]
    return all([*well, refuse_of("rules", built, last_rows, True)])


def main():
    words = argparse.ArgumentParser(description=__doc__, formatter_class=argparse.RawDescriptionHelpFormatter)
    words.add_argument("file", nargs="?", help="a file of rows")
    words.add_argument("--most", type=int, default=0, help="how many growths of a file of rows are refused")
    words.add_argument("--built", action="store_true", help="the program as it stands in its folder out/")
    words.add_argument("--rows", metavar="FOLDER", help="where the program of rows in plain Rust stands")
    asked = words.parse_args()
    if asked.rows:
        built = os.path.join(asked.rows, "rows")
        is_well = refuse_rows(asked.file, built, asked.most) if asked.file else refuse_all_rows(built)
    else:
        with tempfile.TemporaryDirectory() as folder:
            if not asked.built:
                build()
            is_well = refuse_assembly(made_library(folder))
    sys.exit(0 if is_well else 1)


if __name__ == "__main__":
    main()
