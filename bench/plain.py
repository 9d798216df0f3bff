#!/usr/bin/env python3
"""Plain Rust out of the sources of the programs `assembly` and `rilgomut`, to be measured beside them.

`python3 bench/plain.py FOLDER` takes all that is said of proofs away from the crates that the program is made of (`ghost` items and
members, `requires` and `ensures`, `tactic` and `cycle`), writes what is left into the folder, and compiles it with `rustc` over
`bench/plain/kit.rs`, which has by Rust's own std what they use of the kit's. The programs are `FOLDER/assembly` and `FOLDER/rilgomut`. It then lets them answer the
stored run and all texts in `crates/texts/data`, and says how many. It stops where an answer is another, and where there is no text.
`texts.py` builds the programs of rows in the same way.

The functions, the data and what is done in which order are those of the proved program, line by line. What differs: there is no contract
and no proof; an index is checked where it is used, as Rust does it; the collections and the search for a byte are those of Rust's std, but
the indexed map is one of `kit.rs`, with the kit's hasher, that looks at a place after another where the kit's looks at twelve at once; and
where memory is refused, that ends the program, while the proved one answers a stop. The crates are optimised together, as the kit does it.
"""

import argparse
import glob
import hashlib
import os
import re
import shutil
import subprocess
import sys
import tempfile

import plain_cargo
import texts

ROOT = os.path.dirname(os.path.dirname(os.path.abspath(__file__)))
KIT = os.path.join(ROOT, "bench", "plain", "kit.rs")
SPELLING = "spelling"  # stands beside the program, for who calls the libraries
FACADE = "candidate_ir"  # the paths of its inner crates, for who calls the libraries
PROGRAM = "assembly"

# The program with arguments, which is made beside it.
FOR_PEOPLE = "rilgomut"
RUST = os.path.join(ROOT, "rust")
FLAGS = ["--edition", "2021", "-O", "-C", "codegen-units=1", "-A", "warnings"]

# Comments, texts and characters, in which no word is one of the language.
QUIET = re.compile(r'//[^\n]*|"(?:\\.|[^"\\])*"|\'(?:\\[^\']*|[^\'\\\n])\'', re.DOTALL)

# What ends by itself, and what a block in braces follows.
WHOLE = re.compile(r"#!?\[(?:tactic|cycle)\b[^\]]*\]|\bghost\s+use\b[^;]*;")
BEFORE_BLOCK = re.compile(r"(?:\bpub\s+)?\bghost\s+\w+\s*[:=]\s*(?=\{)|\b(?:requires|ensures)\*?\s+(?:\w+\s+)?(?=\{)")

# What is written otherwise in plain Rust, with the reason.
REPLACED = [
    # A method of a trait that no impl may write anew is one with a body.
    (r"\bfinal fn\b", "fn"),
    # Each type has a size in the kit, also the one that a trait is for.
    (r"\btrait (\w+) \{", r"trait \1: Sized {"),
    # Every type of Rust can be dropped.
    (r"#\[derive\(Drop\)\]\n", ""),
    (r"(#\[derive\([^)]*), Drop\b", r"\1"),
    # `kit.rs` stands for the kit's std and its crates.
    (r"(?<![:\w])std::", "kit::"),
    (r"(?<![:\w])(?=(?:bitflags|clap|indexmap|itoa|json|memchr|strsim)::)", "kit::"),
    # Rust's own methods of these names take no allocator, and would be called before any others.
    (r"\.(to_vec|collect)\(", r".kit_\1("),
    (r"\.(repeat|replace|concat)\((?=(?:self\.)?alloc\b)", r".kit_\1("),
    # A formatter of Rust's std hides what it writes to.
    (r"fn fmt<W: fmt::Write>\(&self, f: &mut fmt::Formatter<W>\)", "fn fmt(&self, f: &mut fmt::Formatter<'_>)"),
    # The kit's runtime is passed to each test, and to what ends one.
    (r"(#\[test\]\nfn \w+)\(rt: HostRuntime\) \{", r"\1() {\n    let rt = HostRuntime;"),
    (r"\.expect\(\s*&?rt,\s*", ".expect("),
    (r"\b(assert|assert_eq|panic)!\(rt;", r"\1!("),
    (r"&\(impl Abort \+ Eprint\)|&impl Abort\b", "&HostRuntime"),
    (r"use std::process::Abort;\n|use kit::process::Abort;\n", ""),
    # The kit's runtime is passed to `main`.
    (r"fn main\(rt: HostRuntime\) -> ([^{]*)\{", r"fn main() -> \1{\n    let rt = HostRuntime;"),
]

# Where the program has the declarations that a text may begin with, and where they stand as a text.
HOLDS_PRELUDE = os.path.join(ROOT, "crates", "assembly_text", "src", "prelude.rt")
PRELUDE_FILE = os.path.join(texts.DATA, "before", "prelude.txt")

# What stands in the scope of each file.
PRELUDE = "use kit::{eprintln, format, prelude::*, print, println, vec};\n"


def hushed(text):
    """The text with nothing in its comments, texts and characters, each letter in its place."""
    return QUIET.sub(lambda found: " " * len(found.group()), text)


def end_of_block(quiet, at):
    """Where the block ends that begins with a brace there."""
    depth = 0
    for brace in re.compile(r"[{}]").finditer(quiet, at):
        depth += 1 if brace.group() == "{" else -1
        if depth == 0:
            return brace.end()
    sys.exit("a block has no end")


def spans(quiet):
    """Where what is said of proofs stands, from the first to the last."""
    found = [match.span() for match in WHOLE.finditer(quiet)]
    for match in BEFORE_BLOCK.finditer(quiet):
        end = end_of_block(quiet, match.end())
        # A member ends with a mark of its own; that behind a clause ends the function.
        if "ghost" in match.group():
            end = re.compile(r"[;,]").search(quiet, end).end()
        found.append((match.start(), end))
    return sorted(found)


def whole_lines(text, start, end):
    """The span with the blanks before it and the end of its line, where nothing else stands in its lines."""
    begin = text.rfind("\n", 0, start) + 1
    if not text[begin:start].strip() and text[end : end + 1] == "\n":
        return begin, end + 1
    return start, end


def plain_with_docs(text):
    """The plain Rust in a source, with its doc comments."""
    kept = []
    at = 0
    for start, end in spans(hushed(text)):
        start, end = whole_lines(text, start, end)
        kept.append(text[at:start])
        at = end
    text = "".join(kept) + text[at:]
    for pattern, by in REPLACED:
        text = re.sub(pattern, by, text)
    return text


def libraries():
    """The crates of the repository with those that each uses, as `crates.txt` names them."""
    uses = {}
    with open(os.path.join(ROOT, "crates.txt")) as lines:
        for line in (it for it in lines if ":" in it and not it.startswith("#")):
            name, _, used = line.partition(":")
            uses[name.strip()] = used.split()
    return uses


def in_order(name, uses, before):
    """The crates that come before, and then the crate and all below it, each after those that it uses."""
    for used in uses.get(name, []):
        if used in uses and used not in before:
            in_order(used, uses, before)
    if name not in before:
        before.append(name)
    return before


def write(name, to, is_program):
    """Leaves the plain sources of a crate in the folder, those that the Cargo workspace has, and answers which of them is its root."""
    plain_cargo.write_sources(name, os.path.join(ROOT, "crates", name, "src"), to, plain_with_docs, PRELUDE)
    return os.path.join(to, "main.rs" if is_program else "lib.rs")


def compile_crate(name, root, below, folder, is_program):
    """Compiles a crate, which may name those below it, which lie in the folder."""
    command = ["rustc", *FLAGS, "--crate-name", name]
    command += ["--crate-type", "bin", "-C", "lto"] if is_program else ["--crate-type", "lib"]
    command += ["--cfg", 'feature="growths"'] if name == "kit" else []
    for used in below:
        command += ["--extern", "%s=%s" % (used, os.path.join(folder, "lib%s.rlib" % used))]
    subprocess.run([*command, "-L", folder, "--out-dir", folder, root], check=True)


def told_of(sources, below):
    """What tells a crate from others: its sources, and what tells those below it."""
    told = hashlib.sha256("\n".join([*FLAGS, *below]).encode())
    for path in sources:
        with open(path, "rb") as given:
            told.update(b"%d\n%s" % (os.path.getsize(path), given.read()))
    return told.hexdigest()


def is_there(note, told):
    """Whether the note of a crate says that it was made of the same."""
    if not os.path.exists(note):
        return False
    with open(note) as given:
        return given.read() == told


def make(name, root, below, folder, is_program, told, is_kept):
    """Leaves a compiled crate in the folder, and a note of what it is made of. One that is made of the same may be kept."""
    note = os.path.join(folder, name + ".made")
    if is_kept and is_there(note, told):
        return
    compile_crate(name, root, below, folder, is_program)
    with open(note, "w") as taken:
        taken.write(told)


def build_all(folder, programs, is_kept=False, above=()):
    """The plain programs of these names, made in the folder; crates that are there of the same sources may be kept. The libraries that
    stand `above` are made, too."""
    os.makedirs(folder, exist_ok=True)
    uses, order, below, told = libraries(), [], ["kit"], {"kit": told_of([KIT], [])}
    for name in [*programs, *above]:
        in_order(name, uses, order)
    plain_cargo.write_kit(KIT, os.path.join(folder, "kit.rs"))
    make("kit", os.path.join(folder, "kit.rs"), [], folder, False, told["kit"], is_kept)
    for name in order:
        source, is_program = os.path.join(folder, "src", name), name in programs
        root = write(name, source, is_program)
        sources = sorted(glob.glob(os.path.join(source, "**", "*.rs"), recursive=True))
        told[name] = told_of(sources, [told[used] for used in ["kit", *in_order(name, uses, [])[:-1]]])
        make(name, root, below, folder, is_program, told[name], is_kept)
        below += [] if is_program else [name]
    return [os.path.join(folder, program) for program in programs]


def build_over(folder, root, library):
    """The program that the file has in plain Rust, made in the folder over a library of the sources and all below it."""
    build_all(folder, [], above=[library, FACADE])
    name = os.path.splitext(os.path.basename(root))[0]
    compile_crate(name, root, ["kit", *in_order(FACADE, libraries(), in_order(library, libraries(), []))], folder, True)
    return os.path.join(folder, name)


def build(folder):
    """The plain program `assembly`, which is made in the folder, and `rilgomut` beside it."""
    return build_all(folder, [PROGRAM, FOR_PEOPLE], above=[FACADE])[0]


def held_prelude():
    """The declarations that a text may begin with, as the program has them; stops where they are others."""
    with open(HOLDS_PRELUDE) as source, open(PRELUDE_FILE) as given:
        held, prelude = re.search(r'const PRELUDE: &str =\s*"\\\n([^"\\]*)"', source.read())[1], given.read()
    if held != prelude:
        sys.exit("%s holds another text than %s" % (HOLDS_PRELUDE, PRELUDE_FILE))
    return held


# Arguments, the status with which the program ends, the beginning of its output, and how many lines are said.
ARGUMENTS = [
    (["--version"], 0, b"rilgomut 0.1.0, after rustc_next_trait_solver 0.166.0\n", 0),
    (["--help"], 0, b"Reads declarations and queries", 0),
    (["--nothing"], 2, b"", 1),
    (["--json", "--json"], 2, b"", 1),
    (["no such file"], 2, b"", 1),
    (["."], 2, b"", 1),
]


def check_arguments(program):
    """Stops where the program beside this one does something else with such arguments."""
    program = texts.program_with_arguments(program)
    for words, status, output, said in ARGUMENTS:
        done = subprocess.run([program, *words], stdin=subprocess.DEVNULL, capture_output=True)
        if (done.returncode, done.stderr.count(b"\n")) != (status, said) or not done.stdout.startswith(output) or not output and done.stdout:
            sys.exit("the plain program ends with status %d, answers %r and says %r of %s" % (done.returncode, done.stdout, done.stderr, words))
    return len(ARGUMENTS)


def check_files(program):
    """Stops where the program beside this one reads two files otherwise than as one text."""
    program = texts.program_with_arguments(program)
    text, _, answers = stored_run()
    with tempfile.TemporaryDirectory() as folder:
        paths = [os.path.join(folder, name) for name in ("first", "second")]
        for cut in (lines_end(text, 5), lines_end(text, 5) - 1):
            for path, part in zip(paths, (text[:cut], text[lines_end(text, 5) :])):
                with open(path, "wb") as file:
                    file.write(part)
            done = subprocess.run([program, *paths], stdin=subprocess.DEVNULL, capture_output=True)
            if (done.returncode, done.stdout, done.stderr) != (0, answers, b""):
                sys.exit("the plain program answers %r to two files" % done.stdout)
    return 2


def lines_end(text, count):
    """Where so many lines of the text end."""
    return sum(len(line) for line in text.splitlines(True)[:count])


def stored_run():
    """The text of the stored run, and how it has to end."""
    folder = os.path.join(ROOT, "crates", PROGRAM)
    with open(os.path.join(folder, "stdin"), "rb") as text, open(os.path.join(folder, "stdout"), "rb") as answers:
        return text.read(), 0, answers.read()


def check(program):
    """Stops where the program answers otherwise than the proved one does in its stored run and in the texts, or no text is found; answers
    how many texts there are, by where they stand."""
    held_prelude()
    text, status, answers = stored_run()
    done = subprocess.run([program], input=text, capture_output=True)
    if (done.returncode, done.stdout, done.stderr) != (status, answers, b""):
        sys.exit("the plain program ends with status %d and answers %r to its stored run" % (done.returncode, done.stdout))
    counts = {"the stored run": 1, "the arguments": check_arguments(program), "several files": check_files(program)}
    for file in texts.names():
        found = list(texts.texts_of(file))
        for text, ended in texts.each_run(program, found):
            if not text.holds(*ended):
                sys.exit("%s: the plain program ends with status %d, answers %r and says %r" % (text.place(), *ended))
        counts[file] = len(found)
    if not all(counts.values()):
        sys.exit("a file in %s has no text" % texts.DATA)
    return counts


def write_cargo(folder):
    """Leaves a Cargo workspace of the sources in the folder."""
    held_prelude()
    uses = libraries()
    crates = []
    for name in (PROGRAM, FOR_PEOPLE, "texts", "examples", SPELLING, FACADE):
        in_order(name, uses, crates)
    plain_cargo.write_workspace(folder, ROOT, crates, uses, plain_with_docs, PRELUDE, KIT)


def files_of(folder):
    """What a folder holds, by path, without what is by hand and what cargo leaves there."""
    found = {}
    for below, folders, files in os.walk(folder):
        if below == folder:
            folders[:] = [name for name in folders if name not in (plain_cargo.OWN, "target")]
        for name in files:
            if name != "Cargo.lock":
                path = os.path.join(below, name)
                with open(path, "rb") as file:
                    found[os.path.relpath(path, folder)] = file.read()
    return found


def made_rust():
    """What the folder `rust` is to hold."""
    with tempfile.TemporaryDirectory() as folder:
        write_cargo(folder)
        return files_of(folder)


def others_in_rust():
    """The files of the folder `rust` that aren't what the sources make."""
    made, there = made_rust(), files_of(RUST)
    return sorted(path for path in made.keys() | there.keys() if made.get(path) != there.get(path))


def write_rust():
    """Writes the folder `rust` anew; answers how many files changed."""
    made = made_rust()
    others = others_in_rust()
    for path in others:
        to = os.path.join(RUST, path)
        if os.path.lexists(to):
            os.remove(to)
        if path in made:
            os.makedirs(os.path.dirname(to), exist_ok=True)
            with open(to, "wb") as file:
                file.write(made[path])
    return len(others)


def main():
    words = argparse.ArgumentParser(description=__doc__, formatter_class=argparse.RawDescriptionHelpFormatter)
    words.add_argument("folder", nargs="?", help="where the sources in plain Rust and the program are left")
    words.add_argument("--cargo", action="store_true", help="leaves a Cargo workspace with docs, examples and tests, and compiles nothing")
    words.add_argument("--rust", action="store_true", help="writes the repository's folder `rust`, which is such a workspace, anew")
    words.add_argument("--check", action="store_true", help="with --rust: writes nothing, and ends with status 1 where a file would change")
    asked = words.parse_args()
    if asked.rust and asked.check:
        others = others_in_rust()
        sys.exit("rust/%s isn't what the sources make: `python3 bench/plain.py --rust` makes it" % others[0] if others else None)
    if asked.rust:
        print("%d files of %s changed" % (write_rust(), RUST))
        return
    if not asked.folder:
        words.error("a folder is wanted")
    if asked.cargo:
        write_cargo(asked.folder)
        print("%s is a Cargo workspace: cargo doc, cargo test, cargo run -p rilgomut --example overlap" % asked.folder)
        return
    program = build(asked.folder)
    counts = check(program)
    print("%s answers %d texts as the proved program does:" % (program, sum(counts.values())))
    for name, count in counts.items():
        print("  %-16s  %d" % (name, count))


if __name__ == "__main__":
    main()
