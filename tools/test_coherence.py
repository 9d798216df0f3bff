#!/usr/bin/env python3
"""Tests of `cargo coherence` as a whole: `python3 tools/test_coherence.py`, in less than a minute.

They want cargo, a rustc of a release that they know, and RILGOMUT_PROGRAM, which names the program; else they are skipped. The std that they
read is the small one of `tools/data/std`, or the one that RILGOMUT_STD names.
"""

import json
import os
import re
import shutil
import subprocess
import sys
import tempfile
import unittest

HERE = os.path.dirname(os.path.abspath(__file__))
PROGRAM = os.environ.get("RILGOMUT_PROGRAM")
STD = os.environ.get("RILGOMUT_STD") or os.path.join(HERE, "data", "std")
COMMAND = os.path.join(HERE, "cargo-coherence")
CARGO = os.environ.get("CARGO") or "cargo"
KNOWN_RELEASES = ("rustc 1.95.", "rustc 1.96.")
MANIFEST = '[package]\nname = "%s"\nversion = "0.1.0"\nedition = "2021"\n'
CLASH = "pub trait Show {}\nimpl Show for u8 {}\nimpl Show for u8 {}\n"
PEACE = "pub trait Show {}\nimpl Show for u8 {}\nimpl Show for u16 {}\n"
OTHER = re.compile(r"originates in the macro|, too$|^rustc alone reports this")  # notes that rustc's JSON doesn't have
MODULES = re.compile(r"\b(?:std|core|alloc)::(?:\w+::)*")
STATIC = re.compile(r"&'static ")  # a region that a text doesn't tell from others


def plain(words):
    """Words of rustc without the modules of std, of which the small one has fewer names that are one, and without `'static`."""
    return STATIC.sub("&", MODULES.sub("", words))


def shown(message):
    """What is compared of a message: code, words, places, and notes."""
    code = message["code"]["code"] if message["code"] else None
    spans = sorted((span["file_name"], span["line_start"], span["column_start"], span["line_end"], span["column_end"], span["is_primary"]) for span in message["spans"])
    labels = sorted(plain(span["label"] or "") for span in message["spans"])
    notes = sorted(plain(child["message"]) for child in message["children"] if not OTHER.search(child["message"]) and not child["spans"])
    return code, message["level"], plain(message["message"]), spans, labels, notes


def is_known_release():
    """Whether the tests know how this rustc says what it refuses, and its rustdoc's JSON: others may word it otherwise."""
    rustc = os.environ.get("RUSTC") or "rustc"
    said = subprocess.run([rustc, "--version"], stdout=subprocess.PIPE, text=True).stdout if shutil.which(rustc) else ""
    return said.startswith(KNOWN_RELEASES)


@unittest.skipUnless(PROGRAM and shutil.which(CARGO), "RILGOMUT_PROGRAM names no program, or there is no cargo")
@unittest.skipUnless(is_known_release(), "rustc is another release than the tests know")
class Case(unittest.TestCase):
    """Runs the command in folders that are made for it."""

    @classmethod
    def setUpClass(cls):
        cls.place = os.path.realpath(tempfile.mkdtemp(prefix="coherence-"))
        cls.cache = os.path.join(cls.place, "cache")

    @classmethod
    def tearDownClass(cls):
        shutil.rmtree(cls.place)

    def package(self, name, files):
        """A package with these files, by name: `Cargo.toml` is made where there is none."""
        folder = os.path.join(self.place, name)
        files = dict(files)
        files.setdefault("Cargo.toml", MANIFEST % name)
        for file, text in files.items():
            path = os.path.join(folder, file)
            os.makedirs(os.path.dirname(path), exist_ok=True)
            with open(path, "w", encoding="utf-8") as target:
                target.write(text)
        return folder

    def example(self, name):
        """A copy of an example."""
        folder = os.path.join(self.place, name)
        shutil.copytree(os.path.join(HERE, "examples", name), folder)
        return folder

    def run_in(self, folder, *words):
        """Runs the command in a folder."""
        command = [sys.executable, COMMAND, "coherence", "--offline", "--std", STD, "--program", PROGRAM, "--cache", self.cache, *words]
        return subprocess.run(command, cwd=folder, stdout=subprocess.PIPE, stderr=subprocess.PIPE, text=True, check=False)

    def found_in(self, folder, *words, status=1):
        """The messages of the command, and that it ends with this status."""
        done = self.run_in(folder, "--message-format", "json", *words)
        self.assertEqual(done.returncode, status, done.stderr)
        lines = [json.loads(line) for line in done.stdout.splitlines()]
        self.assertEqual(lines[-1], {"reason": "build-finished", "success": status == 0})
        return [line["message"] for line in lines[:-1]]


class BesideRustc(Case):
    """The errors are those of rustc."""

    def compare(self, name, count, status=1):
        """Compares all messages of an example."""
        folder = self.example(name)
        command = [CARGO, "check", "--offline", "--message-format", "json", "--target-dir", os.path.join(self.cache, "check")]
        done = subprocess.run(command, cwd=folder, stdout=subprocess.PIPE, stderr=subprocess.PIPE, text=True, env=dict(os.environ, RUSTC_BOOTSTRAP="1"), check=False)
        lines = [json.loads(line) for line in done.stdout.splitlines()]
        said = [line["message"] for line in lines if line.get("reason") == "compiler-message" and line["message"]["code"]]
        found = self.found_in(folder, status=status)
        self.maxDiff = None
        self.assertEqual(sorted(map(shown, found), key=str), sorted(map(shown, said), key=str))
        self.assertEqual(len(found), count)
        return found

    def test_pairs(self):
        self.compare("pairs", 30)

    def test_errors(self):
        found = self.compare("errors", 18)
        rendered = [message["rendered"] for message in found]
        self.assertTrue(any(" in this macro invocation\n" in text for text in rendered))
        self.assertTrue(any(text.startswith("error[E0119]: conflicting implementations of trait `Clone` for type `Name`\n") for text in rendered))

    def test_negative(self):
        self.compare("negative", 1)

    def test_lints(self):
        self.compare("lints", 13, status=0)


class Commands(Case):
    """The command line."""

    def test_help_and_version(self):
        for word, begins in (("--help", "usage: cargo coherence"), ("--version", "cargo-coherence ")):
            done = self.run_in(HERE, word)
            self.assertEqual(done.returncode, 0)
            self.assertTrue(done.stdout.startswith(begins), done.stdout)

    def test_no_package(self):
        empty = os.path.join(self.place, "empty")
        os.makedirs(empty)
        done = self.run_in(empty)
        self.assertEqual(done.returncode, 2)
        self.assertEqual(done.stderr.splitlines(), ["error: this folder and those above it: no Cargo.toml there"])

    def test_text_and_statuses(self):
        clash, peace = self.package("clash", {"src/lib.rs": CLASH}), self.package("peace", {"src/lib.rs": PEACE})
        done = self.run_in(os.path.join(clash, "src"))
        self.assertEqual(done.returncode, 1, done.stderr)
        self.assertEqual(
            done.stdout.splitlines(),
            [
                "error[E0119]: conflicting implementations of trait `Show` for type `u8`",
                " --> src/lib.rs:3:1",
                "  |",
                "2 | impl Show for u8 {}",
                "  | ---------------- first implementation here",
                "3 | impl Show for u8 {}",
                "  | ^^^^^^^^^^^^^^^^ conflicting implementation for `u8`",
                "",
            ],
        )
        self.assertEqual(done.stderr.splitlines()[-1], "    Finished: 1 error")
        done = self.run_in(peace, "--quiet")
        self.assertEqual((done.returncode, done.stdout, done.stderr), (0, "", ""))
        done = self.run_in(clash, "--quiet", "--message-format", "short")
        self.assertEqual(done.stdout, "src/lib.rs:3:1: error[E0119]: conflicting implementations of trait `Show` for type `u8`\n")

    def test_sarif(self):
        done = self.run_in(self.package("sarif", {"src/lib.rs": CLASH}), "--message-format", "sarif")
        self.assertEqual(done.returncode, 1, done.stderr)
        run, = json.loads(done.stdout)["runs"]
        result, = run["results"]
        self.assertEqual((result["ruleId"], result["level"]), ("E0119", "error"))
        self.assertEqual(result["locations"][0]["physicalLocation"]["region"], {"startLine": 3, "startColumn": 1, "endLine": 3, "endColumn": 17})
        self.assertEqual(len(result["relatedLocations"]), 1)

    def test_second_run(self):
        folder = self.package("again", {"src/lib.rs": CLASH})
        cache = os.path.join(self.place, "other cache")
        runs = [self.run_in(folder, "--cache", cache) for _ in range(2)]
        self.assertEqual((runs[0].returncode, runs[0].stdout), (1, runs[1].stdout), runs[0].stderr)
        kept = [os.path.join(below, name) for below, _, names in os.walk(cache) for name in names if name.endswith(".json") or name.startswith("found-")]
        times = {file: os.stat(file).st_mtime_ns for file in kept if not file.endswith("plan.json") and "found-" not in file}
        self.assertEqual(len([file for file in kept if os.path.basename(file).startswith("found-")]), 1)
        with open(next(file for file in kept if "found-" in file), "wb") as target:
            target.write(b"nothing that was kept")
        self.assertEqual(self.run_in(folder, "--cache", cache).stdout, runs[0].stdout)
        self.assertEqual(times, {file: os.stat(file).st_mtime_ns for file in times})
        with open(os.path.join(folder, "src", "lib.rs"), "w", encoding="utf-8") as target:
            target.write(PEACE)
        self.assertEqual(self.run_in(folder, "--cache", cache).returncode, 0)

    def test_baseline(self):
        folder = self.package("based", {"src/lib.rs": CLASH})
        file = os.path.join(folder, "baseline.json")
        self.assertEqual(self.run_in(folder, "--write-baseline", file).returncode, 0)
        with open(os.path.join(folder, "src", "lib.rs"), "w", encoding="utf-8") as target:
            target.write("\n\n" + CLASH)
        done = self.run_in(folder, "--baseline", file)
        self.assertEqual((done.returncode, done.stdout), (0, ""), done.stderr)
        with open(file, "w", encoding="utf-8") as target:
            target.write("[]")
        done = self.run_in(folder, "--baseline", file)
        self.assertEqual((done.returncode, len(done.stderr.splitlines())), (2, 1))

    def test_undecided(self):
        source = "pub trait G { type Gat<T>; }\nimpl G for u8 { type Gat<T> = Vec<T>; }\npub trait U {}\nimpl U for <u8 as G>::Gat<u8> {}\nimpl U for Vec<u%d> {}\n"
        folder = self.package("open", {"src/lib.rs": source % 16})
        done = self.run_in(folder)
        self.assertEqual(done.returncode, 0, done.stderr)
        self.assertTrue(done.stdout.startswith("undecided: impls of trait `U` may conflict, at `Vec<u16>`\n --> src/lib.rs:5:1\n"), done.stdout)
        self.assertIn("  = note: a part of a header can't be said, and is read as any type: a generic associated type", done.stdout)
        self.assertIn("  = note: rustc accepts both\n", done.stdout)
        self.assertEqual(self.run_in(folder, "--deny", "undecided").returncode, 1)
        self.package("open", {"src/lib.rs": source % 8})
        found, = self.found_in(folder)
        self.assertEqual((found["code"]["code"], found["level"]), ("E0119", "error"))
        self.assertEqual(found["message"], "conflicting implementations of trait `U` for type `Vec<u8>`")


    def test_goals(self):
        folder = self.package("goals", {"src/lib.rs": "pub trait Show {}\nimpl<T: Copy> Show for T {}\nimpl Show for Vec<u8> {}\npub struct Own;\nimpl Show for Own {}\n"})
        goals = ("Vec<u8>: Show", "Vec<u16>: Show", "Vec<u8>: IntoIterator<Item = u16>", "for<'a> &'a u8: Show")
        done = self.run_in(folder, "--quiet", *[word for goal in goals for word in ("--ask", goal)])
        self.assertEqual(done.returncode, 1, done.stderr)
        for line in (
            "Vec<u8>: Show: yes misc",
            "  1 Vec<u8>: Show: impl Show for Vec<u8> (src/lib.rs:3)",
            "Vec<u16>: Show: refused",
            "  <Vec<u8> as IntoIterator>::Item = u16: it is u8",
            "for<'a> &'a u8: Show: yes misc",
        ):
            self.assertIn(line, done.stdout.splitlines())
        done = self.run_in(folder, "--quiet", "--why-overlap", "lib.rs:2", "src/lib.rs:5")
        self.assertEqual((done.returncode, done.stdout.splitlines()[:2]), (0, [
            "lib.rs:2 and src/lib.rs:5: apart: a where clause is refused",
            "  impl<T: Copy> Show for T (src/lib.rs:2): Own: Copy is refused",
        ]), done.stderr)
        done = self.run_in(folder, "--quiet", "--why-overlap", "lib.rs:2", "lib.rs:4")
        self.assertEqual((done.returncode, done.stderr), (2, "error: lib.rs:4: there is no impl of a trait\n"))

    def test_prompt(self):
        folder = self.package("prompted", {"src/lib.rs": CLASH})
        command = [sys.executable, COMMAND, "--ask", "--quiet", "--offline", "--std", STD, "--program", PROGRAM, "--cache", self.cache]
        words = "u8: Shwo\nu8: Show\noverlap lib.rs:2 lib.rs:3\nquit\nu8: Show\n"
        done = subprocess.run(command, cwd=folder, input=words, stdout=subprocess.PIPE, stderr=subprocess.PIPE, text=True, check=False)
        self.assertEqual(done.returncode, 0, done.stderr)
        said = done.stdout.splitlines()
        self.assertEqual(said[:2], ["error: no trait `Shwo`; did you mean `prompted::Show`?", "yes misc"])
        self.assertIn("both hold at u8: Show", said)

    def test_no_sources_of_std(self):
        folder = self.package("without", {"src/lib.rs": PEACE})
        command = [sys.executable, COMMAND, "--offline", "--std", self.place, "--program", PROGRAM, "--cache", self.cache]
        done = subprocess.run(command, cwd=folder, stdout=subprocess.PIPE, stderr=subprocess.PIPE, text=True, check=False)
        self.assertEqual((done.returncode, len(done.stderr.splitlines())), (2, 1), done.stderr)

    def test_install(self):
        into, binaries = os.path.join(self.place, "into"), os.path.join(self.place, "bin")
        sys.path.insert(0, HERE)
        import install

        install.find_program = lambda given, cache: PROGRAM
        command = install.install(into, binaries, self.cache)
        folder = self.package("installed", {"src/lib.rs": CLASH})
        words = [CARGO, "coherence", "--quiet", "--offline", "--std", STD, "--cache", self.cache, "--message-format", "short"]
        path = binaries + os.pathsep + os.environ["PATH"]
        done = subprocess.run(words, cwd=folder, stdout=subprocess.PIPE, stderr=subprocess.PIPE, text=True, env=dict(os.environ, PATH=path), check=False)
        self.assertEqual(done.stdout, "src/lib.rs:3:1: error[E0119]: conflicting implementations of trait `Show` for type `u8`\n", done.stderr)
        self.assertEqual(os.path.dirname(command), binaries)
        told = subprocess.run([os.path.join(binaries, "rilgomut"), "--version"], stdout=subprocess.PIPE, text=True, check=True).stdout
        self.assertTrue(told.startswith("rilgomut 0.1.0"), told)


class Packages(Case):
    """Which crates are read."""

    def places(self, folder, *words, status=1):
        """The files and lines of what is found."""
        found = self.found_in(folder, *words, status=status)
        return [(span["file_name"], span["line_start"]) for message in found for span in message["spans"] if span["is_primary"]]

    def test_programs_beside_a_library(self):
        folder = self.package("beside", {"src/lib.rs": PEACE, "src/main.rs": CLASH + "fn main() {}\n", "examples/e.rs": CLASH + "fn main() {}\n", "tests/t.rs": CLASH})
        self.assertEqual(self.places(folder), [("src/main.rs", 3)])
        self.assertEqual(self.places(folder, "--lib", status=0), [])
        self.assertEqual(self.places(folder, "--example", "e"), [("examples/e.rs", 3)])
        self.assertEqual(self.places(folder, "--test", "t"), [("tests/t.rs", 3)])
        self.assertEqual(self.run_in(folder, "--bin", "none").returncode, 2)

    def test_workspace(self):
        folder = self.package("virtual", {
            "Cargo.toml": '[workspace]\nmembers = ["one", "two", "macros"]\nresolver = "2"\n',
            "one/Cargo.toml": MANIFEST % "one" + '[dependencies]\nmacros = { path = "../macros" }\n[features]\nclash = []\n',
            "one/src/lib.rs": PEACE + '#[cfg(feature = "clash")]\nimpl Show for u16 {}\n',
            "two/Cargo.toml": MANIFEST % "two" + '[dependencies]\none = { path = "../one" }\n',
            "two/src/lib.rs": "pub struct Own;\nimpl one::Show for Own {}\nimpl one::Show for Own {}\nimpl one::Show for u32 {}\n",
            "macros/Cargo.toml": MANIFEST % "macros" + "[lib]\nproc-macro = true\n",
            "macros/src/lib.rs": PEACE.replace("pub ", "") + '#[cfg(feature = "clash")]\nimpl Show for u16 {}\n',
        })
        self.assertEqual(self.places(folder), [("two/src/lib.rs", 3), ("two/src/lib.rs", 4)])
        self.assertEqual(self.places(folder, "-p", "one", status=0), [])
        self.assertEqual(self.places(folder, "-p", "one", "--features", "clash"), [("one/src/lib.rs", 5)])
        self.assertEqual(self.places(os.path.join(folder, "two")), [("two/src/lib.rs", 3), ("two/src/lib.rs", 4)])
        done = self.run_in(folder, "-p", "three")
        self.assertEqual(done.returncode, 2)
        self.assertEqual(done.stderr.splitlines(), ["error: no package of the workspace is named `three`: there are one, macros, two"])

    def test_allowed_lints(self):
        impls = "pub trait Show {}\nimpl Show for fn(&u8) {}\nimpl Show for fn(&'static u8) {}\n"
        told = self.package("told", {"src/lib.rs": impls})
        found = self.found_in(told, status=0)
        self.assertEqual([(message["level"], message["code"]["code"]) for message in found], [("warning", "coherence_leak_check")])
        self.assertEqual(len(self.found_in(told, "--deny", "warnings")), 1)
        files = {"src/lib.rs": "#![allow(coherence_leak_check)]\npub mod own;\n", "src/own.rs": impls}
        self.assertEqual(self.found_in(self.package("allowed", files), status=0), [])

    def test_denied_lints(self):
        folder = self.package("denied", {"src/lib.rs": "#![deny(warnings, rustdoc::all)]\n//! [`nothing`] <b>\n" + CLASH})
        done = self.run_in(folder, "--quiet")
        self.assertEqual((done.returncode, done.stderr), (1, ""))

    def test_errors_of_cargo(self):
        folder = self.package("broken", {"src/lib.rs": "pub fn f() { undeclared() }\npub struct S(Missing);\n"})
        done = self.run_in(folder)
        self.assertEqual(done.returncode, 2)
        self.assertIn("cannot find type `Missing`", done.stderr)
        folder = self.package("lacking", {"Cargo.toml": MANIFEST % "lacking" + '[dependencies]\nnobody = { path = "nowhere" }\n', "src/lib.rs": ""})
        done = self.run_in(folder)
        self.assertEqual(done.returncode, 2)
        self.assertIn("Caused by:", done.stderr)

    def test_links_and_paths(self):
        folder = self.package("linked", {"src/lib.rs": CLASH + '#[path = "../../shared/far.rs"]\npub mod far;\n'})
        self.package("shared", {"far.rs": CLASH})
        os.symlink("nowhere", os.path.join(folder, "dangling"))
        os.symlink("nowhere", os.path.join(folder, "src", "dangling.rs"))
        found = self.places(folder)
        self.assertEqual(sorted(line for _, line in found), [3, 3])

    def test_two_in_a_line(self):
        folder = self.package("lines", {"src/lib.rs": "pub trait Show {}\nimpl Show for u8 {}\nimpl Show for u8 {} impl Show for u8 {}\n"})
        self.assertEqual(self.places(folder), [("src/lib.rs", 3), ("src/lib.rs", 3)])


if __name__ == "__main__":
    unittest.main()
