#!/usr/bin/env python3
"""What the program says of pairs of impls, beside what rustc says of the same in Rust.

`python3 bench/against_rustc.py PROGRAM` takes groups of declarations and of impls, each impl with every other of its group, and asks the
program (`FOLDER/assembly`, as `plain.py` or `rt` makes it) `overlap` of each pair in `mode coherence`, and `orphan local` of each header, as
though the trait were of crate 1. It writes the same declarations as Rust, each pair in a module with a trait of its own, those of crate 1 in a crate
above, and lets `rustc` report: E0119 (two impls overlap; E0751, if one is negative), and E0117 or E0210 (an impl that the local crate may not
write). Names of crate 9 are those of Rust's std, as `crates/texts/data/before/prelude.txt` declares them. What needs features is compiled apart, with
RUSTC_BOOTSTRAP.

The two agree where `disjoint` and `allowed` meet no error, any other answer E0119 or E0751, `nonlocal` E0117, `uncovered` E0210, and `ok` none. Where they
differ a reason has to stand in `DIFFERING`, and nowhere else; `docs/DIFFERENCES.md` says what each comes from.

It stops where what it finds isn't what `crates/texts/data/against_rustc.txt` says, or the prelude not what `crates/assembly_text/src/prelude.rt`
holds; `--write` writes both instead, and `--show` prints the Rust. rustc is taken from the path; the rows were found with 1.95.0.
"""

import argparse
import itertools
import json
import os
import re
import subprocess
import sys
import tempfile

from against_rustc_groups import DIFFERING, GROUPS

ROOT = os.path.dirname(os.path.dirname(os.path.abspath(__file__)))
DATA = os.path.join(ROOT, "crates", "texts", "data")
PRELUDE = os.path.join(DATA, "before", "prelude.txt")
HOLDS_PRELUDE = os.path.join(ROOT, "crates", "assembly_text", "src", "prelude.rt")
TABLE = os.path.join(DATA, "against_rustc.txt")

# The trait of which the impls of a pair are.
TRAIT = "Tr"

# Where std has what the prelude declares, and what has another name there.
STD = {
    "std::borrow": "Borrow",
    "std::cell": "Cell UnsafeCell",
    "std::error": "Error",
    "std::fmt": "Debug Display",
    "std::any": "Any",
    "std::marker": "PhantomData Send Sync Unpin Copy Sized",
    "std::mem": "ManuallyDrop",
    "std::ops": "Deref DerefMut Drop Fn FnMut FnOnce",
    "std::pin": "Pin",
    "std::rc": "Rc",
    "std::sync": "Arc",
}
RENAMED = {"Element": "Item"}
CALLED = {"Fn", "FnMut", "FnOnce"}
UNSAFE = {"Send", "Sync"}

# What an impl of these has to have besides, by the trait's arguments.
METHODS = {"Clone": "fn clone(&self) -> Self { loop {} }", "From": "fn from(_: %s) -> Self { loop {} }"}

# What wants a feature of the compiler.
FEATURES = (
    "negative_impls auto_traits fundamental never_type rustc_attrs unsize extern_types tuple_trait fn_ptr_trait discriminant_kind "
    "unboxed_closures"
).split()
STD_FEATURED = {"std::marker": "Unsize Tuple FnPtr DiscriminantKind"}
WANTS_FEATURE = re.compile(
    r"^(?:impl \d \w+ \d+ (?:-|reservation) |trait .*\b(?:auto|fundamental)\b|adt .*\bfundamental\b|foreign )"
    r"|(?<!\S)!(?!\S)"
    r"|\b(?:Unsize|Tuple|FnPtr|DiscriminantKind|Fn|FnMut|FnOnce)\b"
)


class Names:
    """What the names of a text stand for: how many arguments each has, and of associated types whose they are."""

    def __init__(self, lines):
        self.parameters = {}
        self.owner = {}
        for line in lines:
            word, *rest = line.split() or [""]
            if word in ("adt", "trait"):
                self.parameters[rest[1]] = int(rest[2]) if rest[2].isdigit() else len(rest[2])
            elif word == "foreign":
                self.parameters[rest[1]] = 0
            elif word == "assoc":
                self.owner[rest[1]] = rest[0]

    def types(self, words, count, parameter):
        """So many types from the front of the words, in Rust."""
        return [self.type(words, parameter) for _ in range(count)]

    def type(self, words, parameter):
        """The type that the words begin with, in Rust, which are taken from them."""
        word = words.pop(0)
        if word in ("&", "&mut"):
            return word.replace("&", "&'static ") + " " + self.type(words, parameter)
        if word in ("*const", "*mut"):
            return word + " " + self.type(words, parameter)
        if word[0] == "#":
            return parameter(int(word[1:]))
        if word[0] == "[":
            inside = self.type(words, parameter)
            return "[%s]" % inside if word == "[]" else "[%s; %s]" % (inside, word[1:-1])
        if word[0] == "(":
            return "(%s)" % "".join("%s, " % each for each in self.types(words, int(word[1:-1]), parameter))
        if word.startswith("fn("):
            taken = self.types(words, int(word[3:-1]), parameter)
            return "fn(%s) -> %s" % (", ".join(taken), self.type(words, parameter))
        if word.startswith("dyn("):
            return self.object(words, int(word[4:-1]), parameter)
        if word in self.owner:
            owner = self.owner[word]
            of = self.type(words, parameter)
            return "<%s as %s>::%s" % (of, self.bound(owner, words, parameter), RENAMED.get(word, word))
        if word in self.parameters:
            return word + bracketed(self.types(words, self.parameters[word], parameter))
        return word

    def bound(self, trait, words, parameter, said=()):
        """The trait with its arguments, and what is said of its associated types."""
        given = self.types(words, self.parameters[trait], parameter)
        return trait + bracketed(given + ["%s = %s" % each for each in said])

    def object(self, words, count, parameter):
        """A `dyn` type, in which what is said of an associated type stands among the arguments of its trait."""
        bounds = []
        for _ in range(count):
            name = words.pop(0)
            if name in self.owner:
                of = self.owner[name]
                arguments = list(words)
                self.types(words, self.parameters[of], parameter)
                kept = arguments[: len(arguments) - len(words)]
                bounds.append((of, kept, (RENAMED.get(name, name), self.type(words, parameter))))
            else:
                arguments = list(words)
                self.types(words, self.parameters[name], parameter)
                bounds.append((name, arguments[: len(arguments) - len(words)], None))
        written = []
        for trait, arguments, own in bounds:
            if own is None:
                said = [each for of, same, each in bounds if each and same == arguments and says_of(of, trait)]
                written.append(self.bound(trait, list(arguments), parameter, said))
        return "(dyn %s)" % " + ".join(written)

    def clause(self, words, parameter):
        """A clause in Rust: a type and what it meets."""
        words = list(words)
        name = words.pop(0)
        if name in self.owner:
            trait = self.owner[name]
            of = self.type(words, parameter)
            arguments = list(words)
            self.types(words, self.parameters[trait], parameter)
            kept = arguments[: len(arguments) - len(words)]
            said = [(RENAMED.get(name, name), self.type(words, parameter))]
            return of, self.bound(trait, kept, parameter, said)
        of = self.type(words, parameter)
        return of, self.bound(name, words, parameter)


def says_of(owner, trait):
    """Whether a trait has the associated types of that owner, by itself or, what can be called, by a supertrait."""
    return owner == trait or {owner, trait} <= CALLED


def bracketed(arguments):
    return "<%s>" % ", ".join(arguments) if arguments else ""


def of_impl(number):
    return "T%d" % number


def of_trait(number):
    return "Self" if number == 0 else "T%d" % number


class Rust:
    """The lines of some definitions as Rust, those of crate 0 and those of crate 1."""

    def __init__(self, lines, names):
        self.names = names
        self.said = {}
        self.order = []
        for line in lines:
            word, *rest = line.split()
            if word in ("adt", "trait", "impl", "foreign"):
                self.order.append((word, rest))
                self.said[rest[1]] = []
            elif word == "assoc":
                self.said[rest[0]].append((word, rest[1:]))
                self.said[rest[1]] = []
            elif word in ("field", "super", "where", "bound", "iwhere", "value", "sized"):
                self.said[rest[0]].append((word, rest[1:]))
            else:
                sys.exit("no Rust for the line '%s'" % line)

    def written(self, crate):
        """The definitions of that crate, an item a line, each with its name."""
        for word, (of, name, *rest) in self.order:
            if int(of) == crate:
                yield name, getattr(self, word)(name, *rest)

    def those(self, name, word):
        return [rest for said, rest in self.said[name] if said == word]

    def are_sized(self, name, word, parameter):
        """Which parameters a clause says to be sized, and the other clauses."""
        sized, others = set(), []
        for clause in self.those(name, word):
            if clause[0] == "Sized" and clause[1][0] == "#":
                sized.add(int(clause[1][1:]))
            else:
                others.append("%s: %s" % self.names.clause(clause, parameter))
        return sized, others

    def adt(self, name, count, *flags):
        fields = self.those(name, "field")
        kept = [self.names.type(list(field), of_impl) for field in fields]
        unsized = "" if kept and not self.those(name, "sized") else ": ?Sized"
        parameters = [of_impl(k) + unsized for k in range(int(count))]
        if not kept:
            kept = ["std::marker::PhantomData<%s>" % of_impl(k) for k in range(int(count))]
        fundamental = "#[fundamental] " if "fundamental" in flags else ""
        return "%spub struct %s%s(%s);" % (fundamental, name, bracketed(parameters), ", ".join("pub " + each for each in kept))

    def foreign(self, name):
        return "unsafe extern \"C\" { pub type %s; }" % name

    def trait(self, name, count, *flags):
        sized, clauses = self.are_sized(name, "where", of_trait)
        supers = ["%s: %s" % self.names.clause(each, of_trait) for each in self.those(name, "super")]
        parameters = [of_trait(k) + ("" if k in sized else ": ?Sized") for k in range(1, int(count) + 1)]
        items = []
        for (item,) in self.those(name, "assoc"):
            bounds = self.those(item, "bound")
            meets = [self.names.clause(each, of_trait)[1] for each in bounds if each[0] != "Sized"]
            if all(each[0] != "Sized" for each in bounds):
                meets.append("?Sized")
            items.append("type %s%s;" % (item, ": " + " + ".join(meets) if meets else ""))
        marks = "".join(word + " " for word in ("unsafe", "auto") if word in flags)
        attributes = "".join("#[%s] " % word for word in ("fundamental", "marker") if word in flags)
        where = " where " + ", ".join(supers + clauses) if supers + clauses else ""
        return "%spub %strait %s%s%s { %s }" % (attributes, marks, name, bracketed(parameters), where, " ".join(items))

    def impl(self, name, count, sign, trait, *header):
        words = list(header)
        of = self.names.type(words, of_impl)
        given = self.names.types(list(words), self.names.parameters[trait], of_impl)
        bound = self.names.bound(trait, words, of_impl)
        sized, clauses = self.are_sized(name, "iwhere", of_impl)
        parameters = [of_impl(k) + ("" if k in sized else ": ?Sized") for k in range(int(count))]
        items = ["type %s = %s;" % (RENAMED.get(item, item), self.names.type(ty, of_impl)) for item, *ty in self.those(name, "value")]
        if trait in METHODS and sign == "+":
            items.append(METHODS[trait] % tuple(given))
        where = " where " + ", ".join(clauses) if clauses else ""
        mark = {"+": "", "-": "!", "reservation": ""}[sign]
        reserved = '#[rustc_reservation_impl = "kept"] ' if sign == "reservation" else ""
        unsafe = "unsafe " if trait in UNSAFE and sign == "+" else ""
        return "%s%simpl%s %s%s for %s%s { %s }" % (reserved, unsafe, bracketed(parameters), mark, bound, of, where, " ".join(items))


class Crate:
    """A source, of which it is known what each line is of."""

    def __init__(self, name, head):
        self.name = name
        self.lines = list(head)
        self.owners = {}

    def add(self, line, owner=None):
        self.lines.append(line)
        self.owners[len(self.lines)] = owner


def lines_of(text):
    return [line for line in text.strip().splitlines() if line.strip()]


def split(group):
    """The group's declarations, those of the trait, and each impl of it with its lines, by name."""
    common, own, impls = [], [], {}
    for line in lines_of(group["text"]):
        word, *rest = line.split()
        if word == "impl" and rest[4] == TRAIT:
            impls[rest[1]] = [line]
        elif word in ("iwhere", "value") and rest[0] in impls:
            impls[rest[0]].append(line)
        elif (word == "trait" and rest[1] == TRAIT) or (word in ("super", "where", "assoc") and rest[0] == TRAIT):
            own.append(line)
        else:
            common.append(line)
    return common, own, impls


def features_of(group):
    """The features that the group wants: those that it names, and where one of its lines wants any, all of the others."""
    named = group.get("features", [])
    lines = lines_of(group["text"])
    return tuple(FEATURES + named if named or any(WANTS_FEATURE.search(line) for line in lines) else ())


def head(features, upstream):
    """The lines that a source begins with."""
    marks = ["#![feature(%s)]" % ", ".join(features)] if features else []
    return ["#![allow(warnings)]", *marks, *(["extern crate %s as up;" % upstream] if upstream else [])]


def imports(group, crates, features):
    paths = [*STD.items(), *(STD_FEATURED.items() if features else [])]
    std = ["use %s::{%s};" % (path, ", ".join(names.split())) for path, names in paths]
    return " ".join(std + ["use %s::%s::*;" % (crate, group) for crate in crates])


class Batch:
    """Groups as two crates: one above, and the local one."""

    def __init__(self, number, features, prelude):
        self.features = features
        self.prelude = prelude
        word = str(number)
        self.above = Crate("above_" + word, head(features, None))
        self.local = Crate("local_" + word, head(features, "above_" + word))

    def add(self, group):
        """Writes a group: its declarations, a module for each pair, and one for each impl of a trait that isn't local."""
        common, own, impls = split(group)
        names = Names(self.prelude + common + own)
        rust = Rust(common, names)
        of = "g_" + group["name"]
        for crate, source, seen in ((1, self.above, []), (0, self.local, ["up"])):
            source.add("pub mod %s { %s" % (of, imports(of, seen, self.features)))
            for name, item in rust.written(crate):
                source.add(item, (group["name"], name))
            source.add("}")
        for pair in itertools.combinations(impls, 2):
            self.add_module(group, of, names, own, impls, pair)
        for one in impls:
            self.add_module(group, of, names, [of_other_crate(line) for line in own], impls, (one,))

    def add_module(self, group, of, names, own, impls, those):
        module = "%s__%s" % (of, "__".join(those))
        owner = (group["name"], those)
        rust = Rust(own + [line for name in those for line in impls[name]], names)
        seen = ["crate", "up"]
        if is_foreign(own):
            self.above.add("pub mod %s { %s" % (module, imports(of, ["crate"], self.features)))
            for _, item in rust.written(1):
                self.above.add(item, owner)
            self.above.add("}")
        self.local.add("pub mod %s { %s" % (module, imports(of, seen, self.features)))
        if is_foreign(own):
            self.local.add("use up::%s::*;" % module)
        for _, item in rust.written(0):
            self.local.add(item, owner)
        self.local.add("}")

    def reported(self, folder):
        """What rustc reports: the codes of errors, by what they are of."""
        above = compiled(folder, self.above, self.features, None)
        if above:
            sys.exit("rustc refuses the crate above: %s" % above)
        return compiled(folder, self.local, self.features, self.above)


def of_other_crate(line):
    """The trait as one of crate 1."""
    return line.replace("trait 0 ", "trait 1 ")


def is_foreign(own):
    return any(line.split()[:2] == ["trait", "1"] for line in own)


def compiled(folder, source, features, above):
    """The codes of the errors that rustc reports of a source, by what they are of."""
    path = os.path.join(folder, source.name + ".rs")
    with open(path, "w") as given:
        given.write("\n".join(source.lines) + "\n")
    command = ["rustc", "--edition=2021", "--crate-type=lib", "--emit=metadata", "--error-format=json", "-L", folder, "--out-dir", folder, path]
    environment = dict(os.environ, RUSTC_BOOTSTRAP="1") if features else os.environ
    done = subprocess.run(command, capture_output=True, text=True, env=environment)
    found = {}
    for line in done.stderr.splitlines():
        message = json.loads(line)
        if message.get("level") != "error" or not message.get("spans"):
            continue
        code = (message.get("code") or {}).get("code")
        at = next(span["line_start"] for span in message["spans"] if span["is_primary"])
        owner = source.owners.get(at)
        if owner is None or code not in ("E0119", "E0751", "E0117", "E0210"):
            sys.exit("rustc reports of line %d of %s:\n%s\n%s" % (at, path, source.lines[at - 1], message["rendered"]))
        found.setdefault(owner, set()).add(code)
    return found


def queries(group):
    """What is asked of a group, each with what it is of and the codes that answer it."""
    common, own, impls = split(group)
    for pair in itertools.combinations(impls, 2):
        yield "overlap %s %s %s" % (group.get("rounds", "*"), *pair), (group["name"], pair), ("E0119", "E0751")
    for name, lines in impls.items():
        header = " ".join(lines[0].split()[5:]).replace("#", "$")
        yield "orphan local %s" % header, (group["name"], (name,)), ("E0117", "E0210")


def answered(program, prelude, group, asked):
    """The first word of what the program answers to each query, which has to be the same in the other order of a pair."""
    words = first_words(program, prelude, group, [query for query, _, _ in asked])
    others = first_words(program, prelude, group, [swapped(query) for query, _, _ in asked])
    if words != others:
        sys.exit("the order counts in the group %s: %s" % (group["name"], [a for a, b, c in zip(asked, words, others) if b != c]))
    return words


def swapped(query):
    words = query.split()
    return " ".join(words[:2] + [words[3], words[2]]) if words[0] == "overlap" else query


def first_words(program, prelude, group, asked):
    text = "\n".join(prelude + lines_of(group["text"]) + ["mode coherence"] + asked) + "\n"
    done = subprocess.run([program], input=text, capture_output=True, text=True)
    words = [line.split()[0] for line in done.stdout.splitlines()]
    if done.returncode or len(words) != len(asked):
        sys.exit("the program ends with status %d in the group %s: %s" % (done.returncode, group["name"], done.stdout[-200:]))
    return words


AGREEING = {("disjoint", "none"), ("allowed", "none"), ("ok", "none"), ("nonlocal", "E0117"), ("uncovered", "E0210")}
AGREEING |= {(word, code) for word in ("overlap", "maybe") for code in ("E0119", "E0751")}


def rows_of(group, asked, words, reported):
    """A row for each query; how the program and rustc differ where no reason says so, and where one does that isn't needed."""
    rows, wrong = [], []
    for (query, owner, codes), word in zip(asked, words):
        code = next((code for code in codes if code in reported.get(owner, ())), "none")
        reason = DIFFERING.get((group["name"], " ".join(query.split()[2:])))
        if (reason is None) != ((word, code) in AGREEING):
            wrong.append("%s: %s => %s, rustc %s, reason %s" % (group["name"], query, word, code, reason))
        rows.append("%s => %s %s%s" % (query, word, code, " " + reason if reason else ""))
    return rows, wrong


def table(groups):
    """The file of texts of the groups."""
    with open(TABLE) as given:
        text = given.read()
    parts = [text[: text.index("#### ")]]
    for group, rows in groups:
        head = ["#### " + group["about"], "after prelude", "never cut", "", "==== " + group["name"]]
        parts.append("\n".join([*head, *lines_of(group["text"]), "mode coherence", *rows, "", ""]))
    return "".join(parts)[:-1]


def with_prelude():
    """The source that holds the prelude."""
    with open(HOLDS_PRELUDE) as given:
        text = given.read()
    with open(PRELUDE) as given:
        held = 'pub const PRELUDE: &str = "\\\n%s";' % given.read()
    return re.sub(r'pub const PRELUDE: &str =\s*"[^"]*";', lambda _: held, text)


def write(sources):
    for path, text in sources.items():
        with open(path, "w") as taken:
            taken.write(text)


def compare(sources):
    for path, text in sources.items():
        with open(path) as given:
            if given.read() != text:
                sys.exit("%s holds something else; --write writes it" % path)


def main():
    words = argparse.ArgumentParser(description=__doc__, formatter_class=argparse.RawDescriptionHelpFormatter)
    words.add_argument("program", help="the program `assembly`")
    words.add_argument("--write", action="store_true", help="write the tables")
    words.add_argument("--show", action="store_true", help="print the Rust")
    asked_for = words.parse_args()
    with open(PRELUDE) as given:
        prelude = [line for line in lines_of(given.read()) if not line.startswith("//")]
    batches = {}
    for group in GROUPS:
        features = features_of(group)
        batches.setdefault(features, Batch(len(batches), features, prelude)).add(group)
    if asked_for.show:
        for batch in batches.values():
            print("\n".join(["// above"] + batch.above.lines + ["// local"] + batch.local.lines))
    reported = {}
    with tempfile.TemporaryDirectory() as folder:
        for batch in batches.values():
            reported.update(batch.reported(folder))
    found, wrong = [], []
    for group in GROUPS:
        asked = list(queries(group))
        rows, differing = rows_of(group, asked, answered(asked_for.program, prelude, group, asked), reported)
        found.append((group, rows))
        wrong += differing
    count = sum(len(rows) for _, rows in found)
    pairs = sum(row.startswith("overlap") for _, rows in found for row in rows)
    reasons = sum(len(row.split(" => ")[1].split()) > 2 for _, rows in found for row in rows)
    print("%d pairs and %d headers; %d differ with a reason" % (pairs, count - pairs, reasons))
    if wrong:
        sys.exit("\n".join(wrong))
    sources = {TABLE: table(found), HOLDS_PRELUDE: with_prelude()}
    if asked_for.write:
        write(sources)
    else:
        compare(sources)


if __name__ == "__main__":
    main()
