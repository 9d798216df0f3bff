"""The plain Rust of the sources as a Cargo workspace, for `plain.py FOLDER --cargo`, and for the folder `rust` (`plain.py --rust`).

The workspace has a package for each library of the repository that the programs need, one for each program, `rilgomut` over all of them (by hand, in
`rust/rilgomut`), `texts` that runs the texts of `crates/texts/data`, `rows` of `tests/rows`, and `kit` with what stands for the kit's std. Doc
comments are kept, so that `cargo doc --no-deps --open` shows what each call takes and answers. Each public type has `Debug`; each error has
`Display` and `Error`. A debug build checks numbers (`plain_checks.py`). `cargo test` runs the stored texts and the rows.
"""

import os
import re
import shutil

import plain_checks

VERSION = "0.1.0"

# What is published, each by a name that no other package has. All others are for tests.
PUBLISHED = "rilgomut-%s"
FOR_TESTS = ("texts", "rows", "examples")
PROGRAMS = ("assembly", "rilgomut")
OWN = "rilgomut"

# The folder, and so the package, of a crate whose name another one has.
FOLDERS = {"rilgomut": "program"}

# A feature of `kit`: growths are counted and, where a variable or a test says so, refused.
GROWTHS = "\n[features]\ngrowths = []\n"

MADE = "# Made by `bench/plain.py` of the sources in `crates`: an edit of this file is lost.\n"
MADE_OF = "// Made of `%s` by `bench/plain.py`: an edit of this file is lost.\n\n"

# The package of each crate says where its text comes from.
MANIFEST = MADE + """[package]
name = "%(package)s"
description = "%(told)s"
version.workspace = true
edition.workspace = true
license.workspace = true
rust-version.workspace = true
keywords.workspace = true
categories.workspace = true
%(more)s
[lints]
workspace = true

[dependencies]
%(uses)s"""

WORKSPACE = MADE + """[workspace]
resolver = "2"
members = [
%(members)s]

[workspace.package]
version = "%(version)s"
edition = "2021"
license = "Apache-2.0"
rust-version = "1.80"
keywords = ["rustc", "trait", "coherence", "solver", "verified"]
categories = ["development-tools", "compilers"]

[workspace.dependencies]
%(dependencies)s
[workspace.lints.rust]
unsafe_code = "forbid"
unused_imports = "allow" # each file begins with what the kit has in its scope
unused_variables = "allow" # some stand in contracts alone
dead_code = "allow" # some stand in contracts alone

[workspace.lints.clippy]
# The proved sources index by numbers, of which their contracts speak.
needless_range_loop = "allow"
# The prover reads each borrow as it is written.
borrow_deref_ref = "allow"
needless_borrow = "allow"
needless_lifetimes = "allow"
explicit_auto_deref = "allow"
# A contract names each argument, and the type of each result.
too_many_arguments = "allow"
type_complexity = "allow"
result_large_err = "allow"
wrong_self_convention = "allow"
let_unit_value = "allow"
large_enum_variant = "allow"
result_unit_err = "allow"
# What has a proof of its own stands in a function of its own, and isn't written by what has none.
manual_find = "allow"
single_match = "allow"
manual_map = "allow"
manual_hash_one = "allow"
question_mark = "allow"
match_like_matches_macro = "allow"
redundant_pattern_matching = "allow"
nonminimal_bool = "allow"
misrefactored_assign_op = "allow"
absurd_extreme_comparisons = "allow"
# Each type has a size in the kit.
needless_maybe_sized = "allow"
# The rows of an evaluator have a module `evaluator` within theirs.
module_inception = "allow"
# `kit` has the names of the kit's std.
new_without_default = "allow"
new_ret_no_self = "allow"
should_implement_trait = "allow"
len_without_is_empty = "allow"

[profile.dev]
opt-level = 1
debug = false

[profile.release]
codegen-units = 1
lto = true
"""

# Of which types `Error` is, and what `Display` writes of one of which the sources have none.
STOP_OR = 'match self {\n            Self::Stop(stop) => stop.fmt(f),\n            %s\n        }'
ERRORS = {
    "kit": [("crate::alloc::AllocError", 'f.write_str("memory was refused")')],
    "ir_trees": [("crate::ir::stop::Stop", None), ("crate::decl::fault::DeclFault", None)],
    "ir_builder": [("crate::decl::fault_places::DeclError", None)],
    "candidate_eval": [
        ("crate::eval::refusal::NoSolutionOrStop", STOP_OR % 'Self::NoSolution => f.write_str("the goal is refused"),'),
        ("crate::objects::object::AmbiguousOrStop", STOP_OR % 'Self::Ambiguous => f.write_str("too little is known"),'),
        ("crate::coherence::OrphanStop<E>", None),
        ("crate::coherence::NormalizeErr<E>", STOP_OR % "Self::Failed(error) => error.fmt(f),"),
    ],
    "assembly_notation": [("crate::faults::Fault<'_>", None)],
}

# What tests and examples of a package name beside what the package uses.
TESTED_OVER = {"candidate_eval": ["candidate_ir"]}

DOC = re.compile(r"\s*//[/!]")
ATTRIBUTE = re.compile(r"\s*#!?\[")
ENDS = re.compile(r"\s*(?:[})\]]|$)")
TYPE = re.compile(
    r"(?m)^(?P<at> *)(?P<derive>#\[derive\((?P<traits>[^)]*)\)\]\n *)?(?P<more>(?:#\[[^\n]*\]\n *)*)(?P<item>(?:pub(?:\([a-z]+\))? )?(?:struct|enum) \w+)"
)
ROOT_DOC = re.compile(r"\A(?:\s*//![^\n]*\n|\s*#!\[[^\n]*\]\n|\s*\n)*")


def without_lost_docs(text):
    """The text where a doc comment behind which no item comes is a plain comment: what it was of is of proofs, and is gone."""
    lines = text.split("\n")
    for number in range(len(lines) - 1, -1, -1):
        if not DOC.match(lines[number]) or lines[number].lstrip().startswith("//!"):
            continue
        after = lines[number + 1] if number + 1 < len(lines) else ""
        if ENDS.match(after) or after.lstrip().startswith("// "):
            lines[number] = lines[number].replace("///", "//", 1)
    return "\n".join(lines)


def with_debug(text):
    """The text where each type has `Debug`."""

    own = set(re.findall(r"impl[^\n]* (?:fmt::)?Debug for (\w+)", text))

    def derived(found):
        traits = [word.strip() for word in (found["traits"] or "").split(",") if word.strip()]
        if "Debug" in traits or found["item"].split()[-1] in own:
            return found.group()
        return "%s#[derive(%s)]\n%s%s%s" % (found["at"], ", ".join([*traits, "Debug"]), found["at"], found["more"], found["item"])

    return TYPE.sub(derived, text)


def with_prelude(text, prelude):
    """The text with the prelude behind what it says of itself."""
    end = ROOT_DOC.match(text).end()
    return text[:end] + prelude + text[end:]


def with_errors(name):
    """What makes errors of the crate's types."""
    made = []
    for path, shown in ERRORS.get(name, []):
        of = "<E: std::fmt::Display>" if path.endswith("<E>") else ""
        if shown:
            made.append(
                "impl%s std::fmt::Display for %s {\n    fn fmt(&self, f: &mut std::fmt::Formatter<'_>) -> std::fmt::Result {\n"
                "        %s\n    }\n}\n" % (of, path, shown)
            )
        made.append("impl%s std::error::Error for %s {}\n" % (of.replace("std", "std::fmt::Debug + std"), path))
    return "\n" + "\n".join(made) if made else ""


def added(name):
    """What else a crate's root gets."""
    return plain_checks.helper() if name == "ir_trees" else ""


def described(text):
    """The first paragraph of a crate's root."""
    found = re.match(r"(?://! [^\n]*\n)+", text)
    return found[0].replace("//! ", "").strip().replace("\n", " ").replace('"', "'").replace("`", "") if found else ""


# The files that are written.
WRITTEN = set()


def put(path, text):
    """Writes the text into the file, which stays as it is where it has that text: what is compiled of it stays, too."""
    WRITTEN.add(os.path.abspath(path))
    if os.path.exists(path):
        with open(path) as given:
            if given.read() == text:
                return
    os.makedirs(os.path.dirname(path), exist_ok=True)
    with open(path, "w") as taken:
        taken.write(text)


def write_sources(crate, source, to, plain, prelude):
    """Writes the crate's sources in plain Rust, and answers what its root says of it."""
    told = ""
    for below, _, files in os.walk(source):
        folder = os.path.join(to, os.path.relpath(below, source))
        os.makedirs(folder, exist_ok=True)
        for file in files:
            with open(os.path.join(below, file)) as given:
                text = given.read()
            is_root = file in ("lib.rt", "main.rt") and below == source
            told = described(text) if is_root else told
            path = os.path.relpath(os.path.join(below, os.path.splitext(file)[0]), source).split(os.sep)
            module = [crate, *([] if is_root else path)]
            text = plain_checks.with_checks(crate, module, text)
            text = with_prelude(with_debug(without_lost_docs(plain(text))), prelude) + (with_errors(crate) + added(crate) if is_root else "")
            made_of = MADE_OF % "/".join(["crates", crate, "src", os.path.relpath(os.path.join(below, file), source).replace(os.sep, "/")])
            put(os.path.join(folder, os.path.splitext(file)[0] + ".rs"), made_of + text)
    return told


def write_kit(kit, to):
    """Writes what stands for the kit's std."""
    with open(kit) as given:
        put(to, MADE_OF % "bench/plain/kit.rs" + with_debug(given.read()) + with_errors("kit"))


def folder_of(name):
    """The folder of a crate in the workspace."""
    return FOLDERS.get(name, name)


def package_of(name):
    """The name of a crate's package."""
    return name if name in FOR_TESTS else PUBLISHED % folder_of(name).replace("_", "-")


def named(uses):
    """The lines of a manifest that name packages of the workspace."""
    return "".join("%s.workspace = true\n" % used for used in uses)


def write_package(folder, name, told, uses, more=""):
    depends = named(uses)
    if name in TESTED_OVER:
        depends += "\n[dev-dependencies]\n" + named(TESTED_OVER[name])
    if name in FOR_TESTS:
        more += "publish = false\n"
    else:
        more = 'readme = "README.md"\n' + more
        more += '\n[[bin]]\nname = "%s"\npath = "src/main.rs"\ndoc = false\n' % name if name in PROGRAMS else '\n[lib]\nname = "%s"\n' % name
    words = {"package": package_of(name), "told": told, "more": more, "uses": depends}
    put(os.path.join(folder, folder_of(name), "Cargo.toml"), MANIFEST % words)


def copy(of, to):
    """A copy of a file, or of a folder, in which nothing else is left."""
    if os.path.isfile(of):
        os.makedirs(os.path.dirname(to), exist_ok=True)
        shutil.copy(of, to)
    else:
        shutil.rmtree(to, ignore_errors=True)
        shutil.copytree(of, to)


def write_rows(folder, root, uses):
    """The rows with what answers them, which is Rust as it stands, and the texts."""
    for part in ("data", "src", "tests"):
        copy(os.path.join(root, "tests", "rows", part), os.path.join(folder, "rows", part))
    for part in ("data", "args", "stdout"):
        copy(os.path.join(root, "crates", "texts", part), os.path.join(folder, "texts", part))
    write_package(folder, "rows", "Rows that make and call what the libraries offer.", uses)
    manifest = os.path.join(folder, "rows", "Cargo.toml")
    with open(manifest) as file:
        text = file.read()
    put(manifest, text.replace("kit.workspace = true", 'kit = { workspace = true, features = ["growths"] }'))


def write_page(folder, root, name, told):
    """The page of a package, and the licence beside it."""
    page = "# %s\n\n%s\n\nA part of [`rilgomut`](https://crates.io/crates/rilgomut), which has all that a user names.\n" % (package_of(name), told)
    put(os.path.join(folder, folder_of(name), "README.md"), page)
    with open(os.path.join(root, "LICENSE")) as licence:
        put(os.path.join(folder, folder_of(name), "LICENSE"), licence.read())


def workspace(crates, libraries):
    """The manifest of the workspace."""
    paths = ['%s = { path = "%s", version = "%s", package = "%s" }\n' % (name, name, VERSION, package_of(name)) for name in ["kit", *libraries]]
    members = "".join('    "%s",\n' % name for name in ["kit", *map(folder_of, crates), "rows", OWN])
    return WORKSPACE % {"members": members, "version": VERSION, "dependencies": "".join(paths)}


def remove_others(folder, crates):
    """Removes what an earlier run left of these crates and this one doesn't write."""
    for name in crates:
        for below, _, files in os.walk(os.path.join(folder, folder_of(name))):
            for path in (os.path.abspath(os.path.join(below, file)) for file in files):
                if path.endswith(".rs") and path not in WRITTEN:
                    os.remove(path)


def write_workspace(folder, root, crates, uses, plain, prelude, kit):
    """Leaves the workspace in the folder."""
    told = "What the sources use of the kit's std, by Rust's own."
    write_package(folder, "kit", told, [], more=GROWTHS)
    write_page(folder, root, "kit", told)
    write_kit(kit, os.path.join(folder, "kit", "src", "lib.rs"))
    libraries = [name for name in crates if os.path.exists(os.path.join(root, "crates", name, "src", "lib.rt"))]
    for name in crates:
        source = os.path.join(root, "crates", name, "src")
        told = write_sources(name, source, os.path.join(folder, folder_of(name), "src"), plain, prelude)
        write_package(folder, name, told, ["kit", *(used for used in uses[name] if used in uses)])
        if name not in FOR_TESTS:
            write_page(folder, root, name, told)
    for name, file in (("candidate_eval", "checks.rs"), ("texts", "texts.rs")):
        with open(os.path.join(root, "bench", "plain", "cargo", file)) as given:
            put(os.path.join(folder, name, "tests", file), MADE_OF % ("bench/plain/cargo/" + file) + given.read())
    write_rows(folder, root, ["kit", *(name for name in libraries if name not in FOR_TESTS)])
    copy(os.path.join(root, "rust", OWN), os.path.join(folder, OWN))
    put(os.path.join(folder, "Cargo.toml"), workspace(crates, libraries))
    remove_others(folder, ["kit", *crates])
