#!/usr/bin/env python3
"""Says which definitions the public contracts reach: those that a reader must believe. The others serve private calls, or proofs.

    definitions.py             says of each file of specs how much of it is to be believed, and names what isn't
    definitions.py --files     lists the files to be believed: those of which a definition is reached
    definitions.py --check     prints the citations of the documents that are wrong: where, what and in which file, and where that stands; and the
                               figures of the README that are
    definitions.py --why NAME  prints a shortest path from a public contract to each definition of that name
    definitions.py --of CALL   counts the definitions that the clauses of a public call reach, their lines and files; with --files, names these

Public contracts are the `requires` and `ensures` of `pub` calls of the library crates, all that their `pub` traits and impls of these
say, ghost fields, and what is seen of a value (`impl Model`). What no `pub` module and no `pub use` lets out isn't public, but for what
is seen of a value that stands in a field of a public type. Of a law the type counts, not its proof. A member of a trait is a law if it
stands below one of the trait's calls.

A citation is '`X` in `File`' in `docs/` or the README, of a declaration, constructor or field and a file of `specs/` or `proofs/`, whose
folders and crate may be told with it; or of a file and its folder. '`X`, `Y` in `File`' cites both, unless `X` is itself a file.

A definition is an `abbrev`, an `unfoldable`, a `record` or a `data`; what is declared otherwise is a proof. A definition reaches what its
type and its equations name, by the imports of its file or among the declarations of the file. A word counts also where something of that
name is bound. Types of the code, and what macros make, are not looked into.
"""

import argparse
import collections
import glob
import os
import re
import sys
import textwrap
import types

ROOT = os.path.dirname(os.path.dirname(os.path.abspath(__file__)))
CRATES = "ir_trees ir_context ir_folds ir_builder candidate_eval candidate_assembly rounds_judge derivations candidate_rounds assembly_text projection_goals overlaps examples".split()
DOCUMENTS = [os.path.join(ROOT, "README.md"), *sorted(glob.glob(os.path.join(ROOT, "docs", "*.md")))]
STD_PROOFS = {"coded"}  # members of traits of the standard library that are proofs
WORD = r"""[^\s(){}\[\];,."]+"""
IMPORT = re.compile(r"(pub )?use Rattle\.([\w.-]+?)(?:\.\{([^}]*)\})?(?: as ([\w-]+))?\s*;?$")
ITEM = re.compile(
    r"(?P<pub>pub(?:\([^)]*\))?\s+)?(?:(?:const(?=\s+(?:unsafe\s+)?fn)|unsafe|final)\s+)*"
    r"(?P<kind>fn|struct|enum|trait|impl\b|mod|use|ghost\s+use|ghost|const|static|type|\w+!)(?:\s+(?P<name>\w+))?"
)
HEAD = re.compile(rf"((?:abbrev |unfoldable )?(?:pub )?(?:record |data )?)({WORD})")
CITED = r"`[^`\n]+`"
CITATION = re.compile(  # what stands behind `of` is whose member the one before it is
    rf"(?<!of\s)((?:{CITED}(?:,?\s+and\s+|,?\s+or\s+|,\s+))*{CITED})(?:\s+of\s+{CITED})?(?:\s+and\s+(?:its|their)\s+like)?\s+\(?in\s+"
    rf"(?:`(?P<before>\w+)`'s\s+|its\s+)?`(?P<file>(?:\w+/)*[A-Z]\w*)`(?:\s+of\s+`(?P<behind>\w+)`)?"
)
SAYS_THE_FORM = "File"  # where a document says what a citation is
STOP = re.compile(r"\b(requires|ensures)\b\s*(\w*)\s*\{|[;({\[]")


def read(path):
    with open(path) as file:
        return file.read()


class Scope:
    """What names stand for by imports, each as a file of specs and a name in it, or as nothing; and the files that have short names."""

    def __init__(self, above=None):
        self.names, self.files = (dict(above.names), dict(above.files)) if above else ({}, {})

    def take(self, text):
        """Takes an import in; returns the names that it lets out again."""
        public, path, names, alias = IMPORT.match(" ".join(text.split())).groups()
        crate, of, *steps = path.split(".")
        file = (crate, "/".join(steps)) if of == "specs" and steps[0] not in ("declared", "contracts") else None
        taken = {}
        for name in filter(None, map(str.strip, (names or "").split(","))):
            first, _, later = name.partition(" as ")
            taken[bare(later or first)] = file and (file, bare(first))
        if names is None:
            self.files[alias or path.split(".")[-1]] = file
        self.names.update(taken)
        return taken if public else {}

    def named(self, text, own=None, file=None):
        """What the words of a text stand for, each as a file and a name; `own` are the names of the file itself."""
        text = re.sub(rf"(?<=[{{;])(\s*){WORD}\s+=(?=\s)|\blet {WORD} =|^ +pub {WORD} :", r"\1", text, flags=re.M)
        for found in re.finditer(rf"{WORD}(?:\.{WORD})*", text):
            first, *rest = found[0].split(".")
            if found.start() > 0 and text[found.start() - 1] == ".":
                continue  # a field
            if own and first in own:
                yield file, first
            elif rest and self.files.get(first):
                yield self.files[first], rest[0]
            elif self.names.get(first):
                yield self.names[first]


class File:
    """A file of specs: its declarations with their texts, those that are proofs, its data by their constructors, what it lets out."""

    def __init__(self, path):
        self.scope, self.texts, self.proofs, self.data, self.out = Scope(), {}, set(), {}, {}
        last = None
        for text, around in declarations(path):
            if re.match(r"(pub )?use ", text):
                self.out.update(self.scope.take(text))
            elif not text.startswith("pub mod "):
                last = self.declare(text, last, around)
        self.own = self.texts.keys() | self.data.keys()

    def definitions(self):
        return [it for it in self.texts if it not in self.proofs]

    def declare(self, text, last, around):
        """Takes a declaration, or an equation of one that came before; returns what it is of."""
        head = HEAD.match(text)
        if not head[1] and not re.match(rf"{WORD} :\s", text):
            name = next((it for it in text.split() if it in self.texts), last)
            self.texts[name].append(text)
            return name
        name = bare(head[2])
        self.texts[name] = [around, text[head.end() :]]
        if not re.search(r"abbrev|unfoldable|record|data", head[1]):
            self.proofs.add(name)
        if "data " in head[1]:
            for made in re.findall(rf"^ +({WORD}(?: {WORD})*) :\s", text, re.M):
                self.data.update((bare(it), name) for it in made.split())
        return name


def bare(name):
    """A name without the places of an operator's sides."""
    return name.strip().strip("◌")


def declarations(path):
    """The declarations, equations and imports of a file of specs, each with the heads of the sections around it."""
    text = re.sub(r"(?:(?<=\s)|^)--.*", "", read(path), flags=re.M)
    rows, sections, is_open = [], [], False  # a section's head may take several lines
    for line in filter(str.strip, re.sub(r'"(?:\\.|[^"\\])*"', '""', text).split("\n")):
        indent = len(line) - len(line.lstrip())
        closes = line.lstrip().startswith(("}", ")", "]"))
        while sections and indent <= sections[-1][0] and not is_open and not closes:
            sections.pop()
        if is_open or re.match(r" *module\b", line):
            if is_open:
                sections[-1] = (sections[-1][0], f"{sections[-1][1]} {line}")
            else:
                sections.append((indent, line))
            is_open = not re.search(r"\bwhere\s*$", line)
        elif line.strip() == "mutual":
            sections.append((indent, ""))  # what stands in it names each other, and has no head in common
        elif rows and (closes or indent > (sections[-1][0] + 2 if sections else 0)):
            rows[-1][0] += "\n" + line
        else:
            rows.append([line.strip(), "\n".join(head for _, head in sections)])
    return rows


class Specs:
    """All files of specs."""

    def __init__(self):
        self.files = {}
        for crate in CRATES:
            folder = os.path.join(ROOT, "crates", crate, "specs")
            for path in sorted(glob.glob(os.path.join(folder, "**", "*.antt"), recursive=True)):
                self.files[crate, os.path.relpath(path, folder).removesuffix(".antt")] = File(path)

    def find(self, at, name):
        """The definition that a name of a file stands for, or nothing; of a constructor it is the data."""
        crate, path = at
        while path and (crate, path) not in self.files:
            path = path.rpartition("/")[0]
        file = self.files.get((crate, path))
        if file and file.data.get(name, name) in file.texts:
            name = file.data.get(name, name)
            return None if name in file.proofs else ((crate, path), name)
        return self.find(*file.out[name]) if file and file.out.get(name) else None

    def reached(self, contracts):
        """All definitions that are reached, each with what it is reached from first."""
        roots = collections.defaultdict(list)
        for label, text, scope in contracts:
            roots[label] += scope.named(text)
        before, queue = {it: None for it in roots}, collections.deque(roots)
        while queue:
            at = queue.popleft()
            names = roots.get(at)
            if names is None:
                file = self.files[at[0]]
                names = [it for text in file.texts[at[1]] for it in file.scope.named(text, file.own, at[0])]
            for to in filter(None, (self.find(*it) for it in names)):
                if to not in before:
                    before[to] = at
                    queue.append(to)
        return before


def closing(text, at):
    """Where the bracket at that place is closed."""
    depth = 0
    for found in re.compile(r"[()\[\]{}]").finditer(text, at):
        depth += 1 if found[0] in "([{" else -1
        if depth == 0:
            return found.start()
    sys.exit(f"a bracket isn't closed: {text[at : at + 60]!r}")


def items(text):
    """The items of a text of the code: kinds and names, whether they are `pub`, heads, clauses, and what stands in their braces."""
    at = 0
    while at < len(text):
        found, clauses, body = ITEM.match(text, at), [], ""
        if not found:  # an attribute, or what stands between items
            at = closing(text, text.index("[", at)) + 1 if text[at] == "#" else at + 1
            continue
        kind, at, stop = " ".join(found["kind"].split()), found.end("kind"), None
        while not (body or at == len(text) or stop and stop[0] == ";"):
            stop = STOP.search(text, at)
            at = len(text) if not stop else stop.end() if stop[0] == ";" else closing(text, stop.end() - 1) + 1
            if stop and stop[1]:
                clauses.append((f"{stop[1]} {stop[2]}".strip(), text[stop.end() : at - 1]))
            elif stop and stop[0] == "{" and not kind.endswith("use"):
                body = text[stop.end() - 1 : at]
        head, is_pub = text[found.end("kind") : at].removesuffix(body), (found["pub"] or "").strip() == "pub"
        yield types.SimpleNamespace(kind=kind, name=found["name"] or "", is_pub=is_pub, head=head, clauses=clauses, body=body[1:-1])


def with_imports(above, inside):
    """A scope with the imports of these items."""
    scope = Scope(above)
    for it in inside:
        if it.kind == "ghost use":
            scope.take("use" + it.head)
    return scope


def sides(head):
    """The names of an impl's trait, if there is one, and of its type; the name is empty of a type that has none."""
    head = re.split(r"\bwhere\b", head.replace("->", ""))[0]
    while re.search(r"<[^<>]*>", head):
        head = re.sub(r"<[^<>]*>", "", head)
    found = [re.match(r"\s*(?:\w+::)*(\w*)", it)[1] for it in re.split(r"\bfor\s", head, maxsplit=1)]
    return found if len(found) == 2 else ["", *found]


class Code:
    """What the crates declare, and which of it is public."""

    def __init__(self):
        self.files, self.types, self.public, again = {}, collections.defaultdict(list), set(), set()
        for crate in CRATES:
            folder = os.path.join(ROOT, "crates", crate, "src")
            for path in glob.glob(os.path.join(folder, "**", "*.rt"), recursive=True):
                text = re.sub(r"""//[^\n]*|"(?:\\.|[^"\\])*"|'(?:\\.[^']*|[^'\\\n])'""", '""', read(path))
                name = os.path.relpath(path, folder).removesuffix(".rt")
                self.files[crate, "" if name == "lib" else name] = list(items(text))
        for at in sorted(self.files, key=lambda it: it[1].count("/") + bool(it[1])):
            above, _, last = at[1].rpartition("/")
            lets_out = [it.name for it in self.files[at[0], above] if it.kind == "mod" and it.is_pub]
            if not at[1] or (at[0], above) in self.public and last in lets_out:
                self.public.add(at)
                uses = [it for it in self.files[at] if it.kind == "use" and it.is_pub]
                again.update((at[0], name) for it in uses for name in re.findall(r"\w+", it.head))
        for at, it in ((at, it) for at, found in self.files.items() for it in found):
            it.is_seen, it.is_public = False, it.is_pub and (at in self.public or (at[0], it.name) in again)
            if it.kind in ("struct", "enum", "trait"):
                self.types[it.name].append((at, it))
        queue = [it for all_of in self.types.values() for it in all_of if it[1].is_public]
        while queue:
            at, it = queue.pop()
            if not it.is_seen and it.kind != "trait":
                it.is_seen = True
                queue += [to for word in set(re.findall(r"\w+", it.head + it.body)) for to in self.types.get(word, []) if to[0][0] == at[0]]

    def is_public(self, at, name, is_seen=False):
        """Whether a type or trait named in a file is public, or seen as a field of one that is; what no crate declares is."""
        found = self.types.get(name, [])
        near = [it for it in found if it[0] == at] or [it for it in found if it[0][0] == at[0]] or found
        return not near or any(it.is_public or is_seen and it.is_seen for _, it in near)

    def contracts(self):
        """Each clause and ghost member: whether it is public, its label, its text and its scope."""
        laws = {}
        for trait in (it for all_of in self.types.values() for _, it in all_of if it.kind == "trait"):
            kinds = [(it.kind, it.name) for it in items(trait.body)]
            first = next((n for n, (kind, _) in enumerate(kinds) if kind == "fn"), len(kinds))
            laws[trait.name] = {name for kind, name in kinds[first:] if kind == "ghost"}
        for at, found in sorted(self.files.items()):
            scope, place = with_imports(None, found), "::".join([at[0], *filter(None, at[1].split("/"))])
            for it in found:
                if it.kind == "fn":
                    yield from ((it.is_public, f"{place}::{it.name}, {name}", text, scope) for name, text in it.clauses)
                elif it.kind == "struct":
                    for ghost in re.finditer(r"\bghost\s+(\w+)\s*:\s*\{", it.body):
                        text = it.body[ghost.end() : closing(it.body, ghost.end() - 1)]
                        yield it.is_public, f"{place}::{it.name}, {ghost[1]}", text, scope
                elif it.kind in ("trait", "impl"):
                    trait, of = (it.name, "") if it.kind == "trait" else sides(it.head)
                    is_public = all(self.is_public(at, name, trait == "Model") for name in (trait, of))
                    label, inside = f"{place}::{' for '.join(filter(None, (trait, of)))}", list(items(it.body))
                    inner, proofs = with_imports(scope, inside), laws.get(trait, STD_PROOFS) if it.kind == "impl" else ()
                    for member in inside:
                        if member.kind == "ghost" and member.name not in proofs:
                            yield is_public, f"{label}, {member.name}", member.body, inner
                        for name, text in member.clauses:
                            yield is_public and (member.is_pub or bool(trait)), f"{label}::{member.name}, {name}", text, inner


def show(specs, believed, private):
    """Says of each file how much of it is to be believed."""
    for at, file in specs.files.items():
        left = [it for it in file.definitions() if (at, it) not in believed]
        said = f"{at[0]}/specs/{at[1]}: believed: {len(file.definitions()) - len(left)} of {len(file.definitions())} definitions"
        said += f"; proofs: {len(file.proofs)}" if file.proofs else ""
        for what, is_private in ("for private calls", True), ("for none", False):
            found = [it for it in left if ((at, it) in private) == is_private]
            said += f"; {what}: {', '.join(found)}" if found else ""
        if file.texts:
            print(textwrap.fill(said, 140, subsequent_indent="    ", break_on_hyphens=False))


def names_in(path):
    """What a file declares: definitions and proofs, constructors and fields."""
    found = set()
    for text, _ in declarations(path):
        head = HEAD.match(text)
        if head and (head[1] or re.match(rf"{WORD} :\s", text)):
            found.add(bare(head[2]))
            if re.search(r"record|data", head[1]):
                found.update(bare(it) for made in re.findall(rf"^ +(?:pub )?({WORD}(?: {WORD})*) :\s", text, re.M) for it in made.split())
    return found


def all_names():
    """What each file of specs and proofs declares, by its path below the crates."""
    found = {}
    for path in glob.glob(os.path.join(ROOT, "crates", "*", "*", "**", "*.antt"), recursive=True):
        at = os.path.relpath(path, os.path.join(ROOT, "crates")).removesuffix(".antt")
        if at.split(os.sep)[1] in ("specs", "proofs"):
            found[at] = names_in(path)
    return found


def cited(text):
    """The citations of a document: each line, the names, the file and its crate, if that is told."""
    for found in CITATION.finditer(text):
        names = [it.split()[0] for it in re.findall(r"`([^`]+)`", found[1])]
        if found["file"] != SAYS_THE_FORM:
            yield text.count("\n", 0, found.start("file")) + 1, names, found["file"], found["before"] or found["behind"] or ""


def stands(name, file, within, names):
    """Whether a file of that name below those folders declares it, or a folder of that name has a file that is called so."""
    below = [at for at in names if at.startswith(within)]
    return any(f"/{at}".endswith(f"/{file}") and name in names[at] or at.endswith(f"/{file}/{name}") for at in below)


def citations():
    """Prints the citations of the documents that are wrong."""
    names, is_right = all_names(), True
    files = {at.rpartition("/")[2] for at in names}
    for document in DOCUMENTS:
        for line, cited_names, file, crate in cited(read(document)):
            within = f"{crate}/" if crate and os.path.isdir(os.path.join(ROOT, "crates", crate)) else ""
            for number, name in enumerate(cited_names, 1):
                is_beside = number < len(cited_names) and name in files
                if not is_beside and not stands(name, file, within, names):
                    is_right, where = False, sorted(at for at in names if name in names[at])
                    print(f"{os.path.relpath(document, ROOT)}:{line}: {name} in {file}: stands in {', '.join(where) or 'no file'}")
    return 0 if is_right else 1


def why(specs, believed, private, name):
    """Prints a path to each definition of that name."""
    found = [(at, name) for at, file in specs.files.items() if name in file.definitions()]
    for it in found:
        before, path = believed if it in believed else private, [it]
        while before.get(path[-1]):
            path.append(before[path[-1]])
        what = "believed" if it in believed else "for private calls" if it in private else "for none"
        print(f"{name} in {'/specs/'.join(it[0])}: {what}")
        for at in reversed(path if it in before else []):
            print("  " + (at if isinstance(at, str) else f"{at[1]} in {'/specs/'.join(at[0])}"))
    return 0 if found else f"no definition is called {name}"


def by_crate(files):
    """A line for each crate, folded, that begins with its name."""
    for crate in CRATES:
        names = ", ".join(f"`specs/{path}`" for of, path in files if of == crate)
        if names:
            yield textwrap.fill(f"- `{crate}`: {names}", 140, subsequent_indent="  ")


def count(specs, contracts, call, names_files):
    """Prints how many definitions each clause of a call reaches, and all together: how many lines they have and in how many files they stand."""
    clauses = [it for it in contracts if f"::{call}, " in it[0]]
    for what, some in [*((it[0].rpartition(", ")[2], [it]) for it in clauses), ("in all", clauses)]:
        found = [it for it in specs.reached(some) if not isinstance(it, str)]
        texts = [text for at, name in found for text in specs.files[at].texts[name]]
        lines = sum(bool(line.strip()) for text in texts for line in text.splitlines())
        print(f"{what}: {len(found)} definitions, {lines} lines, {len({at for at, _ in found})} files")
        if names_files:
            print("\n".join(by_crate([at for at in specs.files if any(at == it for it, _ in found)])))
    return 0 if clauses else f"no public call is named {call}"


# The calls, and the clauses of theirs, whose definitions and lines the README counts.
COUNTED = (("compute_trait_goal", "proved"), ("recall_derived", ""), ("compute_trait_goal", "refused"))


def figures(specs, contracts):
    """Prints the figures of the README that are wrong."""
    text, is_right = " ".join(read(DOCUMENTS[0]).split()), True
    for call, clause in COUNTED:
        some = [it for it in contracts if f"::{call}, " in it[0] and it[0].endswith(clause)]
        found = [it for it in specs.reached(some) if not isinstance(it, str)]
        lines = sum(bool(line.strip()) for at, name in found for one in specs.files[at].texts[name] for line in one.splitlines())
        if not re.search(rf"\b{len(found)}(?: definitions)? in {lines:,} lines", text):
            is_right = False
            print(f"README.md: {call} {clause} is {len(found)} definitions in {lines:,} lines")
    return 0 if is_right else 1


def main():
    parser = argparse.ArgumentParser(description=__doc__, formatter_class=argparse.RawDescriptionHelpFormatter)
    parser.add_argument("--files", action="store_true", help="list the files to be believed")
    parser.add_argument("--check", action="store_true", help="print the citations of the documents that are wrong; status 1 where there is one")
    parser.add_argument("--why", metavar="NAME", help="print a path to a definition")
    parser.add_argument("--of", metavar="CALL", help="count what the clauses of a public call reach")
    given = parser.parse_args()
    specs, contracts = Specs(), list(Code().contracts())
    if given.check:
        return max(citations(), figures(specs, [it for is_public, *it in contracts if is_public]))
    believed = specs.reached([it for is_public, *it in contracts if is_public])
    private = specs.reached([it for is_public, *it in contracts if not is_public])
    files = [at for at in specs.files if any((at, name) in believed for name in specs.files[at].texts)]
    if given.of:
        return count(specs, [it for is_public, *it in contracts if is_public], given.of, given.files)
    if given.why:
        return why(specs, believed, private, given.why)
    if given.files:
        print("\n".join(f"{crate}/specs/{path}" for crate, path in files))
    else:
        show(specs, believed, private)
    return 0


if __name__ == "__main__":
    sys.exit(main())
