#!/usr/bin/env python3
"""Whether the contract of a function refuses a wrong body: what `edits.py` tries edits by.

An edit turns lines of a function. The function is proved again with the edit, while each other function of the crate has no body, and its
proof is left open (a hole). A proof cites the contracts of the functions that are called, and no proof of theirs, so nothing is missing. Edits
of many functions are tried in one run, if none of these functions calls another one: the proof of a caller rests on what it calls.

An edit that turns no function, as one of definitions, can't be tried so; `batches` answers these apart.
"""

import os
import re
import shutil
import subprocess
import tempfile

from plain import ROOT, in_order, libraries

PARTS = ("src", "specs", "proofs")
HOLE = """use Rattle.{crate}.proofs.{path}.Statement as stated

pub {name}_spec : {{M : Type 1}} → stated.statement M
{name}_spec = ?
"""
FUNCTION = re.compile(r"( *)(?:pub(?:\([a-z]+\))? )?(?:const )?(?:final )?fn (\w+)")
DERIVED = {"Hash": "hash", "PartialEq": "eq", "Debug": "fmt", "Default": "default"}
IMPL = re.compile(r"impl(?:<.*?>)? (?:([\w:]+(?:<[^{]*?>)?) for )?([\w:]+)(<[^{]*?>)?(?: where| \{|$)")


class Function:
    """A function of a crate: its name as a check prints it below the crate, the words of its name's path, its file and lines."""

    def __init__(self, path, file, first, last, cycle):
        self.path, self.file, self.first, self.last, self.cycle = path, file, first, last, cycle

    @property
    def name(self):
        return "::".join(self.path)

    @property
    def proof(self):
        """The words of the path of its proof, which it shares with the others of its cycle."""
        return [*self.path[:-1], f"+{self.cycle}"] if self.cycle else self.path


def read(path):
    with open(path, encoding="utf-8") as file:
        return file.read()


def module_of(file):
    """The module that a file of `src` is, as words."""
    words = os.path.splitext(file)[0].split("/")[1:]
    return [] if words in (["lib"], ["main"]) else words


def last_word(path):
    """What a path in the code leads to."""
    return path.rpartition("::")[2]


def arguments(text, generic):
    """The names of the types among arguments in angle brackets, without what the impl itself binds."""
    found = [last_word(it) for it in re.findall(r"'?[\w:]+", text or "")]
    return [it[0].upper() + it[1:] for it in found if not it.startswith("'") and it not in generic and it != "_"]


def owner_of(line, module, types):
    """The words of the path below which a method of the impl or the trait of this line stands, or nothing."""
    trait = re.match(r"(?:pub(?:\([a-z]+\))? )?trait (\w+)", line)
    if trait:
        return [*module, trait[1]]
    found = IMPL.match(line)
    if not found:
        return None
    bound = re.match(r"impl<(.*?)>", line)
    generic = set(re.findall(r"(\w+)(?=\s*[:,]|$)", bound[1])) if bound else set()
    of, name, own = found[1], last_word(found[2]), arguments(found[3], generic)
    if not of:
        return [*(module if own else types.get(name, module)), "+".join([name, *own])]
    of, _, its = of.partition("<")
    return [*module, "".join(["+".join([name, *own]), last_word(of), *arguments(its, generic)])]


def functions(folder):
    """The functions of a crate that are written out, in the order of its files, and what is derived. What macros write isn't there."""
    files = sorted(os.path.relpath(os.path.join(at, it), folder) for at, _, names in os.walk(os.path.join(folder, "src")) for it in names)
    texts = {file: read(os.path.join(folder, file)).split("\n") for file in files if file.endswith(".rt")}
    types = {}
    for file, lines in texts.items():
        for line in lines:
            found = re.match(r"(?:pub(?:\([a-z]+\))? )?(?:struct|enum) (\w+)", line)
            if found:
                types[found[1]] = module_of(file)
    found = [it for file, lines in texts.items() for it in [*functions_of(file, lines, types), *derived(file, lines)]]
    for it in found:
        # What calls itself is a cycle of its own name; it has a proof, since it has a measure.
        if not it.cycle and os.path.isdir(os.path.join(folder, "proofs", *it.path[:-1], f"+{it.path[-1]}")):
            it.cycle = it.path[-1]
    return found


def functions_of(file, lines, types):
    """The functions that are written out in a file. `types` has the module of each type of the crate."""
    module, owner, cycle, at = module_of(file), None, "", 0
    while at < len(lines):
        line = lines[at]
        if line and not line.startswith((" ", "}", "/", "#")):
            owner = owner_of(" ".join(lines[at : at + 3]) if line.endswith(",") else line, module, types)
        attribute = re.match(r" *#\[cycle\((\w+)\)\]", line)
        cycle = attribute[1] if attribute else cycle
        found = FUNCTION.match(line)
        if not found or len(found[1]) not in (0, 4):
            at += 1
            continue
        last = end_of(lines, at, found[1])
        above = module if not found[1] else owner
        if last and above is not None:
            yield Function([*above, found[2]], file, at, last, cycle)
        at, cycle = (last or at) + 1, ""


def derived(file, lines):
    """The functions that a type's derives write, as far as they are worth a hole."""
    traits = []
    for at, line in enumerate(lines):
        attribute = re.match(r"#\[derive\((.*)\)\]", line)
        found = re.match(r"(?:pub(?:\([a-z]+\))? )?(?:struct|enum) (\w+)", line)
        traits = attribute[1].split(", ") if attribute else traits
        if found:
            for it in filter(DERIVED.get, traits):
                yield Function([*module_of(file), found[1] + it, DERIVED[it]], file, at, at, "")
        traits = traits if attribute or line.startswith(("#", "/")) else []


def end_of(lines, first, indent):
    """The line in which the body ends of a function that begins in this line, or nothing where it has none."""
    for at in range(first, len(lines)):
        if lines[at] == indent + "}" or (at == first and re.search(r"\{.*\}$", lines[at])):
            return at
        if lines[at].endswith(";") and not any(it == indent + "{" or it.endswith(" {") for it in lines[first : at + 1]):
            return None
    return None


def write_hole(room, crate, function):
    """Leaves the proof of a function open in the copy of its crate, where its body is left out."""
    proofs = os.path.join(room, "proofs")
    closures = os.path.join(proofs, *[it for it in function.path[:-1] if it[0].islower()], "fn", *[it for it in function.path[:-1] if it[0].isupper()])
    for gone in (os.path.join(proofs, *function.proof), os.path.join(closures, function.path[-1])):
        shutil.rmtree(gone, ignore_errors=True)
    folder = os.path.join(proofs, *function.path)
    shutil.rmtree(folder, ignore_errors=True)
    os.makedirs(folder)
    with open(os.path.join(folder, "Proof.antt"), "w", encoding="utf-8") as file:
        file.write(HOLE.format(crate=crate, path=".".join(function.path), name=function.path[-1]))


def without_bodies(text, functions):
    """A source in which these functions have no body that calls anything. Each line stays where it is."""
    lines = text.split("\n")
    for it in functions:
        indent = " " * (len(lines[it.first]) - len(lines[it.first].lstrip()))
        begins = (at for at in range(it.first, it.last) if lines[at] == indent + "{" or at == it.first and lines[at].endswith(" {"))
        begin = next(begins, None) or next(at for at in range(it.first, it.last) if lines[at].startswith(indent + ")") and lines[at].endswith(" {"))
        lines[begin + 1 : it.last] = [indent + "    unreachable!()", *[""] * (it.last - begin - 2)]
        above = it.first - 1
        while lines[above].lstrip().startswith(("#[", "///")):
            lines[above] = "" if lines[above].lstrip().startswith(("#[cycle", "#[tactic")) else lines[above]
            above -= 1
    return "\n".join(lines)


class Edit:
    """An edit: its crate and name, its files with the pairs of texts, and, if it says so, which functions are to refuse it (`by: `), and
    without which clauses of theirs (`without: `): these are taken off the contracts, with what answers for them."""

    def __init__(self, path):
        folder, self.path = path.split(os.sep)[-3:], path
        self.crate, self.label = folder[0], f"{folder[0]}/{folder[2].removesuffix('.edit')}"
        self.by, self.without, self.pairs, file, old = [], [], [], "", ""
        for line in read(path).split("\n"):
            if line.startswith("by: "):
                self.by += line.removeprefix("by: ").split()
            elif line.startswith("without: "):
                self.without += line.removeprefix("without: ").split()
            elif line.startswith("file: "):
                file = line.removeprefix("file: ").strip()
            elif line.startswith("old: "):
                old = line.removeprefix("old: ")
            elif line.startswith("new:"):
                self.pairs.append((file, old, line.removeprefix("new:").removeprefix(" ")))

    def applied(self, text_of, targets=()):
        """The texts of its files with the edit, by their paths, or nothing where a text doesn't stand there once."""
        texts = {}
        for file, old, new in self.pairs:
            text = texts.get(file) or text_of(file)
            if text is None or text.count(old) != 1:
                return None
            texts[file] = text.replace(old, new)
        for target in targets if self.without else ():
            self.leave_out_clauses(texts, text_of, target)
        return texts

    def leave_out_clauses(self, texts, text_of, function):
        """Takes the clauses off the contract of a function, and off its proof what answers for them."""
        lines = (texts.get(function.file) or text_of(function.file)).split("\n")
        for at in range(function.first, function.last + 1):
            # (the lines stay, so that all functions of the file stand where they stood)
            lines[at] = "" if re.match(rf"\s*ensures ({'|'.join(self.without)}) \{{", lines[at]) else lines[at]
        texts[function.file] = "\n".join(lines)
        answers = "/".join(["proofs", *function.proof, "Answers.antt"])
        text = texts.get(answers) or text_of(answers)
        if text is not None:
            gone = re.compile(rf"pub [\w-]+-clause-({'|'.join(self.without)}) :")
            texts[answers] = "\n\n".join(it for it in text.split("\n\n") if not gone.match(it))

    def touched(self, found, text_of):
        """The functions of the crate that it turns."""
        if self.by:
            return [it for it in found if it.name in self.by]
        touched = []
        for file, old, _ in self.pairs:
            at = (text_of(file) or "").find(old)
            line = text_of(file).count("\n", 0, at) if at >= 0 else -1
            touched += [it for it in found if it.file == file and it.first <= line <= it.last and it not in touched]
        return touched

    def is_of_functions(self, targets):
        """Whether it turns nothing but the functions, with their contracts, and their own proofs. Others see the contracts of those alone that
        they call."""
        own = [f"proofs/{'/'.join(it.proof)}/" for it in targets]
        return all(file.startswith(("src/", *own)) for file, _, _ in self.pairs)


class Crate:
    """A crate whose functions are tried, with the libraries that stand built in `crates/NAME/out` of some checkout."""

    def __init__(self, name, built):
        self.name, self.built, self.folder = name, built, os.path.join(ROOT, "crates", name)
        self.functions = functions(self.folder)

    def text_of(self, file):
        path = os.path.join(self.folder, file)
        return read(path) if os.path.isfile(path) else None

    def body_of(self, function):
        return "\n".join(self.text_of(function.file).split("\n")[function.first : function.last + 1])

    def copy(self, room, targets, texts):
        """Leaves a copy of the crate in the room, with these texts in the place of its own, in which all others than the targets have no
        body, and their proofs are open."""
        for part in PARTS:
            if os.path.isdir(os.path.join(self.folder, part)):
                shutil.copytree(os.path.join(self.folder, part), os.path.join(room, part))
        kept, texts = {tuple(it.proof) for it in targets}, dict(texts)
        others = [it for it in self.functions if tuple(it.proof) not in kept]
        for it in others:
            write_hole(room, self.name, it)
        for file in {it.file for it in others}:
            found = [it for it in others if it.file == file and it.first < it.last]
            texts[file] = without_bodies(texts.get(file) or self.text_of(file), found)
        for file, text in texts.items():
            with open(os.path.join(room, file), "w", encoding="utf-8") as to:
                to.write(text)

    def words(self, targets):
        """The command that checks the targets in a copy, past what is open."""
        return [*self.command(), "--allow-holes", *(it for target in targets for it in ("--only", target.name))]

    def below(self):
        """The libraries of the repository below it, each after those that it uses."""
        return in_order(self.name, libraries(), [])[:-1]

    def command(self):
        """The command that checks the crate in its folder or in a copy, with one job."""
        kit, uses = os.path.dirname(subprocess.run(["rt", "doc"], capture_output=True, text=True, check=True).stdout.strip()), libraries()
        main = os.path.isfile(os.path.join(self.folder, "src", "main.rt"))
        words = [f"{kit}/bin/rattle", "check", "--crate-name", self.name, "src/main.rt" if main else "src/lib.rt"]
        for it in ["std", *uses[self.name]]:
            words += ["--extern", f"{it}={self.rlib(it)}" if it in uses else f"{it}={kit}/rlibs/{it}.rlib"]
        words += [it for name in self.below() for it in ("-L", f"dependency={os.path.dirname(self.rlib(name))}")]
        words += ["-L", f"dependency={kit}/rlibs", "--antt-project", f"{kit}/rattle/logic/antt-project.json", "--logic-built", f"{kit}/logic_built"]
        return [*words, "--jobs", "1"]

    def rlib(self, name):
        return os.path.join(self.built, "crates", name, "out", "rlib", f"{name}.rlib")


def batches(crate, edits, most):
    """The edits in batches, each of at most so many, in which no function that is turned calls another one; and those that turn none."""
    found, left = [], []
    for edit in edits:
        targets = edit.touched(crate.functions, crate.text_of)
        if not targets or edit.applied(crate.text_of, targets) is None:
            left.append(edit)
            continue
        is_of_functions = edit.is_of_functions(targets)
        place = next((it for it in found if is_of_functions and it.takes(edit, targets, most)), None)
        if place is None:
            place = Batch(crate, is_of_functions)
            found.append(place)
        place.add(edit, targets)
    return found, left


class Batch:
    """Edits of a crate that are tried together."""

    def __init__(self, crate, is_open=True):
        self.crate, self.is_open, self.edits, self.texts = crate, is_open, {}, {}

    def targets(self):
        return [it for targets in self.edits.values() for it in targets]

    def text_of(self, file):
        return self.texts.get(file) or self.crate.text_of(file)

    def takes(self, edit, targets, most):
        if not self.is_open or len(self.edits) >= most or edit.applied(self.text_of, targets) is None:
            return False
        return not any(it.proof == other.proof or self.calls(it, other) or self.calls(other, it) for it in targets for other in self.targets())

    def calls(self, function, other):
        """Whether a function may call another one, by its name."""
        return re.search(rf"\b{other.path[-1]}(::<.*>)?\(", self.crate.body_of(function).split("\n", 1)[1]) is not None

    def add(self, edit, targets):
        self.texts.update(edit.applied(self.text_of, targets))
        self.edits[edit] = targets

    def run(self, is_edited=True):
        """What the check says, over the edits or over the functions as they stand."""
        with tempfile.TemporaryDirectory(prefix="wrong-bodies-") as room:
            self.crate.copy(room, self.targets(), self.texts if is_edited else {})
            return subprocess.run(self.crate.words(self.targets()), cwd=room, stdout=subprocess.PIPE, stderr=subprocess.STDOUT, text=True, errors="replace").stdout

    def verdicts(self, said):
        """What was said of each edit: `refused`, `not refused`, or `unclear`, and by what."""
        lines = said.split("\n")
        told = {it[1]: it[2] for line in lines if (it := re.match(rf"fn {self.crate.name}::(\S+): (.*)", line))}
        for edit, targets in self.edits.items():
            of = [(it, told.get(it.name) or next((why for name, why in told.items() if name.endswith(it.proof[-1])), "")) for it in targets]
            yield edit, *verdict_of(of, lines)


def verdict_of(of, lines):
    """The worst of what was said of the functions, and which of them said it."""
    for function, why in of:
        if why.startswith(("not proved", "no proof")):
            return "refused", f"{function.name}: {told_of(function, why, lines)}"
    if all(why.startswith(("no holes", "depends on a hole")) for _, why in of):
        return "not refused", "still proved"
    return "unclear", "; ".join(f"{function.name}: {why or 'nothing is said'}" for function, why in of)


def told_of(function, why, lines):
    """The first line that says what of the function isn't proved, best one that isn't about a name which the edit took away."""
    at = "/".join(function.proof)
    place = re.compile(rf"(note: )?({re.escape(function.file)}|\./proofs/{re.escape(at)}/\w+\.antt):(\d+):\d+: (.*)")
    told = []
    for found in filter(None, map(place.match, lines)):
        if found[2].startswith("./") or function.first < int(found[3]) <= function.last + 1:
            told.append(f"{found[2].removeprefix('./')}:{found[3]}: {found[4]}"[:160])
    return min(told, key=is_of_names, default=why[:160])


def is_of_names(line):
    """Whether a line says that a name is gone: of an edit that is refused so alone nothing is known of the contract."""
    return re.search(r"`goal\.[\w-]+`: module|has no field|is not in scope|has no `", line) is not None
