"""Checks of numbers in the plain Rust of the sources, for `plain.py FOLDER --cargo`: in a debug build a public call that is given a number of another
sort than its contract asks for, or one that its context never gave, panics with the call's name.

A contract says of a number what it has to be, as `requires env { IsParamEnv rounds.old.context.trees env }`. Each such clause of a public call becomes
a `debug_assert!` at the body's beginning. Clauses of another form are passed over.
"""

import os
import re

FUNCTION = re.compile(r"^(?P<at> *)(?P<pub>pub )?(?:final )?fn (?P<name>\w+)")
HOLDER = re.compile(r"^(?:pub )?(?P<kind>impl|trait)\b.*?(?P<name>\w+)(?:<[^{]*)?(?:: [^{]*)? \{$")
GOAL = re.compile(r"^\s*requires(?: \w+)? \{ IsGoal trait_kind (?P<trees>\([^)]*\)|[\w.]+) (?P<env>\w+) (?P<of>\w+) \}$")
REQUIRES = re.compile(r"^\s*requires(?: \w+)? \{ (?P<sort>Is(?:Ty|Const|Region|Args|Arg|Clause|ParamEnv)) (?P<trees>\([^)]*\)\.trees|\(trees self\.\w+\)|[\w.]+\.trees) (?P<of>[a-z][\w.]*) \}$")

MADE = re.compile(r"^\s*requires \{ \(what new\)\.making\.fits self\.old \}$")

WHOLE = "all of `new`"

# By what a call reaches the context whose trees a clause names.
CONTEXTS = [
    (re.compile(r"cx\.(?:now|old)\.trees$"), "&*cx"),
    (re.compile(r"self\.(?:now|old)\.trees$|\(trees self\.(?:now|old)\)$"), "&*self"),
    (re.compile(r"(?P<of>self|rounds)\.(?:now|old)\.context\.trees$"), "{make}::cx(&*{of})"),
    (re.compile(r"\([A-Z]\w*\.context (?P<of>ecx|make|infcx)\.old\)\.trees$"), "{make}::cx(&*{of})"),
]

HERE = os.path.dirname(os.path.abspath(__file__))


def helper():
    """What debug builds ask of numbers, as Rust, for the root of `ir_trees`."""
    with open(os.path.join(HERE, "plain", "cargo", "numbers.rs")) as given:
        return "\n" + given.read()


def reached(trees, make):
    """The expression for the context whose trees a clause names, or `None`."""
    for pattern, by in CONTEXTS:
        found = pattern.match(trees)
        if found:
            return by.format(make=make, **found.groupdict())
    return None


def asked_of(line):
    """What a clause asks to be numbers of their sorts, each with whose trees: a line of a contract may ask it of a goal's parts."""
    if MADE.match(line):
        return [("self.old.trees", WHOLE)]
    found, goal = REQUIRES.match(line), GOAL.match(line)
    if found:
        return [(found["trees"], found["of"].removesuffix(".now"))]
    if goal:
        return [(goal["trees"] + ".trees", of) for of in (goal["env"], goal["of"] + ".trait_ref.args")]
    return []


# Where a node is looked up, whether there is one, so that a check panics with its own words alone.
LOOKED_UP = [
    (
        ["ir_trees", "ir", "trees"],
        "    /// The node of a number.\n    fn node(&self, number: u32) -> &Node\n",
        "    /// Whether there is a node of that number.\n    #[doc(hidden)]\n    fn has_node(&self, number: u32) -> bool {\n        let _ = number;\n        true\n    }\n\n",
    ),
    (["ir_trees", "ir", "nodes"], "    fn node(&self, number: u32) -> &Node {\n", "    fn has_node(&self, number: u32) -> bool {\n        (number as usize) < self.rows.len()\n    }\n\n"),
    (["ir_context", "decl", "context"], "    fn node(&self, number: u32) -> &Node {\n", "    fn has_node(&self, number: u32) -> bool {\n        self.nodes.has_node(number)\n    }\n\n"),
]


NO_NODE = "            Some((node, _)) => node,\n            None => unreachable!(),\n"
TOLD_NODE = '            Some((node, _)) => node,\n            None => panic!("ir_trees::ir::trees::Trees::node: no node has the number {number}"),\n'


def with_look_ups(module, text):
    """The text in which it can be asked whether a number has a node."""
    for of, before, added in LOOKED_UP:
        if of == module:
            if text.count(before) != 1:
                raise ValueError("%s looks up nodes in another way" % "::".join(module))
            text = text.replace(before, added + before)
    return text.replace(NO_NODE, TOLD_NODE) if module == LOOKED_UP[1][0] else text


def asserted(call, below, context, of):
    """The line that asks it of a number, or of all numbers in what is to be made."""
    if of == WHOLE:
        return f'debug_assert!({below}::checks::is_made_of({context}, &new), "{call}: {{new:?}} has a number that is none of its sort in this context");'
    return f'debug_assert!({below}::checks::is_sorted({context}, {of}), "{call}: `{of}` is {{:?}}, no number of its sort in this context", {of});'


def with_checks(crate, module, text):
    """The text of a source in Rattle, where each public call checks the numbers that it is given."""
    text = with_look_ups(module, text)
    below, made = ("crate" if crate == name else name for name in ("ir_trees", "ir_context"))
    lines, holder, is_trait, taken, call = [], "", False, [], None
    for line in text.split("\n"):
        of, function = HOLDER.match(line), FUNCTION.match(line)
        if of or line == "}":
            holder, is_trait = (of["name"] + "::", of["kind"] == "trait") if of else ("", False)
        if function:
            is_public = function["pub"] or is_trait and line.startswith("    ")
            call, taken = ((function["at"], "::".join([*module, holder + function["name"]])) if is_public else None), []
        for trees, of in asked_of(line) if call else []:
            context = reached(trees, f"{made}::decl::make::Make")
            taken += [(context, of)] if context else []
        lines.append(line)
        if call and line == call[0] + "{":
            for context, of in taken:
                lines.append(call[0] + "    " + asserted(call[1], below, context, of))
            call = None
        elif call and (line.startswith(call[0] + "}") or line.endswith(";") and not line.startswith(call[0] + "  ")):
            call = None
    return "\n".join(lines)
