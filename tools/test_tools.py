#!/usr/bin/env python3
"""Tests of the tools: `python3 tools/test_tools.py`, in less than a minute.

JSON is made by hand here. What wants cargo is skipped where there is none, and what asks the program where RILGOMUT_PROGRAM doesn't name one;
RILGOMUT_STD may name a folder with the JSON of core, alloc and std, and then examples are checked with that.
"""

import contextlib
import io
import json
import os
import shutil
import subprocess
import sys
import tempfile
import unittest

HERE = os.path.dirname(os.path.abspath(__file__))
sys.path.insert(0, HERE)

from cargo_coherence.from_rustdoc import aside  # noqa: E402
from cargo_coherence.to_text import constants  # noqa: E402
import rust_to_text  # noqa: E402
from cargo_coherence.specialization import defaults  # noqa: E402
from cargo_coherence.ask.answers import Speller, is_closed, may_match, placeholders, with_fixed_constants  # noqa: E402
from cargo_coherence.from_rustdoc.cargo_json import make, packages_of  # noqa: E402
from cargo_coherence.ask.asking import lost_regions  # noqa: E402
from cargo_coherence.options import options_of  # noqa: E402
from cargo_coherence.to_text.crates import said, translate  # noqa: E402
from cargo_coherence.specialization.defaults import default_items  # noqa: E402
from dot import graph_of, read_answers, spelled  # noqa: E402
from cargo_coherence.ask.findings import Finding, Reasons, Teller, drained, read_findings  # noqa: E402
from cargo_coherence.ask.program import ask  # noqa: E402
from cargo_coherence.ask.goals import BadGoal, letters_between, read_goal  # noqa: E402
from cargo_coherence.to_text.model import Place, Term, can_be_said  # noqa: E402
from cargo_coherence.to_text.names import Names  # noqa: E402
from cargo_coherence.ask.refusals import read_refusals  # noqa: E402
from cargo_coherence.to_text.report import Report  # noqa: E402
from cargo_coherence.from_rustdoc.rust_json import Unreadable, read_crate, strip_file  # noqa: E402
from cargo_coherence.from_rustdoc.rustdoc_wrapper import seconds_of_checking  # noqa: E402
from cargo_coherence.specialization.special import Specialisation, check  # noqa: E402
from cargo_coherence.to_text.spelling import spell_abi  # noqa: E402
from cargo_coherence.from_rustdoc.toolchain import StepFailed, find_toolchain, std_json  # noqa: E402
from cargo_coherence.to_text.writer import lines, parameters, places  # noqa: E402

PROGRAM = os.environ.get("RILGOMUT_PROGRAM")
STD = os.environ.get("RILGOMUT_STD")
EXAMPLE = os.path.join(HERE, "examples", "meeting")


def path(identifier, arguments=None, name="?"):
    """A path with types for arguments."""
    shown = {"angle_bracketed": {"args": arguments, "constraints": []}} if arguments else None
    return {"path": name, "id": identifier, "args": shown}


def resolved(identifier, arguments=None, name="?"):
    """A type by its path."""
    return {"resolved_path": path(identifier, arguments, name)}


def bound(identifier, modifier="none", arguments=None):
    """A bound by a trait."""
    return {"trait_bound": {"trait": path(identifier, arguments), "generic_params": [], "modifier": modifier}}


def parameter(name, bounds=(), default=None):
    """A parameter for a type."""
    return {"name": name, "kind": {"type": {"bounds": list(bounds), "default": default, "is_synthetic": False}}}


def constant_parameter(name, of_type="usize", default=None):
    """A parameter for a constant."""
    return {"name": name, "kind": {"const": {"type": {"primitive": of_type}, "default": default}}}


def generics(*parameters, where=()):
    """Parameters and where clauses."""
    return {"params": list(parameters), "where_predicates": list(where)}


def trait(parameters=generics(), bounds=(), items=()):
    """A trait."""
    marks = {"is_auto": False, "is_unsafe": False, "is_dyn_compatible": True}
    return {"trait": dict(marks, items=list(items), generics=parameters, bounds=list(bounds), implementations=[])}


def struct(parameters=generics(), fields=()):
    """A struct without names of fields."""
    return {"struct": {"kind": {"tuple": list(fields)}, "generics": parameters, "impls": []}}


def impl(reference, own, parameters=generics(), items=()):
    """An impl of a trait."""
    marks = {"is_unsafe": False, "is_negative": False, "is_synthetic": False, "blanket_impl": None}
    return {"impl": dict(marks, generics=parameters, trait=reference, items=list(items), **{"for": own})}


class Made:
    """A crate of JSON, item by item."""

    def __init__(self, name, number=57, attributes=()):
        self.data = {"format_version": number, "root": 0, "includes_private": True, "index": {}, "paths": {}, "external_crates": {}}
        self.name = name
        self.add(0, "module", {"module": {"items": []}}, name, attributes)
        self.data["paths"]["0"]["path"] = [name]

    def add(self, identifier, kind, inner, shown=None, attributes=()):
        """Adds an item of this crate, with a path if it has a name."""
        span = {"filename": "src/lib.rs", "begin": [identifier + 1, 1], "end": [identifier + 1, 999]}
        item = {"id": identifier, "crate_id": 0, "name": shown, "span": span, "attrs": [{"other": a} for a in attributes], "inner": inner}
        self.data["index"][str(identifier)] = item
        if shown and kind not in ("assoc_type", "struct_field"):
            self.data["paths"][str(identifier)] = {"crate_id": 0, "path": [self.name, shown], "kind": kind}

    def external(self, identifier, crate, parts, kind):
        """Adds the path of an item of another crate."""
        self.data["external_crates"].setdefault(crate[0], {"name": crate[1], "path": "lib%s-1.rmeta" % crate[1]})
        self.data["paths"][str(identifier)] = {"crate_id": crate[0], "path": [crate[1]] + parts, "kind": kind}

    def write(self, folder):
        """Writes the file. Answers its name."""
        file = os.path.join(folder, self.name + ".json")
        with open(file, "w", encoding="utf-8") as target:
            json.dump(self.data, target)
        return file


def made_core():
    """A crate that stands for core."""
    core = Made("core")
    core.add(1, "trait", trait(), "Sized", ["#[attr = Lang(Sized)]", "#[attr = Fundamental]"])
    core.add(2, "trait", trait(bounds=[bound(1)]), "Clone", ["#[attr = Lang(Clone)]"])
    core.add(3, "trait", trait(), "Display")
    core.add(4, "struct", struct(generics(parameter("T"), parameter("A", default=resolved(5)))), "Vec")
    core.add(5, "struct", struct(), "Global")
    core.add(6, "impl", impl(path(2), {"primitive": "u8"}))
    auto = trait()
    auto["trait"]["is_auto"] = True
    core.add(8, "trait", auto, "Send")
    core.add(11, "trait", trait(), "Mark", ["#[attr = Marker]"])
    core.add(9, "impl", impl(path(8), resolved(4, [{"type": {"primitive": "u8"}}])))
    both = [{"type": {"generic": "T"}}, {"type": {"generic": "A"}}]
    core.add(10, "impl", impl(path(8), resolved(4, both), generics(parameter("T"), parameter("A"))))
    core.add(7, "impl", impl(path(2), resolved(4, [{"type": {"generic": "T"}}]), generics(parameter("T", [bound(2)]))))
    return core


def made_user():
    """A crate that uses it: two impls that meet, a header with a constant that is no literal, and an associated type."""
    user = Made("user")
    user.external(100, (1, "core"), ["Display"], "trait")
    user.external(101, (1, "core"), ["Vec"], "struct")
    user.external(102, (1, "core"), ["Sized"], "trait")
    user.external(103, (2, "lost"), ["Thing"], "struct")
    user.add(1, "trait", trait(items=[2]), "Show")
    user.add(2, "assoc_type", {"assoc_type": {"generics": generics(), "bounds": [bound(102, "maybe")], "type": None}}, "Out")
    user.add(3, "impl", impl(path(1), {"generic": "T"}, generics(parameter("T", [bound(100)]))))
    user.add(4, "impl", impl(path(1), resolved(101, [{"type": {"primitive": "u8"}}], "Vec"), items=[5]))
    user.add(5, "assoc_type", {"assoc_type": {"generics": generics(), "bounds": [], "type": {"primitive": "bool"}}}, "Out")
    user.add(6, "trait", trait(generics(constant_parameter("N"))), "Sized16")
    user.add(7, "impl", impl(path(6, [{"const": {"expr": "0x10", "value": None, "is_literal": True}}]), {"primitive": "u8"}))
    user.add(8, "impl", impl(path(6, [{"const": {"expr": "LIMIT", "value": None, "is_literal": False}}]), {"primitive": "u8"}))
    user.add(9, "impl", impl(path(1), {"generic": "T"}, generics(parameter("T", [bound(102, "maybe"), bound(103)]))))
    user.add(10, "impl", impl(path(100), {"tuple": [resolved(103)]}))
    add_constants_and_functions(user)
    return user


def function(inputs, output=None, abi="Rust", is_unsafe=False, is_variadic=False, regions=()):
    """A function pointer."""
    header = {"is_const": False, "is_unsafe": is_unsafe, "is_async": False, "abi": abi}
    signature = {"inputs": [["_", shown] for shown in inputs], "output": output, "is_c_variadic": is_variadic}
    return {"function_pointer": {"sig": signature, "generic_params": binder(*regions), "header": header}}


def binder(*regions):
    """The parameters of a `for<..>`."""
    return [{"name": name, "kind": {"lifetime": {"outlives": []}}} for name in regions]


def reference(own, lifetime=None, is_mutable=False):
    """A reference."""
    return {"borrowed_ref": {"lifetime": lifetime, "is_mutable": is_mutable, "type": own}}


def called_bound(inside, *regions):
    """A bound by the trait `Called`, of a tuple with this type."""
    return {"trait_bound": {"trait": path(29, [{"type": {"tuple": [inside]}}]), "generic_params": binder(*regions), "modifier": "none"}}


def add_constants_and_functions(user):
    """Impls of `Display` for arrays and function pointers, and one with binders in its clauses."""
    byte, own = {"primitive": "u8"}, {"generic": "T"}
    table = generics(parameter("T"), constant_parameter("A", "char", "'\\u{1}'"), constant_parameter("B", "i8", "-3"))
    user.add(28, "struct", struct(table), "Table")
    user.add(29, "trait", trait(generics(parameter("A"))), "Called")
    of_table = resolved(28, [{"type": own}, {"const": {"expr": "'\\x01'", "value": None}}, {"const": {"expr": "{ N }", "value": None}}], "Table")
    user.add(11, "impl", impl(path(100), {"array": {"type": of_table, "len": "N"}}, generics(parameter("T"), constant_parameter("N"))))
    user.add(12, "impl", impl(path(100), {"array": {"type": byte, "len": "0x1_0000_0000_0000_0000"}}))
    called = path(29, [{"type": {"tuple": [reference(byte, "'x")]}}])
    inner = function([reference(byte, "'a", True), reference(byte)])
    owns = [
        function([byte], abi={"C": {"unwind": False}}, is_unsafe=True, is_variadic=True),
        function([byte], abi={"C": {"unwind": True}}),
        function([reference(byte)], reference(byte)),
        function([reference(byte), reference(byte, is_mutable=True)], reference(byte)),
        function([inner], reference({"primitive": "bool"}, "'a"), regions=["'a"]),
        {"dyn_trait": {"lifetime": None, "traits": [{"generic_params": binder("'x"), "trait": called}]}},
        function([reference(byte, "'a")], reference(byte), regions=["'a"]),
    ]
    refers = {"params": [*binder("'r"), parameter("T")], "where_predicates": []}
    user.add(31, "type_alias", {"type_alias": {"type": reference({"generic": "T"}, "'r"), "generics": refers}}, "Refers")
    refers_to = resolved(31, [{"lifetime": "'a"}, {"type": byte}], "Refers")
    user.add(30, "impl", impl(path(100), function([reference(byte, "'b"), function([refers_to])], regions=["'a", "'b"])))
    for at, shown in enumerate(owns, 20):
        user.add(at, "impl", impl(path(100), shown))
    of_reference = {"name": "Out", "args": None, "self_type": reference(byte), "trait": path(1)}
    user.add(32, "impl", impl(path(100), function([{"qualified_path": of_reference}])))
    user.add(33, "impl", impl(path(100), function([reference({"infer": None})])))
    bounds = [called_bound(byte), called_bound(reference(function([reference(own, "'b")]), "'b"), "'b")]
    where = [{"bound_predicate": {"type": reference(own, "'a"), "bounds": bounds, "generic_params": binder("'a")}}]
    parameters_and_clauses = generics(parameter("T", [called_bound(reference(own), "'b")]), where=where)
    user.add(27, "impl", impl(path(29, [{"type": byte}]), own, parameters_and_clauses))


SPECIAL = """pub trait Show { fn show(&self); }
impl<T: Clone> Show for T { default fn show(&self) {} }
impl Show for u8 { fn show(&self) {} }
impl<T: Clone> Show for Vec<T> { fn show(&self) {} }
impl Show for Vec<Global> { fn show(&self) {} }
"""


def made_special(attributes):
    """A crate with the impls of `SPECIAL`, each in its line."""
    special = Made("special", attributes=attributes)
    special.external(100, (1, "core"), ["Clone"], "trait")
    special.external(101, (1, "core"), ["Vec"], "struct")
    special.external(102, (1, "core"), ["Global"], "struct")
    special.add(20, "function", {"function": {}}, "show")
    special.add(9, "trait", trait(items=[20]), "Show")
    is_clone = generics(parameter("T", [bound(100)]))
    special.add(1, "impl", impl(path(9), {"generic": "T"}, is_clone, [20]))
    special.add(2, "impl", impl(path(9), {"primitive": "u8"}, items=[20]))
    special.add(3, "impl", impl(path(9), resolved(101, [{"type": {"generic": "T"}}]), is_clone, [20]))
    special.add(4, "impl", impl(path(9), resolved(101, [{"type": resolved(102)}]), items=[20]))
    return special


def refused(code, file, lines):
    """A message of rustc as the wrapper leaves it, which names these lines."""
    place = {"file_name": file, "column_start": 1, "column_end": 2}
    spans = [dict(place, line_start=line, line_end=line, is_primary=i == 0) for i, line in enumerate(lines)]
    return {"code": {"code": code}, "level": "error", "message": "words", "spans": spans, "children": []}


class Texts(unittest.TestCase):
    """From JSON to a text."""

    def setUp(self):
        self.folder = tempfile.mkdtemp()
        self.addCleanup(shutil.rmtree, self.folder)
        self.files = [made_core().write(self.folder), made_user().write(self.folder)]
        self.report = Report()
        crates = [read_crate(file) for file in self.files]
        self.user = crates[-1]
        self.translator = translate(crates, "user", self.report)
        self.lines = list(lines(self.translator.world))

    def test_declarations(self):
        for line in ("adt 1 Vec 2", "trait 0 Show 0 dyn", "assoc Show Show_Out", "lang Sized Sized", "super Clone Sized #0"):
            self.assertIn(line, self.lines)
        self.assertNotIn("bound Show_Out Sized Show_Out #0", self.lines)

    def test_impls(self):
        self.assertIn("impl 0 impl_user_3 1 + Show #0", self.lines)
        self.assertIn("iwhere impl_user_3 Sized #0", self.lines)
        self.assertIn("iwhere impl_user_3 Display #0", self.lines)
        self.assertIn("impl 0 impl_user_4 0 + Show Vec u8 Global", self.lines)
        self.assertIn("value impl_user_4 Show_Out bool", self.lines)

    def test_constants(self):
        self.assertIn("trait 0 Sized16 c dyn", self.lines)
        self.assertIn("impl 0 impl_user_7 0 + Sized16 u8 16", self.lines)
        self.assertIn("impl 0 impl_user_8 c + Sized16 u8 #0", self.lines)
        self.assertIn("impl 0 impl_user_11 tc + Display [#1] Table #0 1 #1", self.lines)
        self.assertIn("adt 0 Table tcc", self.lines)
        self.assertIn("impl 0 impl_user_12 c + Display [#0] u8", self.lines)
        self.assertEqual(places(self.translator.world)["names"]["Table"]["defaults"], [None, "1", "18446744073709551613"])

    def test_functions_and_binders(self):
        for number, own in (
            (20, "unsafe extern fn(1..) u8 (0)"),
            (21, "Fn_C_unwind_1 u8 (0)"),
            (22, "for(1) fn(1) & '0 u8 & '0 u8"),
            (23, "for(2) fn(2) & '0 u8 &mut '1 u8 & u8"),
            (24, "for(1) fn(1) for(1) fn(2) &mut '1.0 u8 & '0 u8 (0) & '0 bool"),
            (25, "dyn(1) for(1) Called (1) & '0 u8"),
            (26, "for(1) fn(1) & '0 u8 & '0 u8"),
            (30, "for(2) fn(2) & '0 u8 fn(1) & '1.1 u8 (0) (0)"),
        ):
            self.assertIn("impl 0 impl_user_%d 0 + Display %s" % (number, own), self.lines)
        written = list(lines(self.translator.world, for_check=False))
        self.assertIn("iwhere impl_user_27 for(1) Called & '0 #0 (1) u8", written)
        self.assertIn("iwhere impl_user_27 for(2) Called & '0 #0 (1) & '1 fn(1) & '1.1 #0 (0)", written)
        self.assertIn("iwhere impl_user_27 Called #0 (1) & #0", written)
        self.assertIn("iwhere impl_user_27 Called & #0 (1) & fn(1) & #0 (0)", self.lines)
        for number in (32, 33):  # what can't be said may have a region of the binder
            self.assertIn("impl 0 impl_user_%d 1 + Display #0" % number, self.lines)

    def test_what_cannot_be_said(self):
        self.assertEqual(self.report.count("where clause left out"), 1)
        self.assertEqual(self.report.count("part of a header read as any type"), 4)
        self.assertEqual(self.report.count("read as a data type without fields"), 1)
        self.assertIn("impl 0 impl_user_10 0 + Display (1) Thing", self.lines)
        self.assertEqual([line for line in self.lines if line.startswith("iwhere impl_user_9")], [])
        self.assertEqual(said(self.translator, self.report), "19 of 23 impls could be said (4 with a part that is any type)")

    def test_marker(self):
        self.assertIn("trait 1 Mark 0 dyn marker", self.lines)

    def test_part_of_a_head(self):
        self.assertIn("trait 1 Send 0 auto dyn by_head", self.lines)
        self.assertIn("impl 1 impl_core_9 0 + Send Vec u8 Global", self.lines)
        self.assertIn("impl 1 impl_core_10 2 + Send Vec #0 #1", self.lines)

    def test_places(self):
        found = places(self.translator.world)
        self.assertEqual(found["impls"]["impl_user_3"]["header"], "impl<T: ?> ? for T")
        self.assertEqual(found["impls"]["impl_user_3"]["line"], 4)
        self.assertEqual(found["names"]["Vec"]["path"], "core::Vec")
        self.assertEqual(found["names"]["Vec"]["defaults"], [None, "Global"])

    def test_command_line(self):
        written, said = io.StringIO(), io.StringIO()
        with contextlib.redirect_stdout(written), contextlib.redirect_stderr(said):
            status = rust_to_text.main(self.files + ["--quiet", "--places", os.path.join(self.folder, "places")])
        self.assertEqual(status, 0)
        self.assertEqual(written.getvalue().splitlines(), self.lines)
        self.assertTrue(said.getvalue().endswith("19 of 23 impls could be said (4 with a part that is any type)\n"))

    def test_formats(self):
        for number, status in ((56, 0), (57, 0), (58, 2), (45, 2)):
            file = Made("other", number).write(self.folder)
            said = io.StringIO()
            with contextlib.redirect_stdout(io.StringIO()), contextlib.redirect_stderr(said):
                self.assertEqual(rust_to_text.main([file]), status)
            if status:
                self.assertEqual(len(said.getvalue().splitlines()), 1)
                self.assertIn("format %d isn't read" % number, said.getvalue())

    def test_json_of_another_form(self):
        made = Made("other")
        made.add(1, "struct", {"struct": {"generics": generics()}}, "Changed")
        made.data["index"]["1"]["span"] = "none"
        with self.assertRaisesRegex(Unreadable, "other.json: it has another form than format 57"):
            read_crate(made.write(self.folder))

    def test_strip(self):
        file = made_user().write(self.folder)
        with open(file, encoding="utf-8") as source:
            data = json.load(source)
        data["index"]["900"] = {"id": 900, "crate_id": 0, "name": "f", "span": None, "attrs": [], "docs": "words", "inner": {"function": {}}}
        data["index"]["4"]["docs"] = "words"
        with open(file, "w", encoding="utf-8") as target:
            json.dump(data, target)
        stripped = os.path.join(self.folder, "stripped.json")
        strip_file(file, stripped)
        with open(stripped, encoding="utf-8") as source:
            self.assertNotIn("words", source.read())
        translator = translate([read_crate(self.files[0]), read_crate(stripped)], "user", Report())
        self.assertEqual(list(lines(translator.world)), self.lines)

    def test_no_json(self):
        file = os.path.join(self.folder, "bad.json")
        with open(file, "w", encoding="utf-8") as target:
            target.write("[1, 2")
        with self.assertRaises(Unreadable):
            read_crate(file)

    def test_goals(self):
        for goal, words in (
            ("Vec<u8>: Clone", "Clone Vec u8 Global"),
            ("&'a mut [Vec<_>; 3]: Clone", "Clone &mut [3] Vec $0 Global"),
            ("[u8; 18446744073709551615]: Sized16<0x1f>", "Sized16 [18446744073709551615] u8 31"),
            ("Table<u8, 'a', -128>: Clone", "Clone Table u8 97 18446744073709551488"),
            ("Table<u8>: Called(u8)", "Called Table u8 1 18446744073709551613 (1) u8"),
            ("unsafe extern \"C\" fn(u8, ...) -> !: Clone", "Clone unsafe extern fn(1..) u8 !"),
            ("for<'a> fn(&'a u8, &u8) -> &'a bool: Clone", "Clone for(2) fn(2) & '0 u8 & '1 u8 & '0 bool"),
            ("dyn for<'b> Called<&'b mut u8>: Clone", "Clone dyn(1) for(1) Called &mut '0 u8"),
            ("(u8, core::Vec<bool>): crate::Show", "Show (2) u8 Vec bool Global"),
            ("dyn Show<Out = fn(u8, !) -> *const str>: Display", "Display dyn(2) Show Show_Out fn(2) u8 ! *const str"),
            ("<Vec<u8> as Show>::Out: Clone", "Clone Show_Out Vec u8 Global"),
        ):
            self.assertEqual(read_goal(goal, self.translator, self.user).clause.words(), words)
        for goal in ("Vec<u8>", "Vec<u8> Clone", "Lost: Clone", "Vec<u8>: Vec", "Vec<u8: Clone"):
            with self.assertRaises(BadGoal):
                read_goal(goal, self.translator, self.user)
        for goal in ("[u8; _]: Clone", "Table<u8, _>: Clone", "u8: Sized16<_>"):
            with self.assertRaisesRegex(BadGoal, "a goal can't ask for a constant"):
                read_goal(goal, self.translator, self.user)
        for goal, words in (
            ("Vec<3>: Clone", "a constant for a type"),
            ("u8: Sized16<u8>", "a type for a constant"),
            ("u8: Sized16<-1>", "`-1` is no `usize`"),
            ("Table<u8, 97>: Clone", "`97` is no `char`"),
            ("Table<u8, 'a', 128>: Clone", "`128` is no `i8`"),
        ):
            with self.assertRaisesRegex(BadGoal, words):
                read_goal(goal, self.translator, self.user)

    def test_parts_of_goals(self):
        goal = read_goal("for<'a> &'a u8: Show<Out = bool>", self.translator, self.user)
        self.assertEqual((goal.clause.words(), goal.has_binder), ("Show & u8", True))
        self.assertEqual([(alias.words(), wanted.words()) for alias, wanted in goal.equal], [("Show_Out & u8", "bool")])

    def test_suggestions(self):
        for goal, words in (
            ("Vec<u8>: Dispaly", "no trait `Dispaly`; did you mean `core::Display`?"),
            ("Vce<u8>: Display", "no type `Vce`; did you mean `core::Vec`?"),
            ("u9: Display", "no type `u9`; did you mean `u8`?"),
            ("u8: lost::Shwo", "no trait `lost::Shwo`; did you mean `user::Show`?"),
            ("u8: lost::Show", "no trait `lost::Show`; did you mean `user::Show`?"),
            ("u8: Nothing", "no trait `Nothing`"),
            ("Show: Table<u8>", "`Show` is a trait, and a type is wanted; `Table` is a type, and a trait is wanted"),
            ("Show: Clone", "`Show` is a trait, and a type is wanted"),
            ("u8: Vec", "`Vec` is a type, and a trait is wanted"),
            ("u8: u16", "`u16` is a type, and a trait is wanted"),
            ("Vec<u8> Clone", "`:` is expected where `Clone` stands"),
            ("Vec<u8>: Clone 3", "the end is expected where `3` stands"),
            ("Vec<u8>: ", "a name is expected where the end stands"),
        ):
            with self.assertRaises(BadGoal) as raised:
                read_goal(goal, self.translator, self.user)
            self.assertEqual(str(raised.exception), words)

    def test_floods(self):
        impls = {written.named.name: written for written in self.translator.world.impls}
        own, other, second = (impls[name] for name in ("impl_user_3", "impl_core_7", "impl_core_6"))
        found = [Finding("orphan", own, None, ""), Finding("maybe", own, other, ""), Finding("overlap", own, second, ""), Finding("overlap", own, own, "")]
        kept, floods = drained(found)
        self.assertEqual((kept, [flood.count for flood in floods]), ([found[0], found[3]], [2]))
        self.assertEqual(floods[0].words(), "it overlaps 2 impls of other crates, too")
        self.assertEqual(drained(found[1:]), (found[1:], []))
        self.assertEqual(drained(found[:2])[1][0].words(), "it may overlap 1 impl of another crate, too")

    def test_order(self):
        impls = {written.named.name: written for written in self.translator.world.impls}
        answers = ["impl impl_%s (line 1) and impl impl_%s (line 2): overlap Show u8" % pair for pair in (("user_7", "user_4"), ("core_7", "user_4"))]
        found = read_findings(answers, impls)
        self.assertEqual([finding.first.named.name for finding in found], ["impl_user_4", "impl_user_4"])

    def test_reasons(self):
        speller = Speller(places(self.translator.world)["names"])
        impls = {written.named.name: written for written in self.translator.world.impls}
        finding = read_findings(["impl impl_user_32 (line 1) and impl impl_user_33 (line 2): maybe Display u8"], impls)[0]
        self.assertEqual((Reasons(speller, []).queries([finding]), len(finding.reasons)), ([], 2))
        bare = Finding("maybe", impls["impl_core_6"], impls["impl_core_6"], "Clone u8")
        self.assertEqual((Reasons(speller, []).queries([bare]), bare.reasons), ([], ["no where clause keeps them apart"]))

    def test_order_of_goals(self):
        options = options_of(["coherence", "--why", "A: B", "--candidates", "C: D", "--ask", "E: F"])
        self.assertEqual(options.goals, [("why", "A: B"), ("candidates", "C: D"), ("why", "E: F")])
        self.assertEqual(options_of(["--cache", "made"]).cache, os.path.abspath("made"))

    def test_spelling_of_answers(self):
        speller = Speller(places(self.translator.world)["names"])
        for words, spelled in (
            ("Vec u8 Global", "Vec<u8>"),
            ("Vec $0 $1", "Vec<T, U>"),
            ("&mut [16] (1) u8", "&mut [(u8,); 16]"),
            ("[$1] [!2] $0", "[[T; V]; U]"),
            ("Table u8 97 0", "Table<u8, 'a', 0>"),
            ("Table u8 1 18446744073709551613", "Table<u8>"),
            ("Table u8 1 18446744073709551612", "Table<u8, 1, -4>"),
            ("unsafe extern fn(1..) u8 (0)", 'unsafe extern "C" fn(u8, ...)'),
            ("for(1) fn(2) & '0 u8 for(1) fn(1) &mut '1.0 u8 & '0 bool & 'static u8", "for<'a> fn(&'a u8, for<'b> fn(&'a mut u8) -> &'b bool) -> &u8"),
            ("dyn(1) for(1) Called & '0 u8", "dyn for<'a> Called<&'a u8>"),
            ("&mut '!3 u8", "&mut u8"),
            ("dyn(2) Show Show_Out fn(1) u8 (0)", "dyn Show<Out = fn(u8)>"),
            ("Show_Out Vec u8 Global", "<Vec<u8> as Show>::Out"),
        ):
            self.assertEqual(speller.spell(speller.type_at(words.split(), 0)[0]), spelled)
        for words, spelled in (("Sized16 u8 16", "u8: Sized16<16>"), ("for(1) Called & '0 u8 & '0 bool", "for<'a> &'a u8: Called<&'a bool>")):
            clause, end = speller.clause_at(words.split(), 0)
            self.assertEqual((speller.spell_clause(clause), end), (spelled, len(words.split())))
            self.assertEqual(clause.words(), words)

    def test_questions(self):
        names = places(self.translator.world)["names"]
        speller = Speller(names)
        for words, asked in (
            ("Sized16 [$1] Table $0 $2 $3 $4", "Sized16 [!1] Table $0 !2 !3 !4"),
            ("Called fn(1) [$0] $1 $1 $2", "Called fn(1) [!0] $1 $1 $2"),
            ("Show_Out [$0] $1 [$0] u8", "Show_Out [!0] $1 [!0] u8"),
        ):
            self.assertEqual(with_fixed_constants(speller.clause_at(words.split(), 0)[0], names).words(), asked)
        self.assertEqual(placeholders("Called [!1] & '!0 !2 !"), ["!1", "!2"])
        for words, answer in (("& '0 u8", False), ("for(1) fn(1) & '0 u8 (0)", True), ("fn(1) & '1.0 u8 (0)", False), ("[$0] u8", False)):
            self.assertEqual(is_closed(speller.type_at(words.split(), 0)[0]), answer)

    def test_findings(self):
        impls = {written.named.name: written for written in self.translator.world.impls}
        for second, kind in (("impl_user_4", "overlap"), ("impl_user_9", "maybe")):
            answer = "impl impl_user_3 (line 1) and impl %s (line 2): overlap Show u8" % second
            self.assertEqual([finding.kind for finding in read_findings([answer], impls)], [kind])
        leak = read_findings(["impl impl_user_3 (line 1) and impl impl_user_4 (line 2): lint leak Show u8"], impls)[0]
        self.assertEqual((leak.kind, leak.answer), ("maybe", "Show u8"))
        self.assertEqual([impls["impl_user_%d" % number].is_whole() for number in (3, 8, 9, 27)], [True, False, False, False])

    def test_lints(self):
        impls = {written.named.name: written for written in self.translator.world.impls}
        teller = Teller(Speller(places(self.translator.world)["names"]))
        place = "src/lib.rs:4: impl<T: ?> ? for T: "
        for answer, kind, told in (
            ("lint orphan uncovered Show_Out $0 local Thing", "lint", "lint uncovered_param_in_projection: <T as Show>::Out stands alone before the first type of this crate, Thing"),
            ("orphan uncovered $0 local none", "orphan", "orphan rule: T stands alone, and no type is of this crate"),
            ("orphan nonlocal", "orphan", "orphan rule: no local type: the trait isn't of this crate, and an associated type may be any type"),
        ):
            finding = read_findings(["impl impl_user_3 (line 1): " + answer], impls)[0]
            self.assertEqual((finding.kind, teller.tell(finding)), (kind, place + told))

    def test_may_match(self):
        names = places(self.translator.world)["names"]
        header = read_goal("Vec<<u8 as Show>::Out>: Clone", self.translator, self.user).clause
        for goal, answer in (("Vec<bool>: Clone", True), ("_: Clone", True), ("u8: Clone", False), ("Vec<bool>: Show", False)):
            self.assertEqual(may_match(header, read_goal(goal, self.translator, self.user).clause, names), answer)

    def test_refusals(self):
        impls = {written.named.name: written for written in self.translator.world.impls}
        first, second = impls["impl_user_3"], impls["impl_user_4"]
        places = [written.named.place for written in (second, first)]
        package = os.path.join(self.folder, "package.json")
        both = refused("E0119", places[0].file, [place.line for place in places])
        messages = [both, both, refused("E0119", places[0].file, [places[0].line, 99]), refused("E0210", places[0].file, [places[0].line])]
        with open(package[:-len(".json")] + ".refused.json", "w", encoding="utf-8") as target:
            json.dump(messages, target)
        read = read_refusals(package)
        self.assertEqual([refusal.is_of("E0119", second, first) for refusal in read], [True, False, False])
        self.assertEqual([refusal.is_of("E0119", first, second) for refusal in read], [False, False, False])
        self.assertTrue(read[2].is_of("E0210", second, None))

    @unittest.skipUnless(PROGRAM, "RILGOMUT_PROGRAM names no program")
    def test_program(self):
        printed = ask(PROGRAM, "\n".join(self.lines) + "\n", ["check *"])
        pairs = {tuple(word for word in line.split() if word.startswith("impl_")) for line in printed}
        self.assertIn(("impl_user_3", "impl_user_4"), pairs)
        self.assertIn(("impl_user_7", "impl_user_8"), pairs)


class TestFiles(unittest.TestCase):
    """The program `rilgomut` over several files."""

    @unittest.skipUnless(PROGRAM, "RILGOMUT_PROGRAM names no program")
    def test_lines_of_files(self):
        with tempfile.TemporaryDirectory() as folder:
            texts = {"traits": "trait 0 Show 0\ntrait 0 Print 0", "none": "", "impls": "impl 0 a 0 + Show u8\nimpl 0 b 0 + Shw u8\n"}
            names = [os.path.join(folder, name) for name in texts]
            for name, text in zip(names, texts.values()):
                with open(name, "w", encoding="utf-8") as target:
                    target.write(text)
            ran = subprocess.run([PROGRAM, *names], stdout=subprocess.PIPE, stderr=subprocess.PIPE, text=True, check=False)
        self.assertEqual((ran.returncode, ran.stdout), (2, "line 4: unknown name Shw\n"))
        said = ran.stderr.splitlines()
        self.assertEqual(said[1:], ["%s has lines 1 to 2" % names[0], "%s has lines 3 to 4" % names[2]])
        self.assertTrue(said[0].startswith("line 4, column 14: expected the name of a trait"), said[0])


def over(region):
    """The trait `Over` with a region."""
    return path(1, [{"lifetime": region}], "Over")


def made_regions():
    """A crate of impls with binders whose regions have no words."""
    made = Made("regions")
    made.external(100, (1, "core"), ["Clone"], "trait")
    made.add(1, "trait", trait({"params": binder("'a"), "where_predicates": []}), "Over")
    made.add(2, "struct", struct({"params": binder("'a"), "where_predicates": []}), "Ref")
    made.add(3, "struct", struct(), "Bar")
    made.add(7, "struct", struct(), "Foo")
    made.add(16, "impl", impl(over("'static"), resolved(7)))
    made.add(4, "trait", trait(), "Show")
    made.add(5, "trait", trait(), "Other")
    refers = {"params": binder("'r"), "where_predicates": []}
    made.add(6, "type_alias", {"type_alias": {"type": resolved(2, [{"lifetime": "'r"}]), "generics": refers}}, "Refers")
    made.add(10, "impl", impl(over("'static"), resolved(3)))
    own = {"generic": "T"}
    of_all = {"trait_bound": {"trait": over("'a"), "generic_params": binder("'a"), "modifier": "none"}}
    made.add(11, "impl", impl(path(4), own, generics(parameter("T", [of_all]))))
    made.add(12, "impl", impl(path(4), resolved(3)))
    made.add(13, "impl", impl(path(5), own, generics(parameter("T", [bound(4)]))))
    made.add(14, "impl", impl(path(5), resolved(7)))
    of_own = {"type": own, "generic_params": binder("'a"), "bounds": [{"trait_bound": dict(of_all["trait_bound"], generic_params=[])}]}
    made.add(15, "impl", impl(path(4), {"slice": own}, generics(parameter("T"), where=[{"bound_predicate": of_own}])))
    kept = {"lifetime": None, "traits": [{"generic_params": [], "trait": over("'static")}]}
    owns = [
        function([resolved(2)]),
        function([resolved(2, [{"lifetime": "'static"}])]),
        function([resolved(2, [{"lifetime": "'a"}])], regions=["'a"]),
        function([resolved(6)]),
        {"dyn_trait": {"lifetime": None, "traits": [{"generic_params": binder("'a"), "trait": over("'a")}]}},
        {"dyn_trait": kept},
        function([reference({"dyn_trait": kept})]),
        function([reference({"dyn_trait": dict(kept, lifetime="'static")})]),
        function([reference({"primitive": "u8"})], abi={"System": {"unwind": False}}),
        function([{"primitive": "u8"}], abi={"System": {"unwind": False}}),
    ]
    for at, shown in enumerate(owns, 20):
        made.add(at, "impl", impl(path(100), shown))
    return made


class Regions(unittest.TestCase):
    """Binders whose regions have no words."""

    def setUp(self):
        self.folder = tempfile.mkdtemp()
        self.addCleanup(shutil.rmtree, self.folder)
        crates = [read_crate(made.write(self.folder)) for made in (made_core(), made_regions())]
        self.regions = crates[-1]
        self.translator = translate(crates, "regions", Report())
        self.impls = {written.named.name: written for written in self.translator.world.impls}

    def test_is_whole(self):
        whole = [number for number in range(10, 30) if "impl_regions_%d" % number in self.impls and self.impls["impl_regions_%d" % number].is_whole()]
        self.assertEqual(whole, [10, 12, 13, 14, 16, 21, 25, 27, 29])

    @unittest.skipUnless(PROGRAM, "RILGOMUT_PROGRAM names no program")
    def test_findings(self):
        checked = check(PROGRAM, "\n".join(lines(self.translator.world)) + "\n", self.translator, self.folder)
        kinds = {(finding.first.named.name[-2:], finding.second.named.name[-2:]): finding.kind for finding in checked.found if finding.second}
        for pair, kind in ((("11", "12"), "maybe"), (("13", "14"), "maybe"), (("20", "21"), "maybe"), (("24", "25"), "maybe"), (("26", "27"), "maybe")):
            self.assertEqual(kinds[pair], kind, pair)
        reasons = next(finding.reasons for finding in checked.found if finding.first.named.name == "impl_regions_13")
        self.assertTrue(reasons[0].startswith("Foo: Show holds by an impl of which a part is left out"), reasons)

    def test_goals(self):
        clause = Term("Over", (Term("Bar"),))
        impls = list(self.impls.values())
        self.assertEqual(lost_regions(clause, ["yes misc", "  1 Over Bar: impl impl_regions_10"], impls), [])
        found = lost_regions(Term("Over", clause.arguments, 0, True), ["yes misc", "  1 Show Bar: impl impl_regions_11 from 2"], impls)
        goals = ("fn(Ref<'_>): Over", "fn(Refers): Over", "fn(Ref<'static>): Over<'static>", "fn(&(dyn Show + 'static)): Over", "fn(&dyn Show): Over")
        asked = [read_goal(goal, self.translator, self.regions).clause for goal in goals]
        self.assertEqual([goal.loses_region() for goal in asked], [True, True, False, False, True])
        self.assertEqual(["goal" in found[0], "impl<T: " in found[1], len(found)], [True, True, 2])


class Special(unittest.TestCase):
    """Which impl specialises which."""

    def setUp(self):
        self.folder = tempfile.mkdtemp()
        self.addCleanup(shutil.rmtree, self.folder)
        os.makedirs(os.path.join(self.folder, "src"))

    def write(self, source):
        """Writes what the crates of these tests consist of."""
        with open(os.path.join(self.folder, "src", "lib.rs"), "w", encoding="utf-8") as file:
            file.write(source)

    def read(self, attributes):
        """A translator of the crate."""
        crates = [read_crate(made.write(self.folder)) for made in (made_core(), made_special(attributes))]
        return translate(crates, "special", Report())

    def test_default_items(self):
        self.write(
            "macro_rules! more { () => { default unsafe fn b() {} default type X = u8; fn c() {} } }\n"
            "macro_rules! whole { ($t:ty) => { impl A for $t { default fn b() {} fn c() {} } } }\n"
            "mod m { impl A for u8 { more! {} default fn a() { fn d() {} } fn d() {} default const fn e() {} } }\n"
            "whole! { u16 }\n"
        )
        for span, names in (((3, 9, 3, 98), {"a", "b", "X", "e"}), ((4, 1, 4, 14), {"b"}), ((9, 1, 9, 2), set())):
            self.assertEqual(default_items(Place("src/lib.rs", span[0], "", span), self.folder), names)
        self.assertEqual(default_items(Place("src/none.rs", 1, "", (1, 1, 1, 9)), self.folder), set())

    def test_without_the_feature(self):
        self.write(SPECIAL)
        translator = self.read(["#[attr = Feature([negative_impls#0])]"])
        impls = translator.world.impls
        found = [Finding("maybe", impls[-1], impls[-2], "")]
        self.assertEqual(Specialisation("no program", translator, self.folder).find(found), [])

    @unittest.skipUnless(PROGRAM, "RILGOMUT_PROGRAM names no program")
    def test_specializes(self):
        self.write(SPECIAL)
        translator = self.read(["#[attr = Feature([negative_impls#0,\nmin_specialization#0])]"])
        checked = check(PROGRAM, "\n".join(lines(translator.world)) + "\n", translator, self.folder)
        names = {(special.named.name, general.named.name) for special, general in checked.pairs}
        self.assertEqual(names, {("impl_special_2", "impl_special_1"), ("impl_special_3", "impl_special_1")})
        self.assertIn("specializes impl_special_2 impl_special_1\n", checked.text)
        self.assertEqual(checked.counts(), {"special": 2})
        left = {(finding.first.named.name, finding.second.named.name) for finding in checked.found if finding.is_local()}
        self.assertEqual(left, {("impl_special_1", "impl_special_4"), ("impl_special_3", "impl_special_4")})
        self.write(SPECIAL.replace("default ", ""))
        defaults.source_of.cache_clear()
        self.assertEqual(check(PROGRAM, "\n".join(lines(translator.world)) + "\n", translator, self.folder).pairs, [])


class Words(unittest.TestCase):
    """The small parts."""

    def test_literals(self):
        for expression, value in (("0x10", 16), ("1_000usize", 1000), ("{ -3i8 }", -3), ("true", 1), ("'a'", 97), ("'\\n'", 10), ("'\\u{e9}'", 233)):
            self.assertEqual(constants.literal(expression), value)
        for expression in ("LIMIT", "1 + 2", "$n", "_", ""):
            self.assertIsNone(constants.literal(expression))
        for value, of_type, word in (
            (7, "u8", "7"),
            (-1, "i8", "18446744073709551615"),
            (-1, "i128", "18446744073709551615"),
            ((1 << 64) - 1, "i128", None),
            ((1 << 63) - 1, "i128", "9223372036854775807"),
            ((1 << 64) - 1, "u128", "18446744073709551615"),
            ((1 << 64) - 1, "", None),
            (1 << 64, "u128", None),
            (-(1 << 63) - 1, "i128", None),
        ):
            self.assertEqual(constants.number(value, of_type), word)
        for expression, of_type, does in (
            ("300", "i8", False),
            ("-128", "i8", True),
            ("2", "bool", False),
            ("{ true }", "bool", True),
            ("true", "u8", False),
            ("'a'", "char", True),
            ("'a'", "bool", False),
            ("97", "char", False),
            ("7u16", "u8", False),
            ("7_u8", "u8", True),
            ("-1", "usize", False),
            ("7", "Own", True),
        ):
            self.assertEqual(constants.fits(expression, of_type), does, expression)
        for word, of_type, spelled in (("1", "bool", "true"), ("97", "char", "'a'"), ("39", "char", "'\\''"), ("18446744073709551615", "i8", "-1")):
            self.assertEqual(constants.spell_constant(word, of_type), spelled)
        self.assertEqual([constants.spell_constant(word, "bool") for word in ("0", "7", "U")], ["false", "7", "U"])

    def test_parameters(self):
        self.assertEqual([parameters(found) for found in (["", ""], ["", "usize"], [])], ["2", "tc", "0"])
        self.assertEqual([can_be_said(found) for found in ([""] * 40, [""] * 31 + ["u8"], [""] * 32 + ["u8"])], [True, True, False])

    def test_abis(self):
        for abi, spelled in (({"System": {"unwind": True}}, "system-unwind"), ({"SysV64": {"unwind": False}}, "sysv64"), ({"C": {"unwind": False}}, "C")):
            self.assertEqual(spell_abi(abi), spelled)
        self.assertEqual([spell_abi(abi) for abi in ("Rust", {"Other": '"efiapi"'})], ["Rust", "efiapi"])

    def test_names(self):
        names = Names()
        found = [names.fresh(wanted) for wanted in ("Vec", "Vec", "u8", "r#type", "_x", "é", "V" * 80)]
        self.assertEqual(found[:6], ["Vec", "Vec_2", "u8_2", "r_type", "n_x", "n_"])
        self.assertLessEqual(len(found[6]), 64)

    def test_seconds_of_checking(self):
        said = "time:   1.250; rss:  103MB ->  115MB (  +12MB)\twf_checking\ntime:   2.000; rss: 1MB\ttotal\n{}\n"
        self.assertEqual(seconds_of_checking(said), "1.250")
        self.assertIsNone(seconds_of_checking("{}\n"))

    def test_letters_between(self):
        for first, second, count in (("Vec", "Vec", 0), ("Dispaly", "Display", 1), ("", "ab", 2), ("abc", "", 3), ("Cole", "Clone", 2)):
            self.assertEqual(letters_between(first, second), count)

    def test_terms(self):
        self.assertEqual(Term("&", (Term("Vec", (Term("#0"),)),)).words(), "& Vec #0")


class Aside(unittest.TestCase):
    """Impls written as functions."""

    def test_impls(self):
        source = "fn f() -> impl Tr { 'x' }\n/* impl A for B {} */ "
        source += "unsafe impl<'a, T: Fn(u8) -> [u8; {1}]> Tr<T> for &'a T where T: Copy { fn g(&self) {} }\n"
        found = aside.impls_of(source + "impl Own { }\nimpl !Send for Own {}\nmacro_rules! m { ($t:ty) => { impl A for $t {} } }")
        self.assertEqual([written.own[-1].text for written in found], ["T", "Own"])
        self.assertEqual([written.is_negative for written in found], [False, True])

    def test_put_aside(self):
        source = "mod m {\n    impl<T> Tr<Self> for Vec<T>\n    where\n        T: Copy,\n    {\n        type X = T;\n    }\n}\nfn after() {}\n"
        edited = aside.Edited(source)
        self.assertTrue(edited.put_aside(aside.offset_of(source, 2, 5)))
        self.assertFalse(edited.put_aside(aside.offset_of(source, 2, 5)))
        self.assertFalse(edited.put_aside(aside.offset_of(source, 9, 1)))
        self.assertIn("fn __rilgomut_aside_2_5_7_6< T >(own: *const (Vec < T >), header: impl Tr < (Vec < T >) >) where T : Copy , {}", edited.text())
        self.assertEqual(edited.text().count("\n"), source.count("\n"))

    def test_two_in_a_line(self):
        source = "impl A for B {} impl C for D {} struct E;\n"
        edited = aside.Edited(source)
        for offset in (0, source.index("impl C")):
            self.assertTrue(edited.put_aside(offset))
        text = edited.text()
        self.assertEqual(edited.original(text.index("struct")), source.index("struct"))
        self.assertEqual(edited.original(text.index("impl C")), source.index("impl C"))
        self.assertIn("fn __rilgomut_aside_1_17_1_32(own: *const (D), header: impl C) {}", text)


class Graphs(unittest.TestCase):
    """What `dot.py` makes of answers to `why`."""

    STEPS = {
        "line": 7,
        "query": "why",
        "answer": "yes",
        "via": "misc",
        "text": "yes misc\n  1 A u8: impl a",
        "steps": [
            {"number": 1, "goal": {"head": "A", "args": [{"head": "u8"}]}, "source": "impl", "impl": "a", "from": []},
            {
                "number": 2,
                "goal": {"head": "A", "args": [{"head": "V", "args": [{"head": "$0"}]}]},
                "source": "object",
                "supertrait": 3,
                "from": [1],
                "with": [{"variable": "$0", "type": {"head": "u8"}}],
            },
        ],
    }
    GOALS = {
        "line": 8,
        "query": "why",
        "answer": "refused",
        "text": "refused",
        "goals": [{"number": 1, "is_negative": True, "goal": {"head": "A", "args": [{"head": "u8"}]}, "answer": "refused", "round": 2}],
    }

    def test_a_derivation_has_an_edge_for_each_premise(self):
        graph = graph_of([self.STEPS])
        self.assertIn('n0_1 [label="1  A u8\\nimpl a", fillcolor=palegreen];', graph)
        self.assertIn('n0_2 [label="2  A V $0\\nobject 3\\n$0 = u8", fillcolor=palegreen];', graph)
        self.assertEqual([line.strip() for line in graph.splitlines() if "->" in line], ["n0_1 -> n0_2;"])

    def test_a_goal_that_was_asked_for_has_what_it_came_to(self):
        graph = graph_of([self.STEPS, self.GOALS])
        self.assertIn('n1_1 [label="1  - A u8\\nrefused after round 2", fillcolor=lightpink];', graph)
        self.assertIn('label="line 8: refused";', graph)

    def test_why_two_impls_overlap_is_a_note(self):
        graph = graph_of([{"line": 9, "text": "maybe T u8\n  because it is", "more": ["  because it is"]}])
        self.assertIn('more0 [label="because it is", fillcolor=white, shape=note];', graph)
        self.assertIn('label="line 9: maybe T u8";', graph)

    def test_types_are_spelled_as_the_program_does(self):
        borrowed = {"head": "&", "region": "'0", "args": [{"head": "u8"}]}
        function = {"head": "fn(1)", "qualifiers": ["for(1)", "unsafe"], "args": [borrowed, {"head": "(2)", "cut": True}]}
        self.assertEqual(spelled(function), "for(1) unsafe fn(1) & '0 u8 (2) ..")

    def test_other_lines_are_passed_over(self):
        others = ["", '{"line":1,"error":"short line"}', '{"line":2,"query":"why","answer":"stop","stop":7}']
        self.assertEqual(read_answers([*others, json.dumps(self.GOALS)]), [self.GOALS])

    @unittest.skipUnless(PROGRAM, "RILGOMUT_PROGRAM names no program")
    def test_a_graph_of_what_the_program_answers(self):
        text = "trait 1 A 0\nadt 1 V 1\nimpl 1 a 0 + A u8\nimpl 1 v 1 + A V #0\niwhere v A #0\nwhy * A V V u8\nwhy * A bool\n"
        ran = subprocess.run([PROGRAM, "--json"], input=text, capture_output=True, text=True)
        graph = graph_of(read_answers(ran.stdout.splitlines()))
        self.assertEqual(graph.count("->"), 2)
        self.assertIn("A V V u8", graph)
        self.assertIn("A bool\\nrefused", graph)


class Commands(unittest.TestCase):
    """What wants cargo."""

    def test_packages_of_one_name(self):
        described = {"name": "a", "version": "1.0.0", "targets": []}
        data = {"packages": [dict(described, id=word, manifest_path="/%s/Cargo.toml" % word) for word in ("path", "git")], "resolve": None}
        self.assertEqual([(package.identifier, package.key()) for package in packages_of(data)], [("path", "a@1.0.0"), ("git", "a@1.0.0-2")])

    def test_no_std(self):
        if shutil.which("cargo") is None:
            self.skipTest("no cargo")
        with tempfile.TemporaryDirectory() as folder:
            with self.assertRaises(StepFailed):
                std_json(find_toolchain(), folder, folder)

    def test_json_of_a_package(self):
        if shutil.which("cargo") is None:
            self.skipTest("no cargo")
        with tempfile.TemporaryDirectory() as cache:
            package = os.path.join(cache, "meeting")
            shutil.copytree(EXAMPLE, package)
            made = make(package, find_toolchain(), cache, ["--offline", "--quiet"])
            crate = read_crate(made.files["meeting@0.1.0"])
        shown = [(item.line, item.content["trait"]["path"]) for item in crate.impls()]
        for line, name in ((9, "Show"), (14, "Show"), (21, "Show"), (26, "Display"), (33, "Clone"), (36, "Clone"), (46, "Sized16")):
            self.assertIn((line, name), shown)

    @unittest.skipUnless(PROGRAM and STD, "RILGOMUT_PROGRAM and RILGOMUT_STD name no program and no JSON of std")
    def test_specialisation_beside_rustc(self):
        self.assertGreater(len(self.compare("special").pairs), 30)

    @unittest.skipUnless(PROGRAM and STD, "RILGOMUT_PROGRAM and RILGOMUT_STD name no program and no JSON of std")
    def test_words_beside_rustc(self):
        self.assertEqual(len(self.compare("words").pairs), 0)

    def compare(self, name):
        """What is found in an example: of each impl that rustc refuses, and of those with `open` in their line, and of no other."""
        package = os.path.join(HERE, "examples", name)
        with tempfile.TemporaryDirectory() as cache:
            shutil.copytree(package, os.path.join(cache, name))
            made = make(os.path.join(cache, name), find_toolchain(), cache, ["--offline", "--quiet"])
            crates = [read_crate(os.path.join(STD, name + ".json")) for name in ("core", "alloc", "std")]
            crates.append(read_crate(made.files[made.local.key()], made.local.key()))
            refused = {span["line_start"] for refusal in read_refusals(made.files[made.local.key()]) for span in refusal.message["spans"]}
        for item in crates[-1].impls():
            item.members = item.members or []  # those that are put aside, too: what rustc refuses is to be found by the headers and clauses
        translator = translate(crates, made.local.key(), Report())
        checked = check(PROGRAM, "\n".join(lines(translator.world)) + "\n", translator, package)
        specialising = [{special.named.name, general.named.name} for special, general in checked.pairs]
        left = [(finding.first, finding.second) for finding in checked.found if finding.is_local()]
        left = [pair for pair in left if {written.named.name for written in pair} not in specialising]  # which the program doesn't confirm
        found = {written.named.place.line for pair in left for written in pair}
        with open(os.path.join(package, "src", "lib.rs"), encoding="utf-8") as file:
            still_open = {number for number, line in enumerate(file, 1) if line.endswith("// open\n")}
        self.assertEqual(found, refused | still_open)
        return checked


if __name__ == "__main__":
    unittest.main()
