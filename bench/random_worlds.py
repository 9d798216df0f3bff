#!/usr/bin/env python3
"""What the program says of pairs of impls in random worlds, beside what rustc says of the same in Rust.

`python3 bench/random_worlds.py PROGRAM [--count N] [--seed N]` makes N worlds. Each has some local types, local traits with an associated
type, impls that say what it is, traits without items with some impls, and two to four impls of a trait `Tr`. Their headers may have
associated types of parameters and of concrete types, at any place, and their where clauses may be about these. Crate 1 is one above, with a
trait of each kind, and crate 9 is Rust's std. No text says what is sized: all types are, or none has to be, where a world has `dyn` types.
Some texts list what concrete associated types are, where rustc can say it.

Some worlds have binders: functions that take references of any region, clauses as `for<'a> &'a T: Show`, and traits of a region. Some have `dyn`
types, whose bounds stand in another order in each impl, and in the text and in Rust. And some have an auto trait with impls, of which one may be
for a part of the types with its head, or negative.

The program is asked `overlap *` of each two impls of `Tr` in `mode coherence`, and `check *`. For rustc each pair has a trait of its own in a
module of its own. A pair of which rustc reports another error than E0119 is set aside, and so is a world of which it reports any error beside its
pairs. Of the others an answer is wrong if it is `disjoint` where rustc reports E0119, or `overlap` where rustc accepts, and if `check` doesn't
name just those pairs of `Tr` that aren't `disjoint`. `maybe` where rustc accepts is counted as open. It is so, too, where rustc accepts with its lint
`coherence_leak_check`.

rustc takes an associated type that it can't say for another type at each place, also for several that are one; the program gives all of these
one variable. So it may say `disjoint` where `Item T` would have to be two types at once, or to stand in itself, and rustc E0119. Such a pair is
counted as finer, if the program doesn't say `disjoint` with another name for each associated type of the headers and without binders, and rustc
accepts it, too, where the header has the type in the place of one that is concrete, and `X` with `T: Iter<Item = X>` in the place of any other.

The program tells regions apart in types alone (`docs/DIFFERENCES.md`). So a pair that rustc accepts, and the program doesn't, is counted as one of
regions, if rustc reports E0119 of it where each region is `'static` and nothing has a binder. A `maybe` is counted as one of a clause under a binder, if the
program says `disjoint` there, and as one of a part, if it does once each auto trait is one whose impls count for a head (`by_head`).

Wrong worlds are printed, and the status is 1 then. Of one seed the worlds are always the same. rustc is taken from the path.
"""

import argparse
import concurrent.futures
import copy
import itertools
import json
import os
import random
import re
import subprocess
import sys
import tempfile

from against_rustc import TRAIT, Crate
from world_types import AUTO, CALL, ITEMS, LIFE, OWNERS, Rust, Text, bracketed, erased, regions_of, split_binder, tidied, with_binder, with_static, words_of

# The crate above, as text and as Rust, and what each text begins with. In Rust no type of the second of two such crates has to be sized.
ABOVE = """local 0
adt 9 Vec 1
field Vec #0
adt 9 Box 1 fundamental
field Box #0
adt 1 Up 0
adt 1 UpGen 1
field UpGen #0
trait 1 Far 0 dyn
trait 1 FarIter 0 dyn
assoc FarIter FarItem""".split("\n")
ABOVE_RUST = """#![allow(warnings)]
use std::marker::PhantomData;
pub struct Up;
pub struct UpGen<T%s>(PhantomData<T>);
pub struct Two<T: ?Sized, U: ?Sized>(PhantomData<T>, PhantomData<U>);
pub trait Far {}
pub trait FarIter { type FarItem%s; }
impl Far for Up {}
impl FarIter for Up { type FarItem = u8; }
"""
CRATES = {"above": ABOVE_RUST % ("", ": 'static"), "wide": ABOVE_RUST % (": ?Sized", ": 'static + ?Sized")}
LOCAL = ["adt 0 L0 0", "adt 0 L1 0", "adt 0 G0 1", "field G0 #0"]
LOCAL_RUST = ["pub struct L0;", "pub struct L1;", "pub struct G0<T%s>(std::marker::PhantomData<T>);"]

# The heads of types, by how many types stand below.
HEADS = [["u8", "bool", "L0", "L1", "Up"], ["G0", "Vec", "&", "UpGen", "Box"], ["(2)", "fn(1)"]]

# The traits without items. Those for which no impl for a parameter is drawn are of the crate above.
MARKS = ["Show", "Mark", "Via", "Far"]
FAR = ["Far", "FarIter"]

# The heads of types for which an auto trait has impls, and those of them for which it may have a negative one: rustc wants that to be for a whole
# data type, and the fields of a `Vec` and a `Box` in std are of more than their parameter.
BARRED = ["L0", "L1", "bool", "G0", "UpGen", "Vec", "Box", "&", "(2)"]
WHOLE = ["L0", "L1", "G0", "UpGen"]
DENIED = [*WHOLE, "bool", "&", "(2)"]

# The lint of a pair that rustc accepts, since a region leaks in the equation of its headers.
LEAK = "coherence_leak_check"

# How many worlds a source has, how often a draw that breaks a rule is made again, and how many seconds a run may take.
BATCH = 200
DRAWS = 200
SECONDS = 10


class Impl:
    """An impl. A type is a head and the types below it; a clause or a header begins with a name, too."""

    def __init__(self, name, header, clauses=(), value=None, crate=0, sign="+"):
        self.name, self.header, self.clauses, self.value, self.crate, self.sign = name, header, list(clauses), value, crate, sign
        self.count = 1 + max([-1, *(int(word[1:]) for part in [header, *clauses] for word in words_of(part) if word[0] == "#")])

    def renamed(self, numbers):
        """The same with another number behind the name of each associated type in the header."""

        def other(tree):
            name = "%s__%d" % (tree[0], next(numbers)) if tree[0] in OWNERS else tree[0]
            return (name, *(other(each) for each in tree[1:]))

        return Impl(self.name, other(self.header), self.clauses)

    def erased(self):
        """The same without binders, and with one region for all."""
        value = self.value and erased(self.value)
        return Impl(self.name, erased(self.header), [erased(each) for each in self.clauses], value, self.crate, self.sign)

    def lines(self):
        """The impl as a text."""
        text = Text(self.name)
        trait, *types = self.header
        spelled = [word for ty in types for word in text.type(ty)]
        yield "impl %d %s %d %s %s" % (self.crate, self.name, self.count, self.sign, " ".join([trait, *spelled]))
        for clause in self.clauses:
            yield "iwhere %s %s" % (self.name, " ".join(text.bound(clause)))
        if self.value is not None:
            yield "value %s %s %s" % (self.name, ITEMS[trait], " ".join(text.type(self.value)))


def parameters(tree, is_free=False):
    """The parameters in a tree; those alone that stand outside of associated types, if it has to be free of these."""
    if is_free and tree[0] in OWNERS:
        return set()
    found = {tree[0]} if tree[0][0] == "#" else set()
    return found.union(*(parameters(each, is_free) for each in tree[1:]))


def put_in(tree, values):
    """The tree with values for parameters."""
    if tree[0] in values:
        return values[tree[0]]
    return (tree[0], *(put_in(each, values) for each in tree[1:]))


def matched(pattern, tree, values):
    """Whether the tree is an instance of the pattern; values are added for the parameters of that one."""
    if pattern[0][0] == "#":
        return values.setdefault(pattern[0], tree) == tree
    if pattern[0] != tree[0] or len(pattern) != len(tree):
        return False
    return all(matched(one, other, values) for one, other in zip(pattern[1:], tree[1:]))


def parts(tree):
    """All types in a tree but the tree itself, from the top."""
    for each in tree[1:]:
        yield each
        yield from parts(each)


def constituents(ty):
    """The types for which an auto trait has to hold, so that it does for this one."""
    return [each for each in ty[1:] if each[0][0] != "'"] if "fn(" not in ty[0] else []


def grows(trait, clause):
    """Whether a clause of an impl for each type may lead to a larger goal of such an impl, and that to the first trait. Then rustc may take forever."""
    own = split_binder(clause[0])[1]
    return own in MARKS and MARKS.index(own) >= MARKS.index(trait) and clause[1][0] in [*HEADS[1], "&'a", "fn(1)"]


class World:
    """A world: the impls of its traits, in the order in which they were made, and those of the trait whose impls are compared."""

    def __init__(self, draw):
        self.draw = draw
        up = Impl("far_up", ("Far", ("Up",)), crate=1)
        self.above = [up, Impl("iter_up", ("FarIter", ("Up",)), value=("u8",), crate=1)]
        self.impls = []
        self.binds, self.has_objects, self.has_auto = (draw.random() < chance for chance in (0.4, 0.3, 0.3))
        self.bars_heads = draw.random() < 0.6
        self.lists = draw.random() < 0.3
        self.arguments = draw.choice([0, 0, 0, 1])
        self.compared = []
        self.about = None

    def impl_for(self, clause):
        """An impl by which the clause holds, with values for its parameters, if there is one."""
        for impl in self.above + self.impls:
            values = {}
            if impl.sign == "+" and impl.header[0] == clause[0] and matched(self.normal(impl.header), clause, values):
                return impl, values
        return None

    def normal(self, tree, fuel=6):
        """The tree with the types of concrete associated types in their places."""
        tree = (tree[0], *(self.normal(each, fuel) for each in tree[1:]))
        if tree[0] not in OWNERS or fuel == 0:
            return tree
        said = [bound[1] for bound in tree[1][1:] if bound[0] == tree[0] + "="] if tree[1][0] == "dyn" else []
        if said:
            return said[0]
        found = self.impl_for((OWNERS[tree[0]], *tree[1:2])) if tree[1][0][0] != "#" else None
        if found is None or found[0].value is None:
            return tree
        return self.normal(put_in(found[0].value, found[1]), fuel - 1)

    def wanted(self, clause, fuel=6):
        """The clauses about parameters and what is associated with them under which the clause holds; None, if it doesn't."""
        trait, *types = self.normal(clause)
        if fuel == 0 or trait in OWNERS:
            return None
        if types[0][0][0] == "#" or types[0][0] in OWNERS:
            below = self.wanted_by_parts((trait, *types), fuel - 1)
            return None if below is None or not parameters(types[0]) else [*below, (trait, *types)]
        if types[0][0] == "dyn" and (trait, *types[1:]) in types[0][1:]:
            return []
        if trait in AUTO and not self.is_barred(trait, types[0]):
            return self.wanted_by_all([(trait, part) for part in constituents(types[0])], fuel - 1)
        found = self.impl_for((trait, *types))
        if found is None:
            return None
        return self.wanted_by_all([put_in(each, found[1]) for each in found[0].clauses], fuel - 1)

    def is_barred(self, trait, ty):
        """Whether an auto trait has impls for types with that head, so that the type's parts don't count, or it is a `dyn` type."""
        return ty[0] == "dyn" or any(impl.header[:1] == (trait,) and impl.header[1][0] == ty[0] for impl in self.impls)

    def wanted_by_all(self, clauses, fuel=6):
        """The same of all of these clauses, each once."""
        found = []
        for clause in clauses:
            wanted = self.wanted(clause, fuel)
            if wanted is None:
                return None
            found += [each for each in wanted if each not in found]
        return found

    def wanted_by_parts(self, tree, fuel=6):
        """The clauses under which each associated type in the tree is one of a type that has it."""
        return self.wanted_by_all([(OWNERS[each[0]], *each[1:2]) for each in parts(tree) if each[0] in OWNERS], fuel)

    def owners(self):
        """The associated types of which there is an impl."""
        return [ITEMS[impl.header[0]] for impl in self.above + self.impls if impl.header[0] in ITEMS]

    def marks(self):
        """The traits without items and without arguments."""
        return [*MARKS, *(AUTO[:1] if self.has_auto else [])]

    def ground(self, depth):
        """A type without parameters and associated types."""
        chance = self.draw.random() if depth else 0.5
        if self.binds and chance < 0.2:
            return self.bound_function(depth - 1)
        if self.has_objects and chance > 0.8:
            return self.object()
        below = self.draw.choice([0, 0, 1, 1, 2] if depth else [0])
        return (self.draw.choice(HEADS[below]), *(self.ground(depth - 1) for _ in range(below)))

    def bound_function(self, depth):
        """A function that takes references of any region."""
        names = ["'a", "'b"][: self.draw.choice([1, 1, 1, 2])]
        taken = [("&" + name, self.ground(depth)) for name in names]
        if self.draw.random() < 0.25:
            taken[0] = (self.draw.choice(["G0", "UpGen"]), taken[0])
        if self.draw.random() < 0.25:
            taken.append(self.draw.choice([taken[0], ("&", *taken[0][1:]), self.ground(0)]))
        answer = self.draw.choice([("(0)",), self.ground(0), ("&'a", self.ground(0))])
        return (with_binder(names, "fn(%d)" % len(taken)), *taken, answer)

    def object(self):
        """A `dyn` type with a trait that is no auto trait, or none, and with auto traits."""
        takes_any = (with_binder(["'a"], CALL), ("&'a", self.ground(0)))
        says = [("Iter",), ("Item=", self.ground(0))]
        lives = [(with_binder(["'a"], LIFE), ("'a",))]
        bounds = self.draw.choice([[("Show",)], [("Mark",)], [("Far",)], says, [(CALL, self.ground(0))], [takes_any], lives, []])
        autos = self.draw.sample(AUTO, self.draw.choice([0, 1, 1, 2]))
        return ("dyn", *(bounds if bounds or autos else [("Show",)]), *((each,) for each in sorted(autos)))

    def spoken_of(self):
        """A type that an impl of the world is for, or that it says an associated type to be; or else any one."""
        types = [each for impl in self.above + self.impls for each in [*impl.header[1:], impl.value] if each and each[0][0] != "'"]
        if self.binds and self.draw.random() < 0.4:
            return self.draw.choice([self.bound_function(1), ("Box", self.bound_function(0))])
        if self.has_objects and self.draw.random() < 0.2:
            return self.draw.choice([self.object(), ("Box", self.object())])
        ty = self.normal(put_in(self.draw.choice(types), {"#%d" % k: self.ground(0) for k in range(2)}))
        return self.ground(2) if self.draw.random() < 0.4 else ty

    def alias_of(self, ty):
        """An associated type that is the type, or else any one of a concrete type, if there is one."""
        valued = [impl for impl in self.above + self.impls if impl.value is not None]
        known = [(ITEMS[impl.header[0]], put_in(impl.header[1], {"#0": self.ground(0)})) for impl in valued]
        same = [alias for alias in known if self.normal(alias) == ty]
        return self.draw.choice(same or known) if known else ty

    def wider(self, ty, count, aliases):
        """The type with parameters, so many at most, and associated types in the place of parts; of these as often as it says."""
        if ty[0][0] == "'":
            return ty
        if ty[0] == "dyn":
            return ("dyn", *((bound[0], *(self.wider(each, count, aliases) for each in bound[1:])) for bound in ty[1:]))
        chance = self.draw.random()
        if chance < aliases and self.owners():
            if self.draw.random() < 0.4 or not count:
                return self.alias_of(ty)
            return (self.draw.choice(self.owners()), self.wider(ty, count, aliases / 2) if self.draw.random() < 0.3 else self.any_of(count))
        if count and chance > 0.75:
            return self.any_of(count)
        return (ty[0], *(self.wider(each, count, aliases) for each in ty[1:]))

    def bent(self, tree):
        """The tree, in which some that a binder binds may be `'static`."""
        names, word = split_binder(tree[0])
        below = [self.bent(each) for each in tree[1:]]
        if names and self.draw.random() < 0.2:
            named = {self.draw.choice(names)}
            below = [with_static(each, named) for each in below]
            names = [each for each in names if each not in named]
        return tidied((with_binder(names, word), *below))

    def near(self, tree, count):
        """The tree, in which what takes references of any region may take something wider."""
        names, word = split_binder(tree[0])
        below = [self.near(each, count) for each in tree[1:]]
        if names and count and below[0][0][0] != "'" and self.draw.random() < 0.5:
            place = self.draw.randrange(len(below))
            of = below[place]
            below[place] = self.any_of(count) if len(of) == 1 or self.draw.random() < 0.5 else (of[0], self.any_of(count), *of[2:])
        return tidied((with_binder(names, word), *below))

    def any_of(self, count):
        """One of so many parameters."""
        return ("#%d" % self.draw.randrange(count),)

    def clause(self, count, traits):
        """A clause about one of so many parameters, or about what is associated with it."""
        ty = self.any_of(count)
        if self.draw.random() < 0.4 and self.owners():
            ty = (self.draw.choice(self.owners()), ty)
        elif self.draw.random() < 0.2:
            ty = (self.draw.choice(HEADS[1]), ty)
        return (self.draw.choice(traits), ty)

    def binding(self, count):
        """Clauses about references of any region, or about a trait of any region, if the world has such."""
        if not self.binds or self.draw.random() < 0.7:
            return []
        ty, of_any = self.any_of(count), ("&'a", self.any_of(count))
        name = lambda head: with_binder(["'a"], head)
        item = self.draw.choice(["Item", "Out"])
        has_item = (name(OWNERS[item]), of_any)
        kinds = [[(name("Show"), of_any)], [(name(LIFE), ty, ("'a",))], [(name(CALL), ty, ("&'a", self.ground(0)))]]
        kinds += [[has_item, (name(item), of_any, self.ground(1))], [has_item, (name("Show"), (item, of_any))]]
        return self.draw.choice([*kinds, [(name("Mark"), ("fn(1)", of_any, ("(0)",)))]])

    def telling(self, count, traits):
        """A clause that holds of the type that the world is about, if one is drawn soon."""
        drawn = [self.clause(count, traits) for _ in range(self.draw.choice([1, 8]))]
        return next((each for each in drawn if self.wanted(put_in(each, {"#0": self.about})) == []), drawn[0])

    def made(self, name, header, clauses, value=None, sign="+"):
        """The impl with all clauses that it wants, and its parameters numbered anew; None, if it breaks a rule."""
        header, value = tidied(header), value and tidied(value)
        trees = [header, *(each for each in clauses if not split_binder(each[0])[0]), ("all", value or ("u8",))]
        wanted = self.wanted_by_all([each for tree in trees for each in self.owned_parts(tree)])
        if wanted is None or any(regions_of(("all", *each[1:])) for tree in trees for each in parts(tree) if each[0] in OWNERS):
            return None
        all_clauses = [*wanted, *(each for each in clauses if each not in wanted)]
        free = parameters(header, True)
        for clause in all_clauses:
            if clause[0] in OWNERS and parameters(clause[1]) <= free:
                free |= parameters(clause[2], True)
        used = parameters(("all", header, *all_clauses, value or ("u8",)))
        if not used <= free or any(not parameters(each) for each in all_clauses):
            return None
        renamed = {word: ("#%d" % number,) for number, word in enumerate(sorted(used))}
        return Impl(name, put_in(header, renamed), [put_in(each, renamed) for each in all_clauses], value and put_in(value, renamed), sign=sign)

    def owned_parts(self, tree):
        """What has to hold of the associated types in a clause, a header or a value, one of the clause itself with them."""
        if tree[0] in OWNERS:
            yield (OWNERS[tree[0]], tree[1])
        for each in parts(tree):
            if each[0] in OWNERS:
                yield (OWNERS[each[0]], each[1])

    def until_made(self, drawn):
        """What the draw answers, made anew as often as it breaks a rule."""
        for _ in range(DRAWS):
            found = drawn()
            if found is not None:
                return found
        return None

    def add_values(self):
        """Impls that say what an associated type is, for types with heads of their own."""
        for trait in ("Iter", "Map", "FarIter"):
            heads = self.draw.sample(["u8", "L0", "L1", "G0", "&", "Vec"], self.draw.choice([1, 1, 2, 3]))
            for head in [head for head in heads if trait not in FAR or head in ("L0", "L1", "G0")]:
                is_over = head in HEADS[1]

                def drawn():
                    value = self.wider(self.ground(1), int(is_over), 0.2)
                    clauses = [self.clause(1, [*ITEMS, *self.marks()])] if is_over and self.draw.random() < 0.3 else []
                    header = (trait, (head, ("#0",)) if is_over else (head,))
                    return self.made("%s_%s" % (trait.lower(), len(self.impls)), header, clauses, value)

                self.add(self.until_made(drawn))

    def add_marks(self):
        """Impls of traits without items: one for a parameter or for an associated type, or some for types with heads of their own."""
        for trait in MARKS:
            way = self.draw.random() if trait not in FAR else 1
            if way < 0.35:
                traits = [*ITEMS, "Show", *self.marks()[3:]]
                clauses = lambda: [self.telling(1, traits) for _ in range(self.draw.choice([1, 1, 2]))] + self.binding(1)
                self.add_mark(lambda: ((trait, ("#0",)), [each for each in clauses() if not grows(trait, each)]))
            elif way < 0.6:
                self.add_mark(lambda: ((trait, self.wider(self.ground(1), 1, 0.6)), []))
            else:
                heads = ["L0", "L1", "G0"] if trait in FAR else ["u8", "bool", "L0", "L1", "G0", "&", "Vec", "(2)"]
                for head in self.draw.sample(heads, self.draw.choice([1, 2, 3])):
                    self.add_mark(lambda: self.mark_of(trait, head))

    def mark_of(self, trait, head):
        """The header and the clauses of an impl for all types with that head, or for some of them."""
        count = next(number for number, heads in enumerate(HEADS) if head in heads)
        clauses = [self.clause(1, [*ITEMS, "Show"])] if count and self.draw.random() < 0.4 else []
        clauses += self.binding(1) if count else []
        return (trait, (head, *(("#%d" % k,) for k in range(count)))), clauses

    def add_with_arguments(self):
        """Impls of the traits of a type and of a region, for types with heads of their own."""
        for head in self.draw.sample(["u8", "L0", "L1", "G0", "&", "Vec"], self.draw.choice([1, 2, 3])):
            header, _ = self.mark_of(CALL, head)
            taken = self.draw.choice([self.ground(0), ("&", self.ground(0)), *header[1][1:]])
            self.add_mark(lambda: ((*header, taken), []))
        for head in self.draw.sample(["u8", "L0", "L1", "G0", "&"], self.draw.choice([1, 2, 3])):
            self.add_mark(lambda: ((*self.mark_of(LIFE, head)[0], ("'static",)), self.binding(1) if head in HEADS[1] else []))

    def add_autos(self):
        """Impls of an auto trait for types with heads of their own: for all with the head or for a part of them, some of them negative."""
        for head in self.draw.sample(BARRED, self.draw.choice([1, 1, 2, 3])):
            is_denied = self.draw.random() < 0.5 and head in (WHOLE if self.has_objects else DENIED)
            header, clauses = self.mark_of(AUTO[0], head)
            if self.draw.random() < 0.6 and not (is_denied and head in WHOLE):
                header = (AUTO[0], (head, *(self.wider(self.ground(1), 1, 0.1) for _ in header[1][1:])))
            self.add_mark(lambda: (header, [] if is_denied else clauses), "-" if is_denied else "+")

    def add_mark(self, drawn, sign="+"):
        self.add(self.until_made(lambda: self.made("mark_%d" % len(self.impls), *drawn(), sign=sign)))

    def add(self, impl):
        if impl is not None:
            self.impls.append(impl)

    def add_compared(self):
        """The impls of `Tr`, most of them wider than one type, so that they may overlap."""
        base = [self.about, *(self.spoken_of() for _ in range(self.arguments))]
        for name in "abcd"[: self.draw.choice([2, 2, 2, 3, 4])]:
            if self.draw.random() < 0.2:
                base = [self.spoken_of() for _ in range(1 + self.arguments)]
            impl = self.until_made(lambda: self.made(name, *self.header(base)))
            if impl is not None:
                self.compared.append(impl)

    def header(self, base):
        """A header that is wider than these types, and clauses of its parameters."""
        count = self.draw.choice([0, 1, 1, 1, 2, 2])
        widened = self.near if self.binds and self.draw.random() < 0.4 else lambda ty, count: self.wider(ty, count, 0.25)
        header = (TRAIT, *(widened(self.bent(ty), count) for ty in base))
        if count and self.draw.random() < 0.35:
            header = (TRAIT, ("#0",), *header[2:])
        clauses = [self.telling(count, [*self.marks(), *ITEMS]) for _ in range(self.draw.choice([0, 1, 1, 2]) if count else 0)]
        clauses += self.binding(count) if count else []
        if count and self.owners() and self.draw.random() < 0.1:
            clauses.append((self.draw.choice(self.owners()), self.any_of(count), self.wider(self.ground(1), count, 0.1)))
        return header, clauses

    def text(self):
        """The world's declarations as a text."""
        far = [line for impl in self.above for line in impl.lines()]
        auto = "auto by_head" if self.bars_heads else "auto"
        traits = [*("trait 0 %s 0 dyn" % each for each in ["Iter", "Map", *MARKS[:3]]), "assoc Iter Item", "assoc Map Out"]
        traits += ["trait 0 %s 1 dyn" % CALL, "trait 0 %s r dyn" % LIFE, *("trait 0 %s 0 %s" % (each, auto) for each in AUTO)]
        local = [line for impl in self.impls + self.compared for line in impl.lines()]
        listed = self.listed() if self.lists else []
        return [*ABOVE, *far, *LOCAL, *traits, "trait 0 %s %d" % (TRAIT, self.arguments), *local, *listed, "mode coherence"]

    def listed(self):
        """Lines that say what concrete associated types are, but for those of the crate above, of which rustc can't say it."""
        local = copy.copy(self)
        local.above = []
        trees = [tree for impl in self.impls + self.compared for tree in [impl.header, *impl.clauses, ("all", impl.value or ("u8",))]]
        aliases = [each for tree in trees for each in parts(tree) if each[0] in OWNERS and not parameters(each)]
        found = {each: local.normal(each) for each in aliases if not regions_of(("all", *each[1:]))}
        sure = {alias: ty for alias, ty in found.items() if not set(words_of(ty)) & set(OWNERS)}
        text = Text("listed")
        return ["norm %s %s" % (" ".join(text.type(alias)), " ".join(text.type(ty))) for alias, ty in sure.items()]

    def erased(self):
        """The same world without binders, and with one region for all."""
        other = copy.copy(self)
        other.impls, other.compared = [each.erased() for each in self.impls], [each.erased() for each in self.compared]
        return other

    def barring(self):
        """The same world, in which an impl of an auto trait counts for all types with a head."""
        other = copy.copy(self)
        other.bars_heads = True
        return other

    def coarse_text(self, pair):
        """The declarations of a pair, where each associated type in a header has a name of its own."""
        numbers = itertools.count()
        impls = [impl.renamed(numbers) for impl in self.those(pair)]
        names = ["assoc %s %s__%d" % (owner, item, number) for number in range(next(numbers)) for item, owner in OWNERS.items()]
        *lines, mode = self.text()
        kept = [line for line in lines if not re.match(r"(?:impl 0 [abcd] |iwhere [abcd] )", line)]
        return [*kept, *names, *(line for impl in impls for line in impl.lines()), mode]

    def pairs(self):
        return list(itertools.combinations([impl.name for impl in self.compared], 2))

    def those(self, pair):
        return [impl for impl in self.compared if impl.name in pair]

    def told(self, impl):
        """The impl with the types of concrete associated types in its header, and for each other one a parameter that a clause says to be it."""
        names = {}

        def put(tree):
            if tree[0] not in OWNERS:
                return (tree[0], *(put(each) for each in tree[1:]))
            return names.setdefault(tree, ("#%d" % (impl.count + len(names)),))

        header = put(self.normal(impl.header))
        return Impl(impl.name, header, [*impl.clauses, *((*tree, name) for tree, name in names.items())])


def written(impl, is_wide):
    """An impl as Rust. The regions in headers of those of other traits than `Tr` are any ones."""
    regions = None if impl.header[0] == TRAIT else []
    rust = Rust(is_wide, "in Rust")
    header = Rust(is_wide, "in Rust", regions)
    of, bound = header.type(impl.header[1]), header.bound((impl.header[0], *impl.header[2:]))
    lasting = ["'static"] if regions is None or impl.value or any("&" in words_of(each) for each in impl.clauses) else []
    meets = [*lasting, *(["?Sized"] if is_wide else [])]
    generic = [*(regions or []), *("T%d%s" % (k, ": " + " + ".join(meets) if meets else "") for k in range(impl.count))]
    where = " where " + ", ".join(rust.clause(each) for each in impl.clauses) if impl.clauses else ""
    item = "type %s = %s;" % (ITEMS[impl.header[0]], rust.type(impl.value)) if impl.value else ""
    return "impl%s %s%s for %s%s { %s }" % (bracketed(generic), "!" if impl.sign == "-" else "", bound, of, where, item)


def add_common(source, number, world):
    """Writes what is common to a world's pairs."""
    sized = ": ?Sized" if world.has_objects else ""
    source.add("pub mod w%d { use %s::*;" % (number, "wide" if world.has_objects else "above"))
    traits = ["pub trait %s { type %s: 'static%s; }" % (OWNERS[item], item, sized.replace(":", " +")) for item in ("Item", "Out")]
    marks = [*("pub trait %s {}" % trait for trait in MARKS[:3]), *("pub auto trait %s {}" % trait for trait in AUTO)]
    taking = ["pub trait %s<T%s> {}" % (CALL, sized), "pub trait %s<'x> {}" % LIFE]
    local = [line % sized if "%" in line else line for line in LOCAL_RUST]
    for line in [*local, *traits, *marks, *taking, *(written(impl, world.has_objects) for impl in world.impls)]:
        source.add(line, (number, None))
    source.add("}")


def add_pair(source, number, world, pair, impls):
    """Writes two impls in a module, with the trait."""
    sized = ": ?Sized" if world.has_objects else ""
    source.add("pub mod w%d_%s_%s { use %s::*; use crate::w%d::*;" % (number, *pair, "wide" if world.has_objects else "above", number))
    argument = "<T%s>" % sized if world.arguments else ""
    for line in ["pub trait %s%s {}" % (TRAIT, argument), *(written(impl, world.has_objects) for impl in impls)]:
        source.add(line, (number, pair))
    source.add("}")


def source_of(name, batch, pairs, impls):
    """The Rust of some worlds: what is common to the pairs, and each of the pairs with its impls."""
    features = ["#![feature(auto_traits, negative_impls)]", "#![allow(warnings)]", "#![deny(%s)]" % LEAK]
    source = Crate(name, [*features, *("extern crate %s;" % each for each in CRATES)])
    for number, world in batch:
        add_common(source, number, world)
        for pair in pairs(number, world):
            add_pair(source, number, world, pair, impls(world, pair))
    return source


def compiled(folder, name, path):
    """What rustc reports of a source, a message a line."""
    command = ["rustc", "--edition=2021", "--crate-type=lib", "--emit=metadata", "--error-format=json", "--crate-name", name]
    allowed = dict(os.environ, RUSTC_BOOTSTRAP="1")
    done = subprocess.run([*command, "-L", folder, "--out-dir", folder, path], capture_output=True, text=True, env=allowed)
    return [json.loads(line) for line in done.stderr.splitlines() if line.startswith("{")]


def reported(folder, source):
    """The codes of the errors that rustc reports of a source, by the world and the pair they are of."""
    path = os.path.join(folder, source.name + ".rs")
    with open(path, "w") as given:
        given.write("\n".join(source.lines) + "\n")
    found = {}
    for message in compiled(folder, source.name, path):
        if message.get("level") != "error" or not message.get("spans"):
            continue
        at = next(span["line_start"] for span in message["spans"] if span["is_primary"])
        named = re.search(r"\bw(\d+)::", message["rendered"])
        # What overflows is of no line of its own, but its types are of a world.
        owner = source.owners.get(at) or (named and (int(named[1]), None))
        if owner is None:
            sys.exit("rustc reports of line %d of %s:\n%s" % (at, path, message["rendered"]))
        found.setdefault(owner, set()).add((message.get("code") or {}).get("code"))
    return found


def run(program, lines, pairs):
    """The first word of what the program answers of each pair, and the pairs that `check` names."""
    asked = ["overlap * %s %s" % pair for pair in pairs]
    text = "\n".join([*lines, *asked, "check *"]) + "\n"
    done = subprocess.run([program], input=text, capture_output=True, text=True, timeout=SECONDS)
    answers = done.stdout.splitlines()
    if done.returncode or len(answers) <= len(asked):
        sys.exit("the program ends with status %d: %s\n%s" % (done.returncode, done.stdout[-200:], text))
    named = re.findall(r"(?m)^impl (\w+) \(line \d+\) and impl (\w+) ", "\n".join(answers[len(asked) :]))
    return [line.split()[0] for line in answers[: len(asked)]], set(named)


def answered(program, world):
    """What `run` answers of a world; None, where it takes too long."""
    try:
        return run(program, world.text(), world.pairs())
    except subprocess.TimeoutExpired:
        return None


def is_finer(program, world, pair):
    """Whether a pair isn't `disjoint` where each associated type in a header has a name of its own."""
    return run(program, world.coarse_text(pair), [pair])[0] != ["disjoint"]


def verdict(pair, word, named, codes):
    """What a pair counts as: by the program's answer, whether `check` names it, and what rustc reports."""
    if codes - {"E0119", LEAK}:
        return "set aside"
    if (pair in named) != (word != "disjoint"):
        return "wrong check"
    if "E0119" in codes:
        return "wrong disjoint" if word == "disjoint" else "both overlap"
    return {"disjoint": "both apart", "maybe": "open with a lint" if codes else "open"}.get(word, "wrong overlap")


def asked_of_some(folder, name, batch, owners, impls):
    """The codes of the errors of some pairs, of which this says the impls, and those of what is common to the pairs of their worlds."""
    numbers = {number for number, _ in owners}
    source = source_of(
        "%s_%d" % (name, batch[0][0]),
        [each for each in batch if each[0] in numbers],
        lambda number, _: [pair for of, pair in owners if of == number],
        impls,
    )
    return reported(folder, source) if owners else {}


def add_finer(program, folder, batch, found):
    """Says of each pair that is `disjoint` and E0119 whether that is by a finer rule."""
    worlds = dict(batch)
    owners = [owner for owner, said in found.items() if said == "wrong disjoint" and is_finer(program, worlds[owner[0]].erased(), owner[1])]
    told = lambda world, pair: [world.told(impl) for impl in world.those(pair)]
    errors = asked_of_some(folder, "told", batch, owners, told)
    for owner in owners:
        found[owner] = "wrong disjoint" if errors.get(owner, set()) - {LEAK} else "finer"


def add_regions(folder, batch, found):
    """Says of each pair that rustc accepts, and the program doesn't, whether rustc reports E0119 of it where there is one region."""
    owners = [owner for owner, said in found.items() if said in ("open", "wrong overlap") and dict(batch)[owner[0]].binds]
    errors = asked_of_some(folder, "erased", [(number, world.erased()) for number, world in batch], owners, World.those)
    for owner in owners:
        if (owner[0], None) not in errors and errors.get(owner) == {"E0119"}:
            found[owner] = "%s by regions" % found[owner].replace("wrong ", "")


def add_reasons(program, batch, found):
    """Says of each pair that is open whether it is so since an auto trait has an impl for a part, or a clause is under a binder."""
    for (number, pair), said in found.items():
        if said != "open":
            continue
        world = dict(batch)[number]
        others = [("open by a part", world.barring())] if not world.bars_heads else []
        others += [("open by a clause under a binder", world.erased())] if world.binds else []
        found[number, pair] = next((word for word, other in others if run(program, other.text(), [pair])[0] == ["disjoint"]), said)


def compare(program, folder, batch):
    """What each pair of some worlds counts as, with the world's number; `(number, None)` is a world that is set aside."""
    source = source_of("worlds_%d" % batch[0][0], batch, lambda _, world: world.pairs(), World.those)
    found, errors = {}, reported(folder, source)
    for number, world in batch:
        answers = None if (number, None) in errors else answered(program, world)
        if answers is None:
            found[number, None] = "slow" if (number, None) not in errors else " ".join(sorted(map(str, errors[number, None])))
            continue
        for pair, word in zip(world.pairs(), answers[0]):
            found[number, pair] = verdict(pair, word, answers[1], errors.get((number, pair), set()))
    add_finer(program, folder, batch, found)
    add_regions(folder, batch, found)
    add_reasons(program, batch, found)
    return found


def shown(number, world, pairs):
    """A world as text and as Rust."""
    source = source_of("shown", [(number, world)], lambda *_: pairs, World.those)
    asked = ["overlap * %s %s" % pair for pair in pairs]
    return "\n".join(["// world %d" % number, *world.text(), *asked, "", *source.lines, ""])


def random_world(seed):
    world = World(random.Random(seed))
    world.add_values()
    if world.binds or world.has_objects:
        world.add_with_arguments()
    if world.has_auto:
        world.add_autos()
    world.about = world.spoken_of()
    world.add_marks()
    world.add_compared()
    return world


def compare_all(program, worlds):
    """What each pair counts as, and each world that is set aside."""
    numbered = list(enumerate(worlds))
    batches = [numbered[at : at + BATCH] for at in range(0, len(numbered), BATCH)]
    found = {}
    with tempfile.TemporaryDirectory() as folder, concurrent.futures.ThreadPoolExecutor(os.cpu_count()) as pool:
        for name, rust in CRATES.items():
            path = os.path.join(folder, name + ".rs")
            with open(path, "w") as taken:
                taken.write(rust)
            if any(message.get("level") == "error" for message in compiled(folder, name, path)):
                sys.exit("rustc refuses the crate above")
        for some in pool.map(lambda batch: compare(program, folder, batch), batches):
            found.update(some)
    return found


# What an impl may have, by which its pairs are counted, too.
HAVING = {
    "alias": lambda impl, heads: any(head in OWNERS for head in heads),
    "binder": lambda impl, heads: any("for<" in head for head in heads),
    "dyn": lambda impl, heads: "dyn" in heads,
    "auto trait": lambda impl, heads: any(clause[0] in AUTO for clause in impl.clauses),
}


def having(world):
    """For each kind, which of the impls that are compared have it."""
    heads = {impl: [head for part in [impl.header, *impl.clauses] for head in words_of(part)] for impl in world.compared}
    return [{impl.name for impl in world.compared if has(impl, heads[impl])} for has in HAVING.values()]


def print_figures(worlds, found):
    """How many pairs count as what, in all and with what an impl of the pair may have."""
    aside = [said for (_, pair), said in found.items() if pair is None]
    print("%d worlds, of which %d are set aside" % (len(worlds), len(aside)))
    for said in sorted(set(aside)):
        print("%8d  %s" % (aside.count(said), said))
    pairs = {owner: said for owner, said in found.items() if owner[1] is not None}
    print("%d pairs; in all, and with: %s" % (len(pairs), ", ".join(HAVING)))
    having_it = [having(world) for world in worlds]
    for said in sorted(set(pairs.values())):
        those = [owner for owner, each in pairs.items() if each == said]
        counts = [sum(bool(having_it[number][kind] & set(pair)) for number, pair in those) for kind in range(len(HAVING))]
        print("".join("%8d" % count for count in [len(those), *counts]) + "  " + said)


def main():
    words = argparse.ArgumentParser(description=__doc__, formatter_class=argparse.RawDescriptionHelpFormatter)
    words.add_argument("program", help="the program `assembly`, or the folder that has it")
    words.add_argument("--count", type=int, default=2000, help="how many worlds")
    words.add_argument("--seed", type=int, default=1, help="by which they are drawn")
    asked_for = words.parse_args()
    program = asked_for.program
    if os.path.isdir(program):
        program = os.path.join(program, "assembly")
    worlds = [random_world("%d %d" % (asked_for.seed, number)) for number in range(asked_for.count)]
    found = compare_all(program, worlds)
    print_figures(worlds, found)
    wrong = {}
    for (number, pair), said in found.items():
        if said.startswith("wrong"):
            wrong.setdefault(number, []).append(pair)
    for number, pairs in wrong.items():
        print(shown(number, worlds[number], pairs))
    sys.exit(1 if wrong else 0)


if __name__ == "__main__":
    main()
