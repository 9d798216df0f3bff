"""Types and clauses of random worlds (`random_worlds.py`), as words of a text and as Rust.

A type is a head and what stands below it: `("Vec", ("u8",))`. So is a clause or a header, whose head is a trait or an associated type. A head may
bind regions: `("for<'a> fn(1)", ("&'a", ("u8",)), ("bool",))`. A region that no head binds is `'static`, and `&` alone has that one. What stands
below `dyn` is a list of bounds, and of these `Item=` says what an associated type is: `("dyn", ("Iter",), ("Item=", ("u8",)))`.

In a wide world no type has to be sized. Its Rust has `?Sized` everywhere, and other types for those whose parts have to be sized.
"""

import random
import re

# The traits with an associated type.
OWNERS = {"Item": "Iter", "Out": "Map", "FarItem": "FarIter"}
ITEMS = {owner: item for item, owner in OWNERS.items()}

# Traits with a parameter, which is a type or a region, and those that hold of what has parts for which they hold.
CALL, LIFE = "Call", "Life"
AUTO = ["Au", "Bu"]

# What stands for a type in the Rust of a wide world.
WIDE = {"Vec": "std::rc::Rc", "(2)": "Two"}


def split_binder(head):
    """The regions that a head binds, and what is left of it."""
    found = re.match(r"for<([^>]*)> (.*)", head)
    return (found[1].split(", "), found[2]) if found else ([], head)


def with_binder(regions, head):
    return "for<%s> %s" % (", ".join(regions), head) if regions else head


def words_of(tree):
    """The heads of a tree, from the front."""
    head, *below = tree
    return [head, *(word for each in below for word in words_of(each))]


def region_of(head):
    """The region that is named by a head, if one is."""
    return head[1:] if head.startswith("&'") else head if head.startswith("'") else None


def regions_of(tree):
    """The regions that are named in a tree outside of associated types, in their order, also those that it binds."""
    if tree[0] in OWNERS:
        return []
    named = [region_of(tree[0])] if region_of(tree[0]) else []
    return named + [each for part in tree[1:] for each in regions_of(part)]


def with_static(tree, regions):
    """The tree with `'static` in the place of these regions."""
    head, *below = tree
    if region_of(head) in regions:
        head = "&" if head[0] == "&" else "'static"
    return (head, *(with_static(each, regions) for each in below))


def tidied(tree):
    """The tree, where a function's binder has no more regions than those in what the function takes, as Rust wants it."""
    head, *below = tree
    below = [tidied(each) for each in below]
    names, word = split_binder(head)
    if names and word.startswith("fn("):
        kept = [name for name in names if any(name in regions_of(each) for each in below[:-1])]
        below = [with_static(each, set(names) - set(kept)) for each in below]
        head = with_binder(kept, word)
    return (head, *below)


def erased(tree):
    """The tree without binders, and with `'static` for each region."""
    head = split_binder(tree[0])[1]
    region = region_of(head)
    if region:
        head = head.replace(region, "") if head[0] == "&" else "'static"
    return (head, *(erased(each) for each in tree[1:]))


def in_some_order(bounds, salt):
    """The bounds of a `dyn` type in an order that hangs on them and on the salt alone."""
    return sorted(bounds, key=lambda each: random.Random("%s %s" % (salt, each)).random())


class Text:
    """Spells types and clauses in the words of a text. The salt says in which order bounds stand, and whether one stands there twice."""

    def __init__(self, salt=""):
        self.salt = salt

    def type(self, tree, binders=()):
        """The words of a type that stands in these binders, of which the innermost is the first."""
        head, *below = tree
        names, word = split_binder(head)
        if region_of(word):
            region = [*self.region(region_of(word), binders)]
            return ["&", *region, *self.type(below[0], binders)] if word[0] == "&" else region or ["'static"]
        if word == "dyn":
            return self.object(below, binders)
        if word.startswith("fn("):
            return self.bound(tree, binders)
        return [word, *(each for part in below for each in self.type(part, binders))]

    def region(self, name, binders):
        """The word of a region, if it isn't the static one."""
        for depth, names in enumerate(binders):
            if name in names:
                yield "'%s%d" % ("%d." % depth if depth else "", names.index(name))
                return

    def bound(self, tree, binders=()):
        """The words of what is a binder of its own: a clause, a bound or a function."""
        names, word = split_binder(tree[0])
        first = ["for(%d)" % len(names)] if names else []
        return [*first, word.rstrip("="), *(each for part in tree[1:] for each in self.type(part, (names, *binders)))]

    def object(self, bounds, binders):
        bounds = in_some_order(bounds, self.salt)
        again = [each for each in bounds if each[0] in AUTO or each[0][-1] == "="]
        bounds += again[: random.Random("%s %s" % (self.salt, bounds)).choice([0, 0, 1])]
        return ["dyn(%d)" % len(bounds), *(each for bound in bounds for each in self.bound(bound, binders))]


class Rust:
    """Spells types and clauses in Rust. With a list for regions each `'static` has a parameter of its own, which is added to the list."""

    def __init__(self, is_wide, salt="", regions=None):
        self.is_wide, self.salt, self.regions = is_wide, salt, regions

    def type(self, tree, binders=()):
        """The type that stands in these binders, of which the innermost is the first."""
        head, *below = tree
        names, word = split_binder(head)
        if word[0] == "#":
            return "T" + word[1:]
        if word == "&" or region_of(word):
            region = self.region(region_of(word), binders)
            return "&%s %s" % (region, self.type(below[0], binders)) if word[0] == "&" else region
        if word == "dyn":
            return self.object(below, binders)
        if word.startswith("fn("):
            *taken, answer = self.below(below, (names, *binders))
            return "%sfn(%s) -> %s" % (self.binder(names, binders), ", ".join(taken), answer)
        if word in OWNERS:
            return "<%s as %s>::%s" % (self.type(below[0], binders), OWNERS[word], word)
        if word[0] == "(" and not (self.is_wide and word in WIDE):
            return "(%s)" % "".join(each + ", " for each in self.below(below, binders))
        return (WIDE.get(word, word) if self.is_wide else word) + bracketed(self.below(below, binders))

    def below(self, trees, binders):
        return [self.type(each, binders) for each in trees]

    def region(self, name, binders):
        for depth, names in enumerate(binders):
            if name in names:
                return name_of_region(len(binders) - depth, names.index(name))
        if self.regions is None:
            return "'static"
        self.regions.append("'r%d" % len(self.regions))
        return self.regions[-1]

    def binder(self, names, binders):
        """The binder with names that none around it has."""
        found = [name_of_region(len(binders) + 1, place) for place in range(len(names))]
        return "for<%s> " % ", ".join(found) if found else ""

    def bound(self, tree, binders=(), said=()):
        """A trait with what stands behind the self type in a clause, or in a bound."""
        names, trait = split_binder(tree[0])
        given = self.below(tree[1:], (names, *binders))
        return self.binder(names, binders) + trait + bracketed(given + ["%s = %s" % each for each in said])

    def object(self, bounds, binders):
        """A `dyn` type, in which what is said of an associated type stands among the arguments of its trait."""
        said = [(each[0].rstrip("="), self.type(each[1], ([], *binders))) for each in bounds if each[0][-1] == "="]
        written = []
        for bound in in_some_order([each for each in bounds if each[0][-1] != "="], self.salt):
            own = [each for each in said if OWNERS[each[0]] == bound[0]]
            written.append(self.bound(bound, binders, own))
        return "(dyn %s + 'static)" % " + ".join(written)

    def clause(self, tree):
        """A clause: its binder, its self type, and what that meets."""
        names, head = split_binder(tree[0])
        of, given = self.type(tree[1], (names,)), self.below(tree[2:], (names,))
        if head in OWNERS:
            given, head = ["%s = %s" % (head, given[0])], OWNERS[head]
        return "%s%s: %s%s" % (self.binder(names, ()), of, head, bracketed(given))


def name_of_region(depth, place):
    return "'b%d_%d" % (depth, place)


def bracketed(arguments):
    return "<%s>" % ", ".join(arguments) if arguments else ""
