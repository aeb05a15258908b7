"""The items of one file, and of the library as far as it is known: what names in bodies lead to."""

import re
from collections import Counter

from debug_text import flat, parse, path_of
from expressions import Expressions
from library import integer_constant, library_bodies, library_types, number_body
from library_bodies import body_path
from lowered import FormMissing
from type_text import TypeTextError, read_signature, read_type, write_type

CONSTRUCTOR = "::{constructor#0}"
# The constant that stands for another one, whose evaluation fails: `stand_ins.py`.
STAND_IN = re.compile(r"::\{impl#0\}::__FRONT_CONST(?=::|$)")
# A name with a number, which tells it apart from others in the path of a definition: `{impl#0}` is none.
NUMBERED = re.compile(r"\b(?<!\{)(\w+)#\d+\b(?!\})")


class Crate:
    """Items, and their bodies by need. `typed` is rustc's text of all bodies of `source`."""

    def __init__(self, items, adts, typed, source):
        self.items, self.source = items, source
        self.adts = {**library_types(), **_by_written_path(adts)}
        self.bodies = library_bodies()
        self.foreign_constants, self.calls = {}, {}
        self.texts = _split(typed)
        self.parsed = {}

    # What bodies ask.

    def show(self, ty):
        """A type as people write it."""
        try:
            return write_type(ty).replace("crate::", "").replace("'static ", "")
        except TypeTextError:
            return ty[2] if ty[0] == "fndef" else str(ty)

    def show_path(self, krate, path):
        return f"{krate}::{path}" if krate else path

    def short_name(self, path):
        return path.rsplit("::", 1)[-1]

    def adt(self, path):
        """The struct, union or enum of a path, or None."""
        return self.adts.get(path)

    def is_associated(self, path):
        """Whether a constant stands in an implementation or a trait."""
        if path in self.foreign_constants:
            return True
        parent = self.items.get(path.rpartition("::")[0])
        return parent is not None and parent.sort in ("impl", "trait")

    def is_of_trait(self, path):
        """Whether a constant or function is declared by a trait."""
        parent = self.items.get(path.rpartition("::")[0])
        return parent is not None and parent.sort == "trait"

    def implementations(self, path):
        """The types for which a constant of a trait is implemented, each with the constant there. A FormMissing tells
        that it can't be said for which types."""
        found = []
        trait = path.rpartition("::")[0]
        for item in self.items.values():
            if item.implements == path:
                place = self.items[item.parent]
                if place.generics or place.self_ty is None or len(self.items[trait].generics) > 1:
                    raise FormMissing(f"{path}, a constant of a trait with generic implementations,")
                found.append((place.self_ty, item.path))
        return found

    def is_associated_function(self, krate, path):
        return "{impl#" in path.rpartition("::")[0].rpartition("::")[2] if krate else self.is_associated(path)

    def foreign_const(self, krate, path, ty, written):
        """The path under which a constant of the library is kept, or None where its value isn't known."""
        known = integer_constant(krate, path, ty, written)
        if known is None:
            return None
        name, number = known
        self.foreign_constants[name] = ty
        self.bodies[name] = number_body(number, ty)
        return name

    def constructed(self, krate, path):
        """The struct or variant whose constructor has this path: the type, and the place of the variant."""
        if not path.endswith(CONSTRUCTOR):
            return None
        owner = path.removesuffix(CONSTRUCTOR)
        if krate:
            owner = f"std::{owner}"
        if owner in self.adts:
            return self.adts[owner], 0
        adt = self.adts.get(owner.rpartition("::")[0])
        if adt is None:
            raise FormMissing(f"the type of {path}")
        names = [variant.name for variant in adt.variants]
        return adt, names.index(owner.rpartition("::")[2])

    def see_call(self, callee, params, ret):
        """Keeps the signature of a function of another crate, as a call shows it."""
        self.calls.setdefault(callee[1:], (params, ret))

    # Bodies.

    def library_body(self, krate, path, args):
        """The path of the body that is written here for a function of the library, or None."""
        if krate != "core" or (krate, path, args) not in self.calls:
            return None
        found = body_path(path, self.calls[krate, path, args][0])
        return found if found in self.texts else None

    def thir(self, path):
        """The typed body with this path, or None."""
        if path not in self.parsed:
            lines = self.texts.get(path)
            self.parsed[path] = None if lines is None else parse(lines)
        return self.parsed[path]

    def lower(self, path):
        """The body of this path in the world's form."""
        if path in self.bodies:
            return self.bodies[path]
        thir = self.thir(path)
        if thir is None:
            raise FormMissing(f"{path}, which has no body here,")
        try:
            return Expressions(thir, self, self.source, self.thir).lower()
        except RecursionError as error:
            raise FormMissing(f"{path} nests too deep") from error

    def root_type(self, path):
        """The type of a constant, static or discriminant."""
        if path in self.foreign_constants:
            return self.foreign_constants[path]
        if self.thir(path) is None and self.is_of_trait(path):
            types = [(ty, self.root_type(target)) for ty, target in self.implementations(path)]
            return ("param", "Self") if all(ty == own for ty, own in types) else types[0][1]
        return read_type(flat(self.thir(path)["body_type"][0]))

    def signature(self, path):
        """The types of the parameters and of the answer of a function with a body."""
        thir = self.thir(path)
        if thir is None:
            raise FormMissing(f"{path}, which has no body here,")
        try:
            return read_signature(flat(thir["body_type"][0]))
        except TypeTextError as error:
            raise FormMissing(str(error)) from error

    def generics(self, path):
        """The generic parameters of an item, the parent's first."""
        item = self.items.get(path)
        if item is None:
            adt = self.adts.get(path)
            return adt.generics if adt is not None else []
        parent = self.items.get(item.parent)
        above = parent.generics if parent is not None and parent.sort in ("impl", "trait") else []
        return [*above, *item.generics]


def _by_written_path(adts):
    """The types of a file by their paths as types are printed: without the numbers that tell apart those of one name in blocks of
    one body. Such types are left out."""
    plain = {path: NUMBERED.sub(r"\1", path) for path in adts}
    many = Counter(plain.values())
    return {path: adt for path, adt in adts.items() if many[plain[path]] == 1}


def _split(typed):
    """The lines of each body, by its path."""
    lines = typed.split("\n")
    starts = [at for at, line in enumerate(lines) if line.startswith("DefId(") and line.endswith("):")]
    found = {}
    for start, end in zip(starts, [*starts[1:], len(lines)]):
        path = STAND_IN.sub("", path_of(lines[start][:-1])[1])
        if "__FRONT_CONST" in lines[start] or path not in found:
            found[path] = lines[start + 1 : end]
    return found
