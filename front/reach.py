"""What goals need: definitions and types, from body to body.

A definition is a key: ("const", path), ("static", path), ("fn", crate, path, args) or ("discriminant", path). The
arguments of a function of this crate aren't part of its key, and are empty there; a function of another crate has no
generic parameters here, and is a definition for each of its arguments.
"""

from library import generic_signature
from lowered import FormMissing
from type_text import has_param, parts_of, substituted


def key_of(name):
    """The definition that a name in a body leads to, or None for a variable, a variant or a parameter."""
    sort = name[0]
    if sort in ("const", "static"):
        return (sort, name[1])
    if sort == "fn":
        return fn_key(name[1], name[2], name[3])
    return None


def definition_path(key):
    """The path of a definition."""
    return key[2] if key[0] == "fn" else key[1]


def fn_key(krate, path, args):
    if not krate or generic_signature(path) is not None:
        return ("fn", krate, path, ())
    return ("fn", krate, path, args)


class Reach:
    """Lowers what is needed, once."""

    def __init__(self, crate):
        self.crate = crate
        self.lowered, self.failed, self.near = {}, {}, {}

    def body(self, key):
        """The body of a definition, or None for a function of another crate that has none."""
        path = definition_path(key)
        if key[0] == "fn" and key[1]:
            path = self.crate.library_body(*key[1:])
            if path is None:
                return None
        if key in self.failed:
            raise self.failed[key]
        if key[0] == "const" and self.crate.is_of_trait(path) and self.crate.thir(path) is None:
            return None
        if key not in self.lowered:
            try:
                self.lowered[key] = self.crate.lower(path)
            except FormMissing as error:
                self.failed[key] = error
                raise
        return self.lowered[key]

    def needed(self, goal):
        """All definitions that a goal needs, itself first, in the order in which they are met. A FormMissing tells that
        one of them can't be said."""
        met, order = {goal}, [goal]
        for key in order:
            for other in self.neighbours(key):
                if other not in met:
                    met.add(other)
                    order.append(other)
        return order

    def neighbours(self, key):
        """The definitions that a body names, and those that its types need."""
        if key not in self.near:
            if key in self.failed:
                raise self.failed[key]
            try:
                self.near[key] = self._neighbours(key)
            except FormMissing as error:
                self.failed[key] = error
                raise
        return self.near[key]

    def _neighbours(self, key):
        found = {}
        if key[0] == "fn" and self.crate.is_of_trait(key[2]):
            raise FormMissing(f"{key[2]}, a function of a trait,")
        if key[0] == "const" and self.crate.is_of_trait(key[1]):
            found.update((("const", target), None) for _, target in self.crate.implementations(key[1]))
        for ty in self.types(key):
            self._in_type(ty, found)
        body = self.body(key)
        if body is not None:
            for name in body.names():
                other = key_of(name)
                if other is not None:
                    found[other] = None
        return list(found)

    def types(self, key):
        """The types of a definition's row and of its body."""
        body = self.body(key)
        if key[0] == "fn":
            params, ret = self.signature(key)
            yield from params
            yield ret
        else:
            yield self.root_type(key)
        if body is not None:
            yield from body.types()

    def root_type(self, key):
        """The type of a constant, a static or a discriminant."""
        if key[0] == "discriminant":
            body = self.body(key)
            return body.expr_types[body.root]
        return self.crate.root_type(key[1])

    def signature(self, key):
        """The parameters and the answer of a function."""
        _, krate, path, _ = key
        if not krate:
            return self.crate.signature(path)
        generic = generic_signature(path)
        if generic is not None:
            return generic
        calls = [seen for callee, seen in self.crate.calls.items() if callee == (krate, path, key[3])]
        if not calls:
            raise FormMissing(f"{krate}::{path}, a function that is named and not called,")
        return calls[0]

    def _in_type(self, ty, found, inside=()):
        """Adds what a type needs: functions that it names, and the discriminants of its enums."""
        if ty[0] == "fndef":
            built = self.crate.constructed(ty[1], ty[2])
            if built is None:
                found[fn_key(ty[1], ty[2], ty[3])] = None
            else:
                self._in_adt(built[0], found, inside)
        if ty[0] == "path":
            adt = self.crate.adt(ty[1])
            if adt is None:
                raise FormMissing(f"the type {self.crate.show(ty)}, whose fields aren't known,")
            self._in_adt(adt, found, inside)
        for part in parts_of(ty):
            self._in_type(part, found, inside)

    def _in_adt(self, adt, found, inside):
        if adt.path in inside:
            return
        for variant in adt.variants:
            if variant.types is None:
                raise FormMissing(f"the type {adt.path}, whose fields aren't known,")
            if variant.discriminant is not None:
                found[("discriminant", variant.discriminant)] = None
            for field in variant.types:
                self._in_type(field, found, (*inside, adt.path))


class Instances:
    """All types at which bodies are evaluated, with generic arguments put in."""

    def __init__(self, reach):
        self.reach, self.crate = reach, reach.crate
        self.types, self.seen = {}, set()

    def add(self, key):
        """Adds the types of a definition without arguments, and of all that it calls, by the arguments there."""
        todo = [(key, ())]
        while todo:
            key, args = todo.pop()
            if (key, args) in self.seen:
                continue
            self.seen.add((key, args))
            todo.extend(self._of_body(key, args))

    def _of_body(self, key, args):
        names = self._names(key)
        if key[0] == "const" and self.crate.is_of_trait(key[1]):
            yield from ((("const", target), ()) for _, target in self.crate.implementations(key[1]))
        given = dict(zip(names, args))
        for ty in self.reach.types(key):
            self._add_type(substituted(ty, given))
        body = self.reach.body(key)
        for name in body.names() if body is not None else ():
            other = key_of(name)
            if other is None:
                continue
            named = name[-1] if name[0] in ("fn", "const") else ()
            yield other, tuple(substituted(arg, given) for arg in named) if self._names(other) else ()
        for ty in list(self.reach.types(key)):
            yield from self._called(substituted(ty, given))

    def _called(self, ty):
        """The functions that a type names."""
        if ty[0] == "fndef" and self.crate.constructed(ty[1], ty[2]) is None:
            key = fn_key(ty[1], ty[2], ty[3])
            yield key, ty[3] if self._names(key) else ()
        for part in parts_of(ty):
            yield from self._called(part)

    def _names(self, key):
        path = definition_path(key)
        if key[0] == "fn" and key[1]:
            return ["T"] if generic_signature(path) is not None else []
        return [generic.name for generic in self.crate.generics(path)]

    def _add_type(self, ty):
        """Adds a type behind those of its parts and fields. What a pointer leads to may hold the pointer, and comes
        behind it."""
        if ty in self.types or has_param(ty):
            return
        if ty[0] in ("ref", "raw", "fnptr", "fndef"):
            self.types[ty] = True
            for part in parts_of(ty):
                self._add_type(part)
            return
        self.types[ty] = False
        for part in self.parts(ty):
            self._add_type(part)
        del self.types[ty]
        self.types[ty] = True
        if ty[0] == "path":
            for variant in self.crate.adt(ty[1]).variants:
                if variant.discriminant is not None:
                    self.add(("discriminant", variant.discriminant))

    def parts(self, ty):
        """The types that have to stand before a type: of its elements and fields."""
        if ty[0] == "path":
            adt = self.crate.adt(ty[1])
            given = dict(zip((generic.name for generic in adt.generics), ty[2]))
            return [substituted(field, given) for variant in adt.variants for field in variant.types]
        return parts_of(ty)
