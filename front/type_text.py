"""Reads types as rustc prints them in its typed bodies, and writes them as Rust.

A type is a tuple whose first part says which sort it is:

    ("prim", "u8")                       integers, bool, char, str, floats, and "!"
    ("tuple", (T, ..))                   ("array", T, CONST)      ("slice", T)
    ("ref", T, MUT)  ("raw", T, MUT)     MUT is a bool
    ("path", "m::P", (ARG, ..))          a struct, union or enum by its path; std's begin with a crate's name
    ("param", "T")                       a generic parameter, by its name
    ("fndef", CRATE, PATH, (ARG, ..))    the type of a function's name
    ("fnptr", (T, ..), T)                a function pointer
    ("other", TEXT)                      any other type, which the front doesn't read

ARG is a type or a constant; lifetimes are left out. A constant is ("value", "4", "usize") or ("param", "N").
"""

import re

INTEGERS = {
    **{f"i{bits}": bits // 8 for bits in (8, 16, 32, 64, 128)},
    **{f"u{bits}": bits // 8 for bits in (8, 16, 32, 64, 128)},
    "isize": 8,
    "usize": 8,
}
PRIMITIVES = {*INTEGERS, "bool", "char", "str", "f16", "f32", "f64", "f128"}
UNIT, BOOL, NEVER, STR, USIZE = ("tuple", ()), ("prim", "bool"), ("prim", "!"), ("prim", "str"), ("prim", "usize")

LIFETIME = re.compile(r"'(?:\{erased\}|\w+|\?\d+|\^[^\s,>)]*(?:\(DefId\([^)]*\)\))?)\s*")
CONST = re.compile(r"(-?\d+)_([iu](?:8|16|32|64|128|size))|(true|false)\b|'(\\?[^']+|\\'|')'")
PARAM = re.compile(r"(\w+|impl [^/]*)/#\d+")
SEGMENT = re.compile(r"\w+|\{[^}]*\}(?:#\d+)?")
DEF_ID_START = re.compile(r"DefId\((\d+):\d+ ~ ([^\[\s]+)\[[0-9a-f]+\](?:::)?")


# Types that aren't read, by how they begin.
UNREAD = {
    "Closure(": "a closure", "Coroutine": "an `async` block or a coroutine", "dyn ": "a `dyn` type",
    "Alias(": "an associated or opaque type",
}  # fmt: skip


class TypeTextError(Exception):
    """A type that isn't read."""


class Reader:
    """Goes through the text of a type."""

    def __init__(self, text):
        self.text, self.at = text, 0

    def peek(self, start):
        return self.text.startswith(start, self.at)

    def take(self, start):
        if self.peek(start):
            self.at += len(start)
            return True
        return False

    def want(self, start):
        if not self.take(start):
            raise TypeTextError(f"`{start}` expected at {self.at} of the type {self.text}")

    def match(self, pattern):
        found = pattern.match(self.text, self.at)
        if found:
            self.at = found.end()
        return found

    def rest(self):
        return self.text[self.at :]

    def blanks(self):
        while self.peek(" "):
            self.at += 1

    def ty(self):
        """The type that begins here."""
        self.blanks()
        if self.take("&"):
            self.match(LIFETIME)
            mutable = self.take("mut ")
            return ("ref", self.ty(), mutable)
        if self.take("*const "):
            return ("raw", self.ty(), False)
        if self.take("*mut "):
            return ("raw", self.ty(), True)
        if self.take("!"):
            return NEVER
        if self.take("["):
            return self.array_or_slice()
        if self.take("("):
            return ("tuple", self.listed(")"))
        found = self.match(PARAM)
        if found:
            return ("param", found.group(1))
        if self.peek("FnDef("):
            return self.fn_def()
        if self.peek("Binder {") or self.peek("fn(") or self.peek("unsafe fn(") or self.peek("const fn("):
            return self.fn_pointer()
        for start, what in UNREAD.items():
            if self.peek(start):
                raise TypeTextError(what)
        return self.path()

    def array_or_slice(self):
        element = self.ty()
        if self.take("; "):
            length = self.argument()
            self.want("]")
            return ("array", element, length)
        self.want("]")
        return ("slice", element)

    def listed(self, end):
        """Types or other arguments up to the bracket, separated by commas. Lifetimes are left out."""
        parts = []
        self.blanks()
        while not self.take(end):
            part = self.argument()
            if part is not None:
                parts.append(part)
            self.blanks()
            if not self.take(","):
                self.want(end)
                break
            self.blanks()
        return tuple(parts)

    def argument(self):
        """A generic argument: a constant or a type, or None for a lifetime."""
        found = self.match(CONST)
        if found:
            number, ty, truth, char = found.groups()
            if number is not None:
                return ("value", number, ty)
            return ("value", truth, "bool") if truth is not None else ("value", char, "char")
        if self.match(LIFETIME):
            return None
        return self.ty()

    def fn_def(self):
        self.want("FnDef(")
        krate, path = self.def_id()
        self.want(", ")
        self.want("[")
        args = self.listed("]")
        self.want(")")
        return ("fndef", krate, path, args)

    def def_id(self):
        found = self.match(DEF_ID_START)
        if not found:
            raise TypeTextError(f"the type {self.rest()}")
        start = self.at
        depth = 0
        while depth or not self.peek(")"):
            depth += {"(": 1, ")": -1}.get(self.text[self.at], 0)
            self.at += 1
        path = self.text[start : self.at]
        self.want(")")
        return ("" if found.group(1) == "0" else found.group(2)), path

    def fn_pointer(self):
        bound = self.take("Binder { value: ")
        self.take("unsafe ")
        self.take("const ")
        self.want("fn(")
        params = self.listed(")")
        ret = self.ty() if self.take(" -> ") else UNIT
        if bound:
            self.want(", bound_vars: ")
            self.at = self.text.index("}", self.at) + 1
        return ("fnptr", params, ret)

    def path(self):
        found = self.match(SEGMENT)
        if not found:
            raise TypeTextError(f"the type {self.rest()}")
        name = found.group(0)
        args = ()
        while True:
            if self.take("<"):
                args = self.listed(">")
            elif self.peek("::"):
                self.at += 2
                if self.take("<"):
                    args = self.listed(">")
                else:
                    found = self.match(SEGMENT)
                    if not found:
                        raise TypeTextError(f"the type {self.text}")
                    name += "::" + found.group(0)
            else:
                break
        if name in PRIMITIVES and not args:
            return ("prim", name)
        return ("path", name, args)


CACHE = {}


def read_type(text):
    """The type that this text prints; a text that isn't read is a TypeTextError."""
    if text not in CACHE:
        reader = Reader(text)
        ty = reader.ty()
        if reader.rest():
            raise TypeTextError(f"the type {text}")
        CACHE[text] = ty
    return CACHE[text]


def read_signature(text):
    """The types of the parameters and of the answer of `fn(..) -> ..`."""
    _, params, ret = read_type(text)
    return params, ret


def write_type(ty):
    """A type as Rust says it; lifetimes are `'static`. The crate's own paths begin with `crate::`."""
    sort = ty[0]
    if sort == "prim" or sort == "param":
        return ty[1]
    if sort == "tuple":
        return "(" + "".join(write_type(part) + ", " for part in ty[1]) + ")"
    if sort == "array":
        return f"[{write_type(ty[1])}; {write_const(ty[2])}]"
    if sort == "slice":
        return f"[{write_type(ty[1])}]"
    if sort == "ref":
        return f"&'static {'mut ' if ty[2] else ''}{write_type(ty[1])}"
    if sort == "raw":
        return f"*{'mut' if ty[2] else 'const'} {write_type(ty[1])}"
    if sort == "fnptr":
        return "fn(" + ", ".join(map(write_type, ty[1])) + ") -> " + write_type(ty[2])
    if sort == "path":
        root = "" if is_foreign(ty[1]) else "crate::"
        args = ", ".join(write_const(a) if is_const(a) else write_type(a) for a in ty[2])
        return f"{root}{ty[1]}" + (f"<{args}>" if args else "")
    raise TypeTextError(f"the type {ty}")


FOREIGN = ("std::", "core::", "alloc::")


def is_foreign(path):
    """Whether a path is one of Rust's own library."""
    return path.startswith(FOREIGN)


def is_const(arg):
    """Whether a generic argument is a constant that is a value."""
    return arg[0] == "value"


def write_const(const):
    return f"'{const[1]}'" if const[0] == "value" and const[2] == "char" else const[1]


def parts_of(ty):
    """The types that a type is made of, each with its position: types alone, no constants."""
    sort = ty[0]
    if sort in ("tuple",):
        return ty[1]
    if sort in ("array", "slice", "ref", "raw"):
        return (ty[1],)
    if sort == "path":
        return tuple(a for a in ty[2] if not is_const(a))
    if sort == "fndef":
        return tuple(a for a in ty[3] if not is_const(a))
    if sort == "fnptr":
        return (*ty[1], ty[2])
    return ()


def substituted(ty, args):
    """A type with generic arguments put in, by the names of the parameters."""
    sort = ty[0]
    if sort == "param":
        return args.get(ty[1], ty)
    if sort in ("prim", "value"):
        return ty
    if sort == "tuple":
        return ("tuple", tuple(substituted(part, args) for part in ty[1]))
    if sort == "array":
        return ("array", substituted(ty[1], args), substituted(ty[2], args))
    if sort == "slice":
        return ("slice", substituted(ty[1], args))
    if sort in ("ref", "raw"):
        return (sort, substituted(ty[1], args), ty[2])
    if sort == "path":
        return ("path", ty[1], tuple(substituted(a, args) for a in ty[2]))
    if sort == "fndef":
        return ("fndef", ty[1], ty[2], tuple(substituted(a, args) for a in ty[3]))
    if sort == "fnptr":
        return ("fnptr", tuple(substituted(a, args) for a in ty[1]), substituted(ty[2], args))
    return ty


def has_param(ty):
    """Whether a type mentions a generic parameter."""
    if ty[0] == "param":
        return True
    if ty[0] == "array" and ty[2][0] == "param":
        return True
    if ty[0] == "path" and any(a[0] == "param" for a in ty[2]):
        return True
    return any(has_param(part) for part in parts_of(ty))
