"""A body in the world's form, before items have numbers.

Nodes are JSON already, as `docs/INPUT.md` says, with the ids of expressions, patterns, bindings and labels in it.
Types and names of items are still those of the compiler's text; `numbering.py` turns them into ids.
"""


class FormMissing(Exception):
    """Something that the world's format lacks, or that the front doesn't read. `place` is a line and a column of the
    compiled text, if one is known."""

    def __init__(self, what, place=None):
        super().__init__(what)
        self.what, self.place = what, place


class Lowered:
    """The nodes of one body, and what inference found."""

    def __init__(self):
        self.exprs, self.pats, self.bindings, self.labels = [], [], [], []
        self.params, self.self_param, self.root = [], None, None
        self.expr_types, self.pat_types, self.binding_types = [], [], []
        self.adjustments = {}
        self.pat_adjustments = {}
        self.value_res, self.assoc_res, self.variant_res = {}, {}, {}
        self.pat_value_res, self.pat_assoc_res, self.pat_variant_res = {}, {}, {}
        self.field_res, self.method_res, self.binding_modes = {}, {}, {}
        self.coercion_casts, self.diverging = [], []

    def expr(self, node, ty):
        """Adds an expression, and answers its id."""
        self.exprs.append(node)
        self.expr_types.append(ty)
        return len(self.exprs) - 1

    def pat(self, node, ty):
        """Adds a pattern, and answers its id."""
        self.pats.append(node)
        self.pat_types.append(ty)
        return len(self.pats) - 1

    def binding(self, name, mode, ty):
        """Adds a variable, and answers its id."""
        self.bindings.append({"name": name, "mode": mode})
        self.binding_types.append(ty)
        return len(self.bindings) - 1

    def label(self, name):
        """Adds a label, and answers its id."""
        self.labels.append(name)
        return len(self.labels) - 1

    def types(self):
        """All types of the body, also those after adjustments."""
        yield from self.expr_types
        yield from self.pat_types
        yield from self.binding_types
        for steps in self.adjustments.values():
            for _, target in steps:
                yield target

    def names(self):
        """What the body's paths and fields name: ("const", path, args), ("static", path), ("fn", crate, path, args),
        ("variant", path, index), ("self",), ("param", name)."""
        for table in (self.value_res, self.pat_value_res, self.assoc_res, self.pat_assoc_res):
            yield from table.values()
        for table in (self.variant_res, self.pat_variant_res, self.method_res):
            yield from table.values()


# Literals, as JSON.

INT_SUFFIXES = {f"i{bits}": f"I{bits}" for bits in (8, 16, 32, 64, 128)} | {"isize": "Isize"}
UINT_SUFFIXES = {f"u{bits}": f"U{bits}" for bits in (8, 16, 32, 64, 128)} | {"usize": "Usize"}


def number_literal(number, suffix=None):
    """A literal of a number; the suffix is a name as `u8`, or None."""
    if suffix in UINT_SUFFIXES or number >= 1 << 127:
        return {"Literal": {"Uint": [str(number), UINT_SUFFIXES.get(suffix)]}}
    return {"Literal": {"Int": [str(number), INT_SUFFIXES.get(suffix)]}}


def scalar_literal(bits, ty):
    """The literal of a type whose value has these bits, or None where the type is none of a scalar."""
    if ty[0] != "prim":
        return None
    name = ty[1]
    if name == "bool":
        return {"Literal": {"Bool": bits != 0}}
    if name == "char":
        return {"Literal": {"Char": bits}}
    if name in UINT_SUFFIXES:
        return number_literal(bits)
    if name in INT_SUFFIXES:
        width = 64 if name == "isize" else int(name[1:])
        return number_literal(bits - (1 << width) if bits >> (width - 1) else bits)
    return None
