"""Small worlds, as the JSON that the program reads: what stands in them is named as in `docs/INPUT.md`.

Ids are plain numbers. An argument that is none or empty is left out of the JSON.
"""

BOOL, CHAR, STR, NEVER = "Bool", "Char", "Str", "Never"
UNIT = {"Tuple": []}
INTEGER_SIZES = {
    **{f"I{bits}": bits // 8 for bits in (8, 16, 32, 64, 128)},
    **{f"U{bits}": bits // 8 for bits in (8, 16, 32, 64, 128)},
    "Isize": 8,
    "Usize": 8,
}


def filled(**fields):
    """A struct with those of the fields that aren't none or empty."""
    return {name: value for name, value in fields.items() if value is not None and value not in ([], ())}


def variant(name, **fields):
    """A variant with named fields."""
    return {name: filled(**fields)}


# Inputs.


def world(goals=(), **tables):
    """An input with these tables and goals. It has one crate, where `crates` doesn't say otherwise."""
    return filled(version=1, world={"crates": [{"pointer_bytes": 8}], **tables}, goals=list(goals))


def goal(definition, args=(), limits=None):
    """A goal, as `goal({"ConstId": 0})`."""
    return filled(**{"def": definition}, args=list(args), limits=limits)


# Types, generic arguments and constants.


def integer(name):
    """The type of integers with this name, as `integer("U8")`."""
    return {"Uint" if name.startswith("U") else "Int": name}


U8, U16, U32, U64, USIZE = (integer(name) for name in ("U8", "U16", "U32", "U64", "Usize"))


def tuple_of(*parts):
    return {"Tuple": list(parts)}


def slice_of(element):
    return {"Slice": element}


def ref(pointee, mutability="Not"):
    return {"Ref": [pointee, mutability]}


def raw(pointee, mutability="Not"):
    return {"RawPtr": [pointee, mutability]}


def array_of(element, length):
    """An array type; the length is a constant, or a number."""
    return {"Array": [element, usize(length) if isinstance(length, int) else length]}


def struct(number, *args):
    """A struct's type at these generic arguments."""
    return {"Adt": [{"StructId": number}, list(args)]}


def union(number, *args):
    return {"Adt": [{"UnionId": number}, list(args)]}


def enum(number, *args):
    return {"Adt": [{"EnumId": number}, list(args)]}


def fn_def(number, *args):
    """The type of a function's name."""
    return {"FnDef": [{"FunctionId": number}, list(args)]}


def constructor_of(number, *args):
    """The type of the name of what builds a struct."""
    return {"FnDef": [{"StructId": number}, list(args)]}


def fn_pointer(*params, ret=UNIT):
    return {"FnPtr": [list(params), ret]}


def closure_type(number, *args):
    return {"Closure": [number, list(args)]}


def dynamic(number, *args):
    """`dyn` with the trait of this number."""
    return {"Dynamic": [filled(**{"def": number}, args=list(args))]}


def alias(number, *args):
    return {"Alias": [number, list(args)]}


def type_param(number, index=0):
    """A type parameter, with its place among the generic arguments."""
    return {"Param": {"id": number, "index": index}}


def const_param(number, index=0):
    """A const parameter, with its place among the generic arguments."""
    return {"Param": {"id": number, "index": index}}


def type_arg(ty):
    """A generic argument that is a type."""
    return {"Ty": ty}


def const_arg(constant):
    """A generic argument that is a constant."""
    return {"Konst": constant}


def value(ty, memory, memory_map="Empty"):
    """A constant that is a value, with its bytes."""
    return {"Value": {"ty": ty, "memory": memory, "memory_map": memory_map}}


def usize(number):
    """A constant of type `usize`."""
    return value(USIZE, number.to_bytes(8, "little").hex())


def unevaluated(definition, *args):
    """A constant by its name, as `unevaluated({"ConstId": 0})`."""
    return {"Unevaluated": filled(**{"def": definition}, args=list(args))}


# Rows of items.


def function(params=(), ret=UNIT, krate=0, **more):
    return {"name": "f", "krate": krate, "sig": filled(params=list(params), ret=ret), **more}


def const(ty=USIZE, krate=0, **more):
    return {"krate": krate, "ty": ty, **more}


def static(ty=USIZE, krate=0, **more):
    return {"name": "S", "krate": krate, "ty": ty, **more}


def fields(*types):
    return [{"name": str(place), "ty": ty} for place, ty in enumerate(types)]


def struct_row(*types):
    """A struct or union with fields of these types."""
    return filled(name="S", fields=fields(*types), shape="Tuple")


def named_struct_row(name, fields, shape):
    """A struct with these fields, which stand with their types."""
    return filled(name=name, fields=[{"name": field, "ty": ty} for field, ty in fields], shape=shape)


def enum_row(*variants):
    """An enum with the variants of these numbers."""
    return filled(name="E", variants=list(variants))


def variant_row(*types, parent=0, index=0, krate=0, **more):
    """A variant with fields of these types."""
    row = filled(name="V", krate=krate, parent=parent, index=index, fields=fields(*types), shape="Tuple")
    return {**row, **more}


def closure_row(owner, expr, params=(), captures=()):
    return filled(owner=owner, expr=expr, kind="Fn", params=list(params), captures=list(captures))


def capture(ty=USIZE, local=0, span=0, projections=()):
    return filled(local=local, projections=list(projections), kind="ByValue", ty=ty, span=span)


# Bodies.


def body(exprs=None, pats=(), bindings=0, root=None, found=None, **more):
    """A body, with what inference found. Without expressions it is one literal, and the last one is the root.
    Of bindings it has so many, or these. Each node is of type `usize`, where `found` doesn't say otherwise."""
    exprs = [literal(2)] if exprs is None else exprs
    bindings = [binding() for _ in range(bindings)] if isinstance(bindings, int) else bindings
    root = len(exprs) - 1 if root is None else root
    types = filled(
        expr_types=[USIZE] * len(exprs), pat_types=[USIZE] * len(pats), binding_types=[USIZE] * len(bindings)
    )
    return {
        "body": {**filled(exprs=exprs, pats=pats, bindings=bindings, body_expr=root), **more},
        "infer": {**types, **(found or {})},
    }


def of_body(*args, **more):
    """The world with one body, as `body` makes it."""
    return world(bodies=[body(*args, **more)])


def binding(owner=None):
    return filled(name="x", mode="Unannotated", owner=owner)


# Expressions.


def literal(number):
    return {"Literal": {"Int": [str(number), None]}}


def char(number):
    return {"Literal": {"Char": number}}


def path(name="x"):
    return {"Path": name}


def negation(expr):
    """`!expr`, which holds one expression."""
    return {"UnaryOp": {"expr": expr, "op": "Not"}}


def add(lhs, rhs):
    return {"BinaryOp": {"lhs": lhs, "rhs": rhs, "op": {"ArithOp": "Add"}}}


def tuple_expr(*exprs):
    return variant("Tuple", exprs=list(exprs))


def record(name, fields, base=None):
    """A struct with these fields, which stand with their expressions, and with a base or without."""
    written = [{"name": field, "expr": expr} for field, expr in fields]
    return {"RecordLit": {"path": name, "fields": written, "spread": "None" if base is None else {"Expr": base}}}


def array_expr(*exprs):
    return variant("Array", elements=list(exprs))


def assignment(target, assigned):
    """`target = assigned`, where the target is a pattern."""
    return {"Assignment": {"target": target, "value": assigned}}


def block(*statements, tail=None, label=None):
    return variant("Block", statements=list(statements), tail=tail, label=label)


def unsafe(*statements, tail=None):
    return variant("Unsafe", statements=list(statements), tail=tail)


def let_statement(pat, initializer=None, else_branch=None):
    return variant("Let", pat=pat, initializer=initializer, else_branch=else_branch)


def statement(expr):
    return {"Expr": {"expr": expr, "has_semi": True}}


def loop(inside, label=None):
    return variant("Loop", body=inside, label=label)


def break_to(label=None, expr=None):
    return variant("Break", expr=expr, label=label)


def continue_to(label=None):
    return variant("Continue", label=label)


def return_with(expr=None):
    return variant("Return", expr=expr)


def let_condition(pat, expr):
    """`let pat = expr` as a condition."""
    return {"Let": {"pat": pat, "expr": expr}}


def match(expr, *arms):
    return variant("Match", expr=expr, arms=list(arms))


def arm(pat, expr, guard=None):
    return filled(pat=pat, guard=guard, expr=expr)


def closure(*args, inside):
    return variant("Closure", args=list(args), body=inside)


# Patterns.

WILD = "Wild"


def bind(number, subpat=None):
    return variant("Bind", id=number, subpat=subpat)


def ref_pat(pat):
    """`&pat`, which holds one pattern."""
    return {"Ref": {"pat": pat}}


def tuple_pat(*args, ellipsis=None):
    return variant("Tuple", args=list(args), ellipsis=ellipsis)


def tuple_struct_pat(*args, ellipsis=None):
    return variant("TupleStruct", args=list(args), ellipsis=ellipsis)


def literal_pat(expr):
    return {"Lit": expr}


def range_pat(start=None, end=None):
    return variant("Range", start=start, end=end, range_type="Inclusive")


def const_block_pat(expr):
    return {"ConstBlock": expr}


def expr_pat(expr):
    """A place that is assigned to."""
    return {"Expr": expr}


# Layouts.


def layout(size, align=1, offsets=(), variants=None, sized=True):
    """A layout, of the one variant 0 where `variants` doesn't say otherwise."""
    shown = {"Single": 0} if variants is None else variants
    return filled(size=size, align=align, sized=sized, offsets=list(offsets), variants=shown)


def tagged(*offsets, tag_offset=0, tag_size=1, encoding="Direct"):
    """The variants of a layout with a tag: the offsets of each variant's fields."""
    lists = [list(of_variant) for of_variant in offsets]
    return variant("Multiple", tag_offset=tag_offset, tag_size=tag_size, encoding=encoding, variants=lists)


def niche(untagged, first, last, start):
    return {"Niche": {"untagged_variant": untagged, "niche_first": first, "niche_last": last, "niche_start": str(start)}}


def sized(ty, size, align=None):
    """A row of `layouts`: a type without fields, of this size. It is aligned at the size, where nothing is said."""
    return [ty, layout(size, align or max(size, 1))]


def pointer(ty, size=8):
    """A row of `layouts`: a reference, a raw pointer or a function pointer."""
    return [ty, layout(size, 8)]


def unsized(ty, size=0, align=1, offsets=()):
    """A row of `layouts`: a type whose values have no size that the type tells."""
    return [ty, layout(size, align, offsets, sized=False)]


LAYOUT_U8, LAYOUT_U16, LAYOUT_U32, LAYOUT_USIZE = sized(U8, 1), sized(U16, 2), sized(U32, 4), sized(USIZE, 8)
