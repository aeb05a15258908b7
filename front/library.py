"""What the front knows of Rust's own library, whose items have no text here.

Enums and structs by their fields, the special functions that the world has names for, and the constants of integers.
"""

import re

from items import Adt, Generic, Variant
from lowered import Lowered, number_literal
from type_text import INTEGERS, USIZE

# How the compiler writes paths of the library in types: by the name that people use.
WRITTEN = {"core": "std", "alloc": "std"}


def _enum(path, names, variants, repr_signed=None):
    generics = [Generic(path, name) for name in names]
    adt = Adt(path, "enum", generics, variants, repr_signed)
    return adt


def _struct(path, names, shape, fields):
    generics = [Generic(path, name) for name in names]
    variant = Variant(path.rsplit("::", 1)[-1], shape, [name for name, _ in fields], types=[ty for _, ty in fields])
    return Adt(path, "struct", generics, [variant])


def _data(name, ty):
    return Variant(name, "Tuple", ["0"], types=[("param", ty)])


def library_types():
    """The structs and enums of the library that the front knows, by their paths."""
    ordering = "std::cmp::Ordering"
    unit = [
        Variant(name, "Unit", [], f"{ordering}::{name}::{{constant#0}}") for name in ("Less", "Equal", "Greater")
    ]
    known = [
        _enum("std::option::Option", ["T"], [Variant("None", "Unit", []), _data("Some", "T")]),
        _enum("std::result::Result", ["T", "E"], [_data("Ok", "T"), _data("Err", "E")]),
        _enum("std::ops::ControlFlow", ["B", "C"], [_data("Continue", "C"), _data("Break", "B")]),
        _enum(ordering, [], unit, True),
        _struct("std::ops::Range", ["Idx"], "Record", [("start", ("param", "Idx")), ("end", ("param", "Idx"))]),
        _struct("std::ops::RangeFrom", ["Idx"], "Record", [("start", ("param", "Idx"))]),
        _struct("std::ops::RangeTo", ["Idx"], "Record", [("end", ("param", "Idx"))]),
        _struct("std::ops::RangeFull", [], "Unit", []),
        _struct("std::marker::PhantomData", ["T"], "Unit", []),
    ]
    for adt in known:
        adt.is_copy = adt.sort == "enum" or adt.variants[0].shape == "Unit"
    return {adt.path: adt for adt in known}


def library_bodies():
    """The bodies of the library's discriminants, by their paths."""
    ordering = "std::cmp::Ordering"
    numbers = {"Less": -1, "Equal": 0, "Greater": 1}
    return {
        f"{ordering}::{name}::{{constant#0}}": number_body(number, ("prim", "i8")) for name, number in numbers.items()
    }


def number_body(number, ty):
    """A body that is one number."""
    out = Lowered()
    out.root = out.expr(number_literal(number), ty)
    return out


INTEGER_CONSTANT = re.compile(r"num::\{impl#\d+\}::(MIN|MAX|BITS)$")
OF_TYPE = re.compile(r"\b([iu](?:8|16|32|64|128|size))\s*(?:>\s*)?::\s*BITS\s*$")


def integer_constant(krate, path, ty, written):
    """The name and the number of `MIN`, `MAX` or `BITS` of an integer type, or None for any other constant. The type of
    `BITS` isn't that of the integers, so these are told by what is written."""
    found = INTEGER_CONSTANT.match(path)
    if krate != "core" or not found or ty[0] != "prim" or ty[1] not in INTEGERS:
        return None
    name, of = found.group(1), ty[1]
    if name == "BITS":
        shown = OF_TYPE.search(written)
        if not shown:
            return None
        return f"{shown.group(1)}::BITS", 8 * INTEGERS[shown.group(1)]
    bits = 8 * INTEGERS[of]
    low, high = (-(1 << bits - 1), (1 << bits - 1) - 1) if of.startswith("i") else (0, (1 << bits) - 1)
    return f"{of}::{name}", low if name == "MIN" else high


SPECIALS = [
    (re.compile(r"(mem|intrinsics)::size_of$"), "SizeOf"),
    (re.compile(r"intrinsics::transmute$"), "Transmute"),
    (re.compile(r"(num::\{impl#\d+\}|intrinsics)::wrapping_add$"), "WrappingAdd"),
    (re.compile(r"intrinsics::add_with_overflow$"), "AddWithOverflow"),
    (re.compile(r"(num::\{impl#\d+\}|intrinsics)::saturating_add$"), "SaturatingAdd"),
    (re.compile(r"(num::\{impl#\d+\}|intrinsics)::saturating_sub$"), "SaturatingSub"),
    (re.compile(r"intrinsics::copy_nonoverlapping$"), "CopyNonoverlapping"),
    (re.compile(r"intrinsics::write_bytes$"), "WriteBytes"),
    (re.compile(r"slice::\{impl#\d+\}::len$"), "SliceLen"),
    (re.compile(r"panicking::panic$"), "Panic"),
]


def special_of(path):
    """Which special function one of the library is: one that the world has no word for is named as it is."""
    for pattern, special in SPECIALS:
        if pattern.match(path):
            return special
    return {"Other": re.sub(r"\{impl#\d+\}::", "", path)}


def generic_signature(path):
    """The signature of a special function with one type parameter, or None: parameters and answer."""
    if re.match(r"(mem|intrinsics)::size_of$", path):
        return (), USIZE
    if re.match(r"slice::\{impl#\d+\}::len$", path):
        return (("ref", ("slice", ("param", "T")), False),), USIZE
    return None
