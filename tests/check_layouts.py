"""Worlds whose layouts no target has (C5), and whose tags don't fit their enums (C6)."""

from rules import Rule
from worlds import (
    BOOL,
    CHAR,
    INTEGER_SIZES,
    LAYOUT_U8,
    LAYOUT_U16,
    LAYOUT_U32,
    NEVER,
    STR,
    U8,
    U16,
    U32,
    UNIT,
    USIZE,
    alias,
    array_of,
    body,
    capture,
    closure,
    closure_row,
    closure_type,
    const,
    const_arg,
    const_param,
    dynamic,
    enum,
    enum_row,
    fn_def,
    fn_pointer,
    function,
    integer,
    layout,
    literal,
    niche,
    pointer,
    raw,
    ref,
    sized,
    slice_of,
    struct,
    struct_row,
    tagged,
    tuple_of,
    type_arg,
    type_param,
    unevaluated,
    union,
    unsized,
    usize,
    value,
    variant_row,
    world,
)

ALIAS, TYPE_PARAM, CONST_PARAM = alias(0), type_param(0), const_param(0)


def of_layouts(*layouts, **tables):
    """A world with these rows of `layouts`."""
    return world(layouts=list(layouts), **tables)


def names(*layouts, **tables):
    """The same, with one alias, one type parameter, one const parameter, one trait, one function and one struct."""
    plain = {
        "functions": [function()],
        "structs": [struct_row()],
        "traits": ["T"],
        "aliases": ["Item"],
        "type_params": ["T"],
        "const_params": [{"name": "N", "ty": USIZE}],
    }
    return of_layouts(*layouts, **{**plain, **tables})


# A struct without fields may have any size. Its row is the struct 0 of `empty_struct`.


def empty_struct(size, align=1, variants=None):
    """A world with the layout of a struct without fields."""
    return of_layouts([struct(0), layout(size, align, variants=variants)], structs=[struct_row()])


def of_struct(types, *layouts):
    """A world with these rows of `layouts`, and one struct with fields of these types."""
    return names(*layouts, structs=[struct_row(*types)])


def of_union(types, *layouts):
    return names(*layouts, unions=[struct_row(*types)])


def of_enum(variants, *layouts):
    """A world with these rows of `layouts`, and one enum, whose variants have fields of these types."""
    rows = [variant_row(*types, index=index) for index, types in enumerate(variants)]
    return names(*layouts, enums=[enum_row(*range(len(rows)))], variants=rows)


def of_closure(types, *layouts):
    """A world with these rows of `layouts`, and one closure that captures places of these types."""
    return names(
        *layouts,
        consts=[const(body=0)],
        bodies=[body([literal(2), closure(inside=0)], bindings=1)],
        closures=[closure_row({"ConstId": 0}, 1, captures=[capture(ty) for ty in types])],
    )


def single(number):
    """The variants of a layout that shows one variant."""
    return {"Single": number}


KEYS = Rule(
    "the type of a layout holds no alias and no parameter",
    [
        ("an alias", "layouts[0]", names(sized(ALIAS, 1))),
        ("a type parameter", "layouts[0]", names(sized(TYPE_PARAM, 1))),
        ("a reference to an alias", "layouts[0]", names(pointer(ref(ALIAS)))),
        ("a type parameter among a struct's arguments", "layouts[0]", names(sized(struct(0, type_arg(TYPE_PARAM)), 1))),
        ("a const parameter among a struct's arguments", "layouts[0]",
         names(sized(struct(0, const_arg(CONST_PARAM)), 1))),
        ("a reference to an array of a const parameter's length", "layouts[0]",
         names(pointer(ref(array_of(U8, CONST_PARAM))))),
        ("a function pointer that takes a parameter", "layouts[0]", names(pointer(fn_pointer(TYPE_PARAM)))),
        ("an alias among a function's arguments", "layouts[0]", names(sized(fn_def(0, type_arg(ALIAS)), 0))),
        ("the second row", "layouts[1]", names(LAYOUT_U8, sized(ALIAS, 1))),
    ],
    [("types without names", names(LAYOUT_U8, pointer(ref(struct(0, type_arg(U8)))), sized(fn_def(0, type_arg(U8)), 0)))],
)

ALIGN = Rule(
    "`align` is a power of two up to 8192",
    [
        (f"align {align}", "layouts[0]", empty_struct(0, align))
        for align in (0, 3, 6, 8191, 8193, 16384, 2**32, 2**63, 2**64 - 1)
    ],
    [(f"align {align}", empty_struct(0, align)) for align in (2**power for power in range(14))],
)

MULTIPLE = Rule(
    "`size` is a multiple of `align`",
    [
        ("size 1, align 2", "layouts[0]", empty_struct(1, 2)),
        ("size 12, align 8", "layouts[0]", empty_struct(12, 8)),
        ("size 4096, align 8192", "layouts[0]", empty_struct(4096, 8192)),
        ("size 2^64 - 1, align 2", "layouts[0]", empty_struct(2**64 - 1, 2)),
        ("a `u16` of align 4", "layouts[0]", of_layouts(sized(U16, 2, 4))),
    ],
    [
        ("size 0, align 8192", empty_struct(0, 8192)),
        ("size 16, align 8", empty_struct(16, 8)),
        ("size 8192, align 8192", empty_struct(8192, 8192)),
        ("size 2^64 - 1, align 1", empty_struct(2**64 - 1, 1)),
        ("a `u64` of align 4", of_layouts(sized(integer("U64"), 8, 4))),
    ],
)


def other_sizes(name, ty, right):
    """Worlds with layouts of other sizes than a scalar's, which are whole multiples of an alignment of 1."""
    return [
        (f"{name} of size {size}", "layouts[0]", names([ty, layout(size)]))
        for size in sorted({0, 1, right + 1, 2 * right, 32} - {right})
    ]


SCALARS = [("bool", BOOL, 1), ("char", CHAR, 4), ("!", NEVER, 0), ("a function's name", fn_def(0), 0)]
SCALARS += [(name.lower(), integer(name), size) for name, size in INTEGER_SIZES.items()]

WIDTHS = Rule(
    "`bool` has size 1, `char` 4, integers their width, `!` and the types of functions' names 0",
    [case for scalar in SCALARS for case in other_sizes(*scalar)],
    [
        *((f"{name} of size {size}", names([ty, layout(size)])) for name, ty, size in SCALARS),
        ("`!` without variants", names([NEVER, layout(0, variants="Empty")])),
        ("floats, of any size", of_layouts(sized({"Float": "F32"}, 4), sized({"Float": "F128"}, 16))),
        ("`str` and a slice", names(unsized(STR), unsized(slice_of(U8)), unsized(dynamic(0)))),
    ],
)

UNSIZED_STRUCT = unsized(struct(0))
WIDE = [
    ("`str`", STR, []),
    ("a slice", slice_of(U8), []),
    ("`dyn`", dynamic(0), []),
    ("a struct whose entry is unsized", struct(0), [UNSIZED_STRUCT]),
]
NARROW = [
    ("`u8`", U8, []),
    ("`()`", UNIT, []),
    ("a reference to `str`", ref(STR), []),
    ("an array", array_of(U8, 3), []),
    ("a struct without entry", struct(0), []),
    ("a struct whose entry is sized", struct(0), [sized(struct(0), 0)]),
]


def pointers(name, pointee, entries, size):
    """Worlds with layouts of a reference and of a raw pointer, of this size, with the entries before them."""
    for kind, ty in (("a reference to", ref(pointee)), ("a raw pointer to", raw(pointee, "Mut"))):
        yield f"{kind} {name}, of size {size}", names(*entries, pointer(ty, size)), len(entries)


def wrong_pointers(rows, sizes):
    """Such worlds of wrong sizes, with the places of the wrong rows."""
    return [
        (name, f"layouts[{place}]", made)
        for row in rows
        for size in sizes
        for name, made, place in pointers(*row, size)
    ]


POINTERS = Rule(
    "a reference or raw pointer has size 16 to `str`, a slice, `dyn` and a struct whose entry is unsized, else 8; "
    "a function pointer has size 8",
    [
        *wrong_pointers(WIDE, (0, 8, 24)),
        *wrong_pointers(NARROW, (0, 16)),
        ("to a struct whose entry is unsized, and comes later", "layouts[0]",
         names(pointer(ref(struct(0))), UNSIZED_STRUCT)),
        ("a function pointer of size 16", "layouts[0]", names(pointer(fn_pointer(U8), 16))),
        ("a function pointer of size 0", "layouts[0]", names(pointer(fn_pointer(U8), 0))),
    ],
    [
        *((name, made) for row in WIDE for name, made, _ in pointers(*row, 16)),
        *((name, made) for row in NARROW for name, made, _ in pointers(*row, 8)),
        ("to a struct whose entry is unsized, and comes later", names(pointer(ref(struct(0)), 16), UNSIZED_STRUCT)),
        ("to a struct with other arguments than those of the unsized entry",
         names(UNSIZED_STRUCT, pointer(ref(struct(0, type_arg(U8))), 8))),
        ("a function pointer of size 8", names(pointer(fn_pointer(STR, ret=STR)))),
    ],
)

# A type of one byte at offset 0, as a struct, a union, a tuple and others have it.
ONE_FIELD = layout(1, offsets=[0])

ENTRIES = Rule(
    "the types of the fields have entries further up, at the arguments of the layout's type",
    [
        ("a struct's field has no entry", "layouts[0]", of_struct([U8], [struct(0), ONE_FIELD])),
        ("a struct's field has its entry further down", "layouts[0]",
         of_struct([U8], [struct(0), ONE_FIELD], LAYOUT_U8)),
        ("the second field of a struct has no entry", "layouts[1]",
         of_struct([U8, BOOL], LAYOUT_U8, [struct(0), layout(2, offsets=[0, 1])])),
        ("a struct is its own field", "layouts[0]", of_struct([struct(0)], [struct(0), ONE_FIELD])),
        ("a generic struct has an entry for another argument", "layouts[1]",
         of_struct([TYPE_PARAM], LAYOUT_U8, [struct(0, type_arg(BOOL)), ONE_FIELD])),
        ("a generic struct's field is past its arguments", "layouts[1]",
         of_struct([type_param(0, 1)], LAYOUT_U8, [struct(0, type_arg(U8)), ONE_FIELD])),
        ("a generic struct's argument is a constant, and its field a type", "layouts[1]",
         names(LAYOUT_U8, [struct(0, const_arg("Error")), ONE_FIELD], structs=[struct_row(TYPE_PARAM)])),
        ("a struct's field is an alias without normal type", "layouts[1]",
         of_struct([ALIAS], LAYOUT_U8, [struct(0), ONE_FIELD])),
        ("a struct's field is an alias of a type without entry", "layouts[1]",
         names(LAYOUT_U8, [struct(0), ONE_FIELD], structs=[struct_row(ALIAS)], normals=[[0, [], BOOL]])),
        ("a union's field has no entry", "layouts[0]", of_union([U8], [union(0), ONE_FIELD])),
        ("the second part of a tuple has no entry", "layouts[1]",
         of_layouts(LAYOUT_U8, [tuple_of(U8, BOOL), layout(2, offsets=[0, 1])])),
        ("a tuple's part has its entry further down", "layouts[0]",
         of_layouts([tuple_of(U8), ONE_FIELD], LAYOUT_U8)),
        ("the one variant that an enum shows has a field without entry", "layouts[0]",
         of_enum([[], [U8]], [enum(0), layout(1, offsets=[0], variants=single(1))])),
        ("a variant that an enum does not show has a field without entry", "layouts[1]",
         of_enum([[BOOL], [U8]], LAYOUT_U8, [enum(0), layout(1, offsets=[0], variants=single(1))])),
        ("a variant that an enum does not show holds the enum", "layouts[0]",
         of_enum([[], [enum(0)]], [enum(0), layout(0, variants=single(0))])),
        ("an enum shows no variant, and has one of a field without entry", "layouts[0]",
         of_enum([[BOOL]], [enum(0), layout(0, variants="Empty")])),
        ("a variant without a list of a tagged enum has a field without entry", "layouts[1]",
         of_enum([[U8], [BOOL]], LAYOUT_U8, [enum(0), layout(2, variants=tagged([1]))])),
        ("a variant of a tagged enum has a field without entry", "layouts[1]",
         of_enum([[U8], [BOOL]], LAYOUT_U8, [enum(0), layout(2, variants=tagged([1], [1]))])),
        ("an untagged variant has a field without entry", "layouts[0]",
         of_enum([[BOOL], []], [enum(0), layout(1, variants=tagged([0], [], encoding=niche(0, 1, 1, 2)))])),
        ("an array's element has no entry", "layouts[0]", of_layouts([array_of(U8, 1), layout(1)])),
        ("an empty array's element has no entry", "layouts[0]", of_layouts([array_of(U8, 0), layout(0)])),
        ("what a closure captures has no entry", "layouts[0]", of_closure([U8], [closure_type(0), ONE_FIELD])),
        ("what a generic closure captures has an entry for another argument", "layouts[1]",
         of_closure([TYPE_PARAM], LAYOUT_U8, [closure_type(0, type_arg(BOOL)), ONE_FIELD])),
    ],
    [
        ("a struct's field", of_struct([U8], LAYOUT_U8, [struct(0), ONE_FIELD])),
        ("a generic struct at `u8`", of_struct([TYPE_PARAM], LAYOUT_U8, [struct(0, type_arg(U8)), ONE_FIELD])),
        ("a generic struct, whose field is an array of its argument's length",
         of_struct([array_of(U8, CONST_PARAM)], LAYOUT_U8, [array_of(U8, 3), layout(3)],
                   [struct(0, const_arg(usize(3))), layout(3, offsets=[0])])),
        ("a struct's field is an alias of `u8`",
         names(LAYOUT_U8, [struct(0), ONE_FIELD], structs=[struct_row(ALIAS)], normals=[[0, [], U8]])),
        ("a struct's field is an alias at its argument",
         names(LAYOUT_U8, [struct(0, type_arg(BOOL)), ONE_FIELD], structs=[struct_row(alias(0, type_arg(TYPE_PARAM)))],
               normals=[[0, [type_arg(BOOL)], U8]])),
        ("a union's field", of_union([U8], LAYOUT_U8, [union(0), ONE_FIELD])),
        ("a tuple's parts",
         of_layouts(LAYOUT_U8, sized(BOOL, 1), [tuple_of(U8, BOOL), layout(2, offsets=[0, 1])])),
        ("every variant of an enum that shows one",
         of_enum([[BOOL], [U8]], LAYOUT_U8, sized(BOOL, 1), [enum(0), layout(1, offsets=[0], variants=single(1))])),
        ("the variant of an enum that shows none",
         of_enum([[BOOL]], sized(BOOL, 1), [enum(0), layout(0, variants="Empty")])),
        ("every variant of a tagged enum",
         of_enum([[U8], [BOOL]], LAYOUT_U8, sized(BOOL, 1), [enum(0), layout(2, variants=tagged([1], [1]))])),
        ("an array's element", of_layouts(LAYOUT_U8, [array_of(U8, 1), layout(1)])),
        ("what a closure captures", of_closure([U8], LAYOUT_U8, [closure_type(0), ONE_FIELD])),
        ("what a generic closure captures",
         of_closure([TYPE_PARAM], LAYOUT_U8, [closure_type(0, type_arg(U8)), ONE_FIELD])),
        ("what a reference, a slice and a function pointer name",
         names(pointer(ref(U8)), unsized(slice_of(U8)), pointer(fn_pointer(U8)))),
    ],
)

OFFSETS = Rule(
    "a struct, a union, a tuple and an enum's variants have one offset for each field",
    [
        ("a struct without offset", "layouts[1]", of_struct([U8], LAYOUT_U8, [struct(0), layout(1)])),
        ("a struct with an offset too many", "layouts[1]",
         of_struct([U8], LAYOUT_U8, [struct(0), layout(1, offsets=[0, 0])])),
        ("a struct without fields, with an offset", "layouts[0]", of_struct([], [struct(0), ONE_FIELD])),
        ("a union without offset", "layouts[1]", of_union([U8], LAYOUT_U8, [union(0), layout(1)])),
        ("a union of two fields with one offset", "layouts[1]", of_union([U8, U8], LAYOUT_U8, [union(0), ONE_FIELD])),
        ("a tuple of two parts with one offset", "layouts[1]", of_layouts(LAYOUT_U8, [tuple_of(U8, U8), ONE_FIELD])),
        ("`()` with an offset", "layouts[0]", of_layouts([UNIT, ONE_FIELD])),
        ("a tagged enum's second variant without offset", "layouts[1]",
         of_enum([[], [U8]], LAYOUT_U8, [enum(0), layout(2, variants=tagged([], []))])),
        ("a tagged enum's first variant with an offset too many", "layouts[1]",
         of_enum([[], [U8]], LAYOUT_U8, [enum(0), layout(2, variants=tagged([1], [1]))])),
        ("the one variant that an enum shows, without offset", "layouts[1]",
         of_enum([[], [U8]], LAYOUT_U8, [enum(0), layout(1, variants=single(1))])),
        ("the one variant that an enum shows, with an offset too many", "layouts[1]",
         of_enum([[], [U8]], LAYOUT_U8, [enum(0), layout(1, offsets=[0], variants=single(0))])),
    ],
    [
        ("a struct of two fields", of_struct([U8, U8], LAYOUT_U8, [struct(0), layout(2, offsets=[0, 1])])),
        ("a struct without fields", empty_struct(0)),
        ("a union of two fields", of_union([U8, U8], LAYOUT_U8, [union(0), layout(1, offsets=[0, 0])])),
        ("a tuple of two parts", of_layouts(LAYOUT_U8, [tuple_of(U8, U8), layout(2, offsets=[1, 0])])),
        ("`()`", of_layouts([UNIT, layout(0)])),
        ("a tagged enum", of_enum([[], [U8]], LAYOUT_U8, [enum(0), layout(2, variants=tagged([], [1]))])),
        ("a tagged enum, whose tag has an offset too",
         of_enum([[], [U8]], LAYOUT_U8, [enum(0), layout(2, offsets=[0], variants=tagged([], [1]))])),
        ("the one variant that an enum shows, and has no field",
         of_enum([[], [U8]], LAYOUT_U8, [enum(0), layout(0, variants=single(0))])),
        ("the one variant that an enum shows, and has a field",
         of_enum([[], [U8]], LAYOUT_U8, [enum(0), layout(1, offsets=[0], variants=single(1))])),
    ],
)

INSIDE = Rule(
    "fields and tags lie inside the size",
    [
        ("a struct's field ends one byte past it", "layouts[1]",
         of_struct([U8], LAYOUT_U8, [struct(0), layout(1, offsets=[1])])),
        ("a struct's second field ends past it", "layouts[2]",
         of_struct([U8, U16], LAYOUT_U8, LAYOUT_U16, [struct(0), layout(4, 2, offsets=[0, 3])])),
        ("a field without size begins past it", "layouts[1]",
         of_struct([UNIT], [UNIT, layout(0)], [struct(0), layout(1, offsets=[2])])),
        ("a field ends at 2^64", "layouts[1]",
         of_struct([U8], LAYOUT_U8, [struct(0), layout(1, offsets=[2**64 - 1])])),
        ("a field ends past 2^64, at a place that is inside once 2^64 is taken off", "layouts[1]",
         of_struct([U16], LAYOUT_U16, [struct(0), layout(1, offsets=[2**64 - 1])])),
        ("a generic struct's field ends past it", "layouts[1]",
         of_struct([TYPE_PARAM], LAYOUT_U16, [struct(0, type_arg(U16)), ONE_FIELD])),
        ("a union's second field is larger", "layouts[2]",
         of_union([U8, U16], LAYOUT_U8, LAYOUT_U16, [union(0), layout(1, offsets=[0, 0])])),
        ("a tuple's part ends past it", "layouts[1]", of_layouts(LAYOUT_U16, [tuple_of(U16), ONE_FIELD])),
        ("the field of a tagged enum's variant ends past it", "layouts[1]",
         of_enum([[], [U16]], LAYOUT_U16, [enum(0), layout(2, 2, variants=tagged([], [1]))])),
        ("the field of the one variant that an enum shows ends past it", "layouts[1]",
         of_enum([[U16]], LAYOUT_U16, [enum(0), ONE_FIELD])),
        ("the tag ends one byte past it", "layouts[0]",
         of_enum([[], []], [enum(0), layout(1, variants=tagged([], [], tag_offset=1))])),
        ("the tag is larger", "layouts[0]",
         of_enum([[], []], [enum(0), layout(1, variants=tagged([], [], tag_size=2))])),
        ("the tag ends at 2^64", "layouts[0]",
         of_enum([[], []], [enum(0), layout(1, variants=tagged([], [], tag_offset=2**64 - 1))])),
        ("the tag ends past 2^64, at a place that is inside once 2^64 is taken off", "layouts[0]",
         of_enum([[], []], [enum(0), layout(1, variants=tagged([], [], tag_offset=2**64 - 1, tag_size=2))])),
    ],
    [
        ("a struct's field touches the end", of_struct([U8], LAYOUT_U8, [struct(0), layout(2, offsets=[1])])),
        ("a field without size stands at the end",
         of_struct([UNIT], [UNIT, layout(0)], [struct(0), layout(1, offsets=[1])])),
        ("a field touches 2^64 - 1", of_struct([U8], LAYOUT_U8, [struct(0), layout(2**64 - 1, offsets=[2**64 - 2])])),
        ("two fields at one place", of_struct([U8, U8], LAYOUT_U8, [struct(0), layout(1, offsets=[0, 0])])),
        ("a union's largest field touches the end",
         of_union([U8, U16], LAYOUT_U8, LAYOUT_U16, [union(0), layout(2, offsets=[0, 0])])),
        ("a tuple's part touches the end", of_layouts(LAYOUT_U16, [tuple_of(U16), layout(3, offsets=[1])])),
        ("the field of a tagged enum's variant touches the end",
         of_enum([[], [U16]], LAYOUT_U16, [enum(0), layout(3, variants=tagged([], [1]))])),
        ("the tag touches the end",
         of_enum([[], []], [enum(0), layout(3, variants=tagged([], [], tag_offset=1, tag_size=2))])),
        ("the tag touches 2^64 - 1",
         of_enum([[], []], [enum(0), layout(2**64 - 1, variants=tagged([], [], tag_offset=2**64 - 2))])),
    ],
)

def number(count, memory_size):
    """A constant that is this number, in so many bytes."""
    return value(USIZE, count.to_bytes(memory_size, "little").hex())


# Lengths that are no number: they are still to be evaluated, were not found, or have more bytes than a number has.
NO_NUMBERS = [
    ("a constant's name", unevaluated({"ConstId": 0})),
    ("a constant that inference didn't find", "Error"),
    ("a value of 17 bytes", number(3, 17)),
]


def of_arrays(*layouts):
    """A world with these rows of `layouts`, and one constant."""
    return of_layouts(*layouts, consts=[const()])


ARRAYS = Rule(
    "an array's size is its length times that of its element",
    [
        ("one byte less", "layouts[1]", of_layouts(LAYOUT_U8, [array_of(U8, 3), layout(2)])),
        ("one byte more", "layouts[1]", of_layouts(LAYOUT_U8, [array_of(U8, 3), layout(4)])),
        ("no length, and a size", "layouts[1]", of_layouts(LAYOUT_U32, [array_of(U32, 0), layout(4, 4)])),
        ("a length and no size", "layouts[1]", of_layouts(LAYOUT_U32, [array_of(U32, 3), layout(0, 4)])),
        ("the product is 2^64, which is 0 once 2^64 is taken off", "layouts[1]",
         of_layouts(LAYOUT_U16, [array_of(U16, 2**63), layout(0, 2)])),
        ("an element without size, and a size", "layouts[1]",
         of_layouts([UNIT, layout(0)], [array_of(UNIT, 3), layout(3)])),
        ("a length of 16 bytes, and one byte more", "layouts[1]",
         of_layouts(LAYOUT_U8, [array_of(U8, number(3, 16)), layout(4)])),
        ("a length of 16 bytes, which is 3 once 2^64 is taken off", "layouts[1]",
         of_layouts(LAYOUT_U8, [array_of(U8, number(2**64 + 3, 16)), layout(3)])),
        ("a length without bytes, and a size", "layouts[1]",
         of_layouts(LAYOUT_U8, [array_of(U8, number(0, 0)), layout(1)])),
    ],
    [
        ("three bytes", of_layouts(LAYOUT_U8, [array_of(U8, 3), layout(3)])),
        ("three `u32`", of_layouts(LAYOUT_U32, [array_of(U32, 3), layout(12, 4)])),
        ("no length", of_layouts(LAYOUT_U32, [array_of(U32, 0), layout(0, 4)])),
        ("a length of two bytes, 258", of_layouts(LAYOUT_U8, [array_of(U8, 258), layout(258)])),
        ("the greatest size", of_layouts(LAYOUT_U8, [array_of(U8, 2**64 - 1), layout(2**64 - 1)])),
        ("elements without size", of_layouts([UNIT, layout(0)], [array_of(UNIT, 2**64 - 1), layout(0)])),
        ("a length of one byte", of_layouts(LAYOUT_U8, [array_of(U8, number(255, 1)), layout(255)])),
        ("a length of 16 bytes", of_layouts(LAYOUT_U8, [array_of(U8, number(3, 16)), layout(3)])),
        ("a length past 2^64, of elements without size",
         of_layouts([UNIT, layout(0)], [array_of(UNIT, number(2**128 - 1, 16)), layout(0)])),
        ("a length without bytes", of_layouts(LAYOUT_U8, [array_of(U8, number(0, 0)), layout(0)])),
    ],
)

UNTOLD = Rule(
    "an array whose length is no number may have any size, but its element's type has an entry further up",
    [
        *((f"{name}, and no entry", "layouts[0]", of_arrays([array_of(U8, length), layout(3)]))
          for name, length in NO_NUMBERS),
        *((f"{name}, and no entry nor size", "layouts[0]", of_arrays([array_of(U8, length), layout(0)]))
          for name, length in NO_NUMBERS),
        *((f"{name}, and an entry further down", "layouts[0]",
           of_arrays([array_of(U8, length), layout(3)], LAYOUT_U8)) for name, length in NO_NUMBERS),
        ("a constant's name, and a size that is no multiple of `align`", "layouts[1]",
         of_arrays(LAYOUT_U8, [array_of(U8, unevaluated({"ConstId": 0})), layout(3, 2)])),
        ("an array of arrays of untold length, which have no entry", "layouts[1]",
         of_arrays(LAYOUT_U8, [array_of(array_of(U8, "Error"), "Error"), layout(3)])),
    ],
    [
        *((f"{name}, of size {size}", of_arrays(LAYOUT_U32, [array_of(U32, length), layout(size)]))
          for name, length in NO_NUMBERS for size in (0, 3, 12, 2**64 - 1)),
        ("an array of arrays of untold length",
         of_arrays(LAYOUT_U8, [array_of(U8, "Error"), layout(3)],
                   [array_of(array_of(U8, "Error"), "Error"), layout(5)])),
        ("two arrays, whose length is told, of an array whose length is not",
         of_arrays(LAYOUT_U8, [array_of(U8, "Error"), layout(3)], [array_of(array_of(U8, "Error"), 2), layout(6)])),
    ],
)

TAG_SIZES = Rule(
    "the size of a tag is 1, 2, 4, 8 or 16",
    [
        (f"a tag of size {size}", "layouts[0]",
         of_enum([[], []], [enum(0), layout(64, variants=tagged([], [], tag_size=size))]))
        for size in (0, 3, 5, 6, 7, 12, 32, 64)
    ],
    [
        (f"a tag of size {size}", of_enum([[], []], [enum(0), layout(size, variants=tagged([], [], tag_size=size))]))
        for size in (1, 2, 4, 8, 16)
    ],
)

LAYOUTS = [KEYS, ALIGN, MULTIPLE, WIDTHS, POINTERS, ENTRIES, OFFSETS, INSIDE, ARRAYS, UNTOLD, TAG_SIZES]

TAG = tagged()

ENUMS_ALONE = Rule(
    "only the layout of an enum has a tag",
    [
        ("a struct", "layouts[0]", empty_struct(1, variants=TAG)),
        ("a union", "layouts[0]", of_union([], [union(0), layout(1, variants=TAG)])),
        ("a tuple", "layouts[0]", of_layouts([UNIT, layout(1, variants=TAG)])),
        ("an integer", "layouts[0]", of_layouts([U8, layout(1, variants=TAG)])),
        ("`bool`", "layouts[0]", of_layouts([BOOL, layout(1, variants=TAG)])),
        ("a reference", "layouts[0]", of_layouts([ref(U8), layout(8, 8, variants=TAG)])),
        ("an array", "layouts[1]", of_layouts(LAYOUT_U8, [array_of(U8, 2), layout(2, variants=TAG)])),
        ("a closure", "layouts[0]", of_closure([], [closure_type(0), layout(1, variants=TAG)])),
    ],
    [
        ("an enum", of_enum([[], []], [enum(0), layout(1, variants=tagged([], []))])),
        ("an enum without variants, with a tag of none", of_enum([], [enum(0), layout(1, variants=TAG)])),
    ],
)


def many_variants(count, tag_size):
    """A world with an enum of so many variants without fields, and a tag of this size."""
    shown = tagged(*([[]] * count), tag_size=tag_size)
    return of_enum([[]] * count, [enum(0), layout(tag_size, variants=shown)])


COUNTS = Rule(
    "a tagged layout has as many variants as its enum, and at most 256 to the power of the tag's size",
    [
        ("257 variants and a tag of one byte", "layouts[0]", many_variants(257, 1)),
        ("one variant less than the enum", "layouts[0]",
         of_enum([[], [], []], [enum(0), layout(1, variants=tagged([], []))])),
        ("one variant more than the enum", "layouts[0]",
         of_enum([[], []], [enum(0), layout(1, variants=tagged([], [], []))])),
        ("no variant, and an enum of one", "layouts[0]", of_enum([[]], [enum(0), layout(1, variants=TAG)])),
    ],
    [
        ("256 variants and a tag of one byte", many_variants(256, 1)),
        ("257 variants and a tag of two bytes", many_variants(257, 2)),
        ("two variants and a tag of 16 bytes", many_variants(2, 16)),
    ],
)

SHOWN = Rule(
    "the one variant that an enum shows is one of its variants",
    [
        ("the variant 2 of two", "layouts[0]", of_enum([[], []], [enum(0), layout(0, variants=single(2))])),
        ("the greatest number", "layouts[0]", of_enum([[], []], [enum(0), layout(0, variants=single(2**32 - 1))])),
        ("the variant 0 of none", "layouts[0]", of_enum([], [enum(0), layout(0)])),
        ("the variant 1 of an enum of one, where another enum has two", "layouts[0]",
         names([enum(0), layout(0, variants=single(1))], enums=[enum_row(0), enum_row(1, 2)],
               variants=[variant_row(), variant_row(parent=1), variant_row(parent=1, index=1)])),
    ],
    [
        ("the variant 1 of two", of_enum([[], []], [enum(0), layout(0, variants=single(1))])),
        ("an enum of no variant that shows none", of_enum([], [enum(0), layout(0, variants="Empty")])),
    ],
)


def with_niche(count, untagged, start, tag_size=1):
    """A world with an enum of so many variants without fields, all but one of which are told by a niche. The numbers
    of the others begin at `start`."""
    first, last = (1, count - 1) if untagged == 0 else (0, count - 2)
    shown = tagged(*([[]] * count), tag_size=tag_size, encoding=niche(untagged, first, last, start))
    return of_enum([[]] * count, [enum(0), layout(tag_size, variants=shown)])


NICHES = Rule(
    "a niche's untagged variant is one of its enum's, and the numbers of the other ones, from `niche_start` on, are "
    "numbers of the tag's size",
    [
        ("the untagged variant 3 of three", "layouts[0]", with_niche(3, 3, 0)),
        ("the untagged variant with the greatest number", "layouts[0]", with_niche(3, 2**32 - 1, 0)),
        ("two numbers from 255 on in one byte", "layouts[0]", with_niche(3, 0, 255)),
        ("one number from 256 on in one byte", "layouts[0]", with_niche(2, 0, 256)),
        ("two numbers from 2^16 - 1 on in two bytes", "layouts[0]", with_niche(3, 0, 2**16 - 1, 2)),
        ("two numbers from 2^32 - 1 on in four bytes", "layouts[0]", with_niche(3, 0, 2**32 - 1, 4)),
        ("two numbers from 2^64 - 1 on in eight bytes", "layouts[0]", with_niche(3, 0, 2**64 - 1, 8)),
        ("two numbers from 2^128 - 1 on in 16 bytes", "layouts[0]", with_niche(3, 0, 2**128 - 1, 16)),
    ],
    [
        ("the untagged variant 2 of three", with_niche(3, 2, 0)),
        ("two numbers from 254 on in one byte", with_niche(3, 0, 254)),
        ("one number from 255 on in one byte", with_niche(2, 0, 255)),
        ("two numbers from 2^16 - 2 on in two bytes", with_niche(3, 0, 2**16 - 2, 2)),
        ("two numbers from 2^32 - 2 on in four bytes", with_niche(3, 0, 2**32 - 2, 4)),
        ("two numbers from 2^64 - 2 on in eight bytes", with_niche(3, 0, 2**64 - 2, 8)),
        ("two numbers from 2^128 - 2 on in 16 bytes", with_niche(3, 0, 2**128 - 2, 16)),
        ("no other variant", with_niche(1, 0, 256)),
    ],
)

TAGS = [ENUMS_ALONE, COUNTS, SHOWN, NICHES]
