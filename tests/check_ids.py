"""Worlds whose ids are out of range, whose lists or keys don't fit, or whose characters are none (C1)."""

import json

from every_id import EVERY_ID
from id_places import BODY, FIELD, LISTS, TABLES, ids_of_world
from rules import Rule
from worlds import (
    BOOL,
    U8,
    UNIT,
    USIZE,
    WILD,
    add,
    array_of,
    bind,
    binding,
    body,
    capture,
    char,
    closure,
    closure_row,
    const,
    const_arg,
    enum_row,
    fn_pointer,
    function,
    let_condition,
    literal,
    loop,
    negation,
    of_body,
    path,
    pointer,
    ref,
    sized,
    static,
    struct,
    struct_row,
    tuple_of,
    tuple_pat,
    type_arg,
    type_param,
    unevaluated,
    usize,
    value,
    variant_row,
    world,
)


def part_at(made, keys):
    """What stands in the world of an input, where these keys lead."""
    part = made["world"]
    for key in keys:
        part = part[key]
    return part


def place_of(keys):
    """The place that the check names for what these keys lead to."""
    if keys[0] == "bodies" and keys[2:3] == ("body",) and keys[3] in ("exprs", "pats", "bindings"):
        return f"bodies[{keys[1]}].{keys[3]}[{keys[4]}]"
    return f"{keys[0]}[{keys[1]}]" if len(keys) > 1 else keys[0]


def owner_body(made, keys):
    """The place in `bodies` of the body whose nodes an id at these keys names."""
    if keys[0] == "bodies":
        return keys[1]
    (kind, number), = part_at(made, (*keys[:2], "owner")).items()
    table = {"FunctionId": "functions", "StaticId": "statics", "ConstId": "consts", "VariantId": "variants"}[kind]
    return made["world"][table][number]["body"]


def fields_of(made, parent):
    """The fields of a struct, a union or a variant."""
    (kind, number), = parent.items()
    table = {"StructId": "structs", "UnionId": "unions", "EnumVariantId": "variants"}[kind]
    return made["world"][table][number]["fields"]


def count_of(made, place):
    """How many things there are that an id at this place may name."""
    if place.kind in TABLES:
        return len(made["world"][TABLES[place.kind]])
    if place.kind == BODY:
        return len(made["world"]["bodies"])
    if place.kind == FIELD:
        return len(fields_of(made, part_at(made, (*place.keys[:-1], "parent"))))
    return len(part_at(made, ("bodies", owner_body(made, place.keys), "body", LISTS[place.kind])))


def is_key_before_others(made, keys):
    """Whether an id is the key of a map that has keys after it, so that it can't be larger."""
    if keys[2:3] != ("infer",) or len(keys) != 6 or keys[5] != 0:
        return False
    return keys[4] + 1 < len(part_at(made, keys[:4]))


def out_of_range(made, *places):
    """The input with the first number out of range at these places. It shares no part with another."""
    changed = json.loads(json.dumps(made))
    for place in places:
        part_at(changed, place.keys[:-1])[place.keys[-1]] = count_of(made, place)
    return changed


def words_of(keys):
    """The path of what these keys lead to."""
    steps = (f"[{key}]" if isinstance(key, int) else f".{key}" for key in keys)
    return "".join(steps).removeprefix(".")


ID_PLACES = [place for place in ids_of_world(EVERY_ID) if not is_key_before_others(EVERY_ID, place.keys)]

EVERYWHERE = Rule(
    "every id is in range, in whatever field it stands",
    [
        (f"{words_of(place.keys)} is {count_of(EVERY_ID, place)}", place_of(place.keys), out_of_range(EVERY_ID, place))
        for place in ID_PLACES
    ],
    [("the last id of its table in every field", EVERY_ID)],
)

# Ids that are named one after the other.
NEIGHBOURS = [
    (first, second)
    for first, second in zip(ID_PLACES, ID_PLACES[1:])
    if place_of(first.keys) != place_of(second.keys)
]

IN_ORDER = Rule(
    "of two places with ids out of range the first is named: in the order of the tables, and in a body expressions, "
    "patterns, bindings, and the rest",
    [
        (f"{words_of(first.keys)} and {words_of(second.keys)}", place_of(first.keys),
         out_of_range(EVERY_ID, first, second))
        for first, second in NEIGHBOURS
    ],
    [],
)

def with_captures(*captures, projected=()):
    """A world with one closure, in a body with one binding and two expressions. A second body has more of both."""
    return world(
        structs=[struct_row(U8, U8)],
        consts=[const(body=0), const(body=1)],
        bodies=[body([literal(2), closure(inside=0)], bindings=1), body([literal(2)] * 9, bindings=9)],
        closures=[closure_row({"ConstId": 0}, 1, captures=[capture(projections=projected, **of) for of in captures])],
    )


def field_step(struct_number, local_id):
    """A step of a captured place to a struct's field."""
    return [{"Field": {"parent": {"StructId": struct_number}, "local_id": local_id}}]


RANGES = Rule(
    "ids are in range of their table or body",
    [
        ("a constant of crate 1, of one crate", "consts[0]", world(consts=[const(krate=1)])),
        ("a constant in a world without crates", "consts[0]", world(crates=[], consts=[const()])),
        ("the greatest crate", "consts[0]", world(consts=[const(krate=2**32 - 1)])),
        ("the second constant", "consts[1]", world(consts=[const(), const(krate=1)])),
        ("body 1 of one", "consts[0]", world(consts=[const(body=1)], bodies=[body()])),
        ("a body in a world without bodies", "functions[0]", world(functions=[function(body=0)])),
        ("the root 1 of one expression", "bodies[0]", of_body(root=1)),
        ("the root of a body without expressions", "bodies[0]", of_body([], root=0)),
        ("an operand 3 of three expressions", "bodies[0].exprs[2]", of_body([literal(2), literal(2), add(0, 3)])),
        ("the greatest operand", "bodies[0].exprs[1]", of_body([literal(2), negation(2**32 - 1)])),
        ("a pattern 1 of one", "bodies[0].exprs[1]", of_body([literal(2), let_condition(1, 0)], [WILD])),
        ("a label 1 of one", "bodies[0].exprs[1]", of_body([literal(2), loop(0, label=1)], labels=["'a"])),
        ("a part 1 of one pattern", "bodies[0].pats[0]", of_body(pats=[tuple_pat(1)], params=[0])),
        ("a binding 1 of one", "bodies[0].pats[0]", of_body(pats=[bind(1)], bindings=1, params=[0])),
        ("a closure 1, of one expression, that a binding is in", "bodies[0].bindings[0]",
         of_body(bindings=[binding(owner=1)])),
        ("a parameter 1 of one pattern", "bodies[0]", of_body(pats=[WILD], params=[1])),
        ("`self` of a body without bindings", "bodies[0]", of_body(self_param=0)),
        ("what names expression 1 of one", "bodies[0]",
         of_body(bindings=1, found={"value_res": [[1, {"LocalBinding": 0}]]})),
        ("a path that names binding 1 of one", "bodies[0]",
         of_body([path()], bindings=1, found={"value_res": [[0, {"LocalBinding": 1}]]})),
        ("the type of an adjustment has struct 0 of none", "bodies[0]",
         of_body(found={"expr_adjustments": [[0, [{"kind": "NeverToAny", "target": struct(0)}]]]})),
        ("struct 0 of none as a constant's type", "consts[0]", world(consts=[const(struct(0))])),
        ("the same in a reference to a tuple", "consts[0]", world(consts=[const(ref(tuple_of(U8, struct(0))))])),
        ("what a function pointer answers is struct 0 of none", "consts[0]",
         world(consts=[const(fn_pointer(U8, ret=struct(0)))])),
        ("an array of the length of constant 1 of one", "consts[0]",
         world(consts=[const(array_of(U8, unevaluated({"ConstId": 1})))])),
        ("struct 1 of one among the arguments of struct 0", "consts[0]",
         world(consts=[const(struct(0, type_arg(struct(1))))], structs=[struct_row()])),
        ("struct 1 of one among the table types of a constant", "consts[0]",
         world(consts=[const(struct(0, const_arg(value(U8, "00", {"Complex": {"vtable": [struct(1)]}}))))],
               structs=[struct_row()])),
        ("type parameter 0 of none", "consts[0]", world(consts=[const(type_param(0))])),
        ("a layout of struct 0 of none", "layouts[0]", world(layouts=[sized(struct(0), 0)])),
        ("a layout of a reference to struct 0 of none", "layouts[0]", world(layouts=[pointer(ref(struct(0)))])),
        ("a normal type of alias 0 of none", "normals[0]", world(normals=[[0, [], U8]])),
        ("a field 2 of two of a captured place", "closures[0]", with_captures({}, projected=field_step(0, 2))),
        ("a field of struct 1 of one in a captured place", "closures[0]",
         with_captures({}, projected=field_step(1, 0))),
        ("a captured binding 1, of one in the owner's body and more in another", "closures[0]",
         with_captures({"local": 1})),
        ("the second captured binding", "closures[0]", with_captures({"local": 0}, {"local": 1})),
        ("the use of a captured place is expression 2 of two", "closures[0]", with_captures({"span": 2})),
        ("a closure that is expression 1 of one in the owner's body", "closures[0]",
         world(consts=[const(body=0), const(body=1)], bodies=[body(), body([literal(2), closure(inside=0)])],
               closures=[closure_row({"ConstId": 0}, 1)])),
        ("a closure whose owner has no body", "closures[0]",
         world(consts=[const(), const(body=0)], bodies=[body([literal(2), closure(inside=0)])],
               closures=[closure_row({"ConstId": 0}, 1)])),
        ("a closure of static 0 of none", "closures[0]",
         world(bodies=[body()], closures=[closure_row({"StaticId": 0}, 0)])),
        ("variant 0 of none in an enum", "enums[0]", world(enums=[enum_row(0)])),
        ("a variant of enum 0 of none", "variants[0]", world(variants=[variant_row()])),
        ("`drop_fn` is function 0 of none", "drop_fn", world(drop_fn=0)),
        ("`call_once_fn` is function 1 of one", "call_once_fn", world(functions=[function()], call_once_fn=1)),
    ],
    [
        ("a world without rows", world(crates=[])),
        ("the last crate", world(crates=[{}, {}], consts=[const(krate=1)])),
        ("the last body", world(consts=[const(body=1)], bodies=[body(), body()])),
        ("a constant without body", world(consts=[const()])),
        ("the last expression, pattern, binding and label",
         of_body([literal(2), let_condition(0, 0), loop(1, label=1)], [bind(1)], bindings=2, labels=["'a", "'b"])),
        ("a captured place, to its last field", with_captures({"local": 0, "span": 1}, projected=field_step(0, 1))),
        ("the number of a tuple, which no list has",
         of_body(found={"field_res": [[0, {"Right": {"tuple": 2**32 - 1, "index": 2**32 - 1}}]]})),
        ("the place of a parameter among the arguments, which no list has",
         world(consts=[const(type_param(0, 2**32 - 1))], type_params=["T"])),
        ("`drop_fn` is the last function", world(functions=[function(), function()], drop_fn=1)),
    ],
)


def without_type(name, count):
    """A body of two expressions, patterns and bindings, with so many types of this list."""
    return of_body([literal(2)] * 2, [WILD] * 2, bindings=2, found={name: [USIZE] * count})


TYPES = ("expr_types", "pat_types", "binding_types")

LENGTHS = Rule(
    "inference has one type for each expression, pattern and binding",
    [
        *((f"{count} of two in `{name}`", "bodies[0]", without_type(name, count))
          for name in TYPES for count in (0, 1, 3)),
        ("in the second body", "bodies[1]", world(bodies=[body(), body(found={"expr_types": []})])),
    ],
    [(f"two of two in `{name}`", without_type(name, 2)) for name in TYPES],
)


def two_names(**tables):
    """A world with two aliases, two functions and two constants, and these tables."""
    return world(
        functions=[function(), function()], consts=[const(), const()], aliases=["Item", "Output"], **tables
    )


def impl(number, *args, target=1):
    """A row of `impls`, from the function of this number."""
    return {"function": number, "args": list(args), "target": target}


def const_impl(number, *args, target=1):
    return {"konst": number, "args": list(args), "target": target}


BYTE, TRUTH = type_arg(U8), type_arg(BOOL)
THREE, FOUR = const_arg(usize(3)), const_arg(usize(4))

KEYS = Rule(
    "the keys of `layouts`, `normals`, `impls` and `const_impls` are distinct",
    [
        ("two layouts of `u8`", "layouts[1]", world(layouts=[sized(U8, 1), sized(U8, 1)])),
        ("the second and the fourth layout", "layouts[3]",
         world(layouts=[sized(BOOL, 1), sized(U8, 1), sized(USIZE, 8), sized(U8, 1)])),
        ("two layouts of one reference, of different sizes", "layouts[1]",
         world(layouts=[pointer(ref(U8)), pointer(ref(U8), 16)])),
        ("two layouts of one array", "layouts[2]", world(layouts=[sized(UNIT, 0), *[sized(array_of(UNIT, 3), 0)] * 2])),
        ("an alias with one argument, twice", "normals[1]", two_names(normals=[[0, [BYTE], U8], [0, [BYTE], BOOL]])),
        ("an alias without arguments, twice", "normals[1]", two_names(normals=[[1, [], U8], [1, [], U8]])),
        ("a function with one argument, twice", "impls[1]", two_names(impls=[impl(0, BYTE), impl(0, BYTE, target=0)])),
        ("a function with a constant for argument, twice", "impls[2]",
         two_names(impls=[impl(0, THREE), impl(0, FOUR), impl(0, THREE)])),
        ("a constant with one argument, twice", "const_impls[1]",
         two_names(const_impls=[const_impl(0, BYTE), const_impl(0, BYTE, target=0)])),
    ],
    [
        ("layouts of two references", world(layouts=[pointer(ref(U8)), pointer(ref(U8, "Mut"))])),
        ("one alias with two arguments", two_names(normals=[[0, [BYTE], U8], [0, [TRUTH], U8], [0, [], U8]])),
        ("two aliases with one argument", two_names(normals=[[0, [BYTE], U8], [1, [BYTE], U8]])),
        ("one function with two arguments", two_names(impls=[impl(0, THREE), impl(0, FOUR), impl(0, BYTE)])),
        ("two functions with one argument", two_names(impls=[impl(0, BYTE), impl(1, BYTE)])),
        ("one constant with two arguments", two_names(const_impls=[const_impl(0, BYTE), const_impl(0, TRUTH)])),
        ("a function and a constant with one number",
         two_names(impls=[impl(0, BYTE)], const_impls=[const_impl(0, BYTE)])),
        ("two names with one target", two_names(impls=[impl(0), impl(1)])),
    ],
)

CHARACTERS = Rule(
    "a character is a Unicode scalar value",
    [
        *((f"character {number:#x}", "bodies[0].exprs[0]", of_body([char(number)]))
          for number in (0xD800, 0xDBFF, 0xDC00, 0xDFFF, 0x110000, 2**32 - 1)),
        ("the second expression", "bodies[0].exprs[1]", of_body([char(0x61), char(0xD800)])),
    ],
    [(f"character {number:#x}", of_body([char(number)])) for number in (0, 0x61, 0xD7FF, 0xE000, 0xFFFF, 0x10FFFF)],
)

PLACES = Rule(
    "of two places of one body the first is named, expressions before patterns, patterns before bindings, and these "
    "before the rest",
    [
        ("a character and an operand", "bodies[0].exprs[0]", of_body([char(0xD800), negation(9)])),
        ("a pattern and an expression", "bodies[0].exprs[1]", of_body([literal(2), negation(9)], [tuple_pat(9)])),
        ("a pattern and a binding", "bodies[0].pats[0]", of_body(pats=[tuple_pat(9)], bindings=[binding(owner=9)])),
        ("a binding and the root", "bodies[0].bindings[0]", of_body(bindings=[binding(owner=9)], root=9)),
        ("the types of the first body, and an expression of the second", "bodies[0]",
         world(bodies=[body(found={"expr_types": []}), body([negation(9)])])),
        ("two layouts of one type, and a layout of struct 0 of none before them", "layouts[0]",
         world(layouts=[sized(struct(0), 0), sized(U8, 1), sized(U8, 1)])),
        ("a static and a constant, which comes first", "consts[0]",
         world(statics=[static(krate=1)], consts=[const(krate=1)])),
        ("a layout and a body, which comes first", "bodies[0].exprs[0]",
         world(layouts=[sized(struct(0), 0)], bodies=[body([negation(9)])])),
        ("two normal types of one alias, and `drop_fn`", "normals[1]",
         two_names(normals=[[0, [], U8], [0, [], U8]], drop_fn=9)),
        ("the second impl and the first const impl", "impls[1]",
         two_names(impls=[impl(0), impl(0)], const_impls=[const_impl(9)])),
    ],
    [],
)

IDS = [RANGES, EVERYWHERE, IN_ORDER, LENGTHS, KEYS, CHARACTERS, PLACES]
