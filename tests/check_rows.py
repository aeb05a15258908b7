"""Worlds with aliases or parameters where types have to be whole (C4), and with rows and patterns that disagree on
how many parts there are (C7)."""

from rules import Rule
from worlds import (
    U8,
    USIZE,
    WILD,
    add,
    alias,
    array_of,
    bind,
    body,
    closure,
    closure_row,
    const,
    const_arg,
    const_param,
    dynamic,
    enum_row,
    fn_pointer,
    function,
    literal,
    of_body,
    ref,
    struct,
    struct_row,
    tuple_of,
    tuple_pat,
    tuple_struct_pat,
    type_arg,
    type_param,
    unevaluated,
    usize,
    value,
    variant_row,
    world,
)


def names(**tables):
    """A world with one alias, one type parameter, one const parameter, one trait, one struct, one constant, two
    functions and two constants, and these tables."""
    plain = {
        "functions": [function(), function()],
        "consts": [const(), const()],
        "structs": [struct_row()],
        "traits": ["T"],
        "aliases": ["Item"],
        "type_params": ["T"],
        "const_params": [{"name": "N", "ty": USIZE}],
    }
    return world(**{**plain, **tables})


def normal(ty, *args):
    """A row of `normals`: the alias 0 with these arguments is the type."""
    return [0, list(args), ty]


def impl(args=(), target_args=()):
    """A row of `impls`, from the function 0 to the function 1."""
    return {"function": 0, "args": list(args), "target": 1, "target_args": list(target_args)}


def const_impl(args=(), target_args=()):
    """A row of `const_impls`, from the constant 0 to the constant 1."""
    return {"konst": 0, "args": list(args), "target": 1, "target_args": list(target_args)}


ALIAS, TYPE_PARAM, CONST_PARAM = alias(0), type_param(0), const_param(0)
BYTES_OF_PARAM = array_of(U8, CONST_PARAM)

NORMALS = Rule(
    "a normal type holds no alias and no parameter",
    [
        ("an alias", "normals[0]", names(normals=[normal(ALIAS)])),
        ("a type parameter", "normals[0]", names(normals=[normal(TYPE_PARAM)])),
        ("a const parameter for an array's length", "normals[0]", names(normals=[normal(BYTES_OF_PARAM)])),
        ("a type parameter in a reference to a tuple", "normals[0]",
         names(normals=[normal(ref(tuple_of(U8, TYPE_PARAM)))])),
        ("an alias among a struct's arguments", "normals[0]", names(normals=[normal(struct(0, type_arg(ALIAS)))])),
        ("a const parameter among a struct's arguments", "normals[0]",
         names(normals=[normal(struct(0, const_arg(CONST_PARAM)))])),
        ("a type parameter among a trait's arguments", "normals[0]",
         names(normals=[normal(dynamic(0, type_arg(TYPE_PARAM)))])),
        ("a type parameter that a function pointer answers", "normals[0]",
         names(normals=[normal(fn_pointer(U8, ret=TYPE_PARAM))])),
        ("a type parameter among the arguments of a constant", "normals[0]",
         names(normals=[normal(array_of(U8, unevaluated({"ConstId": 0}, type_arg(TYPE_PARAM))))])),
        ("an alias in the type of a constant", "normals[0]",
         names(normals=[normal(struct(0, const_arg(value(ALIAS, "00"))))])),
        ("a type parameter among the table types of a constant", "normals[0]",
         names(normals=[normal(struct(0, const_arg(value(USIZE, "00", {"Complex": {"vtable": [TYPE_PARAM]}}))))])),
        ("the second row", "normals[1]", names(normals=[normal(U8), normal(ALIAS, type_arg(U8))])),
    ],
    [
        ("a type without names", names(normals=[normal(array_of(tuple_of(U8, struct(0)), 2))])),
        ("an alias among the alias's own arguments", names(normals=[normal(U8, type_arg(ALIAS))])),
        ("parameters among the alias's own arguments",
         names(normals=[normal(U8, type_arg(TYPE_PARAM), const_arg(CONST_PARAM))])),
        ("a type that inference didn't find", names(normals=[normal("Error")])),
    ],
)

IMPLS = Rule(
    "the arguments in a row of `impls` hold no alias and no parameter",
    [
        ("an alias in `args`", "impls[0]", names(impls=[impl([type_arg(ALIAS)])])),
        ("a type parameter in `args`", "impls[0]", names(impls=[impl([type_arg(TYPE_PARAM)])])),
        ("a const parameter in `args`", "impls[0]", names(impls=[impl([const_arg(CONST_PARAM)])])),
        ("an alias in `target_args`", "impls[0]", names(impls=[impl([], [type_arg(ref(ALIAS))])])),
        ("a type parameter in `target_args`", "impls[0]", names(impls=[impl([], [type_arg(TYPE_PARAM)])])),
        ("a const parameter in `target_args`", "impls[0]", names(impls=[impl([], [type_arg(BYTES_OF_PARAM)])])),
        ("the second row", "impls[1]", names(impls=[impl(), impl([type_arg(ALIAS)])])),
    ],
    [("types and constants without names", names(impls=[impl([type_arg(U8)], [const_arg(usize(3)), type_arg(U8)])]))],
)

CONST_IMPLS = Rule(
    "the arguments in a row of `const_impls` hold no alias and no parameter",
    [
        ("an alias in `args`", "const_impls[0]", names(const_impls=[const_impl([type_arg(ALIAS)])])),
        ("a type parameter in `args`", "const_impls[0]", names(const_impls=[const_impl([type_arg(TYPE_PARAM)])])),
        ("a const parameter in `args`", "const_impls[0]", names(const_impls=[const_impl([const_arg(CONST_PARAM)])])),
        ("an alias in `target_args`", "const_impls[0]", names(const_impls=[const_impl([], [type_arg(ref(ALIAS))])])),
        ("a type parameter in `target_args`", "const_impls[0]",
         names(const_impls=[const_impl([], [type_arg(TYPE_PARAM)])])),
        ("a const parameter in `target_args`", "const_impls[0]",
         names(const_impls=[const_impl([], [type_arg(BYTES_OF_PARAM)])])),
        ("the second row", "const_impls[1]", names(const_impls=[const_impl(), const_impl([type_arg(ALIAS)])])),
    ],
    [("types and constants without names",
      names(const_impls=[const_impl([type_arg(U8)], [const_arg(usize(3)), type_arg(U8)])]))],
)

ELSEWHERE = Rule(
    "aliases and parameters may stand elsewhere",
    [],
    [
        ("in the types of a constant and of a struct's field",
         names(consts=[const(ALIAS), const(BYTES_OF_PARAM)], structs=[struct_row(TYPE_PARAM, BYTES_OF_PARAM)])),
        ("in the types that inference found",
         names(bodies=[body(found={"expr_types": [ALIAS], "copy_types": [TYPE_PARAM]})])),
    ],
)

WHOLE_TYPES = [NORMALS, IMPLS, CONST_IMPLS, ELSEWHERE]


def with_parameters(count, **more):
    """A body with so many parameters, of which `self` is none."""
    return body(pats=[WILD] * count, params=list(range(count)), **more)


def with_self(count):
    """A body with `self`, and with so many other parameters."""
    return with_parameters(count, bindings=1, self_param=0)


def called(params, row):
    """A world with one function, of so many parameters, whose body is the row."""
    return world(functions=[function([USIZE] * params, body=0)], bodies=[row])


SIGNATURES = Rule(
    "a function's signature has as many parameters as its body, `self` among them",
    [
        ("no parameter, and a body with one", "functions[0]", called(0, with_parameters(1))),
        ("one parameter, and a body with none", "functions[0]", called(1, body())),
        ("two parameters, and a body with three", "functions[0]", called(2, with_parameters(3))),
        ("no parameter, and a body with `self`", "functions[0]", called(0, with_self(0))),
        ("one parameter, and a body with `self` and one more", "functions[0]", called(1, with_self(1))),
        ("three parameters, and a body with `self` and one more", "functions[0]", called(3, with_self(1))),
        ("the second function", "functions[1]",
         world(functions=[function([USIZE]), function([USIZE], body=0)], bodies=[body()])),
    ],
    [
        ("no parameter", called(0, body())),
        ("two parameters", called(2, with_parameters(2))),
        ("`self` alone", called(1, with_self(0))),
        ("`self` and one more", called(2, with_self(1))),
        ("a function without body", world(functions=[function([USIZE, USIZE])])),
        ("a constant, whose body has a parameter", world(consts=[const(body=0)], bodies=[with_parameters(1)])),
    ],
)

VARIANTS = Rule(
    "a variant stands at its index in its parent's list, and at no other place of any enum's list",
    [
        ("the parent's list is empty", "variants[0]", world(enums=[enum_row()], variants=[variant_row()])),
        ("the index is past the list", "variants[0]", world(enums=[enum_row(0)], variants=[variant_row(index=1)])),
        ("the list has another variant at the index", "variants[1]",
         world(enums=[enum_row(0)], variants=[variant_row(index=0), variant_row(index=0)])),
        ("two variants with each other's index", "variants[0]",
         world(enums=[enum_row(0, 1)], variants=[variant_row(index=1), variant_row(index=0)])),
        ("the variant is in the list of another enum", "variants[0]",
         world(enums=[enum_row(0), enum_row()], variants=[variant_row(parent=1)])),
        ("the second variant's index is past the list", "variants[1]",
         world(enums=[enum_row(0, 1)], variants=[variant_row(index=0), variant_row(index=2)])),
        ("the list has the variant twice, and its index is the first place", "variants[0]",
         world(enums=[enum_row(0, 0)], variants=[variant_row(index=0)])),
        ("the list has the variant twice, and its index is the second place", "variants[0]",
         world(enums=[enum_row(0, 0)], variants=[variant_row(index=1)])),
        ("the list has the second variant of two twice", "variants[1]",
         world(enums=[enum_row(0, 1, 1)], variants=[variant_row(index=0), variant_row(index=1)])),
        ("a later enum lists the variant too", "variants[0]",
         world(enums=[enum_row(0), enum_row(0)], variants=[variant_row(parent=0)])),
        ("an earlier enum lists the variant too", "variants[0]",
         world(enums=[enum_row(0), enum_row(0)], variants=[variant_row(parent=1)])),
        ("another enum lists it too, at another place than its index", "variants[1]",
         world(enums=[enum_row(0, 1), enum_row(2, 1)],
               variants=[variant_row(index=0), variant_row(index=1), variant_row(parent=1, index=0)])),
        ("two enums list both variants: the first variant is named, though the second is listed elsewhere first",
         "variants[0]",
         world(enums=[enum_row(1, 0), enum_row(1, 0)],
               variants=[variant_row(parent=0, index=1), variant_row(parent=1, index=0)])),
    ],
    [
        ("two variants in their order",
         world(enums=[enum_row(0, 1)], variants=[variant_row(index=0), variant_row(index=1)])),
        ("two variants in the other order",
         world(enums=[enum_row(1, 0)], variants=[variant_row(index=1), variant_row(index=0)])),
        ("variants of two enums",
         world(enums=[enum_row(1), enum_row(0)], variants=[variant_row(parent=1), variant_row(parent=0)])),
        ("variants of two enums, one of which stands between those of the other",
         world(enums=[enum_row(0, 2), enum_row(1)],
               variants=[variant_row(index=0), variant_row(parent=1, index=0), variant_row(index=1)])),
        ("an enum without variants", world(enums=[enum_row()])),
    ],
)


def with_closure(params, *args, at=1):
    """A world with a constant, in whose body expression 1 is a closure with these patterns, and with one closure row:
    the expression at this place, with so many parameters."""
    row = body([literal(2), closure(*args, inside=0)], [WILD] * len(args))
    return world(
        consts=[const(body=0)], bodies=[row], closures=[closure_row({"ConstId": 0}, at, [USIZE] * params)]
    )


CLOSURES = Rule(
    "a closure row's expression is a closure with as many parameters",
    [
        ("a literal", "closures[0]", with_closure(0, at=0)),
        ("one parameter, and a closure without any", "closures[0]", with_closure(1)),
        ("no parameter, and a closure with one", "closures[0]", with_closure(0, 0)),
        ("three parameters, and a closure with two", "closures[0]", with_closure(3, 0, 1)),
        ("the second row", "closures[1]",
         world(consts=[const(body=0)], bodies=[body([literal(2), closure(inside=0)])],
               closures=[closure_row({"ConstId": 0}, 1), closure_row({"ConstId": 0}, 0)])),
        ("the owner's body has the closure elsewhere", "closures[0]",
         world(consts=[const(body=0), const(body=1)],
               bodies=[body([literal(2), closure(inside=0)]), body([literal(2), literal(2), add(0, 1)])],
               closures=[closure_row({"ConstId": 1}, 1)])),
    ],
    [
        ("a closure without parameters", with_closure(0)),
        ("a closure with two", with_closure(2, 0, 1)),
        ("a closure that no row has", of_body([literal(2), closure(inside=0)])),
        ("two rows for one closure",
         world(consts=[const(body=0)], bodies=[body([literal(2), closure(inside=0)])],
               closures=[closure_row({"ConstId": 0}, 1)] * 2)),
    ],
)

ELLIPSES = Rule(
    "as many parts of a pattern as `ellipsis` says are there",
    [
        ("one part before `..` in a tuple without parts", "bodies[0].pats[0]",
         of_body(pats=[tuple_pat(ellipsis=1)], params=[0])),
        ("three parts before `..` of two", "bodies[0].pats[2]",
         of_body(pats=[WILD, WILD, tuple_pat(0, 1, ellipsis=3)], params=[2])),
        ("the same behind a struct's name", "bodies[0].pats[2]",
         of_body(pats=[WILD, WILD, tuple_struct_pat(0, 1, ellipsis=3)], params=[2])),
        ("the greatest number", "bodies[0].pats[0]", of_body(pats=[tuple_pat(ellipsis=2**32 - 1)], params=[0])),
        ("in the second body", "bodies[1].pats[1]",
         world(bodies=[body(), body(pats=[bind(0), tuple_struct_pat(0, ellipsis=2)], bindings=1, params=[1])])),
    ],
    [
        ("`..` alone", of_body(pats=[tuple_pat(ellipsis=0)], params=[0])),
        ("`..` first", of_body(pats=[WILD, WILD, tuple_pat(0, 1, ellipsis=0)], params=[2])),
        ("`..` last", of_body(pats=[WILD, WILD, tuple_pat(0, 1, ellipsis=2)], params=[2])),
        ("`..` last behind a struct's name",
         of_body(pats=[WILD, WILD, tuple_struct_pat(0, 1, ellipsis=2)], params=[2])),
        ("no `..`", of_body(pats=[WILD, tuple_pat(0)], params=[1])),
    ],
)

AGREEMENT = [SIGNATURES, VARIANTS, CLOSURES, ELLIPSES]
