"""Worlds that fail several rows of the check, goals that no world has, and the sample."""

import json
from copy import deepcopy
from dataclasses import dataclass
from pathlib import Path

from check_rows import ALIAS, const_impl, names, normal
from worlds import (
    LAYOUT_U8,
    U8,
    USIZE,
    add,
    body,
    break_to,
    const,
    const_arg,
    const_param,
    enum,
    enum_row,
    fn_def,
    function,
    goal,
    layout,
    literal,
    loop,
    negation,
    of_body,
    ref,
    ref_pat,
    static,
    struct,
    struct_row,
    tagged,
    tuple_pat,
    type_arg,
    unevaluated,
    usize,
    variant_row,
    world,
)

SAMPLE = Path(__file__).resolve().parent.parent / "crates" / "mirconst" / "stdin"

RING = body([negation(0)])
LOOSE_JUMP = body([break_to(0)], labels=["'a"])
WRONG_ELLIPSIS = body(pats=[tuple_pat(ellipsis=1)], params=[0])
WRONG_ALIGN = [struct(0), layout(0, 3)]
WRONG_TAG = [struct(0), layout(1, variants=tagged())]
WRONG_NORMAL = normal(ALIAS)


@dataclass(frozen=True)
class Order:
    """A world that fails several rows, or one of them at several places: the row and the place that are named."""

    name: str
    row: str
    place: str
    input: dict


ORDERS = [
    Order("ids at the end of the world, before trees", "C1", "drop_fn", world(bodies=[RING], drop_fn=0)),
    Order("ids, before everything else", "C1", "call_once_fn",
          names(functions=[function([USIZE], body=3)], bodies=[RING, LOOSE_JUMP, WRONG_ELLIPSIS, body()],
                layouts=[WRONG_ALIGN], normals=[WRONG_NORMAL], call_once_fn=1)),
    Order("keys that stand twice, before layouts", "C1", "layouts[1]",
          world(layouts=[[U8, layout(0, 3)], [U8, layout(0, 3)]])),
    Order("a character, before a tree", "C1", "bodies[1].exprs[0]",
          world(bodies=[RING, body([{"Literal": {"Char": 0xD800}}])])),
    Order("trees, before jumps in an earlier body", "C2", "bodies[1].exprs[0]", world(bodies=[LOOSE_JUMP, RING])),
    Order("a tree of patterns, before a jump", "C2", "bodies[0].pats[0]",
          of_body([break_to(0)], [ref_pat(0)], labels=["'a"], params=[0])),
    Order("jumps, before normal types", "C3", "bodies[0].exprs[0]", names(bodies=[LOOSE_JUMP], normals=[WRONG_NORMAL])),
    Order("const impls, before layouts", "C4", "const_impls[0]",
          names(layouts=[WRONG_ALIGN], const_impls=[const_impl([type_arg(ALIAS)])])),
    Order("layouts, before tags of earlier ones", "C5", "layouts[1]", names(layouts=[WRONG_TAG, [U8, layout(2)]])),
    Order("tags, before signatures", "C6", "layouts[0]",
          names(functions=[function([USIZE], body=0)], bodies=[body()], layouts=[WRONG_TAG])),
    Order("two rings of nodes", "C2", "bodies[0].exprs[0]", of_body([negation(0), negation(1)])),
    Order("a node that is held twice, before one whose child is later", "C2", "bodies[0].exprs[0]",
          of_body([literal(2), add(0, 0), negation(3), literal(2)])),
    Order("an expression, before a pattern", "C2", "bodies[0].exprs[2]",
          of_body([literal(2), literal(2), negation(2)], [ref_pat(0)])),
    Order("a pattern of the first body, before an expression of the second", "C2", "bodies[0].pats[0]",
          world(bodies=[body(pats=[ref_pat(0)]), RING])),
    Order("two jumps", "C3", "bodies[0].exprs[0]", of_body([break_to(0), break_to(0), add(0, 1)], labels=["'a"])),
    Order("a jump of the first body, before one of the second", "C3", "bodies[0].exprs[2]",
          world(bodies=[body([literal(2), loop(0, label=0), break_to(0), add(1, 2)], labels=["'a"]), LOOSE_JUMP])),
    Order("a normal type, before an impl", "C4", "normals[1]",
          names(normals=[normal(U8), normal(ALIAS, type_arg(U8))],
                impls=[{"function": 0, "args": [type_arg(ALIAS)], "target": 1}])),
    Order("an impl, before a const impl", "C4", "impls[0]",
          names(impls=[{"function": 0, "args": [type_arg(ALIAS)], "target": 1}],
                const_impls=[const_impl([type_arg(ALIAS)])])),
    Order("two layouts", "C5", "layouts[1]", names(layouts=[LAYOUT_U8, [USIZE, layout(4)], WRONG_ALIGN])),
    Order("two tags", "C6", "layouts[0]", world(layouts=[[struct(0), layout(1, variants=tagged())],
                                                         [struct(1), layout(1, variants=tagged())]],
                                                structs=[struct_row()] * 2)),
    Order("a signature, before a variant", "C7", "functions[0]",
          world(functions=[function([USIZE], body=0)], enums=[enum_row()], variants=[variant_row()], bodies=[body()])),
    Order("a variant, before a closure", "C7", "variants[0]",
          world(consts=[const(body=0)], enums=[enum_row()], variants=[variant_row()], bodies=[body()],
                closures=[{"owner": {"ConstId": 0}, "expr": 0, "kind": "Fn"}])),
    Order("a closure, before an ellipsis", "C7", "closures[0]",
          world(consts=[const(body=0)], bodies=[WRONG_ELLIPSIS],
                closures=[{"owner": {"ConstId": 0}, "expr": 0, "kind": "Fn"}])),
    Order("two ellipses", "C7", "bodies[0].pats[0]",
          of_body(pats=[tuple_pat(ellipsis=1), tuple_pat(ellipsis=1)], params=[0, 1])),
]


def sample(**parts):
    """The sample, with these tables of the world and these goals instead of its own."""
    made = json.loads(SAMPLE.read_text(encoding="utf-8"))
    goals = parts.pop("goals", made["goals"])
    return {**made, "world": {**made["world"], **parts}, "goals": goals}


def without_layouts():
    """The sample without layouts."""
    made = sample()
    del made["world"]["layouts"]
    return made


VALUE = "goal 0 value usize 0400000000000000\n  turns 1\n"
NO_LAYOUT = "goal 0 error lower LayoutError(Unknown)\n  turns 0\n"

# Names, inputs, exit codes and what is written.
REPORTS = [("the sample", sample(), 0, VALUE), ("the sample without layouts", without_layouts(), 1, NO_LAYOUT)]

# What a goal may name: one row of each table beside the sample's constant.
ITEMS = {
    "functions": [function()],
    "statics": [static()],
    "structs": [struct_row()],
    "enums": [enum_row(0)],
    "variants": [variant_row()],
    "traits": ["T"],
    "const_params": [{"name": "N", "ty": USIZE}],
}
GOAL = goal({"ConstId": 0})
MOST = {"blocks": 2**63, "nesting": 1000, "bytes": 2**59}


def with_limits(**limits):
    """The goal of the sample, with these limits and otherwise the greatest."""
    return goal({"ConstId": 0}, limits={**MOST, **limits})


def with_args(*args):
    """The goal of the sample, with these generic arguments."""
    return goal({"ConstId": 0}, args)


WRONG_GOALS = [
    ("a variant", goal({"VariantId": 0})),
    ("constant 1 of one", goal({"ConstId": 1})),
    ("the greatest constant", goal({"ConstId": 2**32 - 1})),
    ("static 1 of one", goal({"StaticId": 1})),
    ("function 1 of one", goal({"FunctionId": 1})),
    ("struct 1 of one as an argument", with_args(type_arg(struct(1)))),
    ("a reference to struct 1 of one as the second argument", with_args(type_arg(U8), type_arg(ref(struct(1))))),
    ("enum 1 of one among a struct's arguments", with_args(type_arg(struct(0, type_arg(enum(1)))))),
    ("function 1 of one as an argument", with_args(type_arg(fn_def(1)))),
    ("const parameter 1 of one as an argument", with_args(const_arg(const_param(1)))),
    ("constant 1 of one as an argument", with_args(const_arg(unevaluated({"ConstId": 1})))),
    ("one block too many", with_limits(blocks=2**63 + 1)),
    ("one level too many", with_limits(nesting=1001)),
    ("one byte too many", with_limits(bytes=2**59 + 1)),
    ("the greatest numbers", with_limits(blocks=2**64 - 1, nesting=2**32 - 1, bytes=2**64 - 1)),
]

RIGHT_GOALS = [
    ("the constant", GOAL),
    ("the last static", goal({"StaticId": 0})),
    ("the last function", goal({"FunctionId": 0})),
    ("known ids as arguments", with_args(type_arg(struct(0)), type_arg(ref(enum(0))), const_arg(usize(3)))),
    ("the greatest limits", with_limits()),
    ("the least limits", with_limits(blocks=0, nesting=0, bytes=0)),
]


def failing_too(made):
    """The input with one row of the check that fails."""
    changed = deepcopy(made)
    changed["world"]["bodies"].append(RING)
    return changed
