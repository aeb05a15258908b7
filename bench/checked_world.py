#!/usr/bin/env python3
"""Writes a world that passes the check, with many nodes and no goals, to the standard output.

usage: checked_world.py [--unread] [NODES]

The bodies have so many expressions and patterns (1000000 where no number is given), and hardly more: loops and
blocks with labels, `let` statements, matches with guards, and patterns with expressions inside. `layouts` has arrays,
tuples, references, a generic struct and a generic enum, at many arguments. The input may have 67108864 bytes, which
bounds NODES.

With `--unread` the input has a key more at its end, which no field has. The program reads the whole world before it
names that key, and then ends with exit code 4, without a check. So the times of reading alone, and of reading and
checking, are those of

    python3 bench/checked_world.py --unread > unread
    python3 bench/checked_world.py > checked
    python3 bench/measure.py unread crates/mirconst/out/mirconst
    python3 bench/measure.py checked crates/mirconst/out/mirconst

with a program that is built already, as `large_world.sh` builds one.
"""

import json
import sys
from pathlib import Path

sys.path.insert(0, str(Path(__file__).resolve().parent.parent / "tests"))

from every_id import Draft  # pylint: disable=wrong-import-position
from worlds import (  # pylint: disable=wrong-import-position
    BOOL,
    LAYOUT_U8,
    U8,
    WILD,
    arm,
    array_of,
    bind,
    block,
    body,
    break_to,
    const,
    enum,
    enum_row,
    function,
    layout,
    let_statement,
    literal_pat,
    loop,
    match,
    path,
    pointer,
    ref,
    ref_pat,
    sized,
    statement,
    struct,
    struct_row,
    tagged,
    tuple_of,
    tuple_pat,
    type_arg,
    type_param,
    variant_row,
    world,
)

NODES = 1000000
LEVELS = 16
LENGTHS = 1000

TRUTH = {"Literal": {"Bool": True}}


def text(value):
    """A value as JSON without blanks."""
    return json.dumps(value, separators=(",", ":"))


def level(draft, number, inner):
    """A loop with a label around a block, in which a match holds the inner expression. The answers are its id and that
    of a path, which names the first binding of the level."""

    def leaf():
        return draft.expr(TRUTH)

    named, fixed = draft.pat(bind(2 * number)), draft.pat(literal_pat(leaf()))
    both, other = draft.pat(tuple_pat(named, fixed, ellipsis=1)), draft.pat(WILD)
    guard = draft.expr(path())
    chosen = draft.expr(match(leaf(), arm(both, leaf(), guard=guard), arm(other, inner)))
    first = let_statement(draft.pat(ref_pat(draft.pat(bind(2 * number + 1)))), leaf())
    held = draft.expr(block(first, statement(chosen), tail=draft.expr(break_to(number))))
    return draft.expr(loop(held, label=number)), guard


def one_body():
    """A body with so many levels, and one parameter. The answers are its row and how many nodes it has."""
    draft = Draft()
    root, named = draft.expr(TRUTH), []
    for number in range(LEVELS):
        root, guard = level(draft, number, root)
        named.append([guard, {"LocalBinding": 2 * number}])
    param = draft.pat(WILD)
    found = {"expr_types": [BOOL] * len(draft.exprs), "pat_types": [BOOL] * len(draft.pats)}
    found |= {"binding_types": [BOOL] * (2 * LEVELS), "value_res": named, "copy_types": [BOOL]}
    labels = [f"'{number}" for number in range(LEVELS)]
    row = body(draft.exprs, draft.pats, 2 * LEVELS, root, found, labels=labels, params=[param])
    return row, len(draft.exprs) + len(draft.pats)


def layouts_of(length):
    """The layouts of an array of so many bytes, and of types with it as their argument or part."""
    array = array_of(U8, length)
    yield [array, layout(length)]
    yield [tuple_of(array, array), layout(2 * length, offsets=[0, length])]
    yield pointer(ref(array))
    yield [struct(0, type_arg(array)), layout(length + 1, offsets=[1, 0])]
    yield [enum(0, type_arg(array)), layout(length + 1, variants=tagged([], [1]))]


def rows():
    """The world but for its bodies and what has a body."""
    made = world(
        structs=[struct_row(type_param(0), BOOL)],
        enums=[enum_row(0, 1)],
        variants=[variant_row(index=0), variant_row(type_param(0), index=1)],
        type_params=["T"],
        layouts=[LAYOUT_U8, sized(BOOL, 1), *(row for length in range(LENGTHS) for row in layouts_of(length))],
    )
    return made["world"]


def write(nodes, unread):
    """Writes the input."""
    row, in_one = one_body()
    count = (nodes + in_one - 1) // in_one
    functions = [function([BOOL], body=place) for place in range(count // 2)]
    consts = [const(BOOL, body=place) for place in range(count // 2, count)]
    start = text({**rows(), "functions": functions, "consts": consts, "bodies": []})
    end = ',"~":0}' if unread else "}"
    sys.stdout.write('{"version":1,"world":' + start.removesuffix("]}"))
    one = text(row)
    for place in range(count):
        sys.stdout.write("," + one if place else one)
    sys.stdout.write("]}" + end + "\n")


def main():
    words = sys.argv[1:]
    unread = words[:1] == ["--unread"]
    words = words[1:] if unread else words
    if len(words) > 1 or (words and not words[0].isdecimal()):
        sys.exit("usage: checked_world.py [--unread] [NODES]")
    write(int(words[0]) if words else NODES, unread)


if __name__ == "__main__":
    main()
