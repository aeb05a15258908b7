#!/usr/bin/env python3
"""Writes the input of a world whose one constant has many locals of many types to the standard output.

usage: copy_types.py [N]

The body has N statements (16000 where no number is given), each of which is `let x = 0` at a type of its own, `[(); K]`,
which takes no bytes and is listed as `Copy`. So the graph has twice N locals behind its return slot, and at the end of
the body's block it is asked of each whether its type is one of N. The one goal is the constant, which has the value 7.
"""

import json
import sys
from pathlib import Path

sys.path.insert(0, str(Path(__file__).resolve().parent.parent / "tests"))

from worlds import (  # pylint: disable=wrong-import-position
    LAYOUT_U8,
    U8,
    UNIT,
    array_of,
    bind,
    block,
    body,
    const,
    goal,
    layout,
    let_statement,
    literal,
    world,
)

STATEMENTS = 16000


def many_types(count):
    """The input with so many statements and types."""
    types = [array_of(UNIT, length) for length in range(count)]
    lets = [let_statement(place, place) for place in range(count)]
    exprs = [literal(0)] * count + [literal(7), block(*lets, tail=count)]
    found = {"expr_types": [*types, U8, U8], "pat_types": types, "binding_types": types, "copy_types": [U8, *types]}
    pats = [bind(place) for place in range(count)]
    layouts = [LAYOUT_U8, *([ty, layout(0)] for ty in types)]
    return world(
        [goal({"ConstId": 0})],
        consts=[const(U8, body=0)],
        bodies=[body(exprs, pats, count, found=found)],
        layouts=layouts,
    )


def main():
    words = sys.argv[1:]
    if len(words) > 1 or (words and not words[0].isdecimal()):
        sys.exit("usage: copy_types.py [N]")
    json.dump(many_types(int(words[0]) if words else STATEMENTS), sys.stdout, separators=(",", ":"))
    sys.stdout.write("\n")


if __name__ == "__main__":
    main()
