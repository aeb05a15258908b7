#!/usr/bin/env python3
"""Writes the input of a world with many constants to the standard output.

usage: many_constants.py [N]

Each of the N constants (10000 where no number is given) is `const GOAL: usize = 2 + 2`, with a row of
its own in `bodies`. There is one goal for each constant, in their order.
"""

import json
import sys

USIZE = {"Uint": "Usize"}


def body_row():
    """The typed body `2 + 2` at `usize`."""
    two = {"Literal": {"Int": ["2", None]}}
    add = {"BinaryOp": {"lhs": 0, "rhs": 1, "op": {"ArithOp": "Add"}}}
    return {
        "body": {"exprs": [two, two, add], "body_expr": 2},
        "infer": {"expr_types": [USIZE, USIZE, USIZE], "copy_types": [USIZE]},
    }


def const_row(place):
    """The constant whose body stands at a place of `bodies`."""
    return {"name": "GOAL", "krate": 0, "ty": USIZE, "body": place}


def world_and_goals(count):
    """The whole input, with so many constants and goals."""
    layout = {
        "size": 8,
        "align": 8,
        "sized": True,
        "offsets": [],
        "variants": {"Single": 0},
    }
    return {
        "version": 1,
        "world": {
            "crates": [{"pointer_bytes": 8}],
            "consts": [const_row(place) for place in range(count)],
            "bodies": [body_row() for _ in range(count)],
            "layouts": [[USIZE, layout]],
        },
        "goals": [{"def": {"ConstId": place}} for place in range(count)],
    }


def main():
    words = sys.argv[1:]
    if len(words) > 1 or (words and not words[0].isdecimal()):
        sys.exit("usage: many_constants.py [N]")
    count = int(words[0]) if words else 10000
    json.dump(world_and_goals(count), sys.stdout, separators=(",", ":"))
    sys.stdout.write("\n")


if __name__ == "__main__":
    main()
