#!/usr/bin/env python3
"""Writes a world with one generic struct whose layouts could take long to check, to the standard output.

usage: generic_fields.py [TIMES] [PARTS]
       generic_fields.py --instances [COUNT] [PARTS]

Without `--instances`, a great type at the arguments of a layout: a struct `S<T>` has one field, a tuple type with so many
parts (TIMES, 100000 where no number is given), each of which is `T`. Its row in `layouts` has a tuple type of so many parts (PARTS, as many) as its argument. So the field's type at
this argument has TIMES * PARTS parts, though the input has little more than TIMES + PARTS. It has no row in `layouts`:
the check has to find that, and refuses the world with exit code 5 and `mirconst: world fails C5 at layouts[2]`. The
input has no goals.

    python3 bench/generic_fields.py 100000 100000 > fields
    python3 bench/measure.py fields crates/mirconst/out/mirconst

measures it with a program that is built already, as `large_world.sh` builds one. With an argument of one part
(`generic_fields.py 200000 1`) the input is as long, and the field's type is no longer than what is written.

With `--instances`, a great type in many layouts: a struct `S<T>` has one field, a tuple type with so many parts (PARTS,
20000 where no number is given) that doesn't name `T`. The struct has so many rows in `layouts` (COUNT, as many), each at
an argument of its own. So the field's type at all these arguments has COUNT * PARTS parts in all, though the input has
little more than COUNT + PARTS. The world passes the check:

    python3 bench/generic_fields.py --instances 20000 20000 > long
    python3 bench/generic_fields.py --instances 20000 1 > thin
"""

import json
import sys
from pathlib import Path

sys.path.insert(0, str(Path(__file__).resolve().parent.parent / "tests"))

from worlds import (  # pylint: disable=wrong-import-position
    BOOL,
    integer,
    layout,
    struct,
    struct_row,
    tuple_of,
    type_arg,
    type_param,
    world,
)

TIMES = PARTS = 100000
MANY_INSTANCES = MANY_PARTS = 20000

INTEGERS = [integer(name) for name in ("U8", "U16", "U32", "U64", "U128", "Usize")]
DIGITS = 8


def great_field(times, parts):
    """The world: a struct whose field names its parameter so many times, at an argument of so many parts."""
    argument = tuple_of(*[BOOL] * parts)
    return world(
        structs=[struct_row(tuple_of(*[type_param(0)] * times))],
        type_params=["T"],
        layouts=[
            [BOOL, layout(1)],
            [argument, layout(parts, offsets=range(parts))],
            [struct(0, type_arg(argument)), layout(times * parts, offsets=[0])],
        ],
    )


def numbered(number):
    """A short type for each number: a tuple of integer types, which are its digits."""
    return tuple_of(*[INTEGERS[number // len(INTEGERS) ** place % len(INTEGERS)] for place in range(DIGITS)])


def many_instances(count, parts):
    """The world: a struct whose field of so many parts doesn't name its parameter, at so many arguments."""
    field = tuple_of(*[BOOL] * parts)
    return world(
        structs=[struct_row(field)],
        type_params=["T"],
        layouts=[
            [BOOL, layout(1)],
            [field, layout(parts, offsets=range(parts))],
            *[[struct(0, type_arg(numbered(number))), layout(parts, offsets=[0])] for number in range(count)],
        ],
    )


def main():
    words = sys.argv[1:]
    is_instances = words[:1] == ["--instances"]
    given = words[1:] if is_instances else words
    if len(given) > 2 or not all(word.isdecimal() for word in given):
        sys.exit("usage: generic_fields.py [TIMES] [PARTS] | --instances [COUNT] [PARTS]")
    numbers = [int(word) for word in given]
    first, second = numbers + ([MANY_INSTANCES, MANY_PARTS] if is_instances else [TIMES, PARTS])[len(numbers):]
    made = many_instances(first, second) if is_instances else great_field(first, second)
    sys.stdout.write(json.dumps(made, separators=(",", ":")))
    sys.stdout.write("\n")


if __name__ == "__main__":
    main()
