#!/usr/bin/env python3
"""Writes the input of a large world without goals to the standard output.

usage: large_world.py [BYTES]

The world has so many of the constants of many_constants.py that the input has at least BYTES bytes
(40000000 where no number is given), and hardly more.
"""

import json
import sys

from many_constants import body_row, const_row, world_and_goals


def text(value):
    """A value as JSON without blanks."""
    return json.dumps(value, separators=(",", ":"))


def constants_for(size):
    """How many constants give an input of at least so many bytes."""
    each = len(text(const_row(0))) + len(text(body_row())) + 2
    return size // each + 1


def main():
    words = sys.argv[1:]
    if len(words) > 1 or (words and not words[0].isdecimal()):
        sys.exit("usage: large_world.py [BYTES]")
    size = int(words[0]) if words else 40000000
    world = world_and_goals(constants_for(size))
    world["goals"] = []
    sys.stdout.write(text(world))
    sys.stdout.write("\n")


if __name__ == "__main__":
    main()
