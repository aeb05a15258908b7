#!/usr/bin/env python3
"""Holds the crates to the rules that keep the gate short, as far as their text shows them.

usage: budget.py

- A crate has at most 3 must-fail edits, and all crates together at most 40: the first edit of a crate
  costs a second proof of it, and each one a check.
- A crate that another one uses has no `#[test]`: a crate with tests is proved twice.
- A crate has at most 100 functions in `src`. Drops that are written by hand are not counted.

The exit code is 1 where a crate breaks one.
"""

import re
import sys
from pathlib import Path

ROOT = Path(__file__).resolve().parent.parent
MOST_EDITS_OF_ONE, MOST_EDITS, MOST_FUNCTIONS = 3, 40, 100
# Splitting these would make the longest chain of crates nine: all crates stand on `types`, and `mir_eval` stands between `mir_mem` and `consteval`.
LARGE = {"types": 135, "mir_eval": 114}
FUNCTION = re.compile(r"^ *(?:pub(?:\(crate\))? )?(?:const )?fn (?!drop\(self\))", re.M)
TEST = re.compile(r"^ *#\[test\]", re.M)


def uses():
    """For each crate those that it uses, as `crates.txt` lists them."""
    lines = (line.partition("#")[0] for line in (ROOT / "crates.txt").read_text("utf-8").splitlines())
    parts = (line.partition(":") for line in lines if line.strip())
    return {head.split()[0]: below.split() for head, _, below in parts}


def faults():
    """A line for each rule that a crate breaks."""
    used_by = uses()
    used = {name for below in used_by.values() for name in below}
    every = 0
    for name in used_by:
        folder = ROOT / "crates" / name
        edits = len(list(folder.glob("must-fail/*.edit")))
        every += edits
        if edits > MOST_EDITS_OF_ONE:
            yield f"{name}: {edits} must-fail edits, of at most {MOST_EDITS_OF_ONE}"
        source = "".join(path.read_text("utf-8") for path in folder.glob("src/**/*.rt"))
        if name in used and TEST.search(source):
            yield f"{name}: tests stand beside code that other crates use"
        functions = len(FUNCTION.findall(source))
        if functions > LARGE.get(name, MOST_FUNCTIONS):
            yield f"{name}: {functions} functions, of at most {LARGE.get(name, MOST_FUNCTIONS)}"
    if every > MOST_EDITS:
        yield f"{every} must-fail edits in all, of at most {MOST_EDITS}"


def main():
    found = list(faults())
    for line in found:
        print(f"budget: {line}")
    print(f"budget: {len(found)} faults")
    return 1 if found else 0


if __name__ == "__main__":
    sys.exit(main())
