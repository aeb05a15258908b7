#!/usr/bin/env python3
"""Looks at the code that reads worlds: each field has to be read at the key of its own name, and each variant at its own.

usage: reader_names.py

What is read is proved to be what a definition says. That both give the field `lhs` what stands at the key `lhs`, and not
what stands at `rhs`, is seen in their text: a name of the code, a key and a field are one word. For most of what a
world holds no output of the program would tell, since no form that is evaluated looks at it. The exit code is 1 where
a name differs.
"""

import re
import sys

from faults import show
from running import ROOT

# A field that is read: `let lhs = required(alloc, tree, "lhs")?;`.
FIELD = re.compile(r'let (\w+)(?:: \w+)? = (?:required|optional)\(\s*alloc,\s*tree,\s*"(\w+)"\s*\)')
# A variant without parts or with one: `if variant.is("Not") { return Ok(UnaryOp::Not); }`.
VARIANT = re.compile(r'(?:\.is\(|\.payload\(alloc, )"(\w+)"\)\??\s*\{\s*return (?:Ok\()?(?:Some\()?\w+::(\w+)')
# A variant with named fields: `variant.fields::<ExprIfFields>(alloc, "If")`.
NAMED = re.compile(r'\.fields::<(\w+)Fields>\(\s*alloc,\s*"(\w+)"\s*\)')
# What reads such fields, with the variant that it makes of them.
READER = re.compile(r"impl Fields for (\w+)Fields \{.*?let value = (\w+)::(\w+)", re.DOTALL)
# A value that is made of the fields: `Expr::If { condition, then_branch, else_branch }`.
VALUE = re.compile(r"let value = ([\w:]+) \{([^{}]*)\}")

# The whole input: its version is looked at and forgotten, and its world has another name inside.
OTHER_NAMES = {("_version", "version"), ("db", "world")}


def faults_of(text):
    """The names in a file that differ from what they are read at, and how many names were looked at."""
    fields, variants, named = FIELD.findall(text), VARIANT.findall(text), NAMED.findall(text)
    readers, values = READER.findall(text), VALUE.findall(text) if fields else []
    faults = [f"{name} is read at {key}" for name, key in fields if name != key and (name, key) not in OTHER_NAMES]
    faults += [f"{name} is read at {key}" for key, name in variants if name != key]
    faults += [f"{reader} is read at {key}" for reader, key in named if not reader.endswith(key)]
    faults += [f"{reader} makes {ty}::{name}" for reader, ty, name in readers if reader != ty + name]
    faults += [f"{name} is made of fields of other names" for name, parts in values if ":" in parts]
    return faults, len(fields) + len(variants) + len(named)


def main():
    if len(sys.argv) > 1:
        sys.exit("usage: reader_names.py")
    faults, names = [], 0
    for path in sorted(ROOT.glob("crates/*/src/**/*.rt")):
        found, count = faults_of(path.read_text(encoding="utf-8"))
        faults += [f"{path.relative_to(ROOT)}: {fault}" for fault in found]
        names += count
    show("reader", faults)
    print(f"reader: {names} names, {len(faults)} faults")
    return 1 if faults or names == 0 else 0


if __name__ == "__main__":
    sys.exit(main())
