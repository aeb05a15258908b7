#!/usr/bin/env python3
"""Holds the examples of inputs to the schema `world.schema.json`.

usage: validate.py

The program's sample and `examples/*.json` have to pass, `examples/refused/*.json` have to be refused.
The exit code is 1 where a file does otherwise. Where python3 has no package `jsonschema` that knows
draft 2020-12, nothing is tested, and the exit code is 0.
"""

import json
import sys
from pathlib import Path

try:
    from jsonschema import Draft202012Validator
except ImportError:
    Draft202012Validator = None

HERE = Path(__file__).resolve().parent
SAMPLE = HERE.parent / "crates" / "mirconst" / "stdin"


def read(path):
    """The JSON of a file."""
    return json.loads(path.read_text(encoding="utf-8"))


def wrong_ones(schema, accepted, refused):
    """A line for each place that is refused in what has to pass, and for each file that wrongly passes."""
    validator = Draft202012Validator(schema)
    for path in accepted:
        for error in validator.iter_errors(read(path)):
            yield f"{path}: refused at {error.json_path}"
    for path in refused:
        if validator.is_valid(read(path)):
            yield f"{path}: passes"


def main():
    if Draft202012Validator is None:
        print("schema: skipped, as python3 has no jsonschema for draft 2020-12")
        return 0
    schema = read(HERE / "world.schema.json")
    Draft202012Validator.check_schema(schema)
    accepted = [SAMPLE, *sorted((HERE / "examples").glob("*.json"))]
    refused = sorted((HERE / "examples" / "refused").glob("*.json"))
    wrong = list(wrong_ones(schema, accepted, refused))
    for line in wrong:
        print(f"schema: {line}")
    print(f"schema: {len(accepted)} to pass, {len(refused)} to be refused, {len(wrong)} faults")
    return 1 if wrong else 0


if __name__ == "__main__":
    sys.exit(main())
