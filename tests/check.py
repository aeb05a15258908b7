#!/usr/bin/env python3
"""Runs the built program on small worlds, each of which fails the check at one place or just passes it, and compares
the line on the standard error and the exit code with what the check asks.

usage: check.py [PROGRAM | --list | --validate]

Without PROGRAM it is the one that `rt ci` or `rt run` leaves. `--list` prints the names of all worlds, with what is
expected of them. `--validate` runs nothing: it holds all worlds to the schema, where python3 has the package
`jsonschema`, and looks for rules without a world and for fields that no world has an id in. The exit code is 1 where
something is wrong, also where there is no program.

The rows of the check stand in modules of their own: ids in `check_ids.py`, trees and jumps in `check_bodies.py`, whole
types and agreement of rows in `check_rows.py`, layouts and tags in `check_layouts.py`. Several rows at once, goals and
the sample are in `check_goals.py`.
"""

import json
import subprocess
import sys
from concurrent.futures import ThreadPoolExecutor
from dataclasses import dataclass
from pathlib import Path
from typing import Optional

from check_bodies import JUMPS, TREES
from check_goals import GOAL, ITEMS, ORDERS, REPORTS, RIGHT_GOALS, WRONG_GOALS, failing_too, sample
from check_ids import IDS
from check_layouts import LAYOUTS, TAGS
from check_rows import AGREEMENT, WHOLE_TYPES
from every_id import EVERY_ID
from faults import show
from id_places import SCHEMA, ids_of_world, slots_with_ids
from running import PROGRAM, SECONDS, THREADS

try:
    from jsonschema import Draft202012Validator
except ImportError:
    Draft202012Validator = None

# The rows of the check, with their rules, in the order in which they are tested.
ROWS = {
    "C1": IDS,
    "C2": TREES,
    "C3": JUMPS,
    "C4": WHOLE_TYPES,
    "C5": LAYOUTS,
    "C6": TAGS,
    "C7": AGREEMENT,
}

# The exit codes: every goal has a value, some goal has none, no world, a world that fails the check.
VALUES, ERRORS, NOT_A_WORLD, BAD_WORLD = 0, 1, 4, 5


@dataclass(frozen=True)
class Case:
    """An input, with the exit codes that it may have, the line on the standard error, and the output, if it is known."""

    name: str
    input: dict
    codes: tuple
    line: str = ""
    output: Optional[str] = ""


def refused(name, row, place, made):
    """The case of a world that fails the check."""
    return Case(name, made, (BAD_WORLD,), f"mirconst: world fails {row} at {place}")


def no_world(name, place, made):
    """The case of goals that the world doesn't have."""
    return Case(name, made, (NOT_A_WORLD,), f"mirconst: not a world: {place}")


def cases_of_row(row, rules):
    """The worlds of a row of the check. Those that pass have no goals, so that nothing is written."""
    for rule in rules:
        yield from (refused(f"{row}, {rule.says}: {name}", row, place, made) for name, place, made in rule.fails)
        yield from (Case(f"{row}, {rule.says}: {name} (passes)", made, (VALUES,)) for name, made in rule.passes)


def cases_of_goals():
    """Goals that the world has, and goals that it doesn't have, which are found after the check."""
    for name, row in RIGHT_GOALS:
        yield Case(f"goal: {name} (passes)", sample(**ITEMS, goals=[row]), (VALUES, ERRORS), output=None)
    for name, row in WRONG_GOALS:
        first, second = sample(**ITEMS, goals=[row]), sample(**ITEMS, goals=[GOAL, row, row])
        yield no_world(f"goal: {name}", "goals[0]", first)
        yield no_world(f"goal: {name}, as the second goal", "goals[1]", second)
        yield refused(f"goal: {name}, in a world that fails the check", "C2", "bodies[1].exprs[0]", failing_too(first))


def all_cases():
    """All worlds, in the order of the rows."""
    for row, rules in ROWS.items():
        yield from cases_of_row(row, rules)
    yield from (refused(f"order: {order.name}", order.row, order.place, order.input) for order in ORDERS)
    yield from cases_of_goals()
    yield from (Case(f"report: {name}", made, (code,), output=text) for name, made, code, text in REPORTS)


def run(program, case):
    """Runs the program on an input. The answer is what is wrong, or nothing."""
    data = json.dumps(case.input, separators=(",", ":")).encode()
    try:
        ended = subprocess.run([program], input=data, capture_output=True, timeout=SECONDS, check=False)
    except subprocess.TimeoutExpired:
        return f"no end after {SECONDS} s"
    line = ended.stderr.decode(errors="replace").removesuffix("\n")
    if ended.returncode not in case.codes or line != case.line:
        wanted = " or ".join(str(code) for code in case.codes)
        return f"exit {ended.returncode} with the line {line!r}, and not {wanted} with {case.line!r}"
    if case.output is not None and ended.stdout.decode(errors="replace") != case.output:
        return f"the output is {ended.stdout[:200]!r}"
    return None


def faults_of_runs(program, cases):
    """What is wrong in the runs of all cases."""
    with ThreadPoolExecutor(THREADS) as pool:
        answers = pool.map(lambda case: run(program, case), cases)
        return [f"{case.name}: {answer}" for case, answer in zip(cases, answers) if answer]


def faults_of_worlds(cases):
    """What is wrong in the worlds themselves: names that stand twice, inputs that the schema refuses, fields without
    an id, rules without a world."""
    names = [case.name for case in cases]
    yield from (f"{name}: stands twice" for name in sorted({name for name in names if names.count(name) > 1}))
    if Draft202012Validator is not None:
        validator = Draft202012Validator(SCHEMA)
        for case in cases:
            yield from (f"{case.name}: refused at {error.json_path}" for error in validator.iter_errors(case.input))
    shown = {slot for place in ids_of_world(EVERY_ID) for slot in place.slots}
    yield from (f"no id in {slot}" for slot in sorted(slots_with_ids() - shown))
    for row, rules in ROWS.items():
        yield from (f"{row}, {rule.says}: no world" for rule in rules if not rule.fails and not rule.passes)


def report(faults, cases, done):
    """Prints the faults and the last line. The answer is the exit code."""
    show("check", faults)
    print(f"check: {len(cases)} worlds {done}, {len(faults)} faults")
    return 1 if faults else 0


def main():
    words = sys.argv[1:]
    if len(words) > 1:
        sys.exit("usage: check.py [PROGRAM | --list | --validate]")
    cases = list(all_cases())
    if words == ["--list"]:
        for case in cases:
            print(f"{case.name}: {' or '.join(str(code) for code in case.codes)} {case.line}".rstrip())
        return 0
    if words == ["--validate"]:
        return report(list(faults_of_worlds(cases)), cases, "looked at")
    program = Path(words[0]).resolve() if words else PROGRAM
    if not program.is_file():
        print(f"check: there is no program {program}")
        return 1
    return report(faults_of_runs(program, cases), cases, "run")


if __name__ == "__main__":
    sys.exit(main())
