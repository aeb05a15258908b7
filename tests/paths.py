#!/usr/bin/env python3
"""Runs the built program on inputs that are made from the schema, and compares the place that it names with
that of the misfit in the input. Values that fit are tried in the same places. The example inputs have to be
read or refused, as their folder says.

usage: paths.py [PROGRAM]

Without PROGRAM it is the one that `rt ci` or `rt run` leaves. The last line says how many tests passed and
failed, and the exit code is 1 where some failed, also where there is no program.
"""

import json
import re
import subprocess
import sys
from collections import deque
from concurrent.futures import ThreadPoolExecutor
from dataclasses import dataclass
from pathlib import Path
from typing import Optional

from faults import show
from input_types import Input
from running import PROGRAM, ROOT, SECONDS, THREADS

SCHEMA = ROOT / "schema" / "world.schema.json"
EXAMPLES = ROOT / "schema" / "examples"
SAMPLE = ROOT / "crates" / "mirconst" / "stdin"

# The exit codes: every goal has a value, some goal has none, no world, a world that fails the check.
VALUES, ERRORS, NOT_A_WORLD, BAD_WORLD = 0, 1, 4, 5

# A key of the whole input that no field has. All else is read before it, so it is the place that is named
# just where all else fits.
EXTRA = "~"


@dataclass(frozen=True)
class Case:
    """An input, with the exit codes that it may have and the line on the standard error at exit code 4, if
    it is known."""

    name: str
    text: str
    codes: tuple
    line: Optional[str] = None


def line_at(path):
    """The line that names the place of a path."""
    return f"mirconst: not a world: {path.removeprefix('.')}"


def text_of(value):
    """The JSON of a value, with what stands between bars as it is."""
    text = json.dumps(value, ensure_ascii=False, separators=(",", ":"))
    return re.sub(r'"\|([^"|]*)\|"', r"\1", text)


def misfit(value, path):
    """The case of an input in which this place doesn't fit."""
    text = text_of(value)
    return Case(text, text, (NOT_A_WORLD,), line_at(path))


def fit(value):
    """The case of an input that fits."""
    return misfit({**value, EXTRA: 0}, f".{EXTRA}")


def inside(wrap, put):
    """What makes an input with this part, by what makes one with the value around it."""
    return lambda part: wrap(put(part))


def cases_of(root):
    """The cases of all places in the input, the whole first."""
    yield from (misfit(value, "") for value in root.wrong())
    yield from (fit(value) for value in root.good())
    waiting = deque([(root, "", lambda whole: whole)])
    seen = {id(root)}
    while waiting:
        outer, path, wrap = waiting.popleft()
        yield from (misfit(wrap(value), path + step) for value, step in outer.misfits())
        for step, kind, put in outer.inside():
            place, make = path + step, inside(wrap, put)
            yield from (misfit(make(value), place) for value in kind.wrong())
            yield from (fit(make(value)) for value in kind.good())
            if id(kind) not in seen:
                seen.add(id(kind))
                waiting.append((kind, place, make))


def cases_by_hand():
    """What is about the text itself: keys that stand twice, escapes, blanks, and the order of keys."""
    for text, path in (
        ('{"version":3,"version":1,"world":{},"~":0}', ".~"),
        ('{"version":1,"version":3,"world":{},"~":0}', ".version"),
        ('{"world":{"crates":7},"~":0,"world":{},"version":1}', ".~"),
        ('{"~":0,"goals":7,"world":7,"version":7}', ".version"),
        ('{"~":0,"goals":7,"world":7,"version":1}', ".world"),
        ('{"~":0,"goals":7,"world":{},"version":1}', ".goals"),
        ('{"\\u0076ersion":1,"w\\u006frld":{},"\\u007e":0}', ".~"),
        ('{"version":1,"world":{"types":0,"enum s":0}}', ".world.enum s"),
        ('{"version":1,"world":{},"a.b[0]":0}', ".a.b[0]"),
        ('{"version":1,"world":{},".a":0}', "..a"),
        (' {\n"version" : 1 ,\r\n\t"world" : { } , "~" : [ ] } \n', ".~"),
    ):
        yield Case(text, text, (NOT_A_WORLD,), line_at(path))


def cases_of_depth():
    """Types that nest as deep as an input may: 127 levels, of which four are around them."""
    depth = 123
    for innermost, path in (("Bool", f".{EXTRA}"), ("NoSuchVariant", ".world.consts[0].ty" + ".Slice" * depth)):
        kind = innermost
        for _ in range(depth):
            kind = {"Slice": kind}
        value = {"version": 1, "world": {"consts": [{"krate": 0, "ty": kind}]}, EXTRA: 0}
        yield Case(f"{depth} slices of {innermost}", text_of(value), (NOT_A_WORLD,), line_at(path))


def cases_of_goals():
    """Goals after the check. The world is the sample's, with an enum. Ids in arguments are looked up too."""
    sample = json.loads(SAMPLE.read_text(encoding="utf-8"))
    sample["world"]["enums"] = [{"name": "E", "variants": [0]}]
    sample["world"]["variants"] = [{"name": "A", "krate": 0, "parent": 0, "index": 0, "shape": "Unit"}]
    goal = {"def": {"ConstId": 0}}
    most = {"blocks": 2**63, "nesting": 1000, "bytes": 2**59}
    fitting = [goal, {**goal, "args": [{"Ty": {"Adt": [{"EnumId": 0}, []]}}]}]
    fitting += [{**goal, "limits": limits} for limits in (None, most, dict.fromkeys(most, 0))]
    other = [{"def": {"ConstId": 1}}, *({"def": {name: 0}} for name in ("StaticId", "FunctionId", "VariantId"))]
    other += [{**goal, "limits": {**most, name: limit + 1}} for name, limit in most.items()]
    other.append({**goal, "args": [{"Ty": {"Adt": [{"EnumId": 1}, []]}}]})
    other.append({**goal, "args": [{"Ty": "Bool"}, {"Konst": {"Unevaluated": {"def": {"ConstId": 1}}}}]})
    for row in fitting:
        yield Case(f"goal {row}", text_of({**sample, "goals": [row]}), (VALUES, ERRORS))
    for row in other:
        for place, rows in ((0, [row]), (1, [goal, row, row])):
            text = text_of({**sample, "goals": rows})
            yield Case(f"goal {row} at {place}", text, (NOT_A_WORLD,), line_at(f".goals[{place}]"))


def cases_of_examples():
    """The example inputs, and those that are read with a key more."""
    for path in (SAMPLE, *sorted(EXAMPLES.glob("*.json"))):
        text = path.read_text(encoding="utf-8")
        yield Case(path.name, text, (VALUES, ERRORS, BAD_WORLD))
        more = text_of({**json.loads(text), EXTRA: 0})
        yield Case(f"{path.name} with a key more", more, (NOT_A_WORLD,), line_at(f".{EXTRA}"))
    for path in sorted((EXAMPLES / "refused").glob("*.json")):
        yield Case(f"refused/{path.name}", path.read_text(encoding="utf-8"), (NOT_A_WORLD,))


def types_of(root):
    """The types that a type holds, at any depth, and itself."""
    found = {id(root): root}
    waiting = [root]
    while waiting:
        for kind in waiting.pop().held():
            if id(kind) not in found:
                found[id(kind)] = kind
                waiting.append(kind)
    return found.values()


def shown(kind, value):
    """What a value shows of the types in it."""
    yield from kind.traits_of(value)
    for part_kind, part in kind.parts_of(value):
        yield from shown(part_kind, part)


def lack(root, name, belongs):
    """What is wrong where an example input doesn't show all that belongs in it, or nothing."""
    value = json.loads((EXAMPLES / name).read_text(encoding="utf-8"))
    wanted = {trait for kind in types_of(root) for trait in kind.traits() if belongs(trait)}
    missing = sorted(wanted - set(shown(root, value)))
    return f"lacks {', '.join(missing)}" if missing else None


def run(program, case):
    """Runs the program on an input. The answer is what is wrong, or nothing."""
    try:
        data = case.text.encode()
        ended = subprocess.run([program], input=data, capture_output=True, timeout=SECONDS, check=False)
    except subprocess.TimeoutExpired:
        return f"no end after {SECONDS} s"
    line = ended.stderr.decode(errors="replace").removesuffix("\n")
    if ended.returncode not in case.codes:
        return f"exit {ended.returncode}, standard error: {line}"
    if ended.returncode == NOT_A_WORLD and case.line not in (None, line):
        return f"the line is {line!r}, and not {case.line!r}"
    if ended.returncode > ERRORS and ended.stdout:
        return f"exit {ended.returncode}, with an output"
    return None


def answers_of(program, root):
    """The names of the tests, and what is wrong in each, or nothing."""
    yield "whole.json", lack(root, "whole.json", lambda trait: not trait.startswith("null at "))
    yield "nulls.json", lack(root, "nulls.json", lambda trait: trait.startswith("null at "))
    by_hand = (*cases_by_hand(), *cases_of_depth(), *cases_of_goals())
    cases = list(dict.fromkeys((*by_hand, *cases_of_examples(), *cases_of(root))))
    with ThreadPoolExecutor(THREADS) as pool:
        answers = pool.map(lambda case: run(program, case), cases)
        yield from ((case.name, answer) for case, answer in zip(cases, answers))


def main():
    if len(sys.argv) > 2:
        sys.exit("usage: paths.py [PROGRAM]")
    program = Path(sys.argv[1]).resolve() if len(sys.argv) == 2 else PROGRAM
    if not program.is_file():
        print(f"paths: there is no program {program}")
        return 1
    root = Input(json.loads(SCHEMA.read_text(encoding="utf-8"))).root
    answers = list(answers_of(program, root))
    faults = [f"{name}: {answer}" for name, answer in answers if answer]
    show("paths", faults)
    print(f"{len(answers) - len(faults)} passed, {len(faults)} failed")
    return 1 if faults else 0


if __name__ == "__main__":
    sys.exit(main())
