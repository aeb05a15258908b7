"""From a Rust file to the input of mirconst: the goals that can be said, and the tables that they need."""

import sys

import layouts
from lowered import FormMissing
from numbering import Numbering
from reach import Instances, Reach, definition_path
from rust_file import Refused


def say(text):
    """Says something on the standard error."""
    print(f"world: {text}", file=sys.stderr)


def make_world(file, names, limits):
    """The input for mirconst, and the keys of its goals."""
    file.read_items()
    wanted = file.goals(names)
    if not wanted:
        raise Refused(f"{file.path} has no constant, no static and no `const fn` without parameters")
    crate = file.read_bodies()
    reach = Reach(crate)
    goals = sayable(file, reach, wanted)
    if not goals:
        raise Refused(f"none of the {len(wanted)} goals of {file.path} can be said")
    numbering = Numbering(reach)
    defs = [numbering.definition(goal) for goal in goals]
    numbering.tables["layouts"] = layout_rows(file, reach, numbering, goals)
    tables = {name: rows for name, rows in numbering.tables.items() if rows}
    shown = [{"def": one, "limits": limits} if limits else {"def": one} for one in defs]
    return {"version": 1, "world": tables, "goals": shown}, goals


def sayable(file, reach, wanted):
    """Those of the goals that need no form that the format lacks. The others are named on the standard error."""
    goals, missing = [], {}
    for goal in wanted:
        try:
            reach.needed(goal)
            goals.append(goal)
        except FormMissing as error:
            missing.setdefault((error.place, error.what), []).append(definition_path(goal))
    for (place, what), names in missing.items():
        say(f"{where(file, reach.crate, place)}{what} can't be said; left out: {', '.join(names)}")
    return goals


def where(file, crate, place):
    """The place in the source, as people write it."""
    if place is None or place == (0, 0):
        return f"{file.path}: "
    line, column = crate.edits.source_place(place)
    return f"{file.path}:{line}:{column}: "


def layout_rows(file, reach, numbering, goals):
    """The rows of `layouts`, each behind those of its parts."""
    instances = Instances(reach)
    for goal in goals:
        instances.add(goal)
    types = list(instances.types)
    known = layouts.ask(types, reach.crate, file.compiler, file.name, file.edits)
    rows, made = [], set()
    for ty in types:
        if ty not in known:
            say(f"{file.path}: the compiler tells no layout of {reach.crate.show(ty)}")
        elif all(part in made or ty[0] in ("ref", "raw", "fnptr", "fndef") for part in instances.parts(ty)):
            made.add(ty)
            rows.append([numbering.ty(ty, []), known[ty]])
    return rows
