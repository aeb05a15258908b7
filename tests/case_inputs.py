"""Makes the inputs of cases from their rows: texts, trees, files, changes of the sample, bodies in Rust, and more."""

import json

from part_layouts import rows_with_parts
from running import ROOT
from rust_text import read, read_function, read_struct, read_type
from typed_bodies import ALL, LAYOUTS, SCALARS, body_row, world_of_bodies
from worlds import (
    BOOL,
    NEVER,
    U8,
    USIZE,
    WILD,
    array_expr,
    array_of,
    block,
    body,
    break_to,
    closure,
    closure_row,
    const,
    enum_row,
    filled,
    fn_def,
    goal,
    layout,
    literal,
    function,
    loop,
    ref,
    static,
    struct_row,
    tuple_expr,
    tuple_of,
    variant_row,
    world,
)

TRUE = {"Literal": {"Bool": True}}
SAMPLE = ROOT / "crates" / "mirconst" / "stdin"
MOST_BYTES = 67108864


class BadCase(Exception):
    """A row that is no case."""


def bytes_of(text):
    """The bytes of a text, in which a lone surrogate such as `\\udcff` stands for the byte `ff`, which is no UTF-8."""
    return text.encode("utf-8", "surrogateescape")


def json_of(tree):
    """The text of a JSON tree."""
    return json.dumps(tree, ensure_ascii=False, separators=(",", ":"))


def sample_with(changes):
    """The sample, in which the first text of each pair, which it has, is the second one."""
    text = SAMPLE.read_text(encoding="utf-8")
    for old, new in changes:
        if old not in text:
            raise BadCase(f"the sample has no {old}")
        text = text.replace(old, new, 1)
    return text


def file_of(name):
    """A file of the repository."""
    return (ROOT / name).read_text(encoding="utf-8")


def nested(parts):
    """So many arrays, each in the one before, between two texts."""
    front, depth, back = parts
    return f"{front}{'[' * depth}{']' * depth}{back}"


def blanks(more):
    """As many blanks as an input may have, and so many more."""
    return " " * (MOST_BYTES + more)


def padded(count):
    """The sample with so many blanks behind it."""
    return sample_with([]) + " " * count


# A world with a name of each sort, for the texts of types and constants. Its last constant is the goal: a number, in
# a body that has a binding besides.
NAMES = {
    "functions": [function(name="run")],
    "consts": [const(name="LIMIT"), const(), const(name="GOAL", body=0)],
    "statics": [static(name="COUNT")],
    "structs": [{**struct_row(), "name": "Pair"}],
    "unions": [{**struct_row(), "name": "Bits"}],
    "enums": [{**enum_row(0), "name": "Shape"}],
    "variants": [variant_row(name="Round")],
    "traits": ["Draw", "Send"],
    "aliases": ["Item", "Output"],
    "type_params": ["T", "U"],
    "const_params": [{"name": "N", "ty": USIZE}],
    "closures": [closure_row({"ConstId": 2}, 2)],
}


def with_binding(ty):
    """A world in which a run misses the layout of a type, so that its report has the type's text."""
    exprs = [literal(2), literal(2), closure(inside=1)]
    row = body(exprs, bindings=1, root=0, found={"binding_types": [ty]})
    return json_of(world([goal({"ConstId": 2})], **NAMES, bodies=[row], layouts=[[USIZE, layout(8, 8)]]))


def with_root(root):
    """A world whose goal is this expression. Besides, its body has the numbers 2 and 2 as expressions 0 and 1, a
    pattern for anything, a variable and a label."""
    exprs = [literal(2), literal(2), root]
    row = body(exprs, [WILD], bindings=1, found={"copy_types": [USIZE]}, labels=["'a"])
    return json_of(world([goal({"ConstId": 0})], consts=[const(body=0)], bodies=[row], layouts=[[USIZE, layout(8, 8)]]))


# Which types are listed as `Copy`, by a row's `copies`.
COPIES = {True: SCALARS, False: [], "all": ALL}


def limited(made, row):
    """A world of one goal, under the limits that a row has."""
    limits = {name: row[name] for name in ("blocks", "nesting", "bytes") if name in row}
    if limits:
        made["goals"][0]["limits"] = {"blocks": 10000000, "nesting": 100, "bytes": 1000000, **limits}
    return made


def source_world(row):
    """A world of one constant, whose body is written in Rust, as the functions are that it may call and the structs that it may
    name, and whose run may have limits. The bases of indices may be borrowed."""
    copy_types, borrows = COPIES[row.get("copies", True)], row.get("borrows", False)
    functions = [read_function(text) for text in row.get("functions", [])]
    structs = [read_struct(text) for text in row.get("structs", [])]
    ty = read_type(row["type"])
    body_of_goal = body_row(read(row["source"]), ty, copy_types, functions, structs, borrows)
    made = world_of_bodies([(body_of_goal, ty)], functions, copy_types, structs, borrows)
    if "goal" in row:
        names = [one.name for one in functions]
        made["goals"] = [goal({"FunctionId": names.index(row["goal"])})]
    return json_of(limited(made, row))


def nested_ifs(depth):
    """So many `if`s, each the first branch of the next one, around the number 7, and their types."""
    exprs, types = [literal(7)], [U8]
    for _ in range(depth):
        inside = len(exprs) - 1
        exprs += [TRUE, literal(1), filled(If=filled(condition=inside + 1, then_branch=inside, else_branch=inside + 2))]
        types += [BOOL, U8, U8]
    return exprs, types


def nested_loops(depth):
    """So many loops, each the body of the next one. A `break` in the innermost one leaves the outermost one with 7."""
    loops = [loop(place, label=0 if place == depth else None) for place in range(1, depth + 1)]
    return [literal(7), break_to(0, 0), *loops], [U8, NEVER, *([NEVER] * (depth - 1)), U8]


def nested_blocks(depth):
    """So many labelled blocks, each the tail of the next one, around the number 7."""
    return [literal(7), *(block(tail=place, label=place) for place in range(depth))], [U8] * (depth + 1)


def nested_tuples(depth):
    """So many tuples of one part, each the part of the next one, around the number 7."""
    types = [U8]
    for _ in range(depth):
        types.append(tuple_of(types[-1]))
    return [literal(7), *map(tuple_expr, range(depth))], types


def nested_arrays(depth):
    """So many arrays of one element, each the element of the next one, around the number 7."""
    types = [U8]
    for _ in range(depth):
        types.append(array_of(types[-1], 1))
    return [literal(7), *(array_expr(place) for place in range(depth))], types


def nested_indices(depth):
    """So many indices of arrays of the number 0 alone, each the index in the next one, around the number 0."""
    exprs, types = [literal(0)], [USIZE]
    for _ in range(depth):
        inside = len(exprs) - 1
        exprs += [literal(0), array_expr(inside + 1), filled(Index={"base": inside + 2, "index": inside})]
        types += [USIZE, array_of(USIZE, 1), USIZE]
    return exprs, types


def nested_elements(depth):
    """An array in so many arrays, each the one element of the next one, around the number 7, and as many indices, each of which is the base of the
    next one, that lead to that number."""
    exprs, types = nested_arrays(depth)
    for _ in range(depth):
        base = len(exprs) - 1
        exprs += [literal(0), filled(Index={"base": base, "index": base + 1})]
        types += [USIZE, types[base]["Array"][0]]
    return exprs, types


FORMS = {"if": nested_ifs, "loop": nested_loops, "block": nested_blocks, "tuple": nested_tuples, "array": nested_arrays, "index": nested_indices,
         "element": nested_elements}


def borrowed_bases(exprs, types):
    """The adjustments of the bases of indices, which are borrowed."""
    bases = sorted(part["Index"]["base"] for part in exprs if "Index" in part)
    return [[base, [{"kind": {"Borrow": {"Ref": "Not"}}, "target": ref(types[base])}]] for base in bases]


def deep(row):
    """A world of one constant, in whose body so many expressions of a form stand, each in the next one, and whose run may have
    limits. The bases of indices may be borrowed."""
    form, depth = row["deep"]
    exprs, types = FORMS[form](depth)
    steps = borrowed_bases(exprs, types) if row.get("borrows") else []
    inside = body(exprs, found=filled(expr_types=types, expr_adjustments=steps, copy_types=ALL), labels=["'a"] * depth)
    layouts = [*LAYOUTS, *rows_with_parts(types, LAYOUTS)]
    made = world([goal({"ConstId": 0})], consts=[const(types[-1], body=0)], bodies=[inside], layouts=layouts)
    return json_of(limited(made, row))


# The keys of a row that tell its input, with what makes the text of the input.
INPUTS = {
    "text": lambda row: row["text"],
    "input": lambda row: json_of(row["input"]),
    "file": lambda row: file_of(row["file"]),
    "sample": lambda row: sample_with(row["sample"]),
    "nested": lambda row: nested(row["nested"]),
    "blanks": lambda row: blanks(row["blanks"]),
    "padded": lambda row: padded(row["padded"]),
    "root": lambda row: with_root(row["root"]),
    "unplaced": lambda row: with_binding(row["unplaced"]),
    "source": source_world,
    "deep": deep,
}
