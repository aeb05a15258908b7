"""The tables of operators: each row is an operator on two operands of a type or on one, and its result.

A row has the type, the operator, the left operand, the right one, and the result's bytes, or `panic`, or `none` where
the operator has no meaning there. A right operand of another type has that type behind it, and an operator on one operand
has `-` on the right.
"""

import re
from dataclasses import dataclass

from case_inputs import bytes_of, json_of
from running import Run
from rust_text import ARITHMETIC, COMPARISONS
from typed_bodies import SHIFTS, body_row, world_of_bodies

COMPARED = dict(zip(("Eq", "Ne", "Lt", "Le", "Gt", "Ge"), COMPARISONS.values()))
OPERATORS = {**{name: {"ArithOp": name} for name in ARITHMETIC.values()},
             **{name: {"CmpOp": op} for name, op in COMPARED.items()}}
NONE = "-"
PANIC = "panic"
UNDEFINED = "none"


@dataclass(frozen=True)
class Row:
    """A row of a table."""

    ty: str
    op: str
    left: str
    right: str
    result: str

    def __str__(self):
        return " ".join((self.ty, self.op, self.left, self.right))

    def result_type(self):
        """The name of the result's type."""
        return "bool" if self.op in COMPARED else self.ty

    def answer(self):
        """What the report has to say. The word of a panic is that of `docs/MEANING.md`, "Operators", and the text of an
        operator without a meaning that of `docs/DECISIONS.md`, "Running"."""
        if self.result == PANIC:
            return f'error eval InFunction(Panic("Overflow in {self.op}"), [])'
        if self.result == UNDEFINED:
            return 'error eval InFunction(NotSupported("comparison of this type"), [])'
        return f"value {self.result_type()} {self.result}"


def rows_of(path):
    """The rows of a table."""
    return [Row(*line.split("\t")) for line in path.read_text(encoding="utf-8").splitlines()]


def operand(text, ty):
    """The literal of an operand, and its type, which is that behind the number where there is one."""
    if text in ("true", "false"):
        return ("truth", text == "true"), "bool"
    digits, suffix = re.fullmatch(r"(-?\d+)(\w*)", text).groups()
    return ("number", digits, suffix or ty), suffix or ty


def without_suffix(literal):
    """A literal whose type is told elsewhere."""
    return (*literal[:2], None) if literal[0] == "number" else literal


def operation(op, operands):
    """An operator on these operands, each with its type."""
    if len(operands) == 1:
        return ("unary", op, operands[0][0])
    (left, left_type), (right, right_type) = operands
    if left_type == right_type or op in SHIFTS:
        return ("binary", OPERATORS[op], left, right)
    return ("between", OPERATORS[op], left, left_type, right, right_type)


def bodies_of(row):
    """The operator on literals, and on names: `{ let a = LEFT; let b = RIGHT; a + b }`."""
    operands = [operand(text, row.ty) for text in (row.left, row.right) if text != NONE]
    yield operation(row.op, operands)
    names = "ab"[: len(operands)]
    lets = [("let", name, ty, without_suffix(literal), None) for name, (literal, ty) in zip(names, operands)]
    yield ("block", lets, operation(row.op, [(("path", name), ty) for name, (_, ty) in zip(names, operands)]), None)


def run_of_table(path):
    """The run of a table: all its rows are goals of one world, once on literals and once on names."""
    rows = [row for row in rows_of(path) for _ in range(2)]
    trees = [tree for row in rows[::2] for tree in bodies_of(row)]
    bodies = [(body_row(tree, row.result_type()), row.result_type()) for row, tree in zip(rows, trees)]
    report = "".join(f"goal {number} {row.answer()}\n  turns 1\n" for number, row in enumerate(rows))
    goals = tuple(f"{row} {form}" for row, form in zip(rows, ("on literals", "on names") * len(rows)))
    is_fault = any(row.result in (PANIC, UNDEFINED) for row in rows)
    text = bytes_of(json_of(world_of_bodies(bodies)))
    return Run(f"operators, {path.stem}", lambda: text, 1 if is_fault else 0, report, goals=goals)
