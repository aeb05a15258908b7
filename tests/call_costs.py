#!/usr/bin/env python3
"""What the goals of a world have to answer, by the rules of `docs/MEANING.md` and of "Limits" in `docs/DECISIONS.md`: it
evaluates the trees of the world's bodies, and counts blocks, bytes and levels of nesting. It knows no graph, and takes nothing from
the program.

usage: call_costs.py           compares all cases that have a report with it
       call_costs.py WORLD     prints the report of an input

It knows the forms that are evaluated, with their faults and refusals, of which the first in the order of lowering is the answer. A world
in which it meets something else is skipped in a comparison. The exit code is 1 where something differs.
"""

import json
import sys
import threading
from concurrent.futures import ThreadPoolExecutor
from dataclasses import dataclass, field

ORIGIN = "tests/call_costs.py"
NOT_BUILT = 'NotSupported("form not built")'
UNDEFINED = 'NotSupported("comparison of this type")'
DEFAULT_LIMITS = {"blocks": 10000000, "nesting": 100, "bytes": 1000000000}
# How many bytes integers have by their names, and the others that casts are between.
INTEGERS = {"8": 1, "16": 2, "32": 4, "64": 8, "128": 16, "size": 8}
SIZES = {"Bool": 1, "Char": 4}
USIZE = {"Uint": "Usize"}
RESULT = ("result",)
# The faults of reading and writing a part that a value lacks or that can't be found, and of using an element behind the end of its array.
BAD_READ, BAD_WRITE = (f'UndefinedBehavior("out of bound memory {word}")' for word in ("read", "write"))
OUT_OF_BOUNDS = 'Panic("Index out of bounds")'
# Calls nest in Python as they do in the world.
STACK, DEPTH = 512 * 2**20, 10**6


class Unknown(Exception):
    """A world in which something stands that isn't known here."""


def has_param(tree):
    """Whether a type holds a parameter."""
    if isinstance(tree, dict):
        return "Param" in tree or any(has_param(part) for part in tree.values())
    return isinstance(tree, list) and any(has_param(part) for part in tree)


def no_layout(ty):
    """Why a type has no layout."""
    return "HasPlaceholder" if has_param(ty) else "Unknown"


def quoted(text):
    """A text in quotes."""
    shown = text.replace("\\", "\\\\").replace('"', '\\"').replace("\n", "\\n")
    return f'"{shown}"'


class Refusal(Exception):
    """Why a body can't be lowered."""


class Fault(Exception):
    """A fault of a run, with the calls that were open: the innermost one, and those around it."""

    def __init__(self, text, trail):
        super().__init__(text)
        self.text, self.trail = text, trail

    def shown(self):
        calls, around = [], self.trail
        while around:
            call, around = around
            calls.append(call)
        return f"InFunction({self.text}, [{', '.join(calls)}])"


class NoPlace(Exception):
    """Why cells can't be placed."""


class Jump(Exception):
    """A jump: where it leads, as ("break", e), ("continue", e) or ("return",)."""

    def __init__(self, *to):
        super().__init__(to)
        self.to = to


def key(tree):
    """A text that is the same for the same JSON."""
    return json.dumps(tree, sort_keys=True)


def variant(tree):
    """The name of a variant of an enum, and its part."""
    return (tree, None) if isinstance(tree, str) else next(iter(tree.items()))


def shown_type(ty, structs=()):
    """The text of a simple type, in a world that has these structs."""
    name, part = variant(ty)
    if name in ("Int", "Uint"):
        return part.lower()
    if name == "Tuple":
        types = [shown_type(one, structs) for one in part]
        return f"({types[0]},)" if len(types) == 1 else f"({', '.join(types)})"
    if name == "Array":
        return f"[{shown_type(part[0], structs)}; {shown_length(part[1])}]"
    if struct_in(ty) is not None:
        args = [shown_type(one["Ty"], structs) if "Ty" in one else shown_length(one["Konst"]) for one in part[1]]
        return structs[part[0]["StructId"]]["name"] + (f"<{', '.join(args)}>" if args else "")
    if name in ("Bool", "Char", "Str"):
        return name.lower()
    if name == "Never":
        return "!"
    raise Unknown(f"the text of {ty}")


def struct_in(ty):
    """The number of a struct's type, with its generic arguments, or None."""
    name, part = variant(ty)
    if name != "Adt" or variant(part[0])[0] != "StructId":
        return None
    return part[0]["StructId"], part[1]


def shown_length(constant):
    """The text of an array's length: a number, where it has as many bytes as some integer has, or else its bytes."""
    name, value = variant(constant)
    if name != "Value" or kind_of(value["ty"]) != "unsigned":
        raise Unknown(f"the text of {constant}")
    memory = bytes.fromhex(value["memory"])
    return str(int.from_bytes(memory, "little")) if len(memory) in INTEGERS.values() else f"0x{memory.hex()}"


def array_length(ty):
    """How many elements an array type has, where that is known."""
    name, value = variant(ty[variant(ty)[0]][1])
    memory = bytes.fromhex(value["memory"]) if name == "Value" else None
    return None if memory is None or len(memory) > 16 else int.from_bytes(memory, "little")


def at_args(tree, args):
    """A type or what it holds, at generic arguments."""
    if isinstance(tree, list):
        return [at_args(part, args) for part in tree]
    if not isinstance(tree, dict):
        return tree
    if "Alias" in tree:
        raise Unknown("the type of an alias in a field")
    if "Param" in tree:
        return variant(args[tree["Param"]["index"]])[1]
    return {name: at_args(part, args) for name, part in tree.items()}


def is_concrete(tree):
    """Whether a type, or what it holds, neither is nor has a generic parameter or an alias."""
    if isinstance(tree, list):
        return all(is_concrete(part) for part in tree)
    return not isinstance(tree, dict) or not {"Param", "Alias"} & set(tree) and all(is_concrete(part) for part in tree.values())


def ready_at(ty, args):
    """A type at generic arguments, where it needn't be made: itself, where it holds no parameter and no alias, or the argument of the parameter that it is."""
    if is_concrete(ty):
        return ty
    place = ty["Param"]["index"] if "Param" in ty else len(args)
    return args[place]["Ty"] if place < len(args) and "Ty" in args[place] else None


def parts_of(ty, structs):
    """The types of the parts of a type's values: of a tuple, of an array that isn't empty, and of a struct."""
    name, part = variant(ty)
    if name == "Tuple":
        return part
    if name == "Array":
        return [] if array_length(ty) == 0 else [part[0]]
    made = struct_in(ty)
    return [] if made is None else [at_args(row["ty"], made[1]) for row in structs[made[0]].get("fields", [])]


def height(ty, structs, known=None):
    """How many levels a value of a type has, by the types of its parts. Each type is gone through once."""
    known = {} if known is None else known
    text = json.dumps(ty, sort_keys=True)
    if text not in known:
        known[text] = 1 + max((height(part, structs, known) for part in parts_of(ty, structs)), default=0)
    return known[text]


# The table of operators.


def kind_of(ty):
    """The kind of a type's values, where they are numbers, truth values or characters."""
    return {"Int": "signed", "Uint": "unsigned", "Bool": "bool", "Char": "char"}.get(variant(ty)[0])


def fixed_size(ty):
    """How many bytes an integer type, `bool` or `char` has."""
    name, part = variant(ty)
    return SIZES[name] if part is None else INTEGERS[part[1:]]


def number_of(kind, data):
    """The number that bytes are, at a kind of types: "signed", "unsigned", "bool" or "char"."""
    return int.from_bytes(data, "little", signed=kind == "signed")


def low_bytes(size, number):
    return (number % 256**size).to_bytes(size, "little")


def held(kind, size, number, word):
    """The bytes of an exact result, or the word of the panic where the type doesn't hold it."""
    least, most = (-(256**size) // 2, 256**size // 2 - 1) if kind == "signed" else (0, 256**size - 1)
    if not least <= number <= most:
        raise OverflowError(word)
    return low_bytes(size, number)


def divided(left, right):
    """The quotient, towards zero."""
    quotient = abs(left) // abs(right)
    return quotient if (left < 0) == (right < 0) else -quotient


def arithmetic(op, kind, left, right, right_kind):
    """An arithmetic operator on bytes. A panic is an `OverflowError` with its operator, and no row in the table a `LookupError`."""
    a, b, size = number_of(kind, left), number_of(right_kind, right), len(left)
    if "char" in (kind, right_kind):
        raise LookupError("arithmetic on characters")
    if None in (kind, right_kind):
        raise LookupError("arithmetic on values of other types")
    if op in ("BitAnd", "BitOr", "BitXor"):
        made = {"BitAnd": lambda x, y: x & y, "BitOr": lambda x, y: x | y, "BitXor": lambda x, y: x ^ y}[op]
        return bytes(made(x, y) for x, y in zip(left, right))
    if kind == "bool":
        raise LookupError("arithmetic on truth values")
    if op in ("Shl", "Shr"):
        if not 0 <= b < 8 * size:
            raise OverflowError(op)
        return low_bytes(size, a << b if op == "Shl" else a >> b)
    if op in ("Div", "Rem"):
        if b == 0 or (kind == "signed" and b == -1 and a == -(256**size) // 2):
            raise OverflowError(op)
        quotient = divided(a, b)
        return low_bytes(size, quotient if op == "Div" else a - b * quotient)
    return held(kind, size, {"Add": a + b, "Sub": a - b, "Mul": a * b}[op], op)


def are_compared(kinds, left, right):
    """Whether values of two kinds are compared: numbers of one length, or two truth values or characters."""
    are_numbers = all(kind in ("signed", "unsigned") for kind in kinds)
    return len(left) == len(right) and (are_numbers or (kinds[0] is not None and kinds[0] == kinds[1]))


def compared(op, left, right):
    """A comparison of numbers."""
    name, part = variant(op)
    if name == "Eq":
        return (left != right) if part["negated"] else (left == right)
    if left == right:
        return not part["strict"]
    return (left < right) == (part["ordering"] == "Less")


# Bodies, as lowering goes through them.


@dataclass
class Target:
    """A loop or a labelled block that is open, and how many cells were marked when it was opened."""

    e: int
    label: object
    kept: int


@dataclass
class Body:
    """A body that was gone through: its cells in the order of their locals, how many drops leaving each scope makes, what each jump means,
    and the cells of the parameters."""

    owner: str
    body: dict
    infer: dict
    locals: list = field(default_factory=list)
    drops: dict = field(default_factory=dict)
    targets: dict = field(default_factory=dict)
    params: list = field(default_factory=list)
    end: int = 0
    rows: dict = field(default_factory=dict)


class Reading:
    """Goes through a body in the order of lowering."""

    def __init__(self, world, owner, row):
        self.world = world
        self.body = Body(owner, row["body"], row["infer"])
        self.exprs = row["body"].get("exprs", [])
        self.pats = row["body"].get("pats", [])
        self.bindings = row["body"].get("bindings", [])
        found = row["infer"]
        self.rows = {
            name: dict(map(tuple_of, found.get(name, [])))
            for name in ("expr_adjustments", "value_res", "assoc_res", "variant_res", "field_res", "pat_value_res", "pat_assoc_res",
                         "pat_variant_res", "pat_adjustments", "binding_modes")
        }
        bases = {part["base"] for name, part in map(variant, self.exprs) if name == "Index"} - {row["body"]["body_expr"]}
        self.rows["expr_adjustments"] = {e: steps for e, steps in self.rows["expr_adjustments"].items() if e not in bases or is_looked_at(steps)}
        self.rows["diverging"] = set(found.get("diverging", []))
        self.rows["coercion_casts"] = set(found.get("coercion_casts", []))
        self.layouts = {key(ty): layout for ty, layout in world.get("layouts", [])}
        self.copies = {key(ty) for ty in found.get("copy_types", [])}
        self.marks, self.open, self.temps = [], [], []

    def read(self):
        """The body, once all that is evaluated in it was gone through."""
        root = self.body.body["body_expr"]
        if self.body.body.get("self_param") is not None:
            self.body.params.append(self.bound(self.body.body["self_param"]))
        self.body.params += [self.name_bound(pat) for pat in self.body.body.get("params", [])]
        self.marks += self.body.params
        self.into(root)
        self.body.end = self.count(0)
        bindings = [("binding", place) for place, one in enumerate(self.bindings) if one.get("owner") is None]
        self.body.locals = [RESULT, *bindings, *self.temps]
        self.body.rows = self.rows
        if self.world.get("drop_fn") is not None and not all(self.is_copy(cell) for cell in self.body.locals):
            raise Refusal(NOT_BUILT)
        return self.body

    def never_target(self, e):
        """The type after `NeverToAny`, where that adjusts an expression."""
        steps = self.rows["expr_adjustments"].get(e, [])
        if not steps:
            return None
        if len(steps) > 1 or steps[0]["kind"] != "NeverToAny":
            raise Refusal(NOT_BUILT)
        return steps[0]["target"]

    def type_of(self, cell):
        """The type of a cell."""
        if cell[0] == "binding":
            return self.body.infer["binding_types"][cell[1]]
        e = self.body.body["body_expr"] if cell == RESULT else cell[1]
        own = self.body.infer["expr_types"][e]
        steps = [] if cell[0] == "never" else self.rows["expr_adjustments"].get(e, [])
        return steps[0]["target"] if steps else own

    def is_copy(self, cell):
        return key(self.type_of(cell)) in self.copies

    def count(self, kept):
        """How many drops leaving the marks behind the first ones makes."""
        return sum(not self.is_copy(cell) for cell in self.marks[kept:])

    def temp(self, cell):
        self.temps.append(cell)
        self.marks.append(cell)

    def bound(self, binding):
        if self.bindings[binding].get("owner") is not None:
            raise Refusal("InaccessibleLocal")
        return ("binding", binding)

    def name_bound(self, pat):
        """The cell of the binding that a pattern is the plain name of."""
        name, part = variant(self.pats[pat])
        by_value = self.rows["binding_modes"].get(pat, "Move") == "Move" and not self.rows["pat_adjustments"].get(pat, 0)
        if name != "Bind" or part.get("subpat") is not None or not by_value:
            raise Refusal(NOT_BUILT)
        return self.bound(part["id"])

    def named(self, rows, place, name):
        """The cell of the binding that a path names."""
        found = rows.get(place)
        if found is None:
            raise Refusal(f"UnresolvedName({quoted(name)})")
        if variant(found)[0] != "LocalBinding":
            raise Refusal(NOT_BUILT)
        return self.bound(found["LocalBinding"])

    def is_a(self, e, name):
        """Whether an expression that isn't adjusted is of a form."""
        return variant(self.exprs[e])[0] == name and self.never_target(e) is None

    def is_place(self, e):
        """Whether an expression is a place: a name of the body, a field or an element."""
        return self.is_a(e, "Field") or self.is_a(e, "Index") or (self.is_a(e, "Path") and not self.names_unit(e))

    def names_unit(self, e):
        """Whether a path is a value of a struct without fields."""
        return names_unit(self.rows, self.body.infer, e)

    def place(self, e):
        if self.is_place(e):
            return self.own(e)
        self.temp(("node", e))
        return self.into(e)

    def operand(self, e):
        return self.own(e) if self.is_a(e, "Literal") else self.place(e)

    def into(self, e):
        if self.never_target(e) is not None:
            self.temp(("never", e))
        return self.own(e)

    def tail(self, e):
        if e is not None:
            self.into(e)

    def own(self, e):
        self.never_target(e)
        name, part = variant(self.exprs[e])
        method = getattr(self, f"own_{name.lower()}", None)
        if method is None:
            raise Refusal(NOT_BUILT)
        method(e, part)

    def own_missing(self, e, part):
        raise Refusal("IncompleteExpr")

    def own_literal(self, e, part):
        name, _ = variant(part)
        if name not in ("Bool", "Int", "Uint", "Char"):
            raise Refusal(NOT_BUILT)
        ty = self.body.infer["expr_types"][e]
        layout = self.layouts.get(key(ty))
        if name != "Bool" and layout is None:
            raise Refusal(f"LayoutError({no_layout(ty)})")
        if name != "Bool" and layout["size"] > 16:
            raise Refusal('TypeError("number literal of more than 16 bytes")')

    def own_path(self, e, part):
        """A name of the body, or of a struct without fields."""
        if self.names_unit(e):
            return
        if e in self.rows["assoc_res"] or e in self.rows["variant_res"]:
            raise Refusal(NOT_BUILT)
        self.named(self.rows["value_res"], e, part)

    def own_field(self, e, part):
        """A part of a tuple, or a field of the struct that the base is by its type, of a type that needn't be made at its generic arguments."""
        found = self.rows["field_res"].get(e, {})
        if "Right" not in found:
            parent, made = found.get("Left", {}).get("parent", {}), struct_in(self.value_type(part["expr"]))
            if made is None or parent != {"StructId": made[0]}:
                raise Refusal(NOT_BUILT)
            row = self.world["structs"][made[0]]["fields"][found["Left"]["local_id"]]
            if ready_at(row["ty"], made[1]) is None:
                raise Refusal(NOT_BUILT)
        self.place(part["expr"])

    def own_index(self, e, part):
        """An element of an array, by a `usize`. The index has a cell of its own, also where it is a literal or a name."""
        if variant(self.value_type(part["base"]))[0] != "Array" or self.value_type(part["index"]) != USIZE:
            raise Refusal(NOT_BUILT)
        self.place(part["base"])
        self.temp(("node", part["index"]))
        self.into(part["index"])

    def value_type(self, e):
        """The type of an expression's value."""
        target = [step["target"] for step in self.rows["expr_adjustments"].get(e, []) if step["kind"] == "NeverToAny"]
        return target[0] if len(self.rows["expr_adjustments"].get(e, [])) == 1 and target else self.body.infer["expr_types"][e]

    def own_recordlit(self, e, part):
        """A struct literal. Without a base it writes as many fields as the struct has, each of these among them. With one it writes some
        of them, each once, and no type of another has to be made at the generic arguments of its own type."""
        found, made = self.rows["variant_res"].get(e, {}), struct_in(self.body.infer["expr_types"][e])
        if made is None or found != {"StructId": made[0]}:
            raise Refusal(NOT_BUILT)
        rows = self.world["structs"][made[0]].get("fields", [])
        names, written = [row["name"] for row in rows], [one["name"] for one in part.get("fields", [])]
        base = base_of(part)
        if base is not None:
            others_ready = all(row["name"] in written or ready_at(row["ty"], made[1]) is not None for row in rows)
            if not others_ready or sum(name in written for name in names) != len(written):
                raise Refusal(NOT_BUILT)
            self.place(base)
        elif part["spread"] != "None" or len(names) != len(written) or not set(names) <= set(written):
            raise Refusal(NOT_BUILT)
        self.operands([one["expr"] for one in part.get("fields", [])])

    def own_unaryop(self, e, part):
        if part["op"] == "Deref":
            raise Refusal(NOT_BUILT)
        self.operand(part["expr"])

    def own_cast(self, e, part):
        types = [self.never_target(part["expr"]), self.body.infer["expr_types"][part["expr"]]]
        given = next(ty for ty in types if ty is not None)
        is_between = all(kind_of(ty) is not None for ty in (given, self.body.infer["expr_types"][e]))
        if part["expr"] not in self.rows["coercion_casts"] and not is_between:
            raise Refusal(NOT_BUILT)
        self.operand(part["expr"])

    def own_tuple(self, e, part):
        self.operands(part.get("exprs", []))

    def own_array(self, e, part):
        self.needs_array(e, "Array expression with non array type")
        self.operands(part.get("elements", []))

    def own_repeat(self, e, part):
        self.operand(part["initializer"])
        self.needs_array(e, "Array repeat expression with non array type")

    def operands(self, exprs):
        for e in exprs:
            self.operand(e)

    def needs_array(self, e, refusal):
        """The own type of an expression has to be an array's."""
        if variant(self.body.infer["expr_types"][e])[0] != "Array":
            raise Refusal(f"TypeError({quoted(refusal)})")

    def own_binaryop(self, e, part):
        if part.get("op") is None:
            raise Refusal("IncompleteExpr")
        name, op = variant(part["op"])
        if name == "Assignment":
            self.compound(part, op)
            return
        self.operand(part["lhs"])
        if variant(part["op"])[0] == "LogicOp":
            self.into(part["rhs"])
        else:
            self.operand(part["rhs"])

    def compound(self, part, op):
        """A compound assignment: its target, and then the right operand."""
        if op.get("op") is None:
            raise Refusal(NOT_BUILT)
        self.compound_target(part["lhs"])
        self.operand(part["rhs"])

    def compound_target(self, e):
        """The target of a compound assignment. One step in its adjustments isn't looked at."""
        name, part = variant(self.exprs[e])
        if len(self.rows["expr_adjustments"].get(e, [])) > 1 or name not in ("Path", "Field", "Index"):
            raise Refusal(NOT_BUILT)
        if name == "Field":
            self.own_field(e, part)
        elif name == "Index":
            self.own_index(e, part)
        elif self.names_unit(e):
            raise Refusal(NOT_BUILT)
        else:
            self.own_path(e, part)

    def own_if(self, e, part):
        self.operand(part["condition"])
        self.into(part["then_branch"])
        self.tail(part.get("else_branch"))

    def own_assignment(self, e, part):
        self.place(part["value"])
        self.assigned(part["target"])

    def assigned(self, pat):
        """The target of an assignment: a pattern that is a path, or an expression that is a place."""
        name, part = variant(self.pats[pat])
        if self.rows["pat_adjustments"].get(pat, 0):
            raise Refusal(NOT_BUILT)
        if name == "Expr" and self.is_place(part):
            self.own(part)
        elif name != "Path" or any(pat in self.rows[rows] for rows in ("pat_assoc_res", "pat_variant_res")):
            raise Refusal(NOT_BUILT)
        else:
            self.named(self.rows["pat_value_res"], pat, part)

    def own_block(self, e, part):
        label = part.get("label")
        kept = len(self.marks)
        if label is not None:
            self.open.append(Target(e, label, kept))
        for statement in part.get("statements", []):
            self.statement(e, statement)
        self.tail(part.get("tail"))
        self.leave(e, kept)
        if label is not None:
            self.open.pop()

    def leave(self, scope, kept):
        self.body.drops[scope] = self.count(kept)
        del self.marks[kept:]

    def statement(self, e, statement):
        name, part = variant(statement)
        if name == "Expr":
            kept = len(self.marks)
            self.place(part["expr"])
            self.leave(("statement", part["expr"]), kept)
        elif name == "Let" and part.get("initializer") is not None and part.get("else_branch") is None:
            self.place(part["initializer"])
            self.marks.append(self.name_bound(part["pat"]))
        else:
            raise Refusal(NOT_BUILT)

    def own_loop(self, e, part):
        kept = len(self.marks)
        self.open.append(Target(e, part.get("label"), kept))
        self.place(part["body"])
        self.leave(e, kept)
        self.open.pop()

    def target_of(self, e, label, refusal):
        found = next((one for one in reversed(self.open) if label in (None, one.label)), None)
        if found is None:
            raise Refusal(refusal if label is None else "UnresolvedLabel")
        self.body.targets[e] = found
        return found

    def own_break(self, e, part):
        target = self.target_of(e, part.get("label"), "BreakWithoutLoop")
        self.tail(part.get("expr"))
        self.body.drops[e] = self.count(target.kept)

    def own_continue(self, e, part):
        target = self.target_of(e, (part or {}).get("label"), "ContinueWithoutLoop")
        self.body.drops[e] = self.count(target.kept)

    def own_return(self, e, part):
        self.tail(part.get("expr"))
        self.body.drops[e] = self.count(0)

    def own_call(self, e, part):
        """A call of a function, or of what builds a struct, which has an argument for each field."""
        made, args = constructed(self.body, self.rows, e, part), part.get("args", [])
        if made is None:
            self.called(function_called(self.body.infer, part), args)
        elif len(args) == len(self.world["structs"][made[0]].get("fields", [])):
            self.operands(args)
        else:
            raise Refusal(NOT_BUILT)

    def own_methodcall(self, e, part):
        self.called(method_called(self.body.infer, e), method_args(part))

    def called(self, function, args):
        """A call of a function, where it is known."""
        if function is None or not is_direct(self.world["functions"][function]):
            raise Refusal(NOT_BUILT)
        self.operands(args)


def names_unit(rows, infer, e):
    """Whether a path is a value of a struct without fields: it is resolved to a struct, as a variant or else as a value, which is its own
    type, or to `Self`, and its own type is a struct. Whether that has fields isn't asked."""
    found, made = rows["variant_res"].get(e, rows["value_res"].get(e)), struct_in(infer["expr_types"][e])
    return e not in rows["assoc_res"] and made is not None and found in ({"StructId": made[0]}, "ImplSelf")


def is_looked_at(steps):
    """Whether the steps of an index's base are looked at: one of another kind than `NeverToAny` isn't."""
    return len(steps) != 1 or steps[0]["kind"] == "NeverToAny"


def constructed(body, rows, e, part):
    """The struct whose name a call has as its callee, with the generic arguments, or None. The callee has to be a path that isn't adjusted, and the call
    one that isn't marked as diverging."""
    name, called = variant(body.infer["expr_types"][part["callee"]])
    is_path = variant(body.body["exprs"][part["callee"]])[0] == "Path" and not rows["expr_adjustments"].get(part["callee"])
    if not is_path or e in rows["diverging"] or name != "FnDef" or variant(called[0])[0] != "StructId":
        return None
    return called[0]["StructId"], called[1]


def base_of(part):
    """The base of a struct literal, or None."""
    name, base = variant(part["spread"])
    return base if name == "Expr" else None


def is_direct(row):
    """Whether a call of a function enters its own body."""
    return not row.get("generics") and row.get("in_trait") is None and row.get("special") is None


def tuple_of(entry):
    return entry[0], entry[1]


def function_in(ty):
    """The function that a type is the one of, where it has no generic arguments."""
    name, part = variant(ty)
    if name != "FnDef" or variant(part[0])[0] != "FunctionId" or part[1]:
        return None
    return part[0]["FunctionId"]


def function_called(infer, part):
    """The function that a call names: that of its callee's own type."""
    return function_in(infer["expr_types"][part["callee"]])


def method_called(infer, e):
    """The function that a method call is resolved to, where it is given no generic arguments."""
    found = dict(map(tuple_of, infer.get("method_res", []))).get(e)
    return None if found is None or found.get("args") else found["function"]


def method_args(part):
    """The arguments of a method call, its receiver first."""
    return [part["receiver"], *part.get("args", [])]


# Runs.


@dataclass
class Frame:
    """A body that runs, with the bytes of its cells, and the calls that are open."""

    body: Body
    cells: dict
    trail: tuple
    places: dict = field(default_factory=dict)


@dataclass
class Part:
    """A part of the value at a place: how far behind it the part begins, how many bytes it has, and its type. A part that the value lacks, or that
    has no layout or no offset, has no start."""

    base: object
    start: int | None
    size: int
    ty: object


@dataclass
class Element:
    """An element of the array at a place: the cell that holds its index, which is read where the place is used, how many elements the array has, where
    that is known, how many bytes each of them has, and their type."""

    base: object
    index: tuple
    count: int | None
    size: int
    ty: object


class Run:
    """Evaluates one goal."""

    def __init__(self, world, limits, kept):
        self.world, self.limits, self.kept = world, limits, kept
        self.layouts = {key(ty): layout for ty, layout in world.get("layouts", [])}
        self.turns, self.stack, self.levels = 0, 1, 0

    # Definitions.

    def row_of(self, definition):
        """The name of a definition, its row, and the row of its body."""
        sort, number = variant(definition)
        if sort not in ("ConstId", "FunctionId"):
            raise Refusal(NOT_BUILT)
        table, word = {"ConstId": ("consts", "const"), "FunctionId": ("functions", "fn")}[sort]
        row = self.world[table][number]
        body = None if row.get("body") is None else self.world["bodies"][row["body"]]
        return f"{word}#{number}", row, body

    def read(self, definition, args=()):
        """The body of a definition. Each body is gone through once."""
        found = self.kept.get(key(definition))
        if found is None:
            found = self.kept[key(definition)] = self.read_anew(definition, args)
        if isinstance(found, Refusal):
            raise found
        return found

    def read_anew(self, definition, args):
        try:
            owner, row, body = self.row_of(definition)
            if body is not None and (body["infer"].get("erroneous") or body["infer"].get("mismatches")):
                return Refusal("HasErrors")
            if args or row.get("generics"):
                return Refusal(NOT_BUILT)
            if body is None:
                return Refusal("IncompleteExpr")
            return Reading(self.world, owner, body).read()
        except Refusal as refusal:
            return refusal

    # Cells.

    def shown_type(self, ty):
        """The text of a type."""
        return shown_type(ty, self.world.get("structs", []))

    def layout(self, ty):
        """The layout of a local's type."""
        found = self.layouts.get(key(ty))
        if found is None:
            raise NoPlace(f"LayoutError({no_layout(ty)}, {self.shown_type(ty)})")
        if not found.get("sized"):
            raise NoPlace(f'TypeIsUnsized({self.shown_type(ty)}, "no unsized local in extending stack")')
        return found

    def type_of(self, body, cell):
        if cell[0] == "binding":
            return body.infer["binding_types"][cell[1]]
        e = body.body["body_expr"] if cell == RESULT else cell[1]
        steps = [] if cell[0] == "never" else body.rows["expr_adjustments"].get(e, [])
        return steps[0]["target"] if steps else body.infer["expr_types"][e]

    def place_cells(self, body, cells):
        """Places cells at the end of the stack. The answer has the bytes of each."""
        end, placed = self.stack, {}
        for cell, layout in [(cell, self.layout(self.type_of(body, cell))) for cell in cells]:
            end = -(-end // layout["align"]) * layout["align"] + layout["size"]
            placed[cell] = bytes(layout["size"]) if end - 1 <= self.limits["bytes"] else b""
        if end - 1 > self.limits["bytes"]:
            raise NoPlace("MemoryLimitExceeded")
        self.stack = end
        return placed

    # What is counted.

    def enter(self, frame, count=1):
        """Enters blocks."""
        for _ in range(count):
            if self.turns == self.limits["blocks"]:
                raise Fault("ExecutionLimitExceeded", frame.trail)
            self.turns += 1

    # Answers.

    def answer(self, goal):
        """The answer of a goal, as it stands in the report."""
        definition = goal["def"]
        try:
            body = self.read(definition, goal.get("args"))
        except Refusal as refusal:
            return f"error lower {refusal}"
        krate = self.row_of(definition)[1]["krate"]
        width = self.world["crates"][krate].get("pointer_bytes")
        if width is None:
            return f"error eval TargetDataLayoutNotAvailable(crate#{krate})"
        if width != 8:
            return 'error eval NotSupported("targets with different pointer size from host")'
        if self.limits["nesting"] == 0:
            return "error eval StackOverflow"
        try:
            cells = self.place_cells(body, body.locals)
        except NoPlace as cause:
            return f"error eval {cause}"
        if body.params:
            return 'error eval InternalError("too few arguments")'
        self.levels = 1
        try:
            value = self.run(Frame(body, cells, ()))
        except Fault as fault:
            return f"error eval {fault.shown()}"
        ty = self.type_of(body, RESULT)
        if self.limits["nesting"] - 1 < height(ty, self.world.get("structs", [])):
            return "error eval StackOverflow"
        return f"value {self.shown_type(ty)} {value.hex() or '-'}"

    def run(self, frame):
        """Runs a body from its first block on. The answer has the bytes of its result."""
        self.enter(frame)
        try:
            self.into(frame, frame.body.body["body_expr"], RESULT)
            self.enter(frame, frame.body.end)
        except Jump as jump:
            if jump.to != ("return",):
                raise
        return frame.cells[RESULT]

    # Expressions.

    def form(self, frame, e):
        return variant(frame.body.body["exprs"][e])

    def names_unit(self, frame, e):
        return names_unit(frame.body.rows, frame.body.infer, e)

    def is_adjusted(self, frame, e):
        return bool(frame.body.rows["expr_adjustments"].get(e))

    def literal(self, frame, e):
        """The bytes of a literal."""
        name, part = variant(self.form(frame, e)[1])
        if name == "Bool":
            return bytes([part])
        number = part if name == "Char" else int(part[0])
        return low_bytes(self.layouts[key(frame.body.infer["expr_types"][e])]["size"], number)

    def place(self, frame, e):
        """The place that an expression is evaluated to: a cell, a part of a tuple or a struct, as `Part`, or an element, as `Element`."""
        name, part = self.form(frame, e)
        if name == "Path" and not self.is_adjusted(frame, e) and not self.names_unit(frame, e):
            return ("binding", frame.body.rows["value_res"][e]["LocalBinding"])
        if name == "Field" and not self.is_adjusted(frame, e):
            return self.part_of(frame, e, part)
        if name == "Index" and not self.is_adjusted(frame, e):
            return self.element_of(frame, part)
        self.into(frame, e, ("node", e))
        return ("node", e)

    def part_of(self, frame, e, part):
        """The place of a field expression."""
        return self.part_at(frame, self.place(frame, part["expr"]), frame.body.rows["field_res"][e])

    def element_of(self, frame, part):
        """The place of an index expression: its base's place, and then the index goes into its cell."""
        base, index = self.place(frame, part["base"]), ("node", part["index"])
        self.into(frame, part["index"], index)
        whole = self.place_type(frame, base)
        if whole is None or variant(whole)[0] != "Array":
            return Part(base, None, 0, None)
        ty = whole["Array"][0]
        layout = self.layouts.get(key(ty))
        return Part(base, None, 0, ty) if layout is None else Element(base, index, array_length(whole), layout["size"], ty)

    def part_at(self, frame, base, found):
        """A part of a tuple or a field of a struct: its base's place, and which of its bytes."""
        whole = self.place_type(frame, base)
        types, number = ([], 0) if whole is None else self.step(found, whole)
        if number >= len(types) or types[number] is None:
            return Part(base, None, 0, None)
        layouts = [self.layouts.get(key(ty)) for ty in (whole, types[number])]
        if None in layouts or number >= len(layouts[0].get("offsets", [])):
            return Part(base, None, 0, types[number])
        start, size = layouts[0]["offsets"][number], layouts[1]["size"]
        if start + size > layouts[0]["size"]:
            raise Unknown("a part that ends behind its tuple")
        return Part(base, start, size, types[number])

    def step(self, found, whole):
        """The types of the parts that a value has, and the place among them of the part that a field is resolved to."""
        name, part = variant(whole)
        if "Right" in found:
            return (part if name == "Tuple" else []), found["Right"]["index"]
        field = found["Left"]
        rows = self.world["structs"][field["parent"]["StructId"]].get("fields", []) if name == "Adt" else []
        return [ready_at(row["ty"], part[1]) for row in rows], field["local_id"]

    def place_type(self, frame, place):
        """The type of a place, or None where its way leads to nothing."""
        return place.ty if isinstance(place, (Part, Element)) else self.type_of(frame.body, place)

    def number_at(self, frame, element):
        """The index of an element now."""
        return int.from_bytes(frame.cells[element.index], "little")

    def is_past(self, frame, operand):
        """Whether an index on the way to a place isn't below the length of its array."""
        if isinstance(operand, Element):
            is_last = operand.count is not None and self.number_at(frame, operand) >= operand.count
            return is_last or self.is_past(frame, operand.base)
        return isinstance(operand, Part) and self.is_past(frame, operand.base)

    def use(self, frame, *operands):
        """An operation uses these places and bytes, before it reads or writes any: an index out of bounds on the way to one of them is a panic."""
        if any(self.is_past(frame, operand) for operand in operands):
            raise Fault(OUT_OF_BOUNDS, frame.trail)

    def lies(self, frame, place):
        """Where a part or an element begins in its base, and its size, or None where it lies nowhere."""
        if isinstance(place, Part):
            return None if place.start is None else (place.start, place.size)
        return None if place.count is None else (self.number_at(frame, place) * place.size, place.size)

    def is_nowhere(self, frame, place):
        """Whether a place is one that can't be found."""
        if not isinstance(place, (Part, Element)):
            return False
        return self.lies(frame, place) is None or self.is_nowhere(frame, place.base)

    def operand(self, frame, e):
        """What an operation reads: bytes, or a place."""
        if self.form(frame, e)[0] == "Literal" and not self.is_adjusted(frame, e):
            return self.literal(frame, e)
        return self.place(frame, e)

    def value(self, frame, operand):
        """The bytes of an operand now, which isn't out of bounds."""
        if self.is_nowhere(frame, operand):
            raise Fault(BAD_READ, frame.trail)
        if isinstance(operand, (Part, Element)):
            start, size = self.lies(frame, operand)
            return self.value(frame, operand.base)[start : start + size]
        return operand if isinstance(operand, bytes) else frame.cells[operand]

    def used(self, frame, *operands):
        """The bytes of the operands of one operation now, which writes a whole cell."""
        self.use(frame, *operands)
        return [self.value(frame, operand) for operand in operands]

    def operand_type(self, frame, e):
        """The type of an operand: a binding's, or that of a part of a tuple or an element, where it is one."""
        name, part = self.form(frame, e)
        if self.is_adjusted(frame, e):
            return frame.body.rows["expr_adjustments"][e][0]["target"]
        if name == "Path" and not self.names_unit(frame, e):
            return frame.body.infer["binding_types"][frame.body.rows["value_res"][e]["LocalBinding"]]
        if name == "Field":
            types, number = self.step(frame.body.rows["field_res"][e], self.operand_type(frame, part["expr"]))
            return types[number]
        if name == "Index":
            return self.operand_type(frame, part["base"])["Array"][0]
        return frame.body.infer["expr_types"][e]

    def into(self, frame, e, cell):
        self.own(frame, e, ("never", e) if self.is_adjusted(frame, e) else cell)

    def put(self, frame, cell, data):
        if len(frame.cells[cell]) != len(data):
            raise Unknown("a value that isn't as long as its cell")
        frame.cells[cell] = data

    def needs_place(self, frame, place):
        """A place that is written has to be there, before what goes there is read."""
        if self.is_nowhere(frame, place):
            raise Fault(BAD_WRITE, frame.trail)

    def write(self, frame, place, data):
        """Writes a place. Around a part or an element everything stays as it is."""
        cell, offset, size = place, 0, None
        while isinstance(cell, (Part, Element)):
            start, inner = self.lies(frame, cell)
            cell, offset, size = cell.base, offset + start, inner if size is None else size
        if size is None:
            self.put(frame, cell, data)
            return
        if len(data) != size:
            raise Unknown("a value that isn't as long as its part")
        whole = frame.cells[cell]
        self.put(frame, cell, whole[:offset] + data + whole[offset + size :])

    def own(self, frame, e, cell):
        name, part = self.form(frame, e)
        getattr(self, f"own_{name.lower()}")(frame, e, part, cell)

    def own_literal(self, frame, e, part, cell):
        self.put(frame, cell, self.literal(frame, e))

    def own_path(self, frame, e, part, cell):
        if self.names_unit(frame, e):
            return
        self.put(frame, cell, frame.cells[("binding", frame.body.rows["value_res"][e]["LocalBinding"])])

    def own_field(self, frame, e, part, cell):
        self.put(frame, cell, *self.used(frame, self.part_of(frame, e, part)))

    def own_index(self, frame, e, part, cell):
        self.put(frame, cell, *self.used(frame, self.element_of(frame, part)))

    def own_unaryop(self, frame, e, part, cell):
        [given] = self.used(frame, self.operand(frame, part["expr"]))
        kind = kind_of(self.operand_type(frame, part["expr"]))
        if kind in ("char", None):
            raise Fault(UNDEFINED, frame.trail)
        if kind == "bool":
            made = bytes([given[0] ^ 1])
        elif part["op"] == "Not":
            made = bytes(byte ^ 255 for byte in given)
        else:
            made = low_bytes(len(given), -number_of(kind, given))
        self.put(frame, cell, made)

    def own_cast(self, frame, e, part, cell):
        [given] = self.used(frame, self.operand(frame, part["expr"]))
        if part["expr"] not in frame.body.rows["coercion_casts"]:
            number = number_of(kind_of(self.operand_type(frame, part["expr"])), given)
            given = low_bytes(fixed_size(frame.body.infer["expr_types"][e]), number)
        self.put(frame, cell, given)

    def own_tuple(self, frame, e, part, cell):
        """A tuple, by its parts."""
        self.laid(frame, frame.body.infer["expr_types"][e], self.values(frame, part.get("exprs", [])), cell)

    def own_recordlit(self, frame, e, part, cell):
        """A struct. The place of its base is found, what is written is evaluated in its order, and then the fields are put in the order
        of the struct's row, each as it is written, or else as the base has it by then."""
        number, _ = struct_in(frame.body.infer["expr_types"][e])
        fields = self.world["structs"][number].get("fields", [])
        base = None if base_of(part) is None else self.place(frame, base_of(part))
        given = [self.operand(frame, one["expr"]) for one in part.get("fields", [])]
        names = [one["name"] for one in part.get("fields", [])]
        kept = [{"Left": {"parent": {"StructId": number}, "local_id": place}} for place in range(len(fields))]
        operands = [
            given[names.index(one["name"])] if one["name"] in names else self.part_at(frame, base, kept[place])
            for place, one in enumerate(fields)
        ]
        self.laid(frame, frame.body.infer["expr_types"][e], self.used(frame, *operands), cell)

    def laid(self, frame, ty, parts, cell):
        """A value of a type with parts, which are put in order to their offsets in zero bytes."""
        layout = self.layouts.get(key(ty))
        if layout is None:
            raise Fault('InternalError("mismatched layout")', frame.trail)
        made, offsets = bytearray(layout["size"]), layout.get("offsets", [])
        for number, given in enumerate(parts):
            if number == len(offsets):
                raise Fault('InternalError("field without offset")', frame.trail)
            start = offsets[number]
            if start + len(given) > len(made):
                raise Fault(f'InternalError("field offset ({start}) is out of bounds 0..{len(made)}")', frame.trail)
            made[start : start + len(given)] = given
        self.put(frame, cell, bytes(made))

    def own_array(self, frame, e, part, cell):
        self.put(frame, cell, b"".join(self.values(frame, part.get("elements", []))))

    def own_repeat(self, frame, e, part, cell):
        """An array of one value, which is evaluated once."""
        [given] = self.values(frame, [part["initializer"]])
        count = array_length(frame.body.infer["expr_types"][e])
        if count is None:
            raise Fault('NotSupported("non evaluatable array len in repeat Rvalue")', frame.trail)
        if len(given) * count != len(frame.cells[cell]):
            raise Unknown("a value that isn't as long as its cell")
        self.put(frame, cell, given * count if given else b"")

    def values(self, frame, exprs):
        """The values of operands, which are read once all are evaluated."""
        return self.used(frame, *[self.operand(frame, e) for e in exprs])

    def own_binaryop(self, frame, e, part, cell):
        name, op = variant(part["op"])
        if name == "Assignment":
            self.compound(frame, part, op["op"])
            return
        left = self.operand(frame, part["lhs"])
        if name == "LogicOp":
            self.logic(frame, part, op, *self.used(frame, left), cell)
            return
        left, right = self.used(frame, left, self.operand(frame, part["rhs"]))
        kinds = [kind_of(self.operand_type(frame, part[side])) for side in ("lhs", "rhs")]
        if name == "CmpOp" and not are_compared(kinds, left, right):
            raise Fault(UNDEFINED, frame.trail)
        if name == "CmpOp":
            made = bytes([compared(op, number_of(kinds[0], left), number_of(kinds[1], right))])
        else:
            made = self.combined(frame, op, kinds, left, right)
        self.put(frame, cell, made)

    def combined(self, frame, op, kinds, left, right):
        """What an arithmetic operator makes of two values."""
        try:
            return arithmetic(op, kinds[0], left, right, kinds[1])
        except OverflowError as panic:
            raise Fault(f'Panic("Overflow in {panic}")', frame.trail) from None
        except LookupError:
            raise Fault(UNDEFINED, frame.trail) from None

    def compound(self, frame, part, op):
        """A compound assignment: the target's place is found before the right operand is evaluated. Then both are read, and the place is
        written."""
        target = self.compound_place(frame, part["lhs"])
        given = self.operand(frame, part["rhs"])
        self.use(frame, target, given)
        self.needs_place(frame, target)
        left, right = self.value(frame, target), self.value(frame, given)
        kinds = [kind_of(ty) for ty in (self.place_type(frame, target), self.operand_type(frame, part["rhs"]))]
        self.write(frame, target, self.combined(frame, op, kinds, left, right))

    def compound_place(self, frame, e):
        """The place that the target of a compound assignment is, whatever adjusts it."""
        name, part = self.form(frame, e)
        if name == "Field":
            return self.part_of(frame, e, part)
        if name == "Index":
            return self.element_of(frame, part)
        return ("binding", frame.body.rows["value_res"][e]["LocalBinding"])

    def logic(self, frame, part, op, left, cell):
        self.enter(frame)
        if left[0] == (0 if op == "And" else 1):
            self.put(frame, cell, left)
        else:
            self.into(frame, part["rhs"], cell)
        self.enter(frame)

    def own_if(self, frame, e, part, cell):
        [condition] = self.used(frame, self.operand(frame, part["condition"]))
        self.enter(frame)
        branch = part["then_branch"] if condition[0] == 1 else part.get("else_branch")
        if branch is not None:
            self.into(frame, branch, cell)
        self.enter(frame)

    def own_assignment(self, frame, e, part, cell):
        """An assignment: the value's place is found, and then the target's. Then the bytes are copied."""
        given = self.place(frame, part["value"])
        name, inside = variant(frame.body.body["pats"][part["target"]])
        if name == "Expr":
            target = self.place(frame, inside)
        else:
            target = ("binding", frame.body.rows["pat_value_res"][part["target"]]["LocalBinding"])
        self.use(frame, target, given)
        self.needs_place(frame, target)
        self.write(frame, target, self.value(frame, given))

    def own_block(self, frame, e, part, cell):
        if part.get("label") is None:
            self.statements(frame, e, part, cell)
            return
        frame.places[e] = cell
        while True:
            self.enter(frame)
            try:
                self.statements(frame, e, part, cell)
            except Jump as jump:
                if jump.to == ("continue", e):
                    continue
                if jump.to != ("break", e):
                    raise
            self.enter(frame)
            return

    def statements(self, frame, e, part, cell):
        for statement in part.get("statements", []):
            name, inside = variant(statement)
            if name == "Expr":
                self.place(frame, inside["expr"])
                self.enter(frame, frame.body.drops[("statement", inside["expr"])])
            else:
                given = self.place(frame, inside["initializer"])
                binding = frame.body.body["pats"][inside["pat"]]["Bind"]["id"]
                self.put(frame, ("binding", binding), *self.used(frame, given))
        if part.get("tail") is not None:
            self.into(frame, part["tail"], cell)
        self.enter(frame, frame.body.drops[e])

    def own_loop(self, frame, e, part, cell):
        frame.places[e] = cell
        while True:
            self.enter(frame)
            try:
                self.place(frame, part["body"])
                self.enter(frame, frame.body.drops[e])
            except Jump as jump:
                if jump.to == ("break", e):
                    self.enter(frame)
                    return
                if jump.to != ("continue", e):
                    raise

    def own_break(self, frame, e, part, cell):
        target = frame.body.targets[e].e
        if part.get("expr") is not None:
            self.into(frame, part["expr"], frame.places[target])
        self.enter(frame, frame.body.drops[e])
        raise Jump("break", target)

    def own_continue(self, frame, e, part, cell):
        self.enter(frame, frame.body.drops[e])
        raise Jump("continue", frame.body.targets[e].e)

    def own_return(self, frame, e, part, cell):
        if part.get("expr") is not None:
            self.into(frame, part["expr"], RESULT)
        self.enter(frame, frame.body.drops[e])
        raise Jump("return")

    def own_call(self, frame, e, part, cell):
        """A call of a function, or of what builds a struct, which enters no body."""
        made = constructed(frame.body, frame.body.rows, e, part)
        if made is not None:
            ty = {"Adt": [{"StructId": made[0]}, made[1]]}
            self.laid(frame, ty, self.values(frame, part.get("args", [])), cell)
            return
        self.called(frame, e, function_called(frame.body.infer, part), part.get("args", []), cell)

    def own_methodcall(self, frame, e, part, cell):
        self.called(frame, e, method_called(frame.body.infer, e), method_args(part), cell)

    def called(self, frame, e, function, args, cell):
        """A call of a function."""
        given = [self.operand(frame, arg) for arg in args]
        trail = (f"fn#{function} at expr#{e} of {frame.body.owner}", frame.trail)
        marked = e in frame.body.rows["diverging"]
        try:
            callee = self.read({"FunctionId": function})
        except Refusal as refusal:
            self.use(frame, *given)
            raise Fault(f"MirLowerError(fn#{function}, {refusal})", trail) from None
        self.use(frame, *given)
        if marked and self.levels == self.limits["nesting"]:
            raise Fault("StackOverflow", frame.trail)
        try:
            cells = self.place_cells(callee, callee.locals if marked else callee.locals[1:])
        except NoPlace as cause:
            raise Fault(str(cause), frame.trail) from None
        if not marked:
            cells[RESULT] = frame.cells[cell]
        if len(given) != len(callee.params):
            text = "too many arguments" if len(given) > len(callee.params) else "too few arguments"
            raise Fault(f'InternalError("{text}")', frame.trail)
        inside = Frame(callee, cells, trail)
        for param, operand in zip(callee.params, given):
            self.put(inside, param, self.value(frame, operand))
        self.levels += marked
        value = self.run(inside)
        if marked:
            raise Fault('UndefinedBehavior("Diverging function returned")', frame.trail)
        self.put(frame, cell, value)
        self.enter(frame)


# Reports and comparisons.


def answers(tree):
    """The answer of each goal of an input, with how many blocks its run enters."""
    kept = {}
    for goal in tree.get("goals", []):
        run = Run(tree["world"], goal.get("limits") or DEFAULT_LIMITS, kept)
        yield run.answer(goal), run


def report(tree):
    """The report on an input."""
    lines = [f"goal {number} {answer}\n  turns {run.turns}\n" for number, (answer, run) in enumerate(answers(tree))]
    return "".join(lines)


def with_depth(work):
    """What is done where calls may nest deep."""
    threading.stack_size(STACK)
    sys.setrecursionlimit(DEPTH)
    with ThreadPoolExecutor(1) as pool:
        return pool.submit(work).result()


def faults_of_cases():
    """A line for each case whose report isn't the one of here, and how many were compared and skipped."""
    from case_files import all_rows, end_of, input_of

    compared_rows, skipped, faults = 0, 0, []
    for topic, row in all_rows():
        status, wanted, _ = end_of(row)
        if status > 1 or not wanted:
            continue
        try:
            found = report(json.loads(input_of(row)()))
        except Unknown as cause:
            skipped += 1
            if row["from"] == ORIGIN:
                faults.append(f"{topic}, {row['name']}: {cause}")
            continue
        compared_rows += 1
        if found != wanted:
            faults.append(f"{topic}, {row['name']}: {found!r}, and not {wanted!r}")
    return faults, compared_rows, skipped


def main(words):
    if len(words) > 1:
        sys.exit("usage: call_costs.py [WORLD]")
    if words:
        with open(words[0], encoding="utf-8") as source:
            print(report(json.load(source)), end="")
        return 0
    from faults import show

    faults, many, skipped = faults_of_cases()
    show("costs", faults)
    print(f"costs: {many} cases, {skipped} skipped, {len(faults)} faults")
    return 1 if faults else 0


if __name__ == "__main__":
    sys.exit(with_depth(lambda: main(sys.argv[1:])))
