"""Makes the typed bodies of a world from the trees that `rust_text.py` reads.

Types are found as Rust finds them: a literal without a suffix has the type that its uses ask for, and `i32` where none
does; the literal that a cast has as its operand has the type of the cast, where that is an integer's, and `u8` in a cast to `char`. A type
that has parts is that of a tuple or an array, as `rust_text.py` reads it, whose parts may not be known yet. A
block without a tail may have any type that is asked for, as where its end isn't reached. A jump, and a loop that
no `break` leaves, are of type `!`, and become of the type that is asked for, where one is.

A struct is told by its name in a body, and has its number in the world alone.

A call of a function that returns `!` is one that inference marks as diverging. A method is found by its name alone. A cast to the
type that its operand has already is a coercion. The target of a compound assignment is borrowed, as for a method of a trait. The base of an
index is borrowed likewise where that is asked for, as rust-analyzer's inference has it.

A jump means what it means here: one without a label the innermost loop or labelled block, where Rust refuses the block. A
`return` leaves the body, as it does in a function. Rust refuses it in a constant.
"""

from dataclasses import dataclass

from part_layouts import rows_with_parts
from rust_text import NoBody, tuple_type
from worlds import (
    BOOL,
    CHAR,
    INTEGER_SIZES,
    NEVER,
    UNIT,
    array_expr,
    array_of,
    assignment,
    bind,
    block,
    break_to,
    const,
    constructor_of,
    continue_to,
    expr_pat,
    filled,
    fn_def,
    function,
    goal,
    integer,
    let_statement,
    loop,
    named_struct_row,
    path,
    record,
    ref,
    return_with,
    sized,
    statement,
    struct,
    tuple_expr,
    tuple_of,
    world,
)

INTEGERS = {name.lower(): integer(name) for name in INTEGER_SIZES}
TYPES = {**INTEGERS, "bool": BOOL, "char": CHAR, "()": UNIT, "!": NEVER}
LAYOUTS = [
    *(sized(integer(name), size) for name, size in INTEGER_SIZES.items()),
    sized(BOOL, 1),
    sized(CHAR, 4),
    sized(UNIT, 0),
    sized(NEVER, 0),
]
SCALARS = [BOOL, CHAR, *INTEGERS.values()]
ALL = [*SCALARS, UNIT, NEVER]

SHIFTS = ("Shl", "Shr")


class Unknown:
    """A type that isn't known yet, which may have to be an integer, and may be that of something without an end."""

    def __init__(self, is_integer=False):
        self.is_integer, self.is_endless, self.known = is_integer, False, None


def known(ty):
    """What is known of a type: its name, or the last of the types that it is the same as."""
    while isinstance(ty, Unknown) and ty.known is not None:
        ty = ty.known
    return ty


def parts_of(ty):
    """The types of a type's parts: none where it has no parts, or isn't known."""
    if not isinstance(ty, tuple):
        return ()
    return ty[1] if ty[0] == "tuple" else ty[1:2]


def has_form(ty, other):
    """Whether a type with parts is of the form of another type: a tuple of as many parts, or an array as long."""
    if not isinstance(ty, tuple) or not isinstance(other, tuple) or ty[0] != other[0]:
        return False
    return len(ty[1]) == len(other[1]) if ty[0] == "tuple" else ty[2] == other[2]


def same(left, right):
    """Makes two types the same one."""
    left, right = known(left), known(right)
    if left is right or left == right:
        return
    if has_form(left, right):
        for one, other in zip(parts_of(left), parts_of(right)):
            same(one, other)
        return
    if not isinstance(left, Unknown):
        left, right = right, left
    is_other = isinstance(right, tuple) or (isinstance(right, str) and right not in INTEGERS)
    if not isinstance(left, Unknown) or (left.is_integer and is_other):
        raise NoBody(f"{left} and {right} are two types")
    if isinstance(right, Unknown):
        right.is_integer = right.is_integer or left.is_integer
        right.is_endless = right.is_endless or left.is_endless
    left.known = right


def settled(ty):
    """The JSON of a type, once nothing more is learned of it. The type of a function's name is its JSON already."""
    ty = known(ty)
    if isinstance(ty, dict):
        return ty
    if isinstance(ty, tuple):
        return tuple_of(*map(settled, ty[1])) if ty[0] == "tuple" else array_of(settled(ty[1]), ty[2])
    if not isinstance(ty, Unknown):
        return TYPES[ty] if ty in TYPES else struct(ty)
    return TYPES["i32" if ty.is_integer else "!" if ty.is_endless else "()"]


def castable(tree, target):
    """The type that the operand of a cast to a type has at first: its own, unless it is a literal without a suffix."""
    if tree[0] == "unary" and tree[1] != "Deref":
        return castable(tree[2], target)
    if tree[0] != "number" or tree[2] is not None:
        return Unknown()
    return target if target in INTEGERS else "u8" if target == "char" else Unknown()


def literal_of(digits, suffix):
    """A number's literal: unsigned where its suffix is, or where it is too great for a signed one."""
    name = suffix.capitalize() if suffix else None
    is_unsigned = suffix.startswith("u") if suffix else int(digits) >= 2**127
    return {"Literal": {"Uint" if is_unsigned else "Int": [digits, name]}}


@dataclass
class Target:
    """A loop or a labelled block that is open: its label, with its number, the type of its value, and whether a `break`
    means it."""

    label: str | None
    number: int | None
    ty: object
    is_left: bool = False


class Draft:
    """A body of this type that is made node by node, in the order in which its nodes have to stand. It may call these
    functions, and name these structs. The bases of its indices may be borrowed."""

    def __init__(self, ty, functions=(), structs=(), borrows=False):
        self.ty, self.borrows, self.indexed = ty, borrows, {}
        self.structs = {one.name: one for one in structs}
        self.variant_res = []
        self.functions = {one.name: (place, one) for place, one in enumerate(functions) if not one.is_method()}
        self.methods = {one.name: (place, one) for place, one in enumerate(functions) if one.is_method()}
        self.params, self.self_param, self.diverging, self.method_res = [], None, [], []
        self.exprs, self.pats, self.bindings = [], [], []
        self.expr_types, self.pat_types, self.binding_types = [], [], []
        self.value_res, self.pat_value_res, self.binding_modes = [], [], []
        self.labels, self.targets, self.endless = [], [], []
        self.casts, self.borrowed, self.fields = [], [], []
        self.scopes = [{}]

    def add(self, node, ty):
        """Adds an expression. The answer is its id."""
        self.exprs.append(node)
        self.expr_types.append(ty)
        return len(self.exprs) - 1

    def add_pat(self, node, ty):
        """Adds a pattern. The answer is its id."""
        self.pats.append(node)
        self.pat_types.append(ty)
        return len(self.pats) - 1

    def expr(self, tree, ty):
        """Adds the expression of a tree, which is of this type. The answer is its id."""
        return getattr(self, tree[0])(*tree[1:], ty)

    def number(self, digits, suffix, ty):
        same(ty, suffix or Unknown(is_integer=True))
        return self.add(literal_of(digits, suffix), ty)

    def truth(self, test, ty):
        same(ty, "bool")
        return self.add({"Literal": {"Bool": test}}, ty)

    def character(self, code, ty):
        same(ty, "char")
        return self.add({"Literal": {"Char": code}}, ty)

    def cast(self, operand, target, ty):
        """A cast. An operand that may be of any type, as a jump is, is of the cast's."""
        given = castable(operand, target)
        inside = self.expr(operand, given)
        if isinstance(known(given), Unknown) and not known(given).is_integer:
            same(given, target)
        same(ty, target)
        self.casts.append((inside, given, ty))
        return self.add({"Cast": {"expr": inside}}, ty)

    def coercions(self):
        """The operands of the casts to a type that they have already."""
        return [operand for operand, given, ty in self.casts if settled(given) == settled(ty)]

    def tuple(self, parts, ty):
        """A tuple, whose parts may be of any types."""
        types = [Unknown() for _ in parts]
        same(ty, tuple_type(types))
        return self.add(tuple_expr(*map(self.expr, parts, types)), ty)

    def array(self, elements, ty):
        element = Unknown()
        same(ty, ("array", element, len(elements)))
        return self.add(array_expr(*(self.expr(one, element) for one in elements)), ty)

    def repeat(self, operand, count, ty):
        element = Unknown()
        same(ty, ("array", element, count))
        return self.add({"Repeat": {"initializer": self.expr(operand, element)}}, ty)

    def struct_named(self, name):
        """A struct by its name."""
        if name not in self.structs:
            raise NoBody(f"no struct is called {name}")
        return self.structs[name]

    def record(self, name, fields, base, ty):
        """A struct. Its base stands behind its fields, though it is found first."""
        same(ty, name)
        types = dict(self.struct_named(name).fields)
        written = [(field, self.expr(tree, types.get(field, Unknown()))) for field, tree in fields]
        inside = None if base is None else self.expr(base, name)
        place = self.add(record(name, written, inside), ty)
        self.variant_res.append([place, {"StructId": name}])
        return place

    def field(self, operand, name, ty):
        """A field. One of a tuple or a struct is resolved to that part. Any other one isn't resolved, and is of any type."""
        base = Unknown()
        inside = self.expr(operand, base)
        found = known(base)
        if isinstance(found, str) and found in self.structs:
            names = [field for field, _ in self.structs[found].fields]
            if name in names:
                same(ty, dict(self.structs[found].fields)[name])
                place = self.add({"Field": {"expr": inside, "name": name}}, ty)
                self.fields.append((place, found, names.index(name)))
                return place
        types = parts_of(found) if isinstance(found, tuple) and found[0] == "tuple" else ()
        if not name.isdigit() or int(name) >= len(types):
            return self.add({"Field": {"expr": inside, "name": name}}, ty)
        same(ty, types[int(name)])
        place = self.add({"Field": {"expr": inside, "name": name}}, ty)
        self.fields.append((place, found, int(name)))
        return place

    def field_res(self):
        """What fields are resolved to. Tuples of one type have one number."""
        tuples, made = [], []
        for place, base, index in self.fields:
            if base in self.structs:
                made.append([place, {"Left": {"parent": {"StructId": base}, "local_id": index}}])
                continue
            ty = settled(base)
            if ty not in tuples:
                tuples.append(ty)
            made.append([place, {"Right": {"tuple": tuples.index(ty), "index": index}}])
        return made

    def index(self, base, index, ty):
        """An element. That of an array is of the type of its elements, and what isn't of an array's type has elements of any type. An index is of
        type `usize`, where nothing else says its type."""
        whole, number = Unknown(), Unknown()
        inside = self.expr(base, whole)
        found = known(whole)
        if isinstance(found, tuple) and found[0] == "array":
            same(ty, found[1])
        place = self.expr(index, number)
        if isinstance(known(number), Unknown):
            same(number, "usize")
        self.indexed[inside] = whole, "Not"
        return self.add({"Index": {"base": inside, "index": place}}, ty)

    def path(self, name, ty):
        """A name, which may be one that nothing has, or that of a struct without fields."""
        found = next((scope[name] for scope in reversed(self.scopes) if name in scope), None)
        place = self.add(path(name), ty)
        if found is not None:
            same(ty, self.binding_types[found])
            self.value_res.append([place, {"LocalBinding": found}])
        elif name in self.structs:
            same(ty, name)
            self.value_res.append([place, {"StructId": name}])
        return place

    def call(self, name, args, ty):
        """A call of a function by its name."""
        if name not in self.functions:
            raise NoBody(f"no function is called {name}")
        number, called = self.functions[name]
        callee = self.add(path(name), fn_def(number))
        self.value_res.append([callee, {"FunctionId": number}])
        return self.called({"Call": {"callee": callee, "args": self.given(called, args)}}, called, ty)

    def method(self, receiver, name, args, ty):
        """A method call."""
        if name not in self.methods:
            raise NoBody(f"no method is called {name}")
        number, called = self.methods[name]
        first, *others = self.given(called, [receiver, *args])
        place = self.called({"MethodCall": {"receiver": first, "args": others, "method_name": name}}, called, ty)
        self.method_res.append([place, {"function": number, "args": []}])
        return place

    def construct(self, name, args, ty):
        """A call of what builds a struct. Arguments that are one too many are of any type."""
        types = [field for _, field in self.struct_named(name).fields]
        callee = self.add(path(name), constructor_of(name))
        self.value_res.append([callee, {"StructId": name}])
        same(ty, name)
        types += [Unknown() for _ in args[len(types) :]]
        return self.add({"Call": {"callee": callee, "args": list(map(self.expr, args, types))}}, ty)

    def given(self, called, args):
        """The arguments of a call."""
        if len(args) != len(called.params):
            raise NoBody(f"{called.name} takes {len(called.params)} arguments")
        return [self.expr(arg, param) for arg, (_, param) in zip(args, called.params)]

    def called(self, node, called, ty):
        """Adds a call of a function."""
        if called.ret == "!":
            place = self.add_endless(node, ty)
            self.diverging.append(place)
            return place
        same(ty, called.ret)
        return self.add(node, ty)

    def param(self, name, ty):
        """A parameter, whose name is known in the whole body. `self` has no pattern."""
        if name == "self":
            self.self_param = self.bound(name, ty)
        else:
            self.params.append(self.name(name, ty))

    def unary(self, op, operand, ty):
        inside = self.expr(operand, ty)
        return self.add({"UnaryOp": {"expr": inside, "op": op}}, ty)

    def binary(self, op, left, right, ty):
        operand = Unknown() if "CmpOp" in op else ty
        amount = Unknown(is_integer=True) if op.get("ArithOp") in SHIFTS else operand
        if "CmpOp" in op or "LogicOp" in op:
            same(ty, "bool")
        lhs = self.expr(left, operand)
        rhs = self.expr(right, amount)
        return self.add({"BinaryOp": {"lhs": lhs, "rhs": rhs, "op": op}}, ty)

    def between(self, op, left, left_type, right, right_type, ty):
        """An operator on operands of these two types, which Rust has no such operator for."""
        lhs = self.expr(left, left_type)
        rhs = self.expr(right, right_type)
        return self.add({"BinaryOp": {"lhs": lhs, "rhs": rhs, "op": op}}, ty)

    def assign(self, op, target, assigned, ty):
        same(ty, "()")
        inside = Unknown()
        if op is None and target[0] == "path":
            lhs = self.named_target(target[1], inside)
            return self.add(assignment(lhs, self.expr(assigned, inside)), ty)
        lhs = self.expr(target, inside)
        self.index_mutably(lhs)
        rhs = self.expr(assigned, Unknown(is_integer=True) if op in SHIFTS else inside)
        if op is None:
            return self.add(assignment(self.add_pat(expr_pat(lhs), inside), rhs), ty)
        self.borrowed.append((lhs, inside))
        return self.add({"BinaryOp": {"lhs": lhs, "rhs": rhs, "op": {"Assignment": {"op": op}}}}, ty)

    def index_mutably(self, target):
        """Notes that the bases of the indices on the way to a place are borrowed to be written."""
        while (form := next(iter(self.exprs[target]))) in ("Field", "Index"):
            target = self.exprs[target][form]["expr" if form == "Field" else "base"]
            if form == "Index":
                self.indexed[target] = self.indexed[target][0], "Mut"

    def branch(self, condition, first, second, ty):
        test = self.expr(condition, "bool")
        if second is None:
            same(ty, "()")
        taken = self.expr(first, ty)
        other = None if second is None else self.expr(second, ty)
        return self.add(filled(If=filled(condition=test, then_branch=taken, else_branch=other)), ty)

    def named_target(self, name, ty):
        """The pattern of a name that is assigned, which may be one that nothing has."""
        found = next((scope[name] for scope in reversed(self.scopes) if name in scope), None)
        pat = self.add_pat(path(name), ty)
        if found is not None:
            same(ty, self.binding_types[found])
            self.pat_value_res.append([pat, {"LocalBinding": found}])
        return pat

    def block(self, statements, tail, label, ty):
        target = None if label is None else self.open(label, ty)
        self.scopes.append({})
        inside = [self.statement(*parts) for parts in statements]
        last = None if tail is None else self.expr(tail, ty)
        self.scopes.pop()
        if target is None:
            return self.add(block(*inside, tail=last), ty)
        self.targets.pop()
        return self.add(block(*inside, tail=last, label=target.number), ty)

    def loop(self, inside, label, ty):
        target = self.open(label, ty)
        turn = self.expr(inside, "()")
        self.targets.pop()
        node = loop(turn, label=target.number)
        return self.add(node, ty) if target.is_left else self.add_endless(node, ty)

    def open(self, label, ty):
        """Opens a loop or a labelled block with a value of this type."""
        if label is not None:
            self.labels.append(label)
        self.targets.append(Target(label, None if label is None else len(self.labels) - 1, ty))
        return self.targets[-1]

    def target_of(self, label):
        """What a jump means: with a label the innermost one that has it, and else the innermost one, where there is one."""
        found = next((target for target in reversed(self.targets) if label in (None, target.label)), None)
        if found is None and label is not None:
            raise NoBody(f"no loop or block around has the label {label}")
        return found

    def leave(self, left_with, label, ty):
        target = self.target_of(label)
        given = Unknown() if target is None else target.ty
        if target is not None:
            target.is_left = True
        if left_with is None:
            same(given, "()")
        inside = None if left_with is None else self.expr(left_with, given)
        return self.add_endless(break_to(None if label is None else target.number, inside), ty)

    def again(self, label, ty):
        target = self.target_of(label)
        return self.add_endless(continue_to(None if label is None else target.number), ty)

    def give_back(self, given, ty):
        if given is None:
            same(self.ty, "()")
        inside = None if given is None else self.expr(given, self.ty)
        return self.add_endless(return_with(inside), ty)

    def add_endless(self, node, ty):
        """Adds an expression of type `!`, which becomes of this type where that is another one. The answer is its id."""
        if isinstance(known(ty), Unknown):
            known(ty).is_endless = True
        place = self.add(node, "!")
        self.endless.append((place, ty))
        return place

    def adjustments(self):
        """The expressions whose value is adjusted, each with the step: from `!` to the type that is asked for, or to a reference."""
        borrowed = [(place, ty, "Mut") for place, ty in self.borrowed]
        if self.borrows:
            borrowed += [(place, ty, mutability) for place, (ty, mutability) in self.indexed.items()]
        steps = {place: {"kind": {"Borrow": {"Ref": mutability}}, "target": ref(settled(ty), mutability)} for place, ty, mutability in borrowed}
        steps |= {place: {"kind": "NeverToAny", "target": settled(ty)} for place, ty in self.endless if settled(ty) != NEVER}
        return [[place, [steps[place]]] for place in sorted(steps)]

    def statement(self, form, *parts):
        """A statement, which is no node."""
        return statement(self.expr(parts[0], Unknown())) if form == "expr" else self.let(*parts)

    def let(self, name, written, initializer, other):
        """A `let`, whose name is known from here on."""
        ty = Unknown() if written is None else written
        value = None if initializer is None else self.expr(initializer, ty)
        instead = None if other is None else self.expr(other, Unknown())
        return let_statement(self.name(name, ty), value, instead)

    def bound(self, name, ty):
        """The binding of a name that is bound from here on."""
        self.bindings.append({"name": name, "mode": "Unannotated"})
        self.binding_types.append(ty)
        self.scopes[-1][name] = len(self.bindings) - 1
        return len(self.bindings) - 1

    def name(self, name, ty):
        """The pattern of a name that is bound from here on."""
        pat = self.add_pat(bind(self.bound(name, ty)), ty)
        self.binding_modes.append([pat, "Move"])
        return pat

    def row(self, copy_types):
        """The row of the body, whose root is the last expression."""
        kinds = ("expr_types", "pat_types", "binding_types")
        types = {kind: [settled(ty) for ty in getattr(self, kind)] for kind in kinds}
        nodes = filled(exprs=self.exprs, pats=self.pats, bindings=self.bindings, labels=self.labels, params=self.params,
                       self_param=self.self_param)
        names = {"value_res": self.value_res, "variant_res": self.variant_res, "field_res": self.field_res(), "method_res": self.method_res,
                 "pat_value_res": self.pat_value_res}
        modes = {"binding_modes": self.binding_modes, "diverging": self.diverging}
        modes["coercion_casts"] = self.coercions()
        found = filled(**types, expr_adjustments=self.adjustments(), **names, **modes, copy_types=copy_types)
        return {"body": {**nodes, "body_expr": len(self.exprs) - 1}, "infer": found}


def types_in(row):
    """The types in a body: of its nodes, of what these are adjusted to, and of bindings."""
    found = row["infer"]
    types = [ty for kind in ("expr_types", "pat_types", "binding_types") for ty in found.get(kind, [])]
    return types + [step["target"] for _, steps in found.get("expr_adjustments", []) for step in steps]


def body_row(tree, ty, copy_types=SCALARS, functions=(), structs=(), borrows=False):
    """The row of a body that is a tree, at a type, with the types that are listed as `Copy`, the functions that it may call, the
    structs that it may name, and whether the bases of its indices are borrowed."""
    draft = Draft(ty, functions, structs, borrows)
    draft.expr(tree, ty)
    return draft.row(copy_types)


def row_of_function(called, copy_types, functions, structs, borrows=False):
    """The row of a function's body."""
    draft = Draft(called.ret, functions, structs, borrows)
    for name, ty in called.params:
        draft.param(name, ty)
    draft.expr(called.tree, called.ret)
    return draft.row(copy_types)


def numbered(tree, numbers):
    """A tree in which structs have their numbers, and not their names."""
    if isinstance(tree, dict):
        return {key: numbers[part] if key == "StructId" else numbered(part, numbers) for key, part in tree.items()}
    return [numbered(part, numbers) for part in tree] if isinstance(tree, list) else tree


def world_of_bodies(bodies, functions=(), copy_types=SCALARS, structs=(), borrows=False):
    """An input in which each of these bodies, which stand with their types, is a constant and a goal. The bodies of
    the functions stand behind them, and the bases of indices in these may be borrowed. Where all types are listed as `Copy`, those with parts are too."""
    consts = [const(settled(ty), name="GOAL", body=place) for place, (_, ty) in enumerate(bodies)]
    goals = [goal({"ConstId": place}) for place in range(len(bodies))]
    rows = [row for row, _ in bodies] + [row_of_function(one, copy_types, functions, structs, borrows) for one in functions]
    called = [
        function([settled(ty) for _, ty in one.params], settled(one.ret), name=one.name, body=len(bodies) + place)
        for place, one in enumerate(functions)
    ]
    named = [row["ty"] for row in consts] + [ty for row in called for ty in (*row["sig"].get("params", []), row["sig"]["ret"])]
    fields = {one.name: [(name, settled(ty)) for name, ty in one.fields] for one in structs}
    types = {name: [ty for _, ty in parts] for name, parts in fields.items()}
    placed = rows_with_parts([*named, *(ty for row in rows for ty in types_in(row))], LAYOUTS, types)
    if copy_types == ALL:
        for row in rows:
            row["infer"]["copy_types"] = [*ALL, *(ty for ty, _ in placed)]
    tables = {"functions": called} if called else {}
    if structs:
        tables["structs"] = [named_struct_row(one.name, fields[one.name], one.shape) for one in structs]
    made = world(goals, consts=consts, bodies=rows, layouts=[*LAYOUTS, *placed], **tables)
    return numbered(made, {one.name: place for place, one in enumerate(structs)}) if structs else made
