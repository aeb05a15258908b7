"""Expressions: from THIR's to the world's.

THIR wraps each expression that was written in a `Scope`. Between a scope and the expression in it stand the steps
that type checking put there: borrows, derefs and casts of pointers. Such a step has no scope around its operand, and
becomes an adjustment; a borrow or deref whose operand is a scope was written by hand, and is a node.
"""

from debug_text import Span, flat, path_of, unquoted
from lowered import FormMissing, Lowered, number_literal, scalar_literal
from patterns import Patterns
from type_text import BOOL, NEVER, TypeTextError, UNIT, read_type

ARITHMETIC = {op: op for op in ("Add", "Sub", "Mul", "Div", "Rem", "Shl", "Shr", "BitAnd", "BitOr", "BitXor")}
COMPARISONS = {
    "Eq": {"Eq": {"negated": False}},
    "Ne": {"Eq": {"negated": True}},
    "Lt": {"Ord": {"ordering": "Less", "strict": True}},
    "Le": {"Ord": {"ordering": "Less", "strict": False}},
    "Gt": {"Ord": {"ordering": "Greater", "strict": True}},
    "Ge": {"Ord": {"ordering": "Greater", "strict": False}},
}
POINTER_CASTS = {
    "ReifyFnPointer", "UnsafeFnPointer", "ClosureFnPointer", "MutToConstPointer", "ArrayToPointer", "Unsize"
}  # fmt: skip

# The check lets no path through a body have more than 400 steps; some forms put one more node below the last.
DEEPEST = 398
PANIC, PANIC_WITH_FORMAT = ("core", "panicking::panic"), ("core", "panicking::panic_fmt")


class Target:
    """A loop or a block with a label, around what is being lowered."""

    def __init__(self, scope, is_loop):
        self.scope, self.is_loop, self.label = scope, is_loop, None


class Expressions(Patterns):
    """Lowers one body. `thir` is its THIR, `items` knows the items, `source` is the text that was compiled, and
    `body_of` gives the THIR of a nested constant."""

    def __init__(self, thir, items, source, body_of):
        self.thir, self.items, self.source, self.body_of = thir, items, source, body_of
        self.out = Lowered()
        self.bound = {}
        self.targets = []
        self.depth = 0

    # The body as a whole.

    def lower(self):
        """Lowers the body, and answers it."""
        for param in self.thir["params"]:
            self._param(param)
        self.out.root = self.expr(f"e{len(self.thir['exprs']) - 1}")
        return self.out

    def _param(self, param):
        pattern = param["pat"]
        if isinstance(pattern, str):
            raise FormMissing("a parameter without a pattern")
        if flat(param["self_kind"]) != "None":
            kind = pattern[0]["kind"]
            span = Span(pattern[0]["span"])
            self.out.self_param = self._variable(kind, None, kind["mode"].items[1], span)
        else:
            self.out.params.append(self.pat(pattern[0]))

    def type(self, text, span):
        """The type that a text of rustc prints."""
        try:
            return read_type(text)
        except TypeTextError as error:
            raise FormMissing(str(error), span.start) from error

    def show(self, ty):
        return self.items.show(ty)

    def adt(self, ty, span):
        """The struct, union or enum of a type."""
        found = self.items.adt(ty[1]) if ty[0] == "path" else None
        if found is None:
            raise FormMissing(f"the fields of the type {self.show(ty)}", span.start)
        return found

    # One expression, with its adjustments.

    def node_of(self, ref):
        return self.thir["exprs"][int(ref[1:])]

    def expr(self, ref):
        """Lowers the expression with this THIR id, and answers its id."""
        self.depth += 1
        if self.depth > DEEPEST:
            place = Span(self.node_of(ref)["span"]).start
            raise FormMissing(f"an expression that nests more than {DEEPEST} deep", place)
        made = self._adjusted(ref)
        self.depth -= 1
        return made

    def _adjusted(self, ref):
        scope, steps = None, []
        while True:
            node = self.node_of(ref)
            kind = node["kind"]
            name = kind if isinstance(kind, str) else kind.name
            if name == "Scope":
                scope, ref = kind["region_scope"], kind["value"]
            elif name in ("ValueTypeAscription", "PlaceTypeAscription", "Use") and not self._is_cast(node):
                ref = kind["source"]
            elif self._is_adjustment(name, kind):
                steps.append(self._adjustment(name, kind, node))
                ref = kind["source"] if "source" in kind.fields else kind["arg"]
            else:
                break
        span = Span(node["span"])
        ty = self.type(flat(node["ty"]), span)
        lower = getattr(self, f"_expr_{name.lower()}", None)
        if lower is None:
            raise FormMissing(f"an expression of the form {name}", span.start)
        made = lower(kind, ty, span, scope)
        if steps:
            self.out.adjustments.setdefault(made, []).extend(reversed(steps))
        return made

    def _is_scope(self, ref):
        kind = self.node_of(ref)["kind"]
        return not isinstance(kind, str) and kind.name == "Scope"

    def _is_adjustment(self, name, kind):
        """Whether a node is a step that type checking put in."""
        if name == "NeverToAny":
            return True
        if name == "PointerCoercion":
            return kind["is_from_as_cast"] != "true"
        if name in ("Borrow", "RawBorrow", "Deref"):
            return not self._is_scope(kind["arg"]) and not self._is_static(kind["arg"])
        return False

    def _is_static(self, ref):
        kind = self.node_of(ref)["kind"]
        return not isinstance(kind, str) and kind.name == "StaticRef"

    def _adjustment(self, name, kind, node):
        span = Span(node["span"])
        target = self.type(flat(node["ty"]), span)
        if name == "NeverToAny":
            return "NeverToAny", target
        if name == "Deref":
            return {"Deref": None}, target
        if name == "Borrow":
            return {"Borrow": {"Ref": _mutability(kind["borrow_kind"])}}, target
        if name == "RawBorrow":
            return {"Borrow": {"RawPtr": flat(kind["mutability"])}}, target
        cast = flat(kind["cast"]).split("(")[0]
        if cast not in POINTER_CASTS:
            raise FormMissing(f"a cast of the form {cast}", span.start)
        return {"Pointer": cast}, target

    # Literals and names.

    def _expr_literal(self, kind, ty, span, scope):
        node = kind["lit"]["node"]
        literal = self._literal(node, span)
        if kind["neg"] == "true":
            inner = self.out.expr(literal, ty)
            return self.out.expr({"UnaryOp": {"expr": inner, "op": "Neg"}}, ty)
        return self.out.expr(literal, ty)

    def _literal(self, node, span):
        if node.name == "Int":
            suffix = node[1]
            return number_literal(int(node[0][0]), None if isinstance(suffix, str) else suffix[0])
        if node.name == "Byte":
            return number_literal(int(node[0]), "u8")
        if node.name == "Bool":
            return {"Literal": {"Bool": node[0] == "true"}}
        if node.name == "Char":
            return {"Literal": {"Char": ord(unquoted(node[0]))}}
        if node.name == "Str":
            return {"Literal": {"Str": unquoted(node[0])}}
        if node.name in ("ByteStr", "CStr"):
            return {"Literal": {node.name: bytes(map(int, node[0])).hex()}}
        if node.name == "Float":
            suffix = node[1]
            return {"Literal": {"Float": [unquoted(node[0]), None if isinstance(suffix, str) else suffix[0]]}}
        raise FormMissing(f"a literal of the form {node.name}", span.start)

    def _expr_nonhirliteral(self, kind, ty, span, scope):
        literal = scalar_literal(int(kind["lit"], 16), ty)
        if literal is None:
            raise FormMissing(f"a value of type {self.show(ty)} that the compiler made", span.start)
        return self.out.expr(literal, ty)

    def _expr_varref(self, kind, ty, span, scope):
        key = flat(kind["id"])
        if key not in self.bound:
            raise FormMissing("a variable of a body around this one", span.start)
        number = self.bound[key]
        made = self.out.expr({"Path": self.out.bindings[number]["name"]}, ty)
        self.out.value_res[made] = ("local", number)
        return made

    def _expr_namedconst(self, kind, ty, span, scope):
        krate, path = path_of(flat(kind["def_id"]))
        args = self._args(kind["args"], span)
        if krate:
            path = self.items.foreign_const(krate, path, ty, self.source.at(span))
            if path is None:
                raise FormMissing(f"the constant {self.items.show_path(*path_of(flat(kind['def_id'])))}", span.start)
        made = self.out.expr({"Path": self.items.short_name(path)}, ty)
        table = self.out.assoc_res if self.items.is_associated(path) else self.out.value_res
        table[made] = ("const", path, args)
        return made

    def _args(self, nodes, span):
        """Generic arguments, without lifetimes."""
        texts = [flat(node) for node in nodes]
        return tuple(_argument(text, span) for text in texts if not text.startswith("'{") and text != "'static")

    def _expr_constparam(self, kind, ty, span, scope):
        name = kind["param"].split("/")[0]
        made = self.out.expr({"Path": name}, ty)
        self.out.value_res[made] = ("param", name)
        return made

    def _expr_staticref(self, kind, ty, span, scope):
        raise FormMissing("the address of a static", span.start)

    def _static_path(self, kind, ty, span):
        krate, path = path_of(flat(kind["def_id"]))
        if krate:
            raise FormMissing(f"the static {krate}::{path}", span.start)
        made = self.out.expr({"Path": self.items.short_name(path)}, ty)
        self.out.value_res[made] = ("static", path)
        return made

    def _expr_zstliteral(self, kind, ty, span, scope):
        """A function's name, or `Self` where it is a struct without fields."""
        if ty[0] == "path":
            made = self.out.expr({"Path": "Self"}, ty)
            self.out.value_res[made] = ("self",)
            return made
        return self._function_path(ty, span)

    def _function_path(self, ty, span):
        """A path that names a function, or what builds a struct or variant."""
        if ty[0] != "fndef":
            raise FormMissing(f"a value of type {self.show(ty)}", span.start)
        _, krate, path, args = ty
        built = self.items.constructed(krate, path)
        if built is not None:
            adt, index = built
            made = self.out.expr({"Path": adt.path_of_variant(index)}, ty)
            self.out.value_res[made] = ("variant", adt.path, index)
            return made
        made = self.out.expr({"Path": self.items.short_name(path)}, ty)
        table = self.out.assoc_res if self.items.is_associated_function(krate, path) else self.out.value_res
        table[made] = ("fn", krate, path, args)
        return made

    # Operators.

    def _expr_binary(self, kind, ty, span, scope):
        op = flat(kind["op"])
        if op in ARITHMETIC:
            shown = {"ArithOp": ARITHMETIC[op]}
        elif op in COMPARISONS:
            shown = {"CmpOp": COMPARISONS[op]}
        else:
            raise FormMissing(f"the operator {op}", span.start)
        lhs, rhs = self.expr(kind["lhs"]), self.expr(kind["rhs"])
        return self.out.expr({"BinaryOp": {"lhs": lhs, "rhs": rhs, "op": shown}}, ty)

    def _expr_logicalop(self, kind, ty, span, scope):
        lhs, rhs = self.expr(kind["lhs"]), self.expr(kind["rhs"])
        return self.out.expr({"BinaryOp": {"lhs": lhs, "rhs": rhs, "op": {"LogicOp": flat(kind["op"])}}}, ty)

    def _expr_unary(self, kind, ty, span, scope):
        inner = self.expr(kind["arg"])
        return self.out.expr({"UnaryOp": {"expr": inner, "op": flat(kind["op"])}}, ty)

    def _expr_assignop(self, kind, ty, span, scope):
        lhs, rhs = self.expr(kind["lhs"]), self.expr(kind["rhs"])
        # Type checking borrows the place that is assigned to; THIR leaves the step out where the operator is built in.
        target = ("ref", self._adjusted_type(lhs), True)
        self.out.adjustments.setdefault(lhs, []).append(({"Borrow": {"Ref": "Mut"}}, target))
        op = flat(kind["op"]).removesuffix("Assign")
        return self.out.expr({"BinaryOp": {"lhs": lhs, "rhs": rhs, "op": {"Assignment": {"op": op}}}}, ty)

    def _adjusted_type(self, made):
        """The type of an expression after its adjustments."""
        steps = self.out.adjustments.get(made)
        return steps[-1][1] if steps else self.out.expr_types[made]

    def _expr_assign(self, kind, ty, span, scope):
        target = self._assigned_place(kind["lhs"])
        value = self.expr(kind["rhs"])
        return self.out.expr({"Assignment": {"target": target, "value": value}}, ty)

    def _assigned_place(self, ref):
        """What is assigned to, as a pattern: a variable's name is one itself."""
        inner = ref
        while self._is_scope(inner):
            inner = self.node_of(inner)["kind"]["value"]
        node = self.node_of(inner)
        kind = node["kind"]
        if not isinstance(kind, str) and kind.name == "VarRef":
            number = self.bound[flat(kind["id"])]
            ty = self.type(flat(node["ty"]), Span(node["span"]))
            made = self.out.pat({"Path": self.out.bindings[number]["name"]}, ty)
            self.out.pat_value_res[made] = ("local", number)
            return made
        place = self.expr(ref)
        return self.out.pat({"Expr": place}, self._adjusted_type(place))

    def _is_cast(self, node):
        """Whether a `Use` is a cast that changes nothing, as `x as u8` of a `u8`: it is longer than its operand."""
        kind = node["kind"]
        if kind.name != "Use" or not self._is_scope(kind["source"]):
            return False
        outer, inner = Span(node["span"]), Span(self.node_of(kind["source"])["span"])
        return outer.is_written and inner.is_written and outer.start <= inner.start and outer.end > inner.end

    def _expr_cast(self, kind, ty, span, scope):
        inner = self.expr(kind["source"])
        return self.out.expr({"Cast": {"expr": inner}}, ty)

    def _expr_use(self, kind, ty, span, scope):
        return self._coercing_cast(kind, ty)

    def _expr_pointercoercion(self, kind, ty, span, scope):
        return self._coercing_cast(kind, ty)

    def _coercing_cast(self, kind, ty):
        inner = self.expr(kind["source"])
        self.out.coercion_casts.append(inner)
        return self.out.expr({"Cast": {"expr": inner}}, ty)

    def _expr_borrow(self, kind, ty, span, scope):
        inner = self.expr(kind["arg"])
        return self.out.expr({"Ref": {"expr": inner, "mutability": _mutability(kind["borrow_kind"])}}, ty)

    def _expr_rawborrow(self, kind, ty, span, scope):
        inner = self.expr(kind["arg"])
        return self.out.expr({"Ref": {"expr": inner, "mutability": flat(kind["mutability"])}}, ty)

    def _expr_deref(self, kind, ty, span, scope):
        if self._is_static(kind["arg"]):
            return self._static_path(self.node_of(kind["arg"])["kind"], ty, span)
        inner = self.expr(kind["arg"])
        return self.out.expr({"UnaryOp": {"expr": inner, "op": "Deref"}}, ty)

    # Tuples, arrays, structs.

    def _expr_tuple(self, kind, ty, span, scope):
        return self.out.expr({"Tuple": {"exprs": [self.expr(one) for one in kind["fields"]]}}, ty)

    def _expr_array(self, kind, ty, span, scope):
        return self.out.expr({"Array": {"elements": [self.expr(one) for one in kind["fields"]]}}, ty)

    def _expr_repeat(self, kind, ty, span, scope):
        return self.out.expr({"Repeat": {"initializer": self.expr(kind["value"])}}, ty)

    def _expr_index(self, kind, ty, span, scope):
        base, index = self.expr(kind["lhs"]), self.expr(kind["index"])
        return self.out.expr({"Index": {"base": base, "index": index}}, ty)

    def _expr_field(self, kind, ty, span, scope):
        base = self.expr(kind["lhs"])
        index, variant = int(kind["name"]), int(kind["variant_index"])
        base_ty = self._adjusted_type(base)
        if base_ty[0] == "tuple":
            name, field = str(index), ("tuple", base_ty, index)
        else:
            adt = self.adt(base_ty, span)
            name, field = adt.variants[variant].fields[index], ("field", adt.path, variant, index)
        made = self.out.expr({"Field": {"expr": base, "name": name}}, ty)
        self.out.field_res[made] = field
        return made

    def _expr_adt(self, kind, ty, span, scope):
        built = kind[0]
        adt, index = self.adt(ty, span), int(built["variant_index"])
        variant = adt.variants[index]
        base = built["base"]
        name = adt.path_of_variant(index)
        is_literal = variant.shape == "Record" or flat(base) != "None" or self._ends_in_brace(span)
        if variant.shape == "Unit" and not is_literal:
            made = self.out.expr({"Path": name}, ty)
            self.out.value_res[made] = ("variant", adt.path, index)
            return made
        if variant.shape == "Tuple" and not is_literal:
            return self._call_of_constructor(built, adt, index, ty)
        fields = [
            {"name": variant.fields[int(one["name"])], "expr": self.expr(one["expr"])} for one in built["fields"]
        ]
        made = self.out.expr({"RecordLit": {"path": name, "fields": fields, "spread": self._spread(base, span)}}, ty)
        self.out.variant_res[made] = ("variant", adt.path, index)
        return made

    def _ends_in_brace(self, span):
        """Whether what stands at a place, which may be in brackets, ends in a brace: `U {}` and `U`, and `S { 0: a }` and `S(a)`, are
        the same in THIR."""
        text = self.source.at(span).strip()
        while _is_in_brackets(text):
            text = text[1:-1].strip()
        return text.endswith("}")

    def _spread(self, base, span):
        if flat(base) == "None":
            return "None"
        if isinstance(base, str) or base.name != "Base":
            raise FormMissing("a struct with `..` alone", span.start)
        return {"Expr": self.expr(base[0]["base"])}

    def _call_of_constructor(self, built, adt, index, ty):
        """`S(a, b)`: a call of what builds the struct, with the fields in their order."""
        callee = self.out.expr({"Path": adt.path_of_variant(index)}, adt.constructor_type(index, ty[2]))
        self.out.value_res[callee] = ("variant", adt.path, index)
        fields = sorted(built["fields"], key=lambda one: int(one["name"]))
        args = [self.expr(one["expr"]) for one in fields]
        return self.out.expr({"Call": {"callee": callee, "args": args}}, ty)

    # Calls.

    def _expr_call(self, kind, ty, span, scope):
        fun = kind["fun"]
        callee_ty = self.type(flat(self.node_of(fun)["ty"]), span)
        if callee_ty[1:3] == PANIC_WITH_FORMAT:
            return self._panic(kind, ty, span)
        if callee_ty[0] == "fndef":
            self._note_signature(callee_ty, kind["args"], ty, span)
        if kind["from_hir_call"] == "true" and not self._is_scope(fun) and callee_ty[0] == "fndef" and kind["args"]:
            made = self._method_call(kind, callee_ty, ty)
        else:
            callee = self.expr(fun)
            args = [self.expr(one) for one in kind["args"]]
            made = self.out.expr({"Call": {"callee": callee, "args": args}}, ty)
        if ty == NEVER:
            self.out.diverging.append(made)
        return made

    def _panic(self, kind, ty, span):
        """`panic!("text")` is a call of `panic_fmt` with a value that `from_str` makes of the text; here it is a call
        of `panic`, which takes the text itself."""
        made = self.node_of(self._below_scopes(kind["args"][0]))["kind"]
        name = self.type(flat(self.node_of(made["fun"])["ty"]), span) if made.name == "Call" else None
        if name is None or name[1] != "core" or not name[2].endswith("::from_str"):
            raise FormMissing("a panic with a text that has to be put together", span.start)
        callee_ty = ("fndef", *PANIC, ())
        self._note_signature(callee_ty, made["args"], ty, span)
        callee = self._function_path(callee_ty, span)
        call = self.out.expr({"Call": {"callee": callee, "args": [self.expr(made["args"][0])]}}, ty)
        self.out.diverging.append(call)
        return call

    def _note_signature(self, callee_ty, args, ty, span):
        """A function of another crate has no body here; its signature is seen where it is called."""
        if callee_ty[1]:
            params = tuple(self.type(flat(self.node_of(one)["ty"]), span) for one in args)
            self.items.see_call(callee_ty, params, ty)

    def _method_call(self, kind, callee_ty, ty):
        """`a.f(b)`: THIR has no scope around the name of a method."""
        _, krate, path, args = callee_ty
        receiver, *rest = [self.expr(one) for one in kind["args"]]
        node = {"receiver": receiver, "args": rest, "method_name": path.rsplit("::", 1)[-1]}
        made = self.out.expr({"MethodCall": node}, ty)
        self.out.method_res[made] = ("fn", krate, path, args)
        return made

    # Branches, loops, jumps.

    def _expr_if(self, kind, ty, span, scope):
        condition = self.expr(kind["cond"])
        node = {"condition": condition, "then_branch": self.expr(kind["then"])}
        if not isinstance(kind["else_opt"], str):
            node["else_branch"] = self.expr(kind["else_opt"][0])
        return self.out.expr({"If": node}, ty)

    def _expr_let(self, kind, ty, span, scope):
        pattern = self.pat(kind["pat"])
        value = self.expr(kind["expr"])
        return self.out.expr({"Let": {"pat": pattern, "expr": value}}, BOOL)

    def _expr_match(self, kind, ty, span, scope):
        source = flat(kind["match_source"])
        if source != "Normal" and source != "Postfix":
            what = {"ForLoopDesugar": "`for`", "AwaitDesugar": "`.await`"}.get(source.split("(")[0], "`?`")
            raise FormMissing(what, span.start)
        scrutinee = self.expr(kind["scrutinee"])
        arms = [self._arm(self.thir["arms"][int(one[1:])]) for one in kind["arms"]]
        return self.out.expr({"Match": {"expr": scrutinee, "arms": arms}}, ty)

    def _arm(self, arm):
        made = {"pat": self.pat(arm["pattern"])}
        if not isinstance(arm["guard"], str):
            made["guard"] = self.expr(arm["guard"][0])
        made["expr"] = self.expr(arm["body"])
        return made

    def _expr_loop(self, kind, ty, span, scope):
        target = Target(scope, True)
        self.targets.append(target)
        looped = self._while(kind["body"], span)
        body = self.expr(kind["body"]) if looped is None else looped
        self.targets.pop()
        node = {"body": body} if target.label is None else {"body": body, "label": target.label}
        return self.out.expr({"Loop": node}, ty)

    def _while(self, ref, span):
        """`while c { .. }` is `loop { if c { .. } else { break } }`, in THIR with blocks that weren't written and that
        have the span of the loop. The world has neither block. Where it is no `while`, None."""
        block = self._bare_block(ref)
        if block is None or flat(block["expr"]) == "None" or block["stmts"]:
            return None
        where = Span(block["span"])
        if (where.start, where.end) != (span.start, span.end):
            return None
        node = self.node_of(self._below_scopes(block["expr"][0]))
        kind = node["kind"]
        if isinstance(kind, str) or kind.name != "If" or isinstance(kind["else_opt"], str):
            return None
        self.depth += 1
        condition = self.expr(kind["cond"])
        then = self.expr(kind["then"])
        self.depth -= 1
        broken = self.out.expr({"Break": {}}, NEVER)
        self.out.adjustments[broken] = [("NeverToAny", UNIT)]
        return self.out.expr({"If": {"condition": condition, "then_branch": then, "else_branch": broken}}, UNIT)

    def _below_scopes(self, ref):
        while self._is_scope(ref):
            ref = self.node_of(ref)["kind"]["value"]
        return ref

    def _bare_block(self, ref):
        kind = self.node_of(self._below_scopes(ref))["kind"]
        if isinstance(kind, str) or kind.name != "Block":
            return None
        return self.thir["blocks"][int(kind["block"][1:])]

    def _label_of(self, scope, span):
        """The label that a jump to this scope needs: none where it is a loop and the innermost of all targets, as a jump
        without a label in a block with one means the block."""
        for target in reversed(self.targets):
            if target.scope == scope:
                if target.is_loop and target is self.targets[-1]:
                    return None
                if target.label is None:
                    target.label = self.out.label(f"'l{len(self.out.labels)}")
                return target.label
        raise FormMissing("a jump to something that isn't around it", span.start)

    def _expr_break(self, kind, ty, span, scope):
        node = {}
        if not isinstance(kind["value"], str):
            node["expr"] = self.expr(kind["value"][0])
        label = self._label_of(kind["label"], span)
        if label is not None:
            node["label"] = label
        return self.out.expr({"Break": node}, ty)

    def _expr_continue(self, kind, ty, span, scope):
        label = self._label_of(kind["label"], span)
        return self.out.expr({"Continue": {} if label is None else {"label": label}}, ty)

    def _expr_return(self, kind, ty, span, scope):
        value = kind["value"]
        return self.out.expr({"Return": {} if isinstance(value, str) else {"expr": self.expr(value[0])}}, ty)

    # Blocks and statements.

    def _expr_block(self, kind, ty, span, scope):
        return self._block(self.thir["blocks"][int(kind["block"][1:])], ty, span)

    def _block(self, block, ty, span):
        target = None
        if block["targeted_by_break"] == "true":
            target = Target(block["region_scope"], False)
            self.targets.append(target)
        node = {"statements": [self._statement(self.thir["stmts"][int(one[1:])]["kind"]) for one in block["stmts"]]}
        if not isinstance(block["expr"], str):
            node["tail"] = self.expr(block["expr"][0])
        if target is not None:
            self.targets.pop()
            if target.label is not None:
                node["label"] = target.label
        if flat(block["safety_mode"]) == "Safe":
            return self.out.expr({"Block": node}, ty)
        if "label" in node:
            raise FormMissing("an `unsafe` block with a label", span.start)
        return self.out.expr({"Unsafe": node}, ty)

    def _statement(self, kind):
        if kind.name == "Expr":
            made = self.expr(kind["expr"])
            return {"Expr": {"expr": made, "has_semi": self._has_semicolon(kind["expr"])}}
        node = {"pat": self.pat(kind["pattern"])}
        if not isinstance(kind["initializer"], str):
            node["initializer"] = self.expr(kind["initializer"][0])
        if not isinstance(kind["else_block"], str):
            block = self.thir["blocks"][int(kind["else_block"][0][1:])]
            node["else_branch"] = self._block(block, NEVER, Span(block["span"]))
        return {"Let": node}

    def _has_semicolon(self, ref):
        """Whether a semicolon stands behind an expression statement: THIR doesn't have it, the source does."""
        return self.source.behind(Span(self.node_of(ref)["span"])).lstrip().startswith(";")

    def _expr_constblock(self, kind, ty, span, scope):
        krate, path = path_of(flat(kind["did"]))
        inner = self.body_of(path) if not krate else None
        if inner is None:
            raise FormMissing("a `const` block whose body isn't known", span.start)
        outer, targets = self.thir, self.targets
        self.thir, self.targets = inner, []
        held = self.expr(f"e{len(inner['exprs']) - 1}")
        self.thir, self.targets = outer, targets
        return self.out.expr({"Const": held}, ty)


def _is_in_brackets(text):
    """Whether a text is in one pair of brackets."""
    if not text.startswith("(") or not text.endswith(")"):
        return False
    depth = 0
    for place, sign in enumerate(text):
        depth += (sign == "(") - (sign == ")")
        if depth == 0:
            return place == len(text) - 1
    return False


def _mutability(borrow_kind):
    return "Mut" if flat(borrow_kind).startswith("Mut") else "Not"


def _argument(text, span):
    """A generic argument."""
    try:
        return read_type(f"({text},)")[1][0]
    except (TypeTextError, IndexError) as error:
        raise FormMissing(f"the generic argument {text}", span.start) from error
