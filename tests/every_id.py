"""A world that passes the check, with an id in every field that may have one. Each is the last id of its table, and
no two tables have the same length."""

from worlds import (
    USIZE,
    WILD,
    add,
    arm,
    array_of,
    alias,
    assignment,
    bind,
    binding,
    block,
    body,
    break_to,
    capture,
    closure,
    closure_row,
    closure_type,
    const,
    const_arg,
    const_block_pat,
    const_param,
    continue_to,
    dynamic,
    enum,
    enum_row,
    expr_pat,
    fn_def,
    fn_pointer,
    function,
    let_condition,
    let_statement,
    literal,
    literal_pat,
    loop,
    match,
    negation,
    range_pat,
    raw,
    ref,
    ref_pat,
    sized,
    slice_of,
    statement,
    static,
    struct,
    struct_row,
    tuple_expr,
    tuple_of,
    tuple_pat,
    tuple_struct_pat,
    type_arg,
    type_param,
    unevaluated,
    union,
    unsafe,
    value,
    variant,
    variant_row,
    world,
)

# The last ids of the tables.
CRATE, FUNCTION, CONST, STATIC, STRUCT, UNION, ENUM, VARIANT, TRAIT, ALIAS, TYPE, NUMBER, CLOSURE, BODY = range(1, 15)

# The last ids of the labels and the bindings of the body.
LABEL, BINDING = 2, 4

S = struct(STRUCT)
OF_S = type_arg(S)
GENERICS = [{"TypeParamId": TYPE}, {"ConstParamId": NUMBER}]
FUNCTION_ID, STATIC_ID, CONST_ID = {"FunctionId": FUNCTION}, {"StaticId": STATIC}, {"ConstId": CONST}
OWNERS = [FUNCTION_ID, STATIC_ID, CONST_ID, {"VariantId": VARIANT}]
FIELD_PARENTS = [{"StructId": STRUCT}, {"UnionId": UNION}, {"EnumVariantId": VARIANT}]

CONSTANTS = [
    value(S, "00"),
    value(USIZE, "00", {"Complex": {"memory": [[0, "00"]], "vtable": [S]}}),
    const_param(NUMBER),
    unevaluated(CONST_ID, OF_S),
    unevaluated(STATIC_ID),
]

# A type with an id in every place that a type has.
EVERY_TYPE = tuple_of(
    struct(STRUCT, OF_S, *(const_arg(constant) for constant in CONSTANTS)),
    union(UNION),
    enum(ENUM),
    fn_def(FUNCTION, OF_S),
    {"FnDef": [{"StructId": STRUCT}, []]},
    {"FnDef": [{"EnumVariantId": VARIANT}, []]},
    slice_of(S),
    array_of(S, const_param(NUMBER)),
    ref(S),
    raw(S),
    fn_pointer(S, ret=S),
    closure_type(CLOSURE, OF_S),
    dynamic(TRAIT, OF_S),
    alias(ALIAS, OF_S),
    type_param(TYPE),
)


class Draft:
    """A body that is written node by node."""

    def __init__(self):
        self.exprs, self.pats = [], []

    def expr(self, node):
        """Adds an expression. The answer is its id."""
        self.exprs.append(node)
        return len(self.exprs) - 1

    def pat(self, node):
        """Adds a pattern. The answer is its id."""
        self.pats.append(node)
        return len(self.pats) - 1

    def leaf(self):
        """Adds an expression that holds nothing."""
        return self.expr(literal(2))

    def wild(self):
        """Adds a pattern that holds nothing."""
        return self.pat(WILD)


def patterns(draft):
    """A pattern of every form, and an expression that holds them all."""
    leaf, wild, pat = draft.leaf, draft.wild, draft.pat
    forms = [
        pat(tuple_pat(wild())),
        pat({"Or": [wild()]}),
        pat(variant("Record", args=[{"name": "x", "pat": wild()}])),
        pat(range_pat(leaf(), leaf())),
        pat(variant("Slice", prefix=[wild()], slice=wild(), suffix=[wild()])),
        pat(literal_pat(leaf())),
        pat(bind(BINDING, wild())),
        pat(tuple_struct_pat(wild())),
        pat(ref_pat(wild())),
        pat(expr_pat(leaf())),
        pat({"Box": wild()}),
        pat(const_block_pat(leaf())),
    ]
    return draft.expr(let_condition(pat(tuple_pat(*forms)), leaf()))


def statements(draft):
    """A statement of every form, each with ids of its own."""
    leaf, wild = draft.leaf, draft.wild
    return [let_statement(wild(), leaf(), leaf()), statement(leaf())]


def jumps(draft):
    """A loop with a label, and jumps to it."""
    out, again = draft.expr(break_to(LABEL, expr=draft.leaf())), draft.expr(continue_to(LABEL))
    return draft.expr(loop(draft.expr(tuple_expr(out, again)), label=LABEL))


def operations(draft):
    """An expression of every form that holds expressions alone."""
    leaf = draft.leaf
    nodes = [
        {"If": {"condition": leaf(), "then_branch": leaf(), "else_branch": leaf()}},
        variant("Call", callee=leaf(), args=[leaf()]),
        variant("MethodCall", receiver=leaf(), args=[leaf()], method_name="m"),
        {"Return": {"expr": leaf()}},
        {"RecordLit": {"fields": [{"name": "x", "expr": leaf()}], "spread": {"Expr": leaf()}}},
        {"Field": {"expr": leaf(), "name": "x"}},
        {"Cast": {"expr": leaf()}},
        {"Ref": {"expr": leaf(), "mutability": "Not"}},
        {"Box": {"expr": leaf()}},
        negation(leaf()),
        add(leaf(), leaf()),
        {"Range": {"lhs": leaf(), "rhs": leaf()}},
        {"Index": {"base": leaf(), "index": leaf()}},
        variant("Array", elements=[leaf()]),
        {"Repeat": {"initializer": leaf()}},
        *({name: leaf()} for name in ("Become", "Yield", "Yeet", "Await", "Async", "Const")),
    ]
    return [draft.expr(node) for node in nodes]


def every_expr(draft):
    """An expression of every form. The answers are the closure and the root."""
    leaf, wild, expr = draft.leaf, draft.wild, draft.expr
    within = expr(closure(wild(), inside=leaf()))
    forms = [
        patterns(draft),
        jumps(draft),
        *operations(draft),
        expr(unsafe(*statements(draft), tail=leaf())),
        expr(match(leaf(), arm(wild(), leaf(), guard=leaf()))),
        expr(assignment(wild(), leaf())),
        within,
    ]
    inner = statements(draft)
    tail = expr(tuple_expr(*forms))
    return within, expr(block(*inner, tail=tail, label=LABEL))


def by_keys(last, *values):
    """The entries of a map with these values, whose keys end with the last one."""
    return [[last + 1 - len(values) + place, entry] for place, entry in enumerate(values)]


def named_values():
    """An entry of `value_res` for everything that a path may name."""
    return [
        {"LocalBinding": BINDING},
        FUNCTION_ID,
        CONST_ID,
        STATIC_ID,
        {"StructId": STRUCT},
        {"EnumVariantId": VARIANT},
        {"GenericParam": NUMBER},
    ]


def found_of(exprs, pats):
    """What inference found of a body with these as its last expression and its last pattern."""
    associated = [{"def": CONST_ID, "args": [OF_S]}, {"def": FUNCTION_ID}]
    parts = [{"Left": {"parent": parent, "local_id": 1}} for parent in FIELD_PARENTS]
    return {
        "expr_types": [USIZE] * exprs + [EVERY_TYPE],
        "pat_types": [USIZE] * pats + [S],
        "binding_types": [USIZE] * BINDING + [S],
        "expr_adjustments": by_keys(exprs, [{"kind": "NeverToAny", "target": S}]),
        "pat_adjustments": by_keys(pats, 1),
        "value_res": by_keys(exprs, *named_values()),
        "pat_value_res": by_keys(pats, CONST_ID),
        "assoc_res": by_keys(exprs, *associated),
        "pat_assoc_res": by_keys(pats, associated[0]),
        "variant_res": by_keys(exprs, *FIELD_PARENTS),
        "pat_variant_res": by_keys(pats, {"EnumVariantId": VARIANT}),
        "field_res": by_keys(exprs, *parts),
        "method_res": by_keys(exprs, {"function": FUNCTION, "args": [OF_S]}),
        "binding_modes": by_keys(pats, "Move"),
        "coercion_casts": [exprs],
        "diverging": [exprs],
        "copy_types": [S],
        "mismatches": [exprs],
    }


def every_body():
    """A body with an id in every place, and the id of a closure in it."""
    draft = Draft()
    within, root = every_expr(draft)
    param = draft.wild()
    row = body(
        draft.exprs,
        draft.pats,
        [*(binding() for _ in range(BINDING)), binding(owner=root)],
        root,
        found_of(root, param),
        labels=["'a", "'b", "'c"],
        params=[param],
        self_param=BINDING,
    )
    return row, within


def padded(count, plain, *last):
    """So many plain rows, and then the last ones."""
    return [plain] * count + list(last)


def closures(within):
    """Closure rows, all of one closure, the last ones with the different owners."""
    captures = [capture(S, BINDING, within, [{"Field": {"parent": {"StructId": STRUCT}, "local_id": 1}}])]
    last = [closure_row(owner, within, [S], captures) for owner in OWNERS]
    return padded(CLOSURE + 1 - len(last), closure_row(CONST_ID, within, [USIZE]), *last)


def variants():
    """The variants of the last enum."""
    plain = [variant_row(parent=ENUM, index=index, krate=CRATE) for index in range(VARIANT)]
    return [*plain, variant_row(USIZE, S, parent=ENUM, index=VARIANT, krate=CRATE, body=BODY)]


def every_id():
    """The world."""
    row, within = every_body()
    return world(
        crates=padded(CRATE, {"pointer_bytes": 8}, {}),
        functions=padded(FUNCTION, function(), function(
            [S, S], S, CRATE, in_trait=TRAIT, generics=GENERICS, body=BODY)),
        consts=padded(CONST, const(), const(EVERY_TYPE, CRATE, generics=GENERICS, body=BODY)),
        statics=padded(STATIC, static(), static(S, CRATE, body=BODY)),
        structs=padded(STRUCT, struct_row(), struct_row(USIZE, S)),
        unions=padded(UNION, struct_row(), struct_row(USIZE, S)),
        enums=padded(ENUM, enum_row(), enum_row(*range(VARIANT + 1))),
        variants=variants(),
        traits=["T"] * (TRAIT + 1),
        aliases=["A"] * (ALIAS + 1),
        type_params=["P"] * (TYPE + 1),
        const_params=padded(NUMBER, {"name": "N", "ty": USIZE}, {"name": "N", "ty": S}),
        closures=closures(within),
        bodies=padded(BODY, body(), row),
        layouts=[sized(fn_def(FUNCTION, OF_S), 0)],
        normals=[[ALIAS, [OF_S], S]],
        impls=[{"function": FUNCTION, "args": [OF_S], "target": FUNCTION, "target_args": [OF_S]}],
        const_impls=[{"konst": CONST, "args": [OF_S], "target": CONST, "target_args": [OF_S]}],
        **{name: FUNCTION for name in (
            "drop_fn", "deref_fn", "deref_mut_fn", "call_fn", "call_mut_fn", "call_once_fn")},
    )


EVERY_ID = every_id()
