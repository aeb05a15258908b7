"""Worlds whose bodies are no trees (C2), and whose jumps name no loop or block around them (C3)."""

from rules import Rule
from worlds import (
    WILD,
    add,
    arm,
    assignment,
    bind,
    block,
    body,
    break_to,
    closure,
    const_block_pat,
    continue_to,
    expr_pat,
    let_condition,
    let_statement,
    literal,
    literal_pat,
    loop,
    match,
    negation,
    of_body,
    range_pat,
    ref_pat,
    statement,
    tuple_expr,
    tuple_pat,
    unsafe,
    world,
)

# The most steps that may lead down from a node.
STEPS = 400


def chain(steps):
    """Expressions from the last of which so many steps lead down."""
    return [literal(2), *(negation(below) for below in range(steps))]


def pattern_chain(steps, innermost=WILD):
    """Patterns from the last of which so many steps lead down, those from the innermost one not counted."""
    return [innermost, *(ref_pat(below) for below in range(steps))]


def let_of_patterns(steps):
    """A body with one `let`, expression 1, from which so many steps lead down through its patterns."""
    return of_body([literal(2), let_condition(steps - 1, 0)], pattern_chain(steps - 1))


def parameter_of_patterns(steps):
    """A body with one parameter, from which so many steps lead down."""
    return of_body([literal(2)], pattern_chain(steps), params=[steps])


def through_both(below, between):
    """A `let` whose pattern leads through `between` patterns to a constant block, whose expression has so many
    steps below it. From the `let`, the last expression, one more step leads to the pattern."""
    exprs = chain(below)
    exprs += [literal(2), let_condition(between - 1, len(exprs))]
    return of_body(exprs, pattern_chain(between - 1, const_block_pat(below)))


# So many levels of nodes, each held twice by the next one, have too many paths for each to be walked.
LEVELS = 64


def held_twice_each(innermost):
    """Patterns, each of which is held twice by the next one, but for the last."""
    return [innermost, *(tuple_pat(below, below) for below in range(LEVELS))]


CHILDREN = Rule(
    "the expressions that an expression holds, and the patterns that a pattern holds, have lower ids",
    [
        ("an expression that holds itself", "bodies[0].exprs[0]", of_body([negation(0)])),
        ("an expression that holds a later one", "bodies[0].exprs[0]", of_body([negation(1), literal(2)], root=0)),
        ("the right operand is later", "bodies[0].exprs[1]", of_body([literal(2), add(0, 2), literal(2)], root=1)),
        ("a ring of two expressions", "bodies[0].exprs[0]", of_body([negation(1), negation(0)])),
        ("the tail of a block is later", "bodies[0].exprs[0]", of_body([block(tail=1), literal(2)], root=0)),
        ("the guard of an arm is later", "bodies[0].exprs[2]",
         of_body([literal(2), literal(2), match(0, arm(0, 1, guard=3)), literal(2)], [WILD], root=2)),
        ("an `else` of a `let` is later", "bodies[0].exprs[1]",
         of_body([literal(2), block(let_statement(0, 0, 2)), block()], [WILD], root=1)),
        ("a pattern that holds itself", "bodies[0].pats[0]", of_body(pats=[ref_pat(0)], params=[0])),
        ("a pattern that holds a later one", "bodies[0].pats[0]", of_body(pats=[ref_pat(1), WILD], params=[0])),
        ("what follows `@` is later", "bodies[0].pats[0]", of_body(pats=[bind(0, 1), WILD], bindings=1, params=[0])),
        ("in the second body", "bodies[1].exprs[0]", world(bodies=[body(), body([negation(0)])])),
    ],
    [
        ("the expression just before", of_body([literal(2), negation(0)])),
        ("the pattern just before", of_body(pats=[WILD, ref_pat(0)], params=[1])),
        ("an expression that holds a pattern with a greater id",
         of_body([literal(2), let_condition(2, 0)], [WILD, WILD, tuple_pat(0, 1)])),
    ],
)

INNER = Rule(
    "an expression inside a pattern stands before the expression that holds the pattern",
    [
        ("a literal pattern's expression after the `let`", "bodies[0].exprs[1]",
         of_body([literal(2), let_condition(0, 0), literal(2)], [literal_pat(2)], root=1)),
        ("a literal pattern's expression is the `let` itself", "bodies[0].exprs[1]",
         of_body([literal(2), let_condition(0, 0), negation(1)], [literal_pat(1)])),
        ("the same through two inner patterns", "bodies[0].exprs[1]",
         of_body([literal(2), let_condition(2, 0), literal(2)], [literal_pat(2), ref_pat(0), tuple_pat(1)], root=1)),
        ("the end of a range in an arm", "bodies[0].exprs[3]",
         of_body([literal(2), literal(2), literal(2), match(0, arm(0, 2)), literal(9)], [range_pat(1, 4)], root=3)),
        ("the constant block of a `let` statement", "bodies[0].exprs[1]",
         of_body([literal(2), block(let_statement(0, 0)), literal(2)], [const_block_pat(2)], root=1)),
        ("a place that is assigned to", "bodies[0].exprs[1]",
         of_body([literal(2), assignment(0, 0), literal(2)], [expr_pat(2)], root=1)),
        ("in an argument of a closure", "bodies[0].exprs[1]",
         of_body([literal(2), closure(0, inside=0), literal(2)], [literal_pat(2)], root=1)),
        ("in the second of two patterns", "bodies[0].exprs[1]",
         of_body([literal(2), closure(0, 1, inside=0), literal(2)], [WILD, literal_pat(2)], root=1)),
        ("in the second of two inner patterns", "bodies[0].exprs[1]",
         of_body([literal(2), let_condition(2, 0), literal(2)], [WILD, literal_pat(2), tuple_pat(0, 1)], root=1)),
        ("in a parameter that a `let` holds too", "bodies[0].exprs[1]",
         of_body([literal(2), let_condition(0, 0), literal(2)], [literal_pat(2)], root=1, params=[0])),
        ("in a parameter that one `let` holds, and an earlier one inside another pattern", "bodies[0].exprs[1]",
         of_body([literal(2), let_condition(1, 0), literal(2), literal(2), let_condition(0, 3)],
                 [literal_pat(2), ref_pat(0)], params=[0])),
        ("in a parameter inside two patterns, of a later `let` and of an earlier one", "bodies[0].exprs[1]",
         of_body([literal(2), let_condition(2, 0), literal(2), literal(2), let_condition(1, 3)],
                 [literal_pat(2), ref_pat(0), ref_pat(0)], params=[0])),
        ("in a pattern of two `let`, the first of which stands before: it is named before the pattern",
         "bodies[0].exprs[1]",
         of_body([literal(2), let_condition(0, 0), literal(2), literal(2), let_condition(0, 3)], [literal_pat(2)])),
        ("below patterns that are each held twice", "bodies[0].exprs[1]",
         of_body([literal(2), let_condition(LEVELS, 0), literal(2)], held_twice_each(literal_pat(2)), root=1)),
    ],
    [
        ("the expression just before the `let`",
         of_body([literal(2), literal(2), let_condition(0, 0)], [literal_pat(1)])),
        ("the same through two inner patterns",
         of_body([literal(2), literal(2), let_condition(2, 0)], [literal_pat(1), ref_pat(0), tuple_pat(1)])),
        ("both ends of a range",
         of_body([literal(2), literal(2), literal(9), literal(2), match(0, arm(0, 3))], [range_pat(1, 2)])),
        ("a parameter, which no expression holds",
         of_body([literal(2), literal(2)], [literal_pat(1)], root=0, params=[0])),
        ("a parameter that one `let` holds, and an earlier one inside another pattern",
         of_body([literal(2), literal(2), let_condition(1, 0), literal(2), let_condition(0, 3)],
                 [literal_pat(1), ref_pat(0)], params=[0])),
    ],
)

HELD = Rule(
    "each node but the root and the parameters is held at one place at most",
    [
        ("both operands are one expression", "bodies[0].exprs[0]", of_body([literal(2), add(0, 0)])),
        ("two expressions hold one", "bodies[0].exprs[1]",
         of_body([literal(2), literal(2), add(0, 1), negation(1), add(2, 3)])),
        ("a statement and the tail are one expression", "bodies[0].exprs[0]",
         of_body([literal(2), block(statement(0), tail=0)])),
        ("an expression and a pattern hold one expression", "bodies[0].exprs[0]",
         of_body([literal(2), let_condition(0, 0)], [literal_pat(0)])),
        ("two patterns hold one expression", "bodies[0].exprs[0]",
         of_body([literal(2), literal(2), let_condition(2, 1)], [literal_pat(0), literal_pat(0), tuple_pat(0, 1)])),
        ("both arms have one pattern", "bodies[0].pats[0]",
         of_body([literal(2), literal(2), literal(2), match(0, arm(0, 1), arm(0, 2))], [WILD])),
        ("a pattern holds one twice", "bodies[0].pats[0]",
         of_body([literal(2), let_condition(1, 0)], [WILD, tuple_pat(0, 0)])),
        ("expressions that are each held twice", "bodies[0].exprs[0]",
         of_body([literal(2), *(add(below, below) for below in range(LEVELS))])),
        ("patterns that are each held twice", "bodies[0].pats[0]",
         of_body([literal(2), let_condition(LEVELS, 0)], held_twice_each(WILD))),
        ("the same above an expression", "bodies[0].pats[0]",
         of_body([literal(2), literal(2), let_condition(LEVELS, 1)], held_twice_each(literal_pat(0)))),
        ("an expression and a pattern hold one pattern", "bodies[0].pats[0]",
         of_body([literal(2), literal(2), let_condition(0, 0), let_condition(1, 1), tuple_expr(2, 3)],
                 [WILD, ref_pat(0)])),
    ],
    [
        ("each is held once", of_body([literal(2), literal(2), add(0, 1)])),
        ("expressions and patterns that nothing holds", of_body([literal(2), literal(2)], [WILD])),
        ("the root is held twice", of_body([literal(2), negation(0), negation(0)], root=0)),
        ("a parameter is held twice",
         of_body([literal(2), literal(2), let_condition(1, 0), let_condition(2, 1), tuple_expr(2, 3)],
                 [WILD, ref_pat(0), ref_pat(0)], params=[0])),
        ("a pattern is two parameters", of_body(pats=[WILD], params=[0, 0])),
        ("an expression and a pattern with one id", of_body([literal(2), let_condition(0, 0)], [WILD])),
    ],
)

DEPTH = Rule(
    "no path of more than 400 steps leads down from a node",
    [
        ("401 steps", "bodies[0].exprs[401]", of_body(chain(STEPS + 1))),
        ("402 steps: the first expression with 401 is named", "bodies[0].exprs[401]", of_body(chain(STEPS + 2))),
        ("401 steps through patterns alone", "bodies[0].pats[401]", parameter_of_patterns(STEPS + 1)),
        ("401 steps from an expression through patterns", "bodies[0].exprs[1]", let_of_patterns(STEPS + 1)),
        ("402 steps through patterns: the expression is named before the pattern", "bodies[0].exprs[1]",
         let_of_patterns(STEPS + 2)),
        ("401 steps through patterns to expressions", "bodies[0].exprs[200]", through_both(198, 202)),
        ("an expression with a pattern that holds itself: the expression is named before the pattern",
         "bodies[0].exprs[1]", of_body([literal(2), let_condition(0, 0)], [ref_pat(0)])),
        ("an expression with a ring of patterns", "bodies[0].exprs[1]",
         of_body([literal(2), let_condition(0, 0)], [ref_pat(1), ref_pat(0)])),
    ],
    [
        ("400 steps", of_body(chain(STEPS))),
        ("400 steps twice, beside one another",
         of_body([*chain(STEPS - 1), literal(2), *(negation(below) for below in range(400, 799)), add(399, 799)])),
        ("400 steps through patterns alone", parameter_of_patterns(STEPS)),
        ("400 steps from an expression through patterns", let_of_patterns(STEPS)),
        ("400 steps through patterns to expressions", through_both(198, 201)),
    ],
)

TREES = [CHILDREN, INNER, HELD, DEPTH]

LABEL = ["'a"]
TWO_LABELS = ["'a", "'b"]

ENCLOSED = Rule(
    "a jump's label is that of a loop or a block around it",
    [
        ("`break` in no loop", "bodies[0].exprs[0]", of_body([break_to(0)], labels=LABEL)),
        ("`continue` in no loop", "bodies[0].exprs[0]", of_body([continue_to(0)], labels=LABEL)),
        ("the loop around it has no label", "bodies[0].exprs[0]", of_body([break_to(0), loop(0)], labels=LABEL)),
        ("the loop around it has another label", "bodies[0].exprs[0]",
         of_body([break_to(1), loop(0, label=0)], labels=TWO_LABELS)),
        ("the loop with the label stands beside it", "bodies[0].exprs[2]",
         of_body([literal(2), loop(0, label=0), break_to(0), loop(2), block(statement(1), tail=3)], labels=LABEL)),
        ("the loop with the label is inside of what is broken with", "bodies[0].exprs[2]",
         of_body([literal(2), loop(0, label=0), break_to(0, expr=1), loop(2)], labels=LABEL)),
        ("the loop with the label holds the root", "bodies[0].exprs[0]",
         of_body([break_to(0), loop(0, label=0)], root=0, labels=LABEL)),
        ("the loop with the label is in another body", "bodies[1].exprs[0]",
         world(bodies=[body([literal(2), loop(0, label=0)], labels=LABEL),
                       body([break_to(0), loop(0)], labels=LABEL)])),
        ("the second jump of two", "bodies[0].exprs[2]",
         of_body([break_to(0), loop(0, label=0), continue_to(0), block(statement(1), tail=2)], labels=LABEL)),
    ],
    [
        ("`break` out of the loop that holds it", of_body([break_to(0), loop(0, label=0)], labels=LABEL)),
        ("`continue` of the loop that holds it", of_body([continue_to(0), loop(0, label=0)], labels=LABEL)),
        ("`break` out of a block", of_body([break_to(0), block(tail=0, label=0)], labels=LABEL)),
        ("out of the outer one of two loops",
         of_body([break_to(0), loop(0, label=1), loop(1, label=0)], labels=TWO_LABELS)),
        ("through an `unsafe` block and a sum",
         of_body([literal(2), break_to(0), add(0, 1), unsafe(tail=2), loop(3, label=0)], labels=LABEL)),
        ("through a pattern",
         of_body([literal(2), break_to(0), let_condition(1, 0), loop(2, label=0)],
                 [const_block_pat(1), ref_pat(0)], labels=LABEL)),
        ("two loops with one label", of_body([break_to(0), loop(0, label=0), loop(1, label=0)], labels=LABEL)),
        ("400 steps below the loop",
         of_body([break_to(0), *(negation(below) for below in range(STEPS - 1)), loop(STEPS - 1, label=0)],
                 labels=LABEL)),
        ("jumps without labels", of_body([break_to(), continue_to(), tuple_expr(0, 1), loop(2)])),
        ("a label that nothing has", of_body(labels=LABEL)),
    ],
)

JUMPS = [ENCLOSED]
