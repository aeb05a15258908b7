"""Reads bodies that are written in Rust: numbers, truth values, characters, names, operators, casts, blocks, `if`, loops, jumps,
`let`, assignments, calls of functions by their names, method calls, tuples, arrays, structs, also by their constructors, fields and indices. It
reads functions, structs and types too.

A body is read as a tree of tuples, the first part of which says what it is:

    ("number", digits, suffix or None)      ("truth", bool)             ("path", name)
    ("character", number)                   ("cast", operand, type)
    ("unary", operator, operand)            ("binary", operator, left, right)
    ("assign", operator or None, target, value)
    ("block", statements, tail or None, label or None)
    ("branch", condition, block, block of `else`, another branch, a jump or None)
    ("loop", body, label or None)
    ("leave", value or None, label or None)     ("again", label or None)        ("give_back", value or None)
    ("call", name, arguments)               ("method", receiver, name, arguments)
    ("construct", name of a struct, arguments)
    ("field", operand, name)                ("index", operand, index)
    ("tuple", parts)                        ("array", elements)         ("repeat", operand, count)
    ("record", name, written fields, each with its value, base or None)

A type is its name, as `u8`, `()` and that of a struct, or one that has parts: `("tuple", types)` and `("array", element, length)`.

A label is its text, as `'a`. `while c { .. }` is read as the loop with an `if` that it stands for,
`loop { if c { .. } else { break } }`, where the loop's body is the `if` itself. An operator is one of the worlds' JSON, as
`{"ArithOp": "Add"}`. A statement is one of

    ("let", name, type or None, initializer or None, block of `else` or None)        ("expr", expression)

A function is read as a `Function`. Its parameters are plain names. One whose first parameter is `self`, with its type, is a method of
that type, as `fn minus(self: u8, other: u8) -> u8 { self - other }` is. A struct is read as a `Struct`. It has no generic parameters, and its name,
alone of all names, begins with a capital letter.
"""

import re
from dataclasses import dataclass

ARITHMETIC = {"+": "Add", "-": "Sub", "*": "Mul", "/": "Div", "%": "Rem", "<<": "Shl", ">>": "Shr",
              "&": "BitAnd", "|": "BitOr", "^": "BitXor"}
COMPARISONS = {
    "==": {"Eq": {"negated": False}},
    "!=": {"Eq": {"negated": True}},
    "<": {"Ord": {"ordering": "Less", "strict": True}},
    "<=": {"Ord": {"ordering": "Less", "strict": False}},
    ">": {"Ord": {"ordering": "Greater", "strict": True}},
    ">=": {"Ord": {"ordering": "Greater", "strict": False}},
}
LOGIC = {"&&": "And", "||": "Or"}
UNARY = {"-": "Neg", "!": "Not", "*": "Deref"}

# Which operators bind as strongly as one another, from the weakest to the strongest.
LEVELS = (("||",), ("&&",), tuple(COMPARISONS), ("|",), ("^",), ("&",), ("<<", ">>"), ("+", "-"), ("*", "/", "%"))

# How an expression begins that ends in a block.
BLOCKS = ("{", "if", "loop", "while")

# What follows a jump that has no value.
ENDS = (";", "}", ")", "]", ",", "")

TOKEN = re.compile(
    r"\s*('(?:\\u\{[0-9a-f]+\}|\\.|[^\\'])'|\d+(?:[iu](?:8|16|32|64|128|size))?|'?[A-Za-z_]\w*|<<=|>>=|&&|\|\||<<|>>|->|[-+*/%&|^=!<>]=|\.\.|[-+*/%&|^=!<>(){}\[\];:,.])"
)
# The characters that are written with a backslash and one letter or sign.
ESCAPES = {"n": "\n", "r": "\r", "t": "\t", "0": "\0", "\\": "\\", "'": "'", '"': '"'}


class NoBody(Exception):
    """A text that is no body of these forms, or one whose types don't fit."""


def character_of(token):
    """The number of a character, by its text between quotes."""
    inside = token[1:-1]
    if inside.startswith("\\u"):
        return int(inside[3:-1], 16)
    return ord(ESCAPES[inside[1]] if inside.startswith("\\") else inside)


def tuple_type(types):
    """The type of tuples with parts of these types."""
    return ("tuple", tuple(types)) if types else "()"


@dataclass
class Struct:
    """A struct: its name, its fields with their types, its shape, as in the world, and its text."""

    name: str
    fields: list
    shape: str
    text: str


@dataclass
class Function:
    """A function: its name, its parameters with their types, the type that it returns, and the tree of its body."""

    name: str
    params: list
    ret: str
    tree: tuple

    def is_method(self):
        """Whether it is called as a method."""
        return bool(self.params) and self.params[0][0] == "self"


def operator_of(token):
    """The operator of two operands, as JSON."""
    if token in ARITHMETIC:
        return {"ArithOp": ARITHMETIC[token]}
    return {"LogicOp": LOGIC[token]} if token in LOGIC else {"CmpOp": COMPARISONS[token]}


def tokens_of(text):
    """The words and signs of a text, and an empty one at its end."""
    tokens, place = [], 0
    while text[place:].strip():
        found = TOKEN.match(text, place)
        if found is None:
            raise NoBody(f"no token at {text[place:]!r}")
        tokens.append(found.group(1))
        place = found.end()
    return [*tokens, ""]


class Reader:
    """Goes through the tokens of a body."""

    def __init__(self, text):
        self.tokens, self.place = tokens_of(text), 0

    def next(self):
        """The next token, which isn't taken."""
        return self.tokens[self.place]

    def take(self, *wanted):
        """Takes the next token, where it is one of those that are wanted. The answer is the token, or nothing."""
        token = self.next()
        if token == "" or (wanted and token not in wanted):
            return None
        self.place += 1
        return token

    def need(self, *wanted):
        """Takes the next token, which has to be one of these."""
        token = self.take(*wanted)
        if token is None:
            raise NoBody(f"{self.next()!r} stands where {' or '.join(wanted) or 'a token'} is wanted")
        return token

    def body(self):
        """The whole text as one expression."""
        tree = self.expr()
        if self.next() != "":
            raise NoBody(f"{self.next()!r} stands after the end")
        return tree

    def expr(self):
        """An expression, which may be an assignment."""
        left = self.operation(0)
        if self.take("="):
            return ("assign", None, left, self.expr())
        token = self.take(*(f"{sign}=" for sign in ARITHMETIC))
        return left if token is None else ("assign", ARITHMETIC[token[:-1]], left, self.expr())

    def operation(self, level):
        """An expression of operators that bind at least as strongly as those of the level."""
        if level == len(LEVELS):
            return self.casted()
        left = self.operation(level + 1)
        while (token := self.take(*LEVELS[level])) is not None:
            left = ("binary", operator_of(token), left, self.operation(level + 1))
        return left

    def casted(self):
        """An expression that binds at least as strongly as a cast."""
        found = self.operand()
        while self.take("as"):
            found = ("cast", found, self.type())
        return found

    def operand(self):
        """An expression without casts and operators of two operands. A method call, a field and an index bind stronger than an operator
        of one operand. A square bracket behind a block begins another expression."""
        if self.next() in UNARY:
            return ("unary", UNARY[self.need()], self.operand())
        signs = (".",) if self.next() in BLOCKS or self.next_is_label() else (".", "[")
        found = self.simple()
        while (token := self.take(*signs)) is not None:
            found = self.index(found) if token == "[" else self.member(found)
        return found

    def parts(self, end, found):
        """What follows in a list with commas, up to its end, behind the parts that were found."""
        while not self.take(end):
            found.append(self.expr())
            if self.next() != end:
                self.need(",")
        return found

    def tuple(self):
        """What follows the bracket of a tuple, or of an expression in brackets."""
        if self.take(")"):
            return ("tuple", [])
        first = self.expr()
        if self.need(")", ",") == ")":
            return first
        return ("tuple", self.parts(")", [first]))

    def array(self):
        """What follows the bracket of an array."""
        if self.take("]"):
            return ("array", [])
        first = self.expr()
        token = self.need("]", ",", ";")
        if token == ";":
            return ("repeat", first, self.count())
        return ("array", [first] if token == "]" else self.parts("]", [first]))

    def count(self):
        """The length of an array, with the bracket behind it."""
        count = int(self.need())
        self.need("]")
        return count

    def index(self, base):
        """What follows the bracket of an index."""
        index = self.expr()
        self.need("]")
        return ("index", base, index)

    def member(self, of):
        """What follows the dot of a method call or of a field."""
        name = self.need()
        return ("method", of, name, self.arguments()) if self.next() == "(" else ("field", of, name)

    def simple(self):
        """An expression without operators, and no method call."""
        if self.next() == "{":
            return self.block()
        if self.next() == "if":
            return self.branch()
        if self.next() in ("loop", "while"):
            return self.loop(None)
        token = self.need()
        if token[0] == "'" and token[-1] == "'":
            return ("character", character_of(token))
        if token[0] == "'":
            self.need(":")
            return self.block(token) if self.next() == "{" else self.loop(token)
        if token == "break":
            label = self.label()
            return ("leave", None if self.next() in ENDS else self.expr(), label)
        if token == "continue":
            return ("again", self.label())
        if token == "return":
            return ("give_back", None if self.next() in ENDS else self.expr())
        if token == "(":
            return self.tuple()
        if token == "[":
            return self.array()
        if token in ("true", "false"):
            return ("truth", token == "true")
        if token[0].isdigit():
            digits, suffix = re.fullmatch(r"(\d+)(\w*)", token).groups()
            return ("number", digits, suffix or None)
        if token[0].isupper() and self.next() == "{":
            return self.record(token)
        if token[0].isupper() and self.next() == "(":
            return ("construct", token, self.arguments())
        if token[0].isalpha() or token[0] == "_":
            return ("call", token, self.arguments()) if self.next() == "(" else ("path", token)
        raise NoBody(f"{token!r} stands where an expression is wanted")

    def record(self, name):
        """What follows the name of a struct: fields with values or without, and a base, in braces."""
        self.need("{")
        fields, base = [], None
        while not self.take("}"):
            if self.take(".."):
                base = self.expr()
                self.need("}")
                break
            field = self.need()
            fields.append((field, self.expr() if self.take(":") else ("path", field)))
            if self.next() != "}":
                self.need(",")
        return ("record", name, fields, base)

    def arguments(self):
        """The arguments of a call in brackets."""
        self.need("(")
        return self.parts(")", [])

    def function(self):
        """The whole text as one function."""
        self.need("fn")
        name, params = self.need(), []
        self.need("(")
        while not self.take(")"):
            self.take("mut")
            param = self.need()
            self.need(":")
            params.append((param, self.type()))
            if self.next() != ")":
                self.need(",")
        ret = self.type() if self.take("->") else "()"
        tree = self.block()
        if self.next() != "":
            raise NoBody(f"{self.next()!r} stands after the end")
        return Function(name, params, ret, tree)

    def struct(self, text):
        """The whole text as one struct."""
        self.need("struct")
        name, fields, token = self.need(), [], self.need("{", "(", ";")
        while token != ";" and not self.take("}", ")"):
            field = str(len(fields)) if token == "(" else self.need()
            if token == "{":
                self.need(":")
            fields.append((field, self.type()))
            if self.next() not in ("}", ")"):
                self.need(",")
        if token == "(":
            self.need(";")
        if self.next() != "":
            raise NoBody(f"{self.next()!r} stands after the end")
        return Struct(name, fields, {"{": "Record", "(": "Tuple", ";": "Unit"}[token], text)

    def branch(self):
        """An `if`."""
        self.need("if")
        condition, first, second = self.expr(), self.block(), None
        if self.take("else"):
            second = self.branch() if self.next() == "if" else self.block()
        return ("branch", condition, first, second)

    def loop(self, label):
        """A `loop` or a `while`."""
        if self.need("loop", "while") == "loop":
            return ("loop", self.block(), label)
        condition = self.expr()
        return ("loop", ("branch", condition, self.block(), ("leave", None, None)), label)

    def label(self):
        """The label that a jump has, or nothing."""
        return self.need() if self.next_is_label() else None

    def next_is_label(self):
        return self.next().startswith("'") and not self.next().endswith("'")

    def block(self, label=None):
        """Statements and a tail in braces."""
        self.need("{")
        statements, tail = [], None
        while not self.take("}"):
            if tail is not None:
                raise NoBody(f"{self.next()!r} stands after the tail of a block")
            if self.take("let"):
                statements.append(self.let())
                continue
            found = self.expr()
            if self.take(";") or (found[0] in ("block", "branch", "loop") and self.next() != "}"):
                statements.append(("expr", found))
            else:
                tail = found
        return ("block", statements, tail, label)

    def let(self):
        """What follows `let`, with the semicolon."""
        self.take("mut")
        name, initializer, other = self.need(), None, None
        ty = self.type() if self.take(":") else None
        if self.take("="):
            initializer = self.expr()
        if self.take("else"):
            other = self.block()
        self.need(";")
        return ("let", name, ty, initializer, other)

    def type(self):
        """A type: its name, a tuple's or an array's."""
        token = self.need()
        if token == "(":
            return self.tuple_type()
        if token == "[":
            element = self.type()
            self.need(";")
            return ("array", element, self.count())
        return token

    def tuple_type(self):
        """What follows the bracket of a tuple's type, or of a type in brackets."""
        types = []
        while not self.take(")"):
            types.append(self.type())
            if self.take(")"):
                return types[0] if len(types) == 1 else tuple_type(types)
            self.need(",")
        return tuple_type(types)


def read(text):
    """The tree of a body."""
    return Reader(text).body()


def read_type(text):
    """The type that a text is."""
    return Reader(text).type()


def read_function(text):
    """The function that a text is."""
    return Reader(text).function()


def read_struct(text):
    """The struct that a text is."""
    return Reader(text).struct(text)
