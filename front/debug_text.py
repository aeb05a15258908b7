"""Reads the text that Rust's `{:#?}` prints: one node or leaf a line.

rustc prints its typed bodies, its item tree and its layouts in this form. A line that ends with an opening
bracket opens a node, a line that is a closing bracket ends one, and any other line is a leaf:

    Block {                     Node("Block", fields={"stmts": [], "expr": Node("Some", items=["e13"])})
        stmts: [],
        expr: Some(
            e13,
        ),
    }

Lists are Python lists, and leaves are texts as they were printed, without their comma. Indentation isn't looked
at. A text with quotes never ends a line with a bracket, as a comma follows it.
"""

import re

OPENING = {"{": "}", "(": ")", "[": "]"}
FIELD = re.compile(r"([a-z_0-9]+): ")


class DebugTextError(Exception):
    """The text isn't what `{:#?}` prints."""


class Node:
    """`name { fields }` or `name ( items )`. A node without a name is a tuple or a map."""

    __slots__ = ("name", "fields", "items")

    def __init__(self, name, fields=None, items=None):
        self.name, self.fields, self.items = name, fields, items

    def __getitem__(self, key):
        """A field by its name, or an item by its place."""
        return self.fields[key] if isinstance(key, str) else self.items[key]

    def get(self, key):
        """A field by its name, or None."""
        return self.fields.get(key) if self.fields is not None else None

    def __repr__(self):
        return flat(self)


def parse(lines):
    """The one value that these lines print."""
    values = parse_all(lines)
    if len(values) != 1:
        raise DebugTextError(f"one value expected, and {len(values)} found")
    return values[0]


def parse_all(lines):
    """The values that these lines print, one behind the other."""
    top = []
    stack = []
    fields, items = None, top
    for line in lines:
        text = line.strip()
        if not text:
            continue
        last = text[-1]
        if last in OPENING:
            key, text = _key_of(fields, text)
            value, *inner = _opened(last, text[:-1].rstrip())
            _put(fields, items, key, value)
            stack.append((fields, items))
            fields, items = inner
        elif text in ("}", ")", "]", "},", "),", "],"):
            if not stack:
                raise DebugTextError("a bracket is closed that none opened")
            fields, items = stack.pop()
        else:
            if last == ",":
                text = text[:-1]
            key, text = _key_of(fields, text)
            _put(fields, items, key, [] if text == "[]" else text)
    if stack:
        raise DebugTextError("a bracket is never closed")
    return top


def _key_of(fields, text):
    """The name of the field that a line gives, where fields are open, and the rest of the line."""
    found = FIELD.match(text) if fields is not None else None
    return (found.group(1), text[found.end() :]) if found else (None, text)


def _opened(bracket, name):
    """A new node, or list, with its fields and its items: what comes next goes to that which isn't None."""
    if bracket == "{":
        node = Node(name, fields={})
        return node, node.fields, None
    if bracket == "(":
        node = Node(name, items=[])
        return node, None, node.items
    made = []
    return made, None, made


def _put(fields, items, key, value):
    """Adds a value to the node that is open. An entry of a map has no field's name; its value is enough here."""
    if fields is None:
        items.append(value)
    else:
        fields[key if key is not None else f"#{len(fields)}"] = value


def flat(value):
    """A value as `{:?}` prints it, on one line."""
    if isinstance(value, str):
        return value
    if isinstance(value, list):
        return "[" + ", ".join(flat(item) for item in value) + "]"
    if value.fields is not None:
        inside = ", ".join(f"{key}: {flat(item)}" for key, item in value.fields.items())
        return f"{value.name} {{ {inside} }}"
    return f"{value.name}(" + ", ".join(flat(item) for item in value.items) + ")"


ESCAPES = {"n": "\n", "t": "\t", "r": "\r", "0": "\0", '"': '"', "'": "'", "\\": "\\"}
ESCAPE = re.compile(r"\\(u\{([0-9a-f]+)\}|.)")


def unquoted(text):
    """The characters of a text or character that `{:?}` printed with quotes."""
    return ESCAPE.sub(lambda m: chr(int(m.group(2), 16)) if m.group(2) else ESCAPES[m.group(1)], text[1:-1])


DEF_ID = re.compile(r"DefId\((\d+):\d+ ~ ([^\[\s]+)\[[0-9a-f]+\](?:::(.*))?\)$")


def path_of(def_id):
    """The crate and the path in it of a `DefId(..)`: the crate is "" for the one that is compiled.

    The numbers and the hash of a DefId change with the compiler and the file, the path doesn't."""
    found = DEF_ID.match(def_id)
    if not found:
        raise DebugTextError(f"no DefId: {def_id}")
    number, krate, path = found.groups()
    return ("" if number == "0" else krate), path or ""


STANDARD_INPUT = "<anon>"
SPAN = re.compile(r"(.*?):(\d+):(\d+): (\d+):(\d+)(?: \(#(\d+)\))?$")


class Span:
    """Where something stands: lines and columns from 1, columns in characters, the end outside."""

    __slots__ = ("file", "start", "end", "context")

    def __init__(self, text):
        found = SPAN.match(text)
        if found:
            file, line, column, end_line, end_column, context = found.groups()
            self.file, self.start, self.end = file, (int(line), int(column)), (int(end_line), int(end_column))
            self.context = int(context or 0)
        else:
            self.file, self.start, self.end, self.context = "", (0, 0), (0, 0), 1

    @property
    def is_written(self):
        """Whether it stands in the file itself, which the compiler reads from the standard input, and isn't what a
        macro or the compiler made."""
        return self.context == 0 and self.file == STANDARD_INPUT
