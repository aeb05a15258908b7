"""Constants whose evaluation fails.

rustc evaluates each constant before it prints any typed body, and prints none where one of them panics. So the
initializer of such a constant is put where it isn't evaluated, into an implementation with a type parameter, and a
value of zero bytes stands in for it:

    const A: u8 = { struct __Front<T>(T); impl<T> __Front<T> { const __FRONT_CONST: u8 = 255 + 1; } unsafe { .. } };

The typed body of `__FRONT_CONST` is the one that is wanted. A constant that names `A` meets the zero, and may fail
next, so that the compiler is asked again until nothing fails.
"""

import re

OPENING = " {{ struct __Front<T>(T); impl<T> __Front<T> {{ const __FRONT_CONST: {ty} = "
CLOSING = "; } unsafe { core::mem::MaybeUninit::zeroed().assume_init() } }"
COMMENT = re.compile(r"//[^\n]*|/\*.*?\*/", re.DOTALL)
EVALUATION = re.compile(r"evaluation of `.*` failed")


def wrap(edits, item, source):
    """Puts the initializer of a constant or static where it isn't evaluated. Whether that could be done."""
    if not item.span.is_written or not item.ty.is_written:
        return False
    start, end = _initializer(item, source)
    if start is None:
        return False
    edits.insert(start, OPENING.format(ty=source.at(item.ty)))
    edits.insert(end, CLOSING)
    return True


def _initializer(item, source):
    """Where the initializer begins and ends: between `=` behind the type, and the `;` at its end."""
    rest = _Part(source, item.ty.end, item.span.end)
    equals = COMMENT.sub(lambda found: " " * len(found.group(0)), rest.text).find("=")
    if equals < 0 or not rest.text.endswith(";"):
        return None, None
    return rest.place(equals + 1), rest.place(len(rest.text) - 1)


class _Part:
    """The text between two places, with the way back from offsets to places."""

    def __init__(self, source, start, end):
        self.start = start
        lines = source.lines[start[0] - 1 : end[0]]
        lines[-1] = lines[-1][: end[1] - 1]
        lines[0] = lines[0][start[1] - 1 :]
        self.text = "\n".join(lines)

    def place(self, offset):
        before = self.text[:offset]
        row = before.count("\n")
        column = offset - before.rfind("\n") if row else self.start[1] + offset
        return self.start[0] + row, column


def failing(messages, items, edits):
    """The constants and statics whose evaluation failed, and the messages that say so of none of them."""
    found, others = {}, []
    constants = [item for item in items.values() if item.sort in ("const", "static") and item.span.is_written]
    for message in messages:
        if message.level != "error" or message.text.startswith("aborting due to"):
            continue
        item = _failed(message, constants, edits) if message.code == "E0080" else None
        if item is None:
            others.append(message)
        else:
            found.setdefault(item.path, (item, message))
    return found, others


def _failed(message, constants, edits):
    """The innermost constant around the place that a message names; in a macro, around where it is used."""
    spans = [span for span in message.spans if EVALUATION.search(span.get("label") or "")]
    for span in spans or [span for span in message.spans if span["is_primary"]]:
        while span.get("expansion"):
            span = span["expansion"]["span"]
        place = edits.source_place((span["line_start"], span["column_start"]))
        around = [item for item in constants if item.span.start <= place < item.span.end]
        if around:
            return max(around, key=lambda item: item.span.start)
    return None
