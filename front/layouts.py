"""Asks the compiler for the layouts of types.

Each type gets an alias with an attribute by which the compiler prints the layout, as an error at the alias:

    #[rustc_layout(debug)] type __FrontLayout0 = crate::m::Pair<u8>;

The aliases stand behind the file's last line; one that mentions a type inside a function stands behind this type.
"""

import re

from debug_text import flat, parse
from type_text import NEVER, parts_of, write_type

ALIAS = "__FrontLayout"
ALIAS_AT = re.compile(ALIAS + r"(\d+)")
SIZE = re.compile(r"Size\((\d+) bytes\)")
ALIGN = re.compile(r"Align\((\d+) bytes\)")
RANGE = re.compile(r"(\d+)\.\.=(\d+)")
TAG = re.compile(r"Int\(I(\d+), (true|false)\)")
FLAGS = ["-Zcrate-attr=feature(rustc_attrs)", "-Zcrate-attr=feature(never_type)"]
# The attribute's name in 1.95 and in 1.97.
ATTRIBUTES = ("rustc_layout(debug)", "rustc_dump_layout(debug)")
UNKNOWN_ATTRIBUTE = "cannot find attribute"
TRIES = 4


class LayoutError(Exception):
    """A layout that isn't read."""


def ask(types, crate, compiler, name, new_edits):
    """The layouts of types, as JSON by the types: one that the compiler tells none of is left out. `new_edits` gives
    the source with what it needs to compile."""
    known = {ty: by_hand(ty) for ty in types if by_hand(ty) is not None}
    asked = [ty for ty in types if ty not in known]
    attributes = list(ATTRIBUTES)
    for _ in range(TRIES):
        if not asked:
            break
        edits = new_edits()
        publish(edits, crate.items)
        for number, ty in enumerate(asked):
            _put_alias(edits, number, ty, crate, attributes[0])
        messages = compiler.check(edits.text(), name, FLAGS)
        if len(attributes) > 1 and any(message.text.startswith(UNKNOWN_ATTRIBUTE) for message in messages):
            attributes.pop(0)
            continue
        told, refused = _read(messages)
        known.update({asked[number]: layout_of(asked[number], node) for number, node in told.items()})
        remaining = [ty for number, ty in enumerate(asked) if number not in told and number not in refused]
        if len(remaining) == len(asked):
            break
        asked = remaining
    return known


def by_hand(ty):
    """The layout of a type that has no name in Rust, or None."""
    if ty[0] == "fndef":
        return {"size": 0, "align": 1, "sized": True, "variants": {"Single": 0}}
    if ty == NEVER:
        return {"size": 0, "align": 1, "sized": True, "variants": "Empty"}
    return None


def publish(edits, items):
    """Makes private types and modules visible in the whole crate, so that aliases can name them."""
    for item in items.values():
        if item.sort in ("type", "mod") and item.vis and item.vis.is_written and item.span.is_written:
            if item.vis.start == item.vis.end:
                edits.insert(item.vis.start, "pub(crate) ")


def _put_alias(edits, number, ty, crate, attribute):
    text = write_type(ty)
    place = None
    for path in local_paths(ty, crate):
        item = crate.items[path]
        text = re.sub(rf"crate::{re.escape(path)}\b", item.name, text)
        place = max(place or item.span.end, item.span.end)
    line = f"#[{attribute}] type {ALIAS}{number} = {text};"
    if place is None:
        edits.append(line)
    else:
        edits.insert(place, f" {line}")


def local_paths(ty, crate):
    """The paths in a type that lead into the body of a function or constant."""
    if ty[0] == "path" and ty[1] in crate.items:
        above = ty[1].rpartition("::")[0]
        while above:
            item = crate.items.get(above)
            if item is not None and item.sort in ("fn", "const", "static"):
                yield ty[1]
                break
            above = above.rpartition("::")[0]
    for part in parts_of(ty):
        yield from local_paths(part, crate)


def _read(messages):
    """The layouts that are told, by the number of the alias, and the numbers of aliases with another error."""
    told, refused = {}, set()
    for message in messages:
        primary = message.primary()
        if message.level != "error" or primary is None or not primary["text"]:
            continue
        shown = primary["text"][0]
        name = ALIAS_AT.search(shown["text"][: shown["highlight_end"] - 1][shown["highlight_start"] - 1 :])
        if name is None:
            names = ALIAS_AT.findall(shown["text"])
            if len(names) == 1 and not message.text.startswith("layout_of("):
                refused.add(int(names[0]))
            continue
        if message.text.startswith("layout_of("):
            told[int(name.group(1))] = parse(message.text.split("\n"))
        else:
            refused.add(int(name.group(1)))
    return told, refused


# From the compiler's text to the world's.


def layout_of(ty, node):
    """A layout as the world has it."""
    variants = node["variants"]
    variants_name = variants if isinstance(variants, str) else variants.name
    made = {
        "size": _number(SIZE, node["size"]),
        "align": _number(ALIGN, node["align"]),
        "sized": "sized: false" not in flat(node["backend_repr"]),
    }
    if variants_name == "Multiple":
        made["variants"] = {"Multiple": _multiple(node, variants)}
        return made
    offsets = _offsets(ty, node["fields"])
    if offsets:
        made["offsets"] = offsets
    made["variants"] = "Empty" if variants_name == "Empty" else {"Single": int(variants["index"])}
    return made


def _number(pattern, node):
    found = pattern.search(flat(node))
    if not found:
        raise LayoutError(f"no number in {flat(node)}")
    return int(found.group(1))


def _offsets(ty, fields):
    """Where each field begins. The world has this of structs, unions, enums and tuples alone."""
    if ty[0] not in ("path", "tuple") or isinstance(fields, str):
        return []
    if fields.name == "Arbitrary":
        return [_number(SIZE, one) for one in fields["offsets"]]
    if fields.name == "Union":
        return [0] * int(fields[0])
    raise LayoutError(f"fields of the form {fields.name}")


def _multiple(node, variants):
    tag = flat(variants["tag"])
    found = TAG.search(tag)
    size, signed = (int(found.group(1)) // 8, found.group(2) == "true") if found else (8, False)
    tag_field = int(variants["tag_field"])
    return {
        "tag_offset": _number(SIZE, node["fields"]["offsets"][tag_field]),
        "tag_size": size,
        "tag_signed": signed,
        "encoding": _encoding(variants["tag_encoding"]),
        "variants": [_variant_offsets(one) for one in variants["variants"]],
    }


def _variant_offsets(node):
    """Where the fields of one variant begin: from 1.97 on a variant has these alone."""
    if node.get("field_offsets") is not None:
        return [_number(SIZE, one) for one in node["field_offsets"]]
    fields = node["fields"]
    if isinstance(fields, str):
        return []
    return [_number(SIZE, one) for one in fields["offsets"]]


def _encoding(node):
    if isinstance(node, str):
        return "Direct"
    first, last = RANGE.match(node["niche_variants"]).groups()
    return {
        "Niche": {
            "untagged_variant": int(node["untagged_variant"]),
            "niche_first": int(first),
            "niche_last": int(last),
            "niche_start": node["niche_start"],
        }
    }
