"""Asks the compiler for the types of fields.

The item tree has the types of fields as they are written, with aliases and paths that only the compiler resolves. So
a function is put behind each struct, union and enum, which takes one apart; its typed body has the types:

    fn __front_fields_0<T>(v: &Pair<T>) { match v { Pair { left: _, right: _ } => {} } }

It stands on the same line as the end of the item, so that no line moves, and where private names can be used.
"""

import re

from debug_text import Node, flat
from type_text import TypeTextError, read_type

PREFIX = "__front_fields_"
DEFAULT = re.compile(r"\s*=\s*[^,>]+")


def probe(number, item, adt, source):
    """The function that takes the fields of a type apart, or None where their types are known."""
    if all(variant.types is not None for variant in adt.variants):
        return None
    declared = item.declared
    generics = source.at(declared.span)
    if declared.has_default:
        generics = DEFAULT.sub("", generics)
    where = source.at(declared.where_span)
    args = f"<{', '.join(declared.names)}>" if declared.names else ""
    arms = "".join(_arms(item.name, adt))
    taken = f"match v {{ {arms} _ => {{}} }}"
    if adt.sort == "union":
        taken = f"unsafe {{ {taken} }}"
    return f" #[allow(warnings)] fn {PREFIX}{number}{generics}(v: &{item.name}{args}) {where} {{ {taken} }}"


def _arms(name, adt):
    for variant in adt.variants:
        path = f"{name}::{variant.name}" if adt.sort == "enum" else name
        fields = [f"{field}: _" if field.isdigit() else f"r#{field}: _" for field in variant.fields]
        if adt.sort == "union":
            yield from (f"{path} {{ {field} }} => {{}}, " for field in fields)
        elif fields:
            yield f"{path} {{ {', '.join(fields)} }} => {{}}, "


def learn(thir, adt):
    """Puts the types that the body of a probe has into the variants."""
    found = [{} for _ in adt.variants]
    for arm in thir["arms"]:
        _collect(arm["pattern"], 0, found)
    for variant, types in zip(adt.variants, found):
        if len(types) == len(variant.fields):
            variant.types = [types[place] for place in range(len(variant.fields))]


def _collect(pattern, variant, found):
    kind = pattern["kind"]
    if not isinstance(kind, Node):
        return
    if kind.name == "Deref":
        _collect(kind["subpattern"], variant, found)
        return
    index = int(kind["variant_index"]) if kind.name == "Variant" else variant
    for one in kind["subpatterns"] if kind.get("subpatterns") else ():
        try:
            found[index][int(one["field"])] = read_type(flat(one["pattern"]["ty"]))
        except TypeTextError:
            continue
