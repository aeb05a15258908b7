"""The places of an input's world where ids stand, by the schema."""

import json
from dataclasses import dataclass
from pathlib import Path

SCHEMA = json.loads((Path(__file__).resolve().parent.parent / "schema" / "world.schema.json").read_text(encoding="utf-8"))
DEFINITIONS = SCHEMA["$defs"]

# The ids, with the tables of the world whose places they are.
TABLES = {
    "Crate": "crates",
    "FunctionId": "functions",
    "ConstId": "consts",
    "StaticId": "statics",
    "StructId": "structs",
    "UnionId": "unions",
    "EnumId": "enums",
    "EnumVariantId": "variants",
    "TraitId": "traits",
    "AliasId": "aliases",
    "TypeParamId": "type_params",
    "ConstParamId": "const_params",
    "InternedClosureId": "closures",
}

# The ids that are places of a list of a body.
LISTS = {"ExprId": "exprs", "PatId": "pats", "BindingId": "bindings", "LabelId": "labels"}

# The fields that are ids, though the schema says only that they are numbers.
BODY, FIELD = "body", "field"
FIELDS = {f"{row}.body": BODY for row in ("FunctionRow", "ConstRow", "StaticRow", "VariantRow")}
FIELDS["FieldId.local_id"] = FIELD


@dataclass(frozen=True)
class IdPlace:
    """A place where an id stands: what kind of id it is, and the keys that lead to it. `slots` are the fields of
    structs and the variants of enums that are gone through on the way."""

    kind: str
    keys: tuple
    slots: tuple


def name_of(schema, slot):
    """The name of a definition that a schema refers to, or that of the slot itself."""
    target = schema.get("$ref", "").removeprefix("#/$defs/")
    return target if target and target not in ("map", "pair") else slot


def resolved(schema):
    """What a schema says, with what it refers to."""
    while "$ref" in schema:
        target = DEFINITIONS[schema["$ref"].removeprefix("#/$defs/")]
        schema = {**target, **{key: part for key, part in schema.items() if key != "$ref"}}
        if "items" in schema and "items" in target and schema["items"] is not target["items"]:
            schema["items"] = {**target["items"], **schema["items"]}
    return schema


def without_null(schema):
    """The schema of an option's value."""
    rows = schema.get("oneOf", [])
    return rows[1] if rows and rows[0] == {"type": "null"} else schema


def is_id(name):
    """Whether a definition is an id."""
    return name in TABLES or name in LISTS


def parts(schema, name):
    """The schemas of what a value may hold, each with its slot: a field, a variant, a part of an array, or an item
    of a list."""
    for key, part in schema.get("properties", {}).items():
        yield f"{name}.{key}", part
    first = schema.get("prefixItems", [])
    for place, part in enumerate(first):
        yield f"{name}[{place}]", part
    if "items" in schema and not first:
        yield f"{name}[]", schema["items"]


def held(schema, name, value):
    """What a value holds: the slot, the schema, the key and the part, in the order of the schema."""
    for slot, part in parts(schema, name):
        if slot.endswith("[]"):
            yield from ((slot, part, key, value[key]) for key in range(len(value)))
        elif slot.endswith("]"):
            key = int(slot.rpartition("[")[2][:-1])
            yield slot, part, key, value[key]
        elif isinstance(value, dict) and slot.rpartition(".")[2] in value:
            key = slot.rpartition(".")[2]
            yield slot, part, key, value[key]


def ids_in(schema, value, slot="world", keys=(), slots=()):
    """The places of ids in a value, in the order in which a reader goes through it."""
    schema = without_null(schema)
    name = name_of(schema, slot)
    if value is None:
        return
    if is_id_at(schema, slot):
        yield IdPlace(FIELDS.get(slot, name), keys, slots)
        return
    for part_slot, part_schema, key, part in held(resolved(schema), name, value):
        yield from ids_in(part_schema, part, part_slot, (*keys, key), (*slots, part_slot))


def ids_of_world(made):
    """The places of ids in the world of an input."""
    return list(ids_in({"$ref": "#/$defs/HirDatabase"}, made["world"]))


def slots_of_world():
    """The parts of each type of a world that is no id: slots with the types there, where they are ids nothing."""
    waiting, found = [({"$ref": "#/$defs/HirDatabase"}, "world")], {}
    while waiting:
        schema, slot = waiting.pop()
        name = name_of(schema, slot)
        if name not in found:
            below = [(part_slot, without_null(part)) for part_slot, part in parts(resolved(schema), name)]
            found[name] = {part_slot: None if is_id_at(part, part_slot) else name_of(part, part_slot)
                           for part_slot, part in below}
            waiting += [(part, part_slot) for part_slot, part in below if found[name][part_slot] is not None]
    return found


def is_id_at(schema, slot):
    """Whether what stands in a slot is an id."""
    return slot in FIELDS or is_id(name_of(schema, slot))


def slots_with_ids():
    """The slots of a world behind which ids may stand."""
    found = slots_of_world()
    lead = set()
    while True:
        more = {name for name, slots in found.items()
                if name not in lead and any(target is None or target in lead for target in slots.values())}
        if not more:
            break
        lead |= more
    return {slot for slots in found.values() for slot, target in slots.items() if target is None or target in lead}
