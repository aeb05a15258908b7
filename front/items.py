"""What the file's items are, from rustc's item tree (`-Zunpretty=hir-tree`).

An item is known by its path as the compiler writes it, without the crate: `m::A`, or `m::{impl#0}::sum` for what
stands in the first implementation of the module `m`.
"""

import re

from debug_text import Node, Span, flat, parse, path_of

HEADER = re.compile(r"(DefId\(.*\)) => OwnerNodes \{$")
NAME_END = re.compile(r"#\d+$")
PRIMITIVE = re.compile(
    r"Path\(Resolved\(None, Path \{ span: [^{}]*, "
    r"res: PrimTy\((?:Uint\((\w+)\)|Int\((\w+)\)|(Bool)|(Char))\), segments: \[PathSegment \{.*\}\] \}\)\)"
)
ADT = re.compile(
    r"Path\(Resolved\(None, Path \{ span: [^{}]*, res: Def\((?:Struct|Enum|Union), (DefId\(0:[^)]*\))\), "
)
REPR = re.compile(r"repr\(([^)]*)\)")
ATTRIBUTES = re.compile(r"(?:#\[[^\]]*\]|\s|//[^\n]*\n)*\Z")
INT_NAME = re.compile(r"\b([iu])(?:8|16|32|64|128|size)\b")
COPY = ("core", "marker::Copy")


class Generic:
    """A generic parameter: its name, and the type of a const parameter."""

    def __init__(self, owner, name, const_ty=None):
        self.owner, self.name, self.const_ty = owner, name, const_ty


class Variant:
    """A variant, or the one of a struct or union: its shape and the names of its fields. `discriminant` is the path of
    the body that gives its number, where one was written; `types` are those of the fields, once they are known."""

    def __init__(self, name, shape, fields, discriminant=None, types=None):
        self.name, self.shape, self.fields, self.discriminant = name, shape, fields, discriminant
        self.types = types if types is not None else ([] if not fields else None)


class Adt:
    """A struct, union or enum. `repr_signed` is None where no integer type is named by `repr`."""

    def __init__(self, path, sort, generics, variants, repr_signed=None):
        self.path, self.sort, self.generics, self.variants = path, sort, generics, variants
        self.repr_signed = repr_signed
        self.is_copy = False

    @property
    def name(self):
        return self.path.rsplit("::", 1)[-1]

    def path_of_variant(self, index):
        """The path as it is written, without modules."""
        return f"{self.name}::{self.variants[index].name}" if self.sort == "enum" else self.name

    def constructor_type(self, index, args):
        """The type of the name of what builds it."""
        variant = f"::{self.variants[index].name}" if self.sort == "enum" else ""
        return ("fndef", "", f"{self.path}{variant}::{{constructor#0}}", args)


class Declared:
    """The generic parameters as they are written: where they stand, with the names of all, lifetimes too."""

    def __init__(self, node):
        self.span, self.where_span = Span(node["span"]), Span(node["where_clause_span"])
        self.names = [_name(one["name"][0]) for one in node["params"] if isinstance(one["name"], Node)]
        self.has_default = any("default: Some(" in flat(one["kind"]) for one in node["params"])


class Item:
    """Any other item. `sort` is "const", "static", "fn", "mod", "impl", "trait" or "other"."""

    def __init__(self, path, sort, name, generics, span, vis, ty=None):
        self.path, self.sort, self.name, self.generics = path, sort, name, generics
        self.span, self.vis, self.ty = span, vis, ty
        self.declared = None
        # Of an implementation of a trait: the type that it is for, where that is a plain one. Of what stands in it:
        # the path of what it implements.
        self.of_trait, self.self_ty, self.implements = False, None, None
        # Of a function: whether it is a `const fn`, and whether it has value parameters.
        self.is_const, self.has_params = False, False

    @property
    def parent(self):
        return self.path.rpartition("::")[0]


def read_items(text, source):
    """All items by their paths, and the structs, unions and enums by theirs."""
    items, adts, copies = {}, {}, set()
    for def_id, lines in _owners(text):
        item, adt, copy = _read_owner(def_id, parse(lines), source)
        if item is not None:
            items[item.path] = item
        if adt is not None:
            adts[adt.path] = adt
        if copy is not None:
            copies.add(copy)
    for path in copies & adts.keys():
        adts[path].is_copy = True
    return items, adts


def _owners(text):
    """The lines of each item: the bodies behind them are left out."""
    lines = text.split("\n")
    at = 0
    while at < len(lines):
        found = HEADER.match(lines[at])
        if not found:
            at += 1
            continue
        start = at + 1
        while not lines[at].startswith("    parents: "):
            at += 1
        yield found.group(1), lines[start:at]


def _read_owner(def_id, node, source):
    """The item, the struct, union or enum, and the path of a type that it says to be `Copy`; each may be None."""
    path = path_of(def_id)[1]
    held = node["node"]
    if isinstance(held, str) or held.name not in ("Item", "ImplItem", "TraitItem"):
        return None, None, None
    held = held[0]
    kind = held["kind"]
    name = kind if isinstance(kind, str) else kind.name
    span = Span(held["span"])
    vis = Span(held["vis_span"]) if held.get("vis_span") else None
    if name in ("Struct", "Union", "Enum"):
        item = Item(path, "type", _name(kind[0]), _generics(path, kind[1]), span, vis)
        item.declared = Declared(kind[1])
        return item, _adt(path, name.lower(), item.generics, kind[2], span, source), None
    if name == "Impl":
        item = Item(path, "impl", "", _generics(path, kind[0]["generics"]), span, vis)
        item.of_trait = not isinstance(kind[0]["of_trait"], str)
        item.self_ty = _plain_type(kind[0]["self_ty"])
        return item, None, _copied(kind[0])
    item = _plain_item(path, held, kind, name, span, vis)
    item.implements = _implemented(held.get("impl_kind"))
    return item, None, None


def _plain_item(path, held, kind, name, span, vis):
    own = held.get("ident")
    if name == "Const":
        at = 0 if own else 1
        generics = held["generics"] if own else kind[1]
        ty = kind[0] if own else kind[2]
        return Item(path, "const", _name(own or kind[0]), _generics(path, generics), span, vis, Span(ty["span"]))
    if name == "Static":
        return Item(path, "static", _name(kind[1]), [], span, vis, Span(kind[2]["span"]))
    if name == "Fn":
        generics = held["generics"] if own else kind["generics"]
        item = Item(path, "fn", _name(own or kind["ident"]), _generics(path, generics), span, vis)
        sig = kind[0] if own else kind["sig"]
        # A later compiler may print more behind the word.
        item.is_const = flat(sig["header"]["constness"]).startswith("Const")
        item.has_params = sig["decl"]["inputs"] != []
        return item
    if name == "Trait":
        # The parts have no names in 1.95, and have them in 1.97.
        parts = kind.items if kind.items is not None else kind.fields.values()
        generics = next(part for part in parts if isinstance(part, Node) and part.name == "Generics")
        return Item(path, "trait", "", [Generic(path, "Self"), *_generics(path, generics)], span, vis)
    sort = {"Mod": "mod"}.get(name, "other")
    return Item(path, sort, path.rpartition("::")[2], [], span, vis)


def _name(ident):
    return NAME_END.sub("", ident).removeprefix("r#")


def _generics(owner, node):
    """The generic parameters that are no lifetimes."""
    made = []
    for param in node["params"]:
        kind = param["kind"]
        kind_name = kind if isinstance(kind, str) else kind.name
        if kind_name == "Lifetime":
            continue
        name = param["name"]
        name = _name(name[0] if isinstance(name, Node) else name)
        made.append(Generic(owner, name, _primitive(kind["ty"]) if kind_name == "Const" else None))
    return made


def _primitive(node):
    """The name of a type that is written as an integer type, `bool` or `char`, or ""."""
    found = PRIMITIVE.fullmatch(flat(node["kind"]))
    return next((part for part in found.groups() if part), "").lower() if found else ""


def _plain_type(node):
    """A type without generic arguments, or None."""
    primitive = _primitive(node)
    if primitive:
        return ("prim", primitive)
    text = flat(node["kind"])
    found = ADT.match(text)
    return ("path", path_of(found.group(1))[1], ()) if found and "args: Some(" not in text else None


def _implemented(kind):
    """The path of the constant or function of a trait that one of an implementation stands for, or None."""
    found = re.search(r"Ok\((DefId\(.*?\))\)", flat(kind)) if kind is not None else None
    return path_of(found.group(1))[1] if found else None


def _adt(path, sort, generics, data, span, source):
    if sort == "enum":
        variants = [_variant(path, one) for one in data["variants"]]
    else:
        shape, fields, types = _fields(data)
        variants = [Variant(path.rsplit("::", 1)[-1], shape, fields, types=types)]
    return Adt(path, sort, generics, variants, _repr_signed(span, source))


def _variant(path, node):
    shape, fields, types = _fields(node["data"])
    written = node["disr_expr"]
    discriminant = None if isinstance(written, str) else f"{path}::{_name(node['ident'])}::{{constant#0}}"
    return Variant(_name(node["ident"]), shape, fields, discriminant, types)


def _fields(data):
    """The shape, the names of the fields, and their types where all are primitive ones; else None."""
    if data.name == "Unit":
        return "Unit", [], []
    fields = data["fields"] if data.name == "Struct" else data[0]
    types = [_primitive(one["ty"]) for one in fields]
    known = [("prim", name) for name in types] if all(types) else None
    return ("Record" if data.name == "Struct" else "Tuple"), [_name(one["ident"]) for one in fields], known


def _repr_signed(span, source):
    """Whether `repr` names a signed integer type. The item tree hasn't its attributes: the source has."""
    if not span.is_written:
        return None
    before = source.before(span.start)
    found = REPR.search(ATTRIBUTES.search(before).group(0))
    named = INT_NAME.search(found.group(1)) if found else None
    return None if named is None else named.group(1) == "i"


def _copied(node):
    """The path of the type that an implementation of `Copy` is for."""
    of_trait = node["of_trait"]
    if isinstance(of_trait, str):
        return None
    trait = flat(of_trait[0]["trait_ref"]["path"]["res"])
    found = re.search(r"DefId\(.*?\]::[^)]*\)", trait)
    if not found or path_of(found.group(0)) != COPY:
        return None
    ty = re.search(r"Def\((?:Struct|Enum|Union), (DefId\([^)]*\))\)", flat(node["self_ty"]["kind"]))
    return path_of(ty.group(1))[1] if ty else None
