"""From bodies and names to the tables of the world: every item gets its number here."""

from library import generic_signature, special_of
from lowered import INT_SUFFIXES, UINT_SUFFIXES
from reach import fn_key
from type_text import INTEGERS, is_const

NAMED = {"bool": "Bool", "char": "Char", "str": "Str", "!": "Never"}
COPY_NAMES = {"bool", "char", "!", "f16", "f32", "f64", "f128", *INTEGERS}


def filled(**fields):
    """A struct with those of the fields that aren't none or empty."""
    return {name: value for name, value in fields.items() if value is not None and value != [] and value is not False}


class Numbering:
    """The tables of a world. A row is made when its number is first asked for."""

    def __init__(self, reach):
        self.reach, self.crate = reach, reach.crate
        self.tables = {name: [] for name in (
            "crates", "functions", "consts", "statics", "structs", "unions", "enums", "variants", "traits",
            "type_params", "const_params", "bodies", "layouts", "const_impls")}  # fmt: skip
        self.numbers = {}
        self.jsons = {}
        self.krate("")

    def _row(self, table, key):
        """The number of a row that is there already, or None, and the number of the next one."""
        return self.numbers.get((table, key)), len(self.tables[table])

    def _begin(self, table, key):
        """A new row, whose fields are put in later: other rows may need its number first."""
        number = len(self.tables[table])
        self.numbers[table, key] = number
        self.tables[table].append(None)
        return number

    def krate(self, name):
        known, number = self._row("crates", name)
        if known is None:
            self._begin("crates", name)
            self.tables["crates"][number] = {"pointer_bytes": 8}
        return number if known is None else known

    # Definitions.

    def definition(self, key):
        """The id of a definition, as `{"ConstId": 0}`."""
        if key[0] == "const":
            return {"ConstId": self.const(key)}
        if key[0] == "static":
            return {"StaticId": self.static(key)}
        return {"FunctionId": self.function(key)}

    def const(self, key):
        known, _ = self._row("consts", key)
        if known is not None:
            return known
        number = self._begin("consts", key)
        path = key[1]
        owner = self.crate.generics(path)
        foreign = path in self.crate.foreign_constants
        self.tables["consts"][number] = filled(
            name=path.rsplit("::", 1)[-1],
            krate=self.krate("core" if foreign else ""),
            generics=[self.generic(one) for one in owner],
            ty=self.ty(self.crate.root_type(path), owner),
            body=None if self.reach.body(key) is None else self.body(key, owner),
        )
        if not foreign and self.crate.is_of_trait(path):
            self._const_impls(number, path)
        return number

    def _const_impls(self, number, path):
        """A row for each type that has an own value of a constant of a trait."""
        for ty, target in self.crate.implementations(path):
            row = {"konst": number, "args": [{"Ty": self.ty(ty, [])}], "target": self.const(("const", target))}
            self.tables["const_impls"].append(row)

    def static(self, key):
        known, _ = self._row("statics", key)
        if known is not None:
            return known
        number = self._begin("statics", key)
        path = key[1]
        self.tables["statics"][number] = filled(
            name=path.rsplit("::", 1)[-1], krate=0, ty=self.ty(self.crate.root_type(path), []), body=self.body(key, [])
        )
        return number

    def function(self, key):
        known, _ = self._row("functions", key)
        if known is not None:
            return known
        number = self._begin("functions", key)
        _, krate, path, _ = key
        owner = self._library_generics(path) if krate else self.crate.generics(path)
        params, ret = self.reach.signature(key)
        bare = self.reach.body(key) is None
        row = filled(
            name=path.rsplit("::", 1)[-1],
            krate=self.krate(krate),
            generics=[self.generic(one) for one in owner],
            sig=filled(params=[self.ty(one, owner) for one in params], ret=self.ty(ret, owner)),
            special=special_of(path) if bare else None,
            body=None if bare else self.body(key, owner),
        )
        self.tables["functions"][number] = row
        return number

    def _library_generics(self, path):
        return [LibraryGeneric(path)] if generic_signature(path) is not None else []

    def generic(self, one):
        """The id of a generic parameter."""
        table = "type_params" if one.const_ty is None else "const_params"
        known, _ = self._row(table, (one.owner, one.name))
        if known is None:
            known = self._begin(table, (one.owner, one.name))
            self.tables[table][known] = (
                one.name if one.const_ty is None else {"name": one.name, "ty": self.ty(("prim", one.const_ty), [])}
            )
        return {"TypeParamId" if table == "type_params" else "ConstParamId": known}

    # Structs, unions, enums.

    def adt(self, path):
        """The id of a struct, union or enum, as `{"StructId": 0}`."""
        adt = self.crate.adt(path)
        table = f"{adt.sort}s"
        known, _ = self._row(table, path)
        word = f"{adt.sort.capitalize()}Id"
        if known is None:
            known = self._begin(table, path)
            self.tables[table][known] = self._enum(adt, known) if adt.sort == "enum" else self._struct(adt)
        return {word: known}

    def _struct(self, adt):
        variant = adt.variants[0]
        return filled(name=adt.name, fields=self._fields(adt, variant), shape=variant.shape)

    def _fields(self, adt, variant):
        return [
            {"name": name, "ty": self.ty(ty, adt.generics)} for name, ty in zip(variant.fields, variant.types)
        ]

    def _enum(self, adt, number):
        ids = [self._begin("variants", (adt.path, index)) for index in range(len(adt.variants))]
        for index, variant in enumerate(adt.variants):
            written = variant.discriminant
            self.tables["variants"][ids[index]] = filled(
                name=variant.name,
                krate=self.krate("core" if adt.path.startswith("std::") else ""),
                parent=number,
                index=index,
                fields=self._fields(adt, variant),
                shape=variant.shape,
                body=None if written is None else self.body(("discriminant", written), adt.generics),
            )
        row = filled(name=adt.name, variants=ids)
        if adt.repr_signed is not None:
            row["repr_signed"] = adt.repr_signed
        return row

    def variant(self, path, index):
        """The id of what has fields, as `{"StructId": 0}`."""
        made = self.adt(path)
        if "EnumId" in made:
            return {"EnumVariantId": self.numbers["variants", (path, index)]}
        return made

    # Types.

    def ty(self, ty, owner):
        """A type as JSON. `owner` are the generic parameters of what it stands in."""
        key = (ty, tuple((one.owner, one.name) for one in owner))
        if key not in self.jsons:
            self.jsons[key] = self._ty(ty, owner)
        return self.jsons[key]

    def _ty(self, ty, owner):
        sort = ty[0]
        if sort == "prim":
            return self._prim(ty[1])
        if sort == "tuple":
            return {"Tuple": [self.ty(part, owner) for part in ty[1]]}
        if sort == "array":
            return {"Array": [self.ty(ty[1], owner), self.constant(ty[2], owner)]}
        if sort == "slice":
            return {"Slice": self.ty(ty[1], owner)}
        if sort in ("ref", "raw"):
            return {"Ref" if sort == "ref" else "RawPtr": [self.ty(ty[1], owner), "Mut" if ty[2] else "Not"]}
        if sort == "path":
            return {"Adt": [self.adt(ty[1]), self.args(ty[2], owner)]}
        if sort == "fndef":
            return self._fn_def(ty, owner)
        if sort == "fnptr":
            return {"FnPtr": [[self.ty(part, owner) for part in ty[1]], self.ty(ty[2], owner)]}
        number, index = self._param(ty[1], owner)
        return {"Param": {"id": number["TypeParamId"], "index": index}}

    def _prim(self, name):
        if name in NAMED:
            return NAMED[name]
        if name in INT_SUFFIXES:
            return {"Int": INT_SUFFIXES[name]}
        return {"Uint": UINT_SUFFIXES[name]} if name in UINT_SUFFIXES else {"Float": name.upper()}

    def _fn_def(self, ty, owner):
        _, krate, path, args = ty
        built = self.crate.constructed(krate, path)
        if built is not None:
            return {"FnDef": [self.variant(built[0].path, built[1]), self.args(args, owner)]}
        key = fn_key(krate, path, args)
        return {"FnDef": [{"FunctionId": self.function(key)}, [] if key[3] else self.args(args, owner)]}

    def _param(self, name, owner):
        for index, one in enumerate(owner):
            if one.name == name:
                return self.generic(one), index
        raise KeyError(f"no generic parameter {name}")

    def args(self, args, owner):
        """Generic arguments."""
        return [self._arg(one, owner) for one in args]

    def _arg(self, one, owner):
        if is_const(one) or (one[0] == "param" and any(g.name == one[1] and g.const_ty is not None for g in owner)):
            return {"Konst": self.constant(one, owner)}
        return {"Ty": self.ty(one, owner)}

    def constant(self, const, owner):
        """A constant in a type: the compiler has evaluated it, or it is a parameter."""
        if const[0] == "param":
            number, index = self._param(const[1], owner)
            return {"Param": {"id": number["ConstParamId"], "index": index}}
        _, text, name = const
        if name == "bool":
            memory = "01" if text == "true" else "00"
        elif name == "char":
            memory = ord(text).to_bytes(4, "little").hex()
        else:
            size = INTEGERS[name]
            memory = (int(text) % (1 << 8 * size)).to_bytes(size, "little").hex()
        return {"Value": {"ty": self._prim(name), "memory": memory, "memory_map": "Empty"}}

    # Bodies.

    def body(self, key, owner):
        """The number of the body of a definition, whose generic parameters are `owner`."""
        known, _ = self._row("bodies", key)
        if known is not None:
            return known
        number = self._begin("bodies", key)
        self.tables["bodies"][number] = self._body(self.reach.body(key), owner)
        return number

    def _body(self, body, owner):
        nodes = filled(
            exprs=body.exprs, pats=body.pats, bindings=body.bindings, labels=body.labels, params=body.params,
            self_param=body.self_param, body_expr=body.root,
        )  # fmt: skip
        return {"body": nodes, "infer": self._found(body, owner)}

    def _found(self, body, owner):
        ty = lambda one: self.ty(one, owner)  # noqa: E731
        steps = {
            at: [{"kind": kind, "target": ty(target)} for kind, target in one] for at, one in body.adjustments.items()
        }
        copied = dict.fromkeys(one for one in body.types() if self.is_copy(one))
        return filled(
            expr_types=[ty(one) for one in body.expr_types],
            pat_types=[ty(one) for one in body.pat_types],
            binding_types=[ty(one) for one in body.binding_types],
            expr_adjustments=_entries(steps),
            pat_adjustments=_entries(body.pat_adjustments),
            value_res=self._map(body.value_res, self._value, owner),
            pat_value_res=self._map(body.pat_value_res, self._value, owner),
            assoc_res=self._map(body.assoc_res, self._assoc, owner),
            pat_assoc_res=self._map(body.pat_assoc_res, self._assoc, owner),
            variant_res=self._map(body.variant_res, self._variant, owner),
            pat_variant_res=self._map(body.pat_variant_res, self._variant, owner),
            field_res=self._field_res(body),
            method_res=self._map(body.method_res, self._method, owner),
            binding_modes=_entries(body.binding_modes),
            coercion_casts=sorted(body.coercion_casts),
            diverging=sorted(body.diverging),
            copy_types=[ty(one) for one in copied],
        )

    def _map(self, table, made, owner):
        return [[at, made(name, owner)] for at, name in sorted(table.items())]

    def _value(self, name, owner):
        if name[0] == "local":
            return {"LocalBinding": name[1]}
        if name[0] == "variant":
            return self.variant(name[1], name[2])
        if name[0] == "self":
            return "ImplSelf"
        if name[0] == "param":
            return {"GenericParam": self._param(name[1], owner)[0]["ConstParamId"]}
        return self._candidate(name)

    def _candidate(self, name):
        key = fn_key(*name[1:]) if name[0] == "fn" else name[:2]
        return self.definition(key)

    def _assoc(self, name, owner):
        args = () if name[0] == "fn" and fn_key(*name[1:])[3] else name[-1]
        return filled(**{"def": self._candidate(name)}, args=self.args(args, owner))

    def _variant(self, name, owner):
        return self.variant(name[1], name[2])

    def _method(self, name, owner):
        made = self._assoc(name, owner)
        return filled(function=made["def"]["FunctionId"], args=made.get("args"))

    def _field_res(self, body):
        tuples = {}
        made = []
        for at, field in sorted(body.field_res.items()):
            if field[0] == "tuple":
                number = tuples.setdefault(field[1], len(tuples))
                made.append([at, {"Right": {"tuple": number, "index": field[2]}}])
            else:
                parent = self.variant(field[1], field[2])
                made.append([at, {"Left": {"parent": parent, "local_id": field[3]}}])
        return made

    def is_copy(self, ty):
        """Whether a type is `Copy`: one of this crate's generic types is where its arguments are, as a derived
        implementation has it."""
        sort = ty[0]
        if sort == "prim":
            return ty[1] in COPY_NAMES
        if sort == "tuple":
            return all(map(self.is_copy, ty[1]))
        if sort == "array":
            return self.is_copy(ty[1])
        if sort == "ref":
            return not ty[2]
        if sort == "path":
            adt = self.crate.adt(ty[1])
            return adt is not None and adt.is_copy and all(self.is_copy(one) for one in ty[2] if not is_const(one))
        return sort in ("raw", "fndef", "fnptr")


class LibraryGeneric:
    """The type parameter of a special function."""

    def __init__(self, path):
        self.owner, self.name, self.const_ty = path, "T", None


def _entries(table):
    return [[at, value] for at, value in sorted(table.items())]
