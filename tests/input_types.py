"""The types of the input, as the schema has them, with values that fit and values that don't.

A path says where a value stands in another: `.name` goes to a key or into a variant, `[3]` to an item of an
array, and the empty path is the value itself. A misfit is a value with the path in it that a reader has to
name.
"""

from functools import cached_property

# JSON that Python's encoder doesn't write: the text between the bars stands in the input as it is.
MINUS_ZERO = "|-0|"
WITH_EXPONENT = "|1e0|"


class Type:
    """A type: which JSON stands for its values."""

    def least(self):
        """A small value, which leaves out what may be left out."""
        raise NotImplementedError

    def some(self):
        """A value that isn't what stands for a field that is left out."""
        return self.least()

    def good(self):
        """Values that fit."""
        return [self.least()]

    def wrong(self):
        """Values that don't fit, each of which is itself the place that is named."""
        raise NotImplementedError

    def misfits(self):
        """Further misfits, most of them inside of a value."""
        return []

    def deep_misfit(self):
        """A misfit inside of a value, where there can be one."""
        return self.wrong()[-1], ""

    def inside(self):
        """The places in a value: the path, the type there, and what makes a value with this part."""
        return []

    def held(self):
        """The types of the parts of a value."""
        return []

    def parts_of(self, value):
        """The parts that a value has, each with its type."""
        return []

    def traits(self):
        """What a value may show of its type: the variants, the fields, and null where that may stand."""
        return []

    def traits_of(self, value):
        """What a value shows of its type."""
        return []


class Number(Type):
    """A whole number below a limit."""

    def __init__(self, limit):
        self.limit = limit

    def least(self):
        return 0

    def some(self):
        return 1

    def good(self):
        return [0, self.limit - 1]

    def wrong(self):
        others = [None, True, "", "0", [], [0], {}, {"0": 0}]
        return others + [1.0, 0.5, MINUS_ZERO, WITH_EXPONENT, -1, self.limit, 2**64, 10**40]


class Decimal(Type):
    """A whole number that is written as a string of decimal digits."""

    def __init__(self, bits, signed):
        self.low = -(2 ** (bits - 1)) if signed else 0
        self.high = 2 ** (bits - 1) - 1 if signed else 2**bits - 1

    def least(self):
        return "0"

    def good(self):
        return ["0", "7", str(self.low), str(self.high), str(self.low + 1), str(self.high - 1)]

    def wrong(self):
        others = [None, True, 0, 1, 0.5, [], ["0"], {}, "", "a"]
        marks = ["-", "+", "+1", "-0", "--1", " 1", "1 ", "1\n", "1_0", "1.0", "1e3", "0x1", "\uff11", "1\uff11"]
        zeros = ["00", "01", "-01"]
        return others + marks + zeros + [str(self.low - 1), str(self.high + 1), "1" + "0" * 60]


class Bytes(Type):
    """Bytes, as pairs of hexadecimal digits."""

    def least(self):
        return ""

    def good(self):
        return ["", "00", "ff", "0123456789abcdef"]

    def wrong(self):
        others = [None, True, 0, [], [0], {}]
        digits = ["0", "000", "0A", "A0", "FF", "0g", "/0", "0:", "`0", "0x00", "-1", "\u00e9"]
        return others + digits + [" 00", "00 ", "00\n", "0 0"]


class Text(Type):
    """A text."""

    def least(self):
        return ""

    def good(self):
        return ["", "a", 'quotes " and \\', "\u0000\n\u007f", "\u00e9\uffff\U0001f600"]

    def wrong(self):
        return [None, True, 0, 0.5, [], [""], {}]


class Truth(Type):
    """A truth value."""

    def least(self):
        return False

    def some(self):
        return True

    def good(self):
        return [False, True]

    def wrong(self):
        return [None, 0, 1, "", "true", [], [True], {}]


class Version(Type):
    """The one version of the input's form."""

    def __init__(self, number):
        self.number = number

    def least(self):
        return self.number

    def wrong(self):
        number = self.number
        others = [None, True, str(number), [number], {}]
        return others + [float(number), number + 1, number + 2**32, number + 2**64, -number]


class Option(Type):
    """Null, or a value."""

    def __init__(self, value, name):
        self.value = value
        self.name = name

    def least(self):
        return None

    def some(self):
        return self.value.some()

    def good(self):
        return [None, *self.value.good()]

    def wrong(self):
        return [value for value in self.value.wrong() if value is not None]

    def misfits(self):
        return self.value.misfits()

    def deep_misfit(self):
        return self.value.deep_misfit()

    def inside(self):
        return self.value.inside()

    def held(self):
        return [self.value]

    def parts_of(self, value):
        return [] if value is None else [(self.value, value)]

    def traits(self):
        return [f"null at {self.name}"]

    def traits_of(self, value):
        return self.traits() if value is None else []


class Items(Type):
    """A list."""

    def __init__(self, item):
        self.item = item

    def least(self):
        return []

    def some(self):
        return [self.item.least()]

    def good(self):
        least = self.item.least()
        return [[], [least], [least, self.item.some(), least]]

    def wrong(self):
        return [None, True, 0, "", {}, {"0": self.item.least()}]

    def misfits(self):
        least, wrong = self.item.least(), self.item.wrong()[-1]
        deep, path = self.item.deep_misfit()
        yield [wrong, wrong], "[0]"
        yield [least, wrong, least], "[1]"
        yield [deep, wrong], "[0]" + path
        yield [least] * 10 + [wrong], "[10]"

    def deep_misfit(self):
        value, path = self.item.deep_misfit()
        return [value], "[0]" + path

    def inside(self):
        return [("[0]", self.item, lambda part: [part])]

    def held(self):
        return [self.item]

    def parts_of(self, value):
        return [(self.item, part) for part in value]


class Parts(Type):
    """An array with a type for each of its parts."""

    def __init__(self, parts):
        self.parts = parts

    def least(self):
        return [part.least() for part in self.parts]

    def good(self):
        return [self.least(), [part.some() for part in self.parts]]

    def wrong(self):
        least = self.least()
        others = [None, True, 0, "", {}, dict(zip("0123456789", least))]
        return others + [[], least[:-1], [*least, None], [least]]

    def misfits(self):
        wrong = [part.wrong()[-1] for part in self.parts]
        yield wrong, "[0]"
        yield [*wrong, None], ""
        yield wrong[:-1], ""

    def deep_misfit(self):
        value, path = self.parts[0].deep_misfit()
        return [value, *self.least()[1:]], "[0]" + path

    def inside(self):
        for place, part in enumerate(self.parts):
            yield f"[{place}]", part, self.around(place)

    def around(self, place):
        """What makes an array with this part at the place."""
        least = self.least()
        return lambda part: [*least[:place], part, *least[place + 1 :]]

    def held(self):
        return self.parts

    def parts_of(self, value):
        return zip(self.parts, value)


class Map(Type):
    """A map: an array of pairs of a key and a value, whose keys rise strictly. The keys are numbers."""

    def __init__(self, key, value):
        self.key = key
        self.value = value
        self.entry = Parts([key, value])

    def least(self):
        return []

    def some(self):
        return self.with_keys(0, 1)

    def good(self):
        return [self.with_keys(*keys) for keys in ((), (3,), (0, 1), (9, 10, 100), self.key.good())]

    def with_keys(self, *keys):
        """Entries with these keys."""
        return [[key, self.value.least()] for key in keys]

    def wrong(self):
        return [None, True, 0, "", {}, {"0": self.value.least()}]

    def misfits(self):
        wrong_key, wrong_value = self.key.wrong()[-1], self.value.wrong()[-1]
        for keys in ((0, 0), (1, 0), (10, 9), self.key.good()[::-1]):
            yield self.with_keys(*keys), "[1]"
        for keys in ((0, 1, 1), (0, 5, 1), (0, 1, 0), (7, 8, 7, 9)):
            yield self.with_keys(*keys), "[2]"
        yield [[wrong_key, wrong_value]], "[0][0]"
        yield [*self.with_keys(0), [0, wrong_value]], "[1][1]"
        yield [*self.with_keys(0, 0), [wrong_key, wrong_value]], "[1]"
        yield [*self.with_keys(1, 0, 2), *self.with_keys(1)], "[1]"
        yield [*self.with_keys(0, 0), None], "[1]"

    def deep_misfit(self):
        value, path = self.value.deep_misfit()
        return [[0, value]], "[0][1]" + path

    def inside(self):
        return [("[0]", self.entry, lambda part: [part])]

    def held(self):
        return [self.entry]

    def parts_of(self, value):
        return [(self.entry, entry) for entry in value]


class Struct(Type):
    """An object with a key for each field."""

    def __init__(self, schema, read, name):
        self.name = name
        self.schema = schema
        self.read = read
        self.required = schema.get("required", [])

    @cached_property
    def fields(self):
        """The types of the fields, in the order of reading."""
        rows = self.schema["properties"].items()
        return {name: self.read(row, f"{self.name}.{name}") for name, row in rows}

    def least(self):
        return {name: self.fields[name].least() for name in self.required}

    def some(self):
        return {name: field.some() for name, field in self.fields.items()}

    def good(self):
        return [self.least(), {name: field.least() for name, field in self.fields.items()}, self.some()]

    def wrong(self):
        values = [field.least() for field in self.fields.values()]
        return [None, True, 0, "", [], [[]], values]

    def misfits(self):
        yield from self.missing_keys()
        yield from self.unknown_keys()
        yield from self.several_misfits()

    def missing_keys(self):
        """Misfits that lack a key."""
        for name in self.required:
            yield {key: value for key, value in self.some().items() if key != name}, f".{name}"

    def unknown_keys(self):
        """Misfits that have a key which no field has."""
        least = self.least()
        for key in ("no_such_field", "~", "A", "", "0"):
            yield {key: None, **least}, f".{key}"
        for name in self.fields:
            for key in (name.upper(), name[:-1], name + "s"):
                if key not in self.fields:
                    yield {**least, key: self.fields[name].least()}, f".{key}"
        yield {"b": 0, "a": 0, **least, "a\u00e9": 0, "Z": 0, "aa": 0}, ".Z"
        last = list(self.fields)[-1]
        value, path = self.fields[last].deep_misfit()
        yield {"": 0, "A": 0, **least, last: value}, f".{last}" + path

    def several_misfits(self):
        """Misfits at two fields that follow one another, of which the first is named."""
        names = list(self.fields)
        for first, second in zip(names, names[1:]):
            later = {second: self.fields[second].wrong()[-1]}
            value, path = self.fields[first].deep_misfit()
            yield {**later, **self.without(first, second), first: value}, f".{first}" + path
            if second in self.required:
                yield {**self.without(first, second), first: value}, f".{first}" + path
            if first in self.required:
                yield {**later, **self.without(first, second)}, f".{first}"

    def without(self, *names):
        """The least value without these keys."""
        return {key: value for key, value in self.least().items() if key not in names}

    def deep_misfit(self):
        return {**self.some(), "no_such_field": 0}, ".no_such_field"

    def inside(self):
        for name, field in self.fields.items():
            yield f".{name}", field, self.around(name)

    def around(self, name):
        """What makes an object with this value of the field."""
        least = self.least()
        return lambda part: {**least, name: part}

    def held(self):
        return self.fields.values()

    def parts_of(self, value):
        return [(self.fields[name], part) for name, part in value.items()]

    def traits(self):
        return [f"{self.name}.{name}" for name in self.fields]

    def traits_of(self, value):
        return [f"{self.name}.{name}" for name in value]


class Enum(Type):
    """The name of a variant without parts, or an object with the name of another one as its only key."""

    def __init__(self, schema, read, name):
        self.name = name
        self.schema = schema
        self.read = read
        rows = schema.get("oneOf", [schema])
        self.plain = [variant for row in rows for variant in row.get("enum", [])]

    @cached_property
    def payloads(self):
        """What the variants with parts have."""
        rows = self.schema.get("properties", {}).items()
        return {name: self.read(row, f"{self.name}.{name}") for name, row in rows}

    def least(self):
        if self.plain:
            return self.plain[0]
        name, payload = next(iter(self.payloads.items()))
        return {name: payload.least()}

    def some(self):
        for name, payload in self.payloads.items():
            return {name: payload.least()}
        return self.plain[-1]

    def good(self):
        return [*self.plain, *({name: payload.least()} for name, payload in self.payloads.items())]

    def wrong(self):
        others = [None, True, 0, 0.5, "", [], {}, [self.least()]]
        return others + ["NoSuchVariant", {"NoSuchVariant": None}, {"NoSuchVariant": [], "Other": []}]

    def misfits(self):
        for name in self.plain:
            yield from (({name: part}, "") for part in (None, [], {}, name))
            yield from ((other, "") for other in (name.lower(), name + " ", name[:-1]) if other not in self.plain)
        for name, payload in self.payloads.items():
            yield name, ""
            yield {name.lower(): payload.least()}, ""
            yield {name: payload.least(), "NoSuchVariant": None}, ""
        if len(self.payloads) > 1:
            yield {name: payload.least() for name, payload in list(self.payloads.items())[:2]}, ""

    def deep_misfit(self):
        for name, payload in self.payloads.items():
            return {name: payload.wrong()[-1]}, f".{name}"
        return super().deep_misfit()

    def inside(self):
        for name, payload in self.payloads.items():
            yield f".{name}", payload, self.around(name)

    def around(self, name):
        """What makes a value of this variant."""
        return lambda part: {name: part}

    def held(self):
        return self.payloads.values()

    def parts_of(self, value):
        return [] if isinstance(value, str) else [(self.payloads[name], part) for name, part in value.items()]

    def traits(self):
        return [f"{self.name}.{name}" for name in (*self.plain, *self.payloads)]

    def traits_of(self, value):
        return [f"{self.name}.{name}" for name in ([value] if isinstance(value, str) else value)]


class Input:
    """The types of a schema."""

    def __init__(self, schema):
        self.definitions = schema["$defs"]
        self.named = {
            "u32": Number(2**32),
            "u64": Number(2**64),
            "u128": Decimal(128, signed=False),
            "i128": Decimal(128, signed=True),
            "Bytes": Bytes(),
        }
        self.root = self.read(schema, "input")

    def read(self, schema, name):
        """The type that a schema describes."""
        if "$ref" in schema:
            return self.referred(schema, name)
        if "const" in schema:
            return Version(schema["const"])
        rows = schema.get("oneOf", [schema])
        if rows[0] == {"type": "null"}:
            return Option(self.read(rows[1], name), name)
        if "enum" in rows[0] or "maxProperties" in schema:
            return Enum(schema, self.read, name)
        return self.by_kind(schema, name)

    def by_kind(self, schema, name):
        """The type that a schema describes by its kind of JSON."""
        kind = schema["type"]
        if kind == "object":
            return Struct(schema, self.read, name)
        if kind == "array" and "prefixItems" in schema:
            return self.parts(schema, name)
        if kind == "array":
            return Items(self.read(schema["items"], f"{name}[]"))
        return {"boolean": Truth, "string": Text}[kind]()

    def parts(self, schema, name):
        """The type of an array whose parts a schema lists."""
        return Parts([self.read(row, f"{name}[{i}]") for i, row in enumerate(schema["prefixItems"])])

    def referred(self, schema, name):
        """The type that a schema refers to, with what stands beside the reference."""
        target = schema["$ref"].removeprefix("#/$defs/")
        if target == "map":
            entry = self.parts(schema["items"], f"{name}[]")
            return Map(*entry.parts)
        if target == "pair":
            return self.parts(schema, name)
        if target not in self.named:
            self.named[target] = self.read(self.definitions[target], target)
        return self.named[target]
