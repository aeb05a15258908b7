"""The layouts of types that have parts, tuples, arrays and structs, as rustc 1.95 chooses them. `compare_rust.py` compares those of the types
that cases name.

The last part of a tuple stays the last one, and that of a struct doesn't. Of the others those with a greater alignment, or whose size is a multiple of a greater power
of two, come first, and of these such whose bytes leave more values free, as `char` and `bool` do. Where the bytes of a struct that leave values free lie neither at its
front nor at its back, such parts may go as far back as they can instead.
"""

from dataclasses import dataclass

from worlds import BOOL, CHAR, layout

# How many values the bytes of a type leave free.
FREE = {BOOL: 2**8 - 2, CHAR: 2**32 - 0x110000}


@dataclass
class Placed:
    """A layout, with how many values its best part leaves free, where that part lies, and how many bytes it has."""

    layout: dict
    free: int = 0
    free_at: int = 0
    free_size: int = 0

    def free_behind(self):
        """How many bytes lie behind those of the best part."""
        return self.layout["size"] - self.free_at - self.free_size

    def inside(self):
        """How far the best part is away from the nearer end."""
        return min(self.free_at, self.free_behind())


def twos(number):
    """How many times 2 is a factor of a number."""
    return (number & -number).bit_length() - 1


def in_order(parts, last, is_late):
    """The numbers of parts, in the order in which they lie, where so many stay the last ones. Those that leave values free lie as far back as they
    can, or else as far in front."""
    moved = parts[: len(parts) - last]
    most = max((twos(part.layout["align"]) for part in moved), default=0)
    most_free = max((part.free for part in moved), default=0)

    def group(part):
        found = twos(max(part.layout["align"], part.layout["size"]))
        if not most_free:
            return found
        if not is_late:
            return min(most, found)
        return twos(part.layout["align"]) if part.free == most_free else found

    def rank(number):
        part = moved[number]
        if is_late:
            return -group(part), part.free, -part.free_behind() if part.free else 0
        return -group(part), -part.free, part.free_at

    return [*sorted(range(len(moved)), key=rank), *range(len(moved), len(parts))]


def rounded(number, align):
    """The least multiple of an alignment that isn't below a number."""
    return -(-number // align) * align


def of_tuple(parts, last=1, is_late=False):
    """The layout of a tuple of these parts."""
    align, end, offsets, best = max((part.layout["align"] for part in parts), default=1), 0, {}, Placed({})
    for number in in_order(parts, last, is_late):
        part = parts[number]
        offsets[number] = rounded(end, part.layout["align"])
        end = offsets[number] + part.layout["size"]
        if part.free > best.free or (is_late and part.free == best.free > 0):
            best = Placed({}, part.free, offsets[number] + part.free_at, part.free_size)
    placed = [offsets[number] for number in range(len(parts))]
    return Placed(layout(rounded(end, align), align, placed), best.free, best.free_at, best.free_size)


def of_struct(parts):
    """The layout of a struct of these parts."""
    early = of_tuple(parts, 0)
    if len(parts) < 2 or not early.free or not early.free_at or not early.free_behind():
        return early
    late = of_tuple(parts, 0, True)
    return late if early.inside() > late.inside() else early


def of_array(element, count):
    """The layout of an array of so many elements."""
    found = layout(count * element.layout["size"], element.layout["align"])
    return Placed(found, element.free, element.free_at, element.free_size) if count else Placed(found)


def of_row(ty, found):
    """The layout of a type without parts."""
    free = FREE.get(ty, 0) if isinstance(ty, str) else 0
    return Placed(found, free, 0, found["size"] if free else 0)


class Layouts:
    """The layouts of types: those of the rows that are given, and of types that have parts. The types of the fields of structs stand
    by their names."""

    def __init__(self, rows, structs):
        self.structs = structs
        self.known = [(ty, of_row(ty, found)) for ty, found in rows]
        self.given = len(self.known)

    def placed(self, ty):
        """The layout of a type, which is noted behind those of its parts."""
        found = next((found for known, found in self.known if known == ty), None)
        if found is None:
            found = self.of_parts(ty)
            self.known.append((ty, found))
        return found

    def of_parts(self, ty):
        if "Tuple" in ty:
            return of_tuple([self.placed(part) for part in ty["Tuple"]])
        if "Adt" in ty:
            return of_struct([self.placed(part) for part in self.structs[ty["Adt"][0]["StructId"]]])
        element, count = ty["Array"]
        return of_array(self.placed(element), int.from_bytes(bytes.fromhex(count["Value"]["memory"]), "little"))

    def rows(self):
        """The rows of types that have parts, each behind those of its parts."""
        return [[ty, found.layout] for ty, found in self.known[self.given :]]


def has_parts(ty):
    """Whether a type is one of structs, of tuples or of arrays, but for `()`."""
    return isinstance(ty, dict) and ("Array" in ty or "Adt" in ty or bool(ty.get("Tuple")))


def rows_with_parts(types, rows, structs=None):
    """The rows of those of the types that have parts, and of their parts, over rows of types without. The types of the fields of structs
    stand by their names."""
    found = Layouts(rows, structs or {})
    for ty in types:
        if has_parts(ty):
            found.placed(ty)
    return found.rows()
