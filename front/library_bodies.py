"""Bodies for methods of integers, which are Rust's own library's and have no text here.

They are written anew, in the plainest way, and put behind the last line of a file that uses their names, in a module
for each integer type. What they give and where they panic is what the library says of them.
"""

import re

from type_text import INTEGERS

MODULE = "__front_library"

# `$T` is the type, `$U` the unsigned one of its width, `$BITS` the width, `$MIN` and `$MAX` the ends of its range.
ANY = {
    "pow": "(base: $T, exp: u32) -> $T { let mut n = exp; let mut b = base; let mut r = 1;"
    " if n == 0 { return 1; } loop { if n & 1 == 1 { r *= b; if n == 1 { return r; } } n /= 2; b *= b; } }",
    "rotate_left": "(a: $T, by: u32) -> $T { let x = a as $U; let n = by % $BITS;"
    " if n == 0 { a } else { (x << n | x >> ($BITS - n)) as $T } }",
    "rotate_right": "(a: $T, by: u32) -> $T { let x = a as $U; let n = by % $BITS;"
    " if n == 0 { a } else { (x >> n | x << ($BITS - n)) as $T } }",
    "count_ones": "(a: $T) -> u32 { let mut x = a as $U; let mut c = 0; while x != 0 { x &= x - 1; c += 1; } c }",
    "count_zeros": "(a: $T) -> u32 { let mut x = !(a as $U); let mut c = 0; while x != 0 { x &= x - 1; c += 1; } c }",
    "leading_zeros": "(a: $T) -> u32 { let mut x = a as $U; let mut c = $BITS; while x != 0 { x >>= 1; c -= 1; } c }",
    "trailing_zeros": "(a: $T) -> u32 { let x = a as $U; let mut c = 0;"
    " while c < $BITS && x >> c & 1 == 0 { c += 1; } c }",
    "reverse_bits": "(a: $T) -> $T { let mut x = a as $U; let mut r = 0; let mut c = 0;"
    " while c < $BITS { r = r << 1 | x & 1; x >>= 1; c += 1; } r as $T }",
    "swap_bytes": "(a: $T) -> $T { let x = a as $U; let mut r = 0; let mut c = 0;"
    " while c < $BITS { r |= (x >> c & 0xff) << ($BITS - 8 - c); c += 8; } r as $T }",
    "wrapping_shl": "(a: $T, by: u32) -> $T { a << by % $BITS }",
    "wrapping_shr": "(a: $T, by: u32) -> $T { a >> by % $BITS }",
    "ilog2": "(a: $T) -> u32 { assert!(a > 0, \"argument of integer logarithm must be positive\");"
    " let mut x = a; let mut c = 0; while x > 1 { x /= 2; c += 1; } c }",
    "ilog10": "(a: $T) -> u32 { assert!(a > 0, \"argument of integer logarithm must be positive\");"
    " let mut x = a; let mut c = 0; while x > 9 { x /= 10; c += 1; } c }",
}
UNSIGNED = {
    "wrapping_sub": "(a: $T, b: $T) -> $T { if a >= b { a - b } else { !(b - a) + 1 } }",
    "wrapping_neg": "(a: $T) -> $T { if a == 0 { 0 } else { !a + 1 } }",
    "wrapping_mul": "(a: $T, b: $T) -> $T { let half = $BITS / 2; let m = $MAX >> half;"
    " let low = (a & m) * (b & m); let cross = ((a >> half) * (b & m) & m) + ((a & m) * (b >> half) & m) & m;"
    " ((low >> half) + cross & m) << half | low & m }",
    "checked_add": "(a: $T, b: $T) -> Option<$T> { if a > $MAX - b { None } else { Some(a + b) } }",
    "checked_sub": "(a: $T, b: $T) -> Option<$T> { if a < b { None } else { Some(a - b) } }",
    "checked_mul": "(a: $T, b: $T) -> Option<$T> { if b != 0 && a > $MAX / b { None } else { Some(a * b) } }",
    "checked_div": "(a: $T, b: $T) -> Option<$T> { if b == 0 { None } else { Some(a / b) } }",
    "checked_rem": "(a: $T, b: $T) -> Option<$T> { if b == 0 { None } else { Some(a % b) } }",
    "saturating_mul": "(a: $T, b: $T) -> $T { if b != 0 && a > $MAX / b { $MAX } else { a * b } }",
    "abs_diff": "(a: $T, b: $T) -> $T { if a < b { b - a } else { a - b } }",
    "is_power_of_two": "(a: $T) -> bool { a != 0 && a & (a - 1) == 0 }",
    "next_power_of_two": "(a: $T) -> $T { let mut p = 1; while p < a { p *= 2; } p }",
    "div_ceil": "(a: $T, b: $T) -> $T { let q = a / b; if a % b > 0 { q + 1 } else { q } }",
    "isqrt": "(a: $T) -> $T { let mut rest = a; let mut r = 0; let mut bit = 1 << ($BITS - 2);"
    " while bit != 0 { if rest >= r + bit { rest -= r + bit; r = (r >> 1) + bit; } else { r >>= 1; } bit >>= 2; } r }",
}
SIGNED = {
    "wrapping_sub": "(a: $T, b: $T) -> $T { super::$U::wrapping_sub(a as $U, b as $U) as $T }",
    "wrapping_neg": "(a: $T) -> $T { super::$U::wrapping_neg(a as $U) as $T }",
    "wrapping_mul": "(a: $T, b: $T) -> $T { super::$U::wrapping_mul(a as $U, b as $U) as $T }",
    "checked_add": "(a: $T, b: $T) -> Option<$T>"
    " { if b > 0 && a > $MAX - b || b < 0 && a < $MIN - b { None } else { Some(a + b) } }",
    "checked_sub": "(a: $T, b: $T) -> Option<$T>"
    " { if b < 0 && a > $MAX + b || b > 0 && a < $MIN + b { None } else { Some(a - b) } }",
    "checked_div": "(a: $T, b: $T) -> Option<$T> { if b == 0 || b == -1 && a == $MIN { None } else { Some(a / b) } }",
    "checked_rem": "(a: $T, b: $T) -> Option<$T> { if b == 0 || b == -1 && a == $MIN { None } else { Some(a % b) } }",
    "abs": "(a: $T) -> $T { if a < 0 { 0 - a } else { a } }",
    "unsigned_abs": "(a: $T) -> $U { if a < 0 { super::$U::wrapping_neg(a as $U) } else { a as $U } }",
    "signum": "(a: $T) -> $T { if a > 0 { 1 } else if a < 0 { -1 } else { 0 } }",
    "is_negative": "(a: $T) -> bool { a < 0 }",
    "is_positive": "(a: $T) -> bool { a > 0 }",
    "div_euclid": "(a: $T, b: $T) -> $T { let q = a / b;"
    " if a % b < 0 { if b > 0 { q - 1 } else { q + 1 } } else { q } }",
    "rem_euclid": "(a: $T, b: $T) -> $T { let r = a % b; if r < 0 { if b < 0 { r - b } else { r + b } } else { r } }",
}
NAMES = sorted({*ANY, *UNSIGNED, *SIGNED})
USED = re.compile(r"\b(?:" + "|".join(NAMES) + r")\b")
METHOD = re.compile(r"num::\{impl#\d+\}::(\w+)$")


def text_for(source):
    """A line with the bodies of the methods whose names a source has, or None where it has none."""
    used = set(USED.findall(source))
    if not used:
        return None
    modules = " ".join(f"pub mod {ty} {{ {' '.join(_functions(ty, used))} }}" for ty in INTEGERS)
    return f"#[allow(warnings)] mod {MODULE} {{ {modules} }}"


def _functions(ty, used):
    own = {**ANY, **(SIGNED if ty.startswith("i") else UNSIGNED)}
    needed = used | {"wrapping_neg"} if "unsigned_abs" in used else used
    for name in sorted(needed & own.keys()):
        yield f"pub const fn {name}{_filled(own[name], ty)}"


def _filled(text, ty):
    """A text with the names of a type put in."""
    bits = 8 * INTEGERS[ty]
    low, high = (-(1 << bits - 1), (1 << bits - 1) - 1) if ty.startswith("i") else (0, (1 << bits) - 1)
    named = {"$T": ty, "$U": "u" + ty[1:], "$BITS": str(bits), "$MIN": f"({low})", "$MAX": f"({high} as {ty})"}
    for name, value in named.items():
        text = text.replace(name, value)
    return text


def body_path(path, params):
    """The path of the body of a method of the library, which takes these types, or None where it is none of integers."""
    found = METHOD.match(path)
    if not found or not params or params[0][0] != "prim":
        return None
    return f"{MODULE}::{params[0][1]}::{found.group(1)}"
