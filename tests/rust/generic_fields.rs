// Fields of structs with generic arguments: read and written, of types that hold no parameter and that are one, nested, in arrays and tuples, in functions
// and loops, with padding and with parts of no bytes.

struct One<T>(T);
#[derive(Clone, Copy)]
struct Two<T>(T, T);
#[derive(Clone, Copy)]
struct Pair<A, B> { first: A, second: B }
struct Span<T> { start: T, end: T, marked: bool }
struct Mixed<T> { small: u8, value: T, large: u64, last: u16 }
struct Buffer<T, const N: usize> { items: T, used: usize }
struct Three<A, B, C> { a: A, b: B, c: C }
struct Plain { x: u16, y: u16 }
struct Wraps { inner: Pair<u8, u32>, after: u16 }
struct Held<T> { inner: Plain, value: T }
#[repr(C)]
struct Laid<A, B> { first: A, second: B }
#[repr(C, packed)]
struct Tight<A, B> { first: A, second: B }

// Each sort of field, read.
const ONE: u8 = One(7u8).0;
const ONE_CHAR: char = One('x').0;
const ONE_TRUE: bool = One(true).0;
const ONE_WIDE: u128 = One(1u128 << 100).0;
const ONE_SIGNED: i16 = One(-5i16).0;
const FIRST: u16 = Two(1u16, 2).0;
const SECOND: u16 = Two(1u16, 2).1;
const NAMED_FIRST: u8 = Pair { first: 1u8, second: 2u32 }.first;
const NAMED_SECOND: u32 = Pair { first: 1u8, second: 2u32 }.second;
const NAMED_OTHER_ORDER: u32 = Pair { second: 2u32, first: 1u8 }.second;
const PARAMETER_OF_ANOTHER_PLACE: i64 = Three { a: 1u8, b: -2i64, c: true }.b;
const PARAMETER_AT_THE_END: bool = Three { a: 1u8, b: -2i64, c: true }.c;
const WITHOUT_PARAMETER: bool = Span { start: 1u8, end: 4, marked: true }.marked;
const WITHOUT_PARAMETER_BEFORE: u8 = Mixed { small: 3, value: 5u32, large: 1 << 40, last: 9 }.small;
const WITHOUT_PARAMETER_BEHIND: u64 = Mixed { small: 3, value: 5u32, large: 1 << 40, last: 9 }.large;
const WITHOUT_PARAMETER_LAST: u16 = Mixed { small: 3, value: 5u32, large: 1 << 40, last: 9 }.last;
const BETWEEN: u32 = Mixed { small: 3, value: 5u32, large: 1 << 40, last: 9 }.value;
const BETWEEN_WIDE: u128 = Mixed { small: 3, value: 5u128 << 90, large: 1, last: 9 }.value;
const CONST_PARAMETER: usize = { let b = Buffer::<u8, 4> { items: 6, used: 3 }; b.used };
const CONST_PARAMETER_VALUE: u8 = { let b = Buffer::<u8, 4> { items: 6, used: 3 }; b.items };
const IN_C_ORDER: u32 = Laid { first: 1u8, second: 0x01020304u32 }.second;
const PACKED: u32 = { let t = Tight { first: 1u8, second: 0x01020304u32 }; t.second };
const LARGE_ARGUMENT: u64 = Pair { first: [1u64, 2, 3], second: 4u8 }.first[2];
const TUPLE_ARGUMENT: u16 = Pair { first: (1u8, 2u16), second: 4u8 }.first.1;
const STRUCT_ARGUMENT: u16 = Pair { first: Plain { x: 3, y: 4 }, second: 4u8 }.first.y;
const UNIT_ARGUMENT: u8 = Pair { first: (), second: 4u8 }.second;
const UNIT_READ: () = Pair { first: (), second: 4u8 }.first;
const NO_ELEMENTS: u8 = Pair { first: [0u64; 0], second: 4u8 }.second;

// Nested.
const NESTED: i16 = Pair { first: Pair { first: 3u8, second: -4i16 }, second: true }.first.second;
const NESTED_TWICE: u8 = Two(Two(Two(1u8, 2), Two(3, 4)), Two(Two(5, 6), Two(7, 8))).1.0.1;
const NESTED_SELF: u8 = One(One(One(9u8))).0.0.0;
const INSIDE_PLAIN: u32 = { let w = Wraps { inner: Pair { first: 1, second: 2 }, after: 3 }; w.inner.second };
const INSIDE_PLAIN_BEHIND: u16 = { let w = Wraps { inner: Pair { first: 1, second: 2 }, after: 3 }; w.after };
const PLAIN_INSIDE: u16 = { let h = Held { inner: Plain { x: 1, y: 2 }, value: 7u64 }; h.inner.y };
const PLAIN_BESIDE: u64 = { let h = Held { inner: Plain { x: 1, y: 2 }, value: 7u64 }; h.value };
const SWAPPED_ARGUMENTS: u8 = { let p = Pair { first: Pair { first: 1u8, second: 2u32 }, second: Pair { first: 3u32, second: 4u8 } }; p.second.second };
const TUPLE_OF: u8 = (Two(1u8, 2), Two(3u8, 4)).1.0;
const ARRAY_OF: u8 = [Two(1u8, 2), Two(3, 4), Two(5, 6)][2].0;
const ARRAY_INSIDE: i32 = { let p = Pair { first: [Two(1i32, 2), Two(3, 4)], second: 1usize }; p.first[p.second].1 };

// From places, calls and blocks.
const OF_A_NAME: u8 = { let p = Pair { first: 1u8, second: 2u8 }; p.first + p.second };
const OF_A_BLOCK: u8 = { let n = 4; Two(n, n + 1) }.1;
const OF_AN_IF: u8 = (if true { Two(1u8, 2) } else { Two(3, 4) }).1;
const OF_A_CALL: u8 = two(4).1;
const OF_A_NESTED_CALL: u8 = sum(two(4));
const OF_A_LOOP: u8 = (loop { break Two(1u8, 2) }).1;
const COPIED: u8 = { let p = Two(1u8, 2); let q = p; q.0 + p.1 };
const PARTS: (u8, u32) = { let p = Pair { first: 1u8, second: 2u32 }; (p.first, p.second) };
const WHOLE: Two<u16> = { let p = Pair { first: Two(1u16, 2), second: false }; p.first };
const WHOLE_STRUCT: Pair<u8, u8> = Three { a: 1u64, b: Pair { first: 2u8, second: 3u8 }, c: () }.b;
const fn two(n: u8) -> Two<u8> { Two(n, n * 2) }
const fn sum(t: Two<u8>) -> u8 { t.0 + t.1 }
const fn turned(p: Pair<u8, u32>) -> Pair<u32, u8> { Pair { first: p.second, second: p.first } }
const TURNED: u32 = turned(Pair { first: 1, second: 2 }).first;
const TURNED_TWICE: u8 = { let p = turned(Pair { first: 1, second: 2 }); turned(Pair { first: p.second, second: p.first }).second };

// Written.
const WRITTEN: u8 = { let mut p = Pair { first: 1u8, second: 2u32 }; p.first = 9; p.first };
const WRITTEN_OTHER: u32 = { let mut p = Pair { first: 1u8, second: 2u32 }; p.first = 9; p.second };
const WRITTEN_BOTH: u64 = { let mut p = Two(1u64, 2); p.0 = 5; p.1 = p.0 * 2; p.0 * 100 + p.1 };
const WRITTEN_NESTED: u8 = { let mut p = Two(Two(1u8, 2), Two(3, 4)); p.1.0 = 7; p.0.0 * 64 + p.0.1 * 16 + p.1.0 * 2 + p.1.1 };
const WRITTEN_WHOLE: u8 = { let mut p = Two(Two(1u8, 2), Two(3, 4)); p.0 = p.1; p.0.1 };
const WRITTEN_PLAIN: bool = { let mut s = Span { start: 1u8, end: 2, marked: false }; s.marked = true; s.marked };
const WRITTEN_IN_ARRAY: i32 = { let mut a = [Two(1i32, 2), Two(3, 4)]; a[1].0 = 50; a[0].0 + a[1].0 + a[1].1 };
const ADDED: u8 = { let mut p = Pair { first: 1u8, second: 2u8 }; p.first += 5; p.second *= p.first; p.second };
const ADDED_IN_ARRAY: i32 = { let mut a = [Two(1i32, 2), Two(3, 4)]; let i = 1; a[i].1 += 10; a[i].1 -= a[0].0; a[i].1 };
const SHIFTED: u32 = { let mut p = Pair { first: 3u32, second: 4u8 }; p.first <<= p.second; p.first };
const WRITTEN_LATE: u8 = { let mut p = Two(1u8, 2); let q = Two(p.0, { p.0 = 7; p.0 }); q.1 };
const SWAP: Two<u8> = { let mut p = Two(1u8, 2); let t = p.0; p.0 = p.1; p.1 = t; p };
const LOOPED: u32 = { let mut s = Span { start: 0u32, end: 10, marked: false }; let mut sum = 0; while s.start < s.end { sum += s.start; s.start += 1; } sum };
const LOOPED_IN_ARRAY: u64 = { let mut a = [Pair { first: 0u64, second: 1u8 }; 4]; let mut i = 0; while i < 4 { a[i].first = i as u64 * 3; a[i].second += i as u8; i += 1; } a[3].first * 100 + a[2].second as u64 };
const FIBONACCI: u64 = { let mut p = Two(0u64, 1); let mut n = 0; while n < 50 { let next = p.0 + p.1; p.0 = p.1; p.1 = next; n += 1; } p.0 };

// Panics.
const OVERFLOW: u8 = { let mut p = Two(200u8, 100); p.0 += p.1; p.0 };
const BY_ZERO: i32 = { let p = Pair { first: 1i32, second: 0i32 }; p.first / p.second };
const OUT_OF_BOUNDS: u8 = { let p = Pair { first: [1u8, 2], second: 2usize }; p.first[p.second] };

// Fields whose type would have to be made, and what isn't built behind them.
struct Many<T, const N: usize> { items: [T; N], used: usize }
struct Inner<T> { pair: Pair<T, u8>, one: (T, T) }
const MADE_ARRAY: u8 = Many { items: [1u8, 2, 3], used: 2 }.items[1];
const MADE_ARRAY_BESIDE: usize = Many { items: [1u8, 2, 3], used: 2 }.used;
const MADE_STRUCT: u8 = Inner { pair: Pair { first: 1u8, second: 2 }, one: (3, 4) }.pair.first;
const MADE_TUPLE: u8 = Inner { pair: Pair { first: 1u8, second: 2 }, one: (3, 4) }.one.1;
