// Constructors of tuple structs: `S(a, b)` with fields of all sorts, nested, generic, with padding, in functions, methods, arrays, tuples and loops. Structs with
// bytes that belong to no field are compared field by field.

struct Nothing();
struct Byte(u8);
struct Pair(u8, u8);
#[derive(Clone, Copy)]
struct Point(i32, i32);
struct Line(Point, Point);
struct Three(u8, u64, u16);
struct Five(u8, u32, u16, u64, u8);
#[repr(C)]
struct Plain(u8, u32, u16);
#[repr(C, packed)]
struct Tight(u8, u32, u16);
#[repr(align(16))]
struct Wide(u8);
struct Signed(i8, i16, i32, i64, i128, isize);
struct Unsigned(u8, u16, u32, u64, u128, usize);
struct Flags(bool, bool, bool);
struct Marked(u32, bool, u8);
struct Letter(char, u8, char);
struct Parts((u8, u32), [u16; 3], ());
struct Row([Pair; 3]);
struct Named { pair: Pair, count: u16 }
struct Around(Named, Byte);
struct One<T>(T);
struct Two<T>(T, T);
struct Both<A, B>(A, B);
struct Many<T, const N: usize>([T; N], usize);
struct Deep(One<One<u16>>, u16);
struct Counter(u32);
struct Wrapper(u8, u8);
struct Longs(u64, u64);

// Each sort of field.
const NOTHING: Nothing = Nothing();
const BYTE: Byte = Byte(7);
const PAIR: Pair = Pair(1, 2);
const POINT: Point = Point(-1, 1 << 20);
const LINE: Line = Line(Point(1, 2), Point(-3, -4));
const TIGHT: Tight = Tight(1, 0x20304, 0x506);
const FLAGS: Flags = Flags(true, false, 1 < 2);
const LETTER_FIRST: char = Letter('a', 1, '\u{20ac}').0;
const LETTER_LAST: char = Letter('a', 1, '\u{20ac}').2;
const LETTER_BETWEEN: u8 = Letter('a', 1, '\u{20ac}').1;
const SIGNED_I8: i8 = signed(-1).0;
const SIGNED_I16: i16 = signed(-1).1;
const SIGNED_I32: i32 = signed(-1).2;
const SIGNED_I64: i64 = signed(-1).3;
const SIGNED_I128: i128 = signed(-1).4;
const SIGNED_ISIZE: isize = signed(-1).5;
const UNSIGNED_U8: u8 = unsigned(1).0;
const UNSIGNED_U16: u16 = unsigned(1).1;
const UNSIGNED_U32: u32 = unsigned(1).2;
const UNSIGNED_U64: u64 = unsigned(1).3;
const UNSIGNED_U128: u128 = unsigned(1).4;
const UNSIGNED_USIZE: usize = unsigned(1).5;

const fn signed(n: i8) -> Signed { Signed(n, -2, -3, -4, -5, -6) }
const fn unsigned(n: u8) -> Unsigned { Unsigned(n, 2, 3, 4, 5, 6) }

// Padding, and fields in another order than they lie.
const THREE_FIRST: u8 = Three(1, 2, 3).0;
const THREE_SECOND: u64 = Three(1, 2, 3).1;
const THREE_THIRD: u16 = Three(1, 2, 3).2;
const FIVE_ALL: (u8, u8) = { let f = Five(1, 2, 3, 4, 5); (f.0, f.4) };
const FIVE_SUM: u64 = { let f = Five(1, 20, 300, 4000, 5); f.0 as u64 + f.1 as u64 + f.2 as u64 + f.3 + f.4 as u64 };
const PLAIN_FIRST: u8 = Plain(1, 2, 3).0;
const PLAIN_SECOND: u32 = Plain(1, 2, 3).1;
const PLAIN_THIRD: u16 = Plain(1, 2, 3).2;
const TIGHT_SECOND: u32 = Tight(1, 0x20304, 0x506).1;
const WIDE: u8 = Wide(200).0;
const WIDE_TWICE: u8 = { let w = (Wide(200), Wide(55)); w.0.0 + w.1.0 };
const MARKED_NUMBER: u32 = Marked(9, true, 3).0;
const MARKED_FLAG: bool = Marked(9, true, 3).1;
const MARKED_BYTE: u8 = Marked(9, true, 3).2;
const PARTS_TUPLE: u32 = Parts((1, 2), [3, 4, 5], ()).0.1;
const PARTS_ARRAY: u16 = Parts((1, 2), [3, 4, 5], ()).1[2];
const PARTS_UNIT: () = Parts((1, 2), [3, 4, 5], ()).2;

// Nested, and in other values.
const NESTED_FIELD: i32 = Line(Point(1, 2), Point(-3, -4)).1.0;
const NESTED_NAMED: u16 = Around(Named { pair: Pair(1, 2), count: 300 }, Byte(4)).0.count;
const NESTED_NAMED_PAIR: u8 = Around(Named { pair: Pair(1, 2), count: 300 }, Byte(4)).0.pair.1;
const NESTED_NAMED_LAST: u8 = Around(Named { pair: Pair(1, 2), count: 300 }, Byte(4)).1.0;
const IN_ARRAY: [Pair; 3] = [Pair(1, 2), Pair(3, 4), Pair(5, 6)];
const IN_TUPLE: (Pair, Byte, Nothing) = (Pair(1, 2), Byte(3), Nothing());
const REPEATED: [Point; 3] = [Point(1, 2); 3];
const ROW: Row = Row([Pair(1, 2), Pair(3, 4), Pair(5, 6)]);
const ROW_ELEMENT: u8 = Row([Pair(1, 2), Pair(3, 4), Pair(5, 6)]).0[1].1;
const ARRAY_ELEMENT: i32 = { let a = [Point(1, 2), Point(3, 4)]; let i = 1; a[i].0 * 10 + a[i - 1].1 };
const IN_BRACES: Pair = Pair { 1: 6, 0: 5 };
const OF_BASE: u8 = { let p = Pair { 0: 5, ..Pair(1, 2) }; p.0 * 10 + p.1 };

// Generic.
const ONE_U8: One<u8> = One(3);
const ONE_CHAR: One<char> = One('x');
const TWO_U16: Two<u16> = Two(1, 2);
const TWO_WRITTEN: Two<i64> = Two::<i64>(-1, -2);
const TWO_PAIRS: Two<Pair> = Two(Pair(1, 2), Pair(3, 4));
const TWO_TWOS: Two<Two<u8>> = Two(Two(1, 2), Two(3, 4));
const TWO_ARRAYS: Two<[u8; 2]> = Two([1, 2], [3, 4]);
const BOTH: Both<u32, u32> = Both(1, 2);
const BOTH_BYTES: Both<u8, Both<u8, bool>> = Both(1, Both(2, true));
const MANY: Many<usize, 2> = Many([1, 2], 3);
const DEEP: Deep = Deep(One(One(1)), 2);
const TWO_IN_ARRAY: [Two<u8>; 2] = [Two(1, 2), Two(3, 4)];
const fn two_made(n: u8) -> Two<u8> { Two(n, n + 1) }
const TWO_MADE: Two<u8> = two_made(9);
// A field of a struct with generic arguments is read here.
const TWO_FIELD: u8 = Two(4u8, 5).1;
const BOTH_FIELD: u64 = Both(1u8, 2u64).1;

// The order of the arguments.
const ORDER: (u8, u8, u8) = { let mut n = 1; let p = Pair({ n = n * 2; n }, { n = n + 5; n }); (p.0, p.1, n) };
const ORDER_LAID: [u64; 3] = { let mut n = 1; let t = Three({ n *= 3; n }, { n += 1; n as u64 }, { n *= 2; n as u16 }); [t.0 as u64, t.1, t.2 as u64] };
const ORDER_NESTED: [i32; 4] = { let mut n = 1; let l = Line(Point({ n += 1; n }, { n *= 10; n }), Point({ n -= 3; n }, { n *= 2; n })); [l.0.0, l.0.1, l.1.0, l.1.1] };

// Functions and methods.
const fn swapped(p: Pair) -> Pair { Pair(p.1, p.0) }
const fn line(n: i32) -> Line { Line(Point(n, n + 1), Point(n * 2, n * n)) }
const fn length(l: Line) -> i32 { l.1.0 - l.0.0 + l.1.1 - l.0.1 }
const fn early(n: u8) -> Pair { if n > 3 { return Pair(n, 0); } Pair(0, n) }
const fn down(p: Pair) -> Pair { if p.0 == 0 { p } else { down(Pair(p.0 - 1, p.1 + 2)) } }
const fn fields(t: Three) -> u64 { t.0 as u64 + t.1 + t.2 as u64 }
impl Point {
    const fn new(x: i32, y: i32) -> Self { Self(x, y) }
    const fn plus(self, other: Point) -> Point { Point(self.0 + other.0, self.1 + other.1) }
    const fn flipped(self) -> Self { Self(self.1, self.0) }
    const fn product(self) -> i32 { self.0 * self.1 }
}
impl Counter {
    const START: u32 = 5;
    const fn start() -> Counter { Counter(5) }
    const fn next(self) -> Counter { Counter(self.0 * 3 + 1) }
}
impl Wrapper {
    const fn of(p: Pair) -> Wrapper { Wrapper(p.1, p.0) }
    const fn back(self) -> Pair { Pair(self.1, self.0) }
}
const SWAPPED: Pair = swapped(Pair(3, 4));
const SWAPPED_TWICE: Pair = swapped(swapped(Pair(3, 4)));
const MADE_LINE: Line = line(3);
const LENGTH: i32 = length(line(4));
const EARLY: Pair = early(9);
const LATE: Pair = early(2);
const DOWN: Pair = down(Pair(10, 1));
const FIELDS: u64 = fields(Three(200, 1 << 40, 300));
const NEW: Point = Point::new(3, 4);
const PLUS: Point = Point(1, 2).plus(Point(10, 20));
const CHAIN: i32 = Point::new(1, 2).plus(Point(10, 20)).flipped().plus(Point::new(5, 6)).product();
const COUNTED: u32 = Counter::start().next().next().0;
const WRAPPED: Pair = Wrapper::of(Pair(1, 2)).back();

// Assignments, branches and loops.
const ASSIGNED: Pair = { let mut p = Pair(1, 2); p = Pair(p.1, p.0 + 5); p };
const FIELD_ASSIGNED: Line = { let mut l = line(1); l.0 = Point(7, 8); l.1.0 += 9; l };
const ELEMENT_ASSIGNED: [Pair; 2] = { let mut a = [Pair(1, 2), Pair(3, 4)]; a[1] = Pair(5, 6); a[0].1 *= 4; a };
const TEMPORARY_ASSIGNED: u8 = { Pair(1, 2).0 = 5; Pair(3, 4).1 };
const BRANCH: Pair = { let n = 3; if n % 2 == 0 { Pair(1, n) } else { Pair(n, 2) } };
const FIBONACCI: u64 = { let mut p = Longs(0, 1); let mut i = 0; while i < 50 { p = Longs(p.1, p.0 + p.1); i += 1; } p.0 };
const BROKEN: Pair = { let mut i = 0; loop { i += 3; if i > 10 { break Pair(i, i - 10); } } };
const LABELLED: Byte = 'a: { if 3 > 2 { break 'a Byte(1); } Byte(2) };
const ROW_FILLED: u32 = { let mut a = [Point(0, 0); 4]; let mut i = 0; while i < 4 { a[i] = Point(i as i32, (i * i) as i32); i += 1; } (a[3].1 + a[2].0) as u32 };
const CONTINUED: u8 = { let mut n = 0; let mut i = 0; while i < 5 { i += 1; let b = Byte(if i == 3 { continue } else { i }); n += b.0; } n };

// Panics.
const PANIC_FIRST: Pair = { let z = 0; Pair(1 / z, 2) };
const PANIC_SECOND: Pair = { let n = 250; Pair(n, n + 6) };
const PANIC_INNER: Line = { let n = 2147483647; Line(Point(n, 1), Point(2, n + 1)) };
const PANIC_IN_CALL: Pair = { let p = swapped(Pair(255, 1)); Pair(p.1 + p.0, 0) };
const PANIC_IN_CALLEE: Pair = down(Pair(3, 250));
const NO_PANIC: Pair = { let z = 0; if z > 0 { Pair(1 / z, 2) } else { Pair(3, 4) } };
