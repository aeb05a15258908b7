// Structs and unions: literals, fields, base structs, patterns, methods, generic structs, layouts.

#[derive(Clone, Copy)]
struct Point { x: i32, y: i32 }
#[derive(Clone, Copy)]
struct Pair(u8, u8);
struct Unit;
struct Empty {}
struct Mixed { small: u8, large: u32, middle: u16 }
#[repr(C)]
struct Plain { small: u8, large: u32, middle: u16 }
#[repr(C, packed)]
struct Tight { small: u8, large: u32, middle: u16 }
#[repr(align(16))]
#[derive(Clone, Copy)]
struct Wide(u8);
struct Line { from: Point, to: Point }
struct Generic<T> { value: T, count: u32 }
struct Sized2<T, const N: usize> { items: [T; N], used: usize }
struct Phantom<T>(u8, core::marker::PhantomData<T>);
union Bits { whole: u32, halves: (u16, u16), bytes: [u8; 4] }

const ORIGIN: Point = Point { x: 0, y: 0 };
const POINT: Point = Point { y: -2, x: 1 };
const PAIR: Pair = Pair(3, 4);
const UNIT: Unit = Unit;
const EMPTY: Empty = Empty {};
const LINE: Line = Line { from: ORIGIN, to: Point { x: 3, y: 4 } };
const FIELD: i32 = POINT.x;
const FIELD_OF_LITERAL: i32 = Point { x: 5, y: 6 }.y;
const TUPLE_FIELD: u8 = PAIR.1;
const NESTED_FIELD: i32 = LINE.to.y;
const SHORTHAND: i32 = { let x = 3; let y = 4; let p = Point { x, y }; p.x * 10 + p.y };
const BASE: i32 = { let p = Point { x: 9, ..POINT }; p.x * 10 + p.y };
const BASE_ALL: i32 = { let p = Point { ..POINT }; p.x - p.y };
const TUPLE_RECORD: u8 = { let p = Pair { 1: 8, 0: 7 }; p.0 * 10 + p.1 };
const ASSIGNED: i32 = { let mut p = POINT; p.x = 40; p.y += 4; p.x + p.y };
const NESTED_ASSIGNED: i32 = { let mut l = LINE; l.from.x = 7; l.to = l.from; l.to.x + l.to.y };
const COPIED: i32 = { let a = POINT; let mut b = a; b.x = 100; a.x + b.x };
const ORDER: i32 = { let mut n = 0; let p = Point { y: { n += 1; n }, x: { n += 10; n } }; p.x * 100 + p.y };
const MIXED_SUM: u32 = { let m = Mixed { small: 1, large: 70000, middle: 300 }; m.small as u32 + m.large + m.middle as u32 };
const PLAIN_SUM: u32 = { let m = Plain { small: 1, large: 70000, middle: 300 }; m.small as u32 + m.large + m.middle as u32 };
const TIGHT_SUM: u32 = { let m = Tight { small: 1, large: 70000, middle: 300 }; m.small as u32 + m.large + m.middle as u32 };
const TIGHT: Tight = Tight { small: 1, large: 70000, middle: 300 };
const WIDE_VALUE: u8 = { let w = Wide(200); w.0 - 1 };
const PATTERN: i32 = { let Point { x, y } = POINT; x * 10 + y };
const PATTERN_RENAMED: i32 = { let Point { x: a, y: b } = POINT; a - b };
const PATTERN_REST: i32 = { let Point { x, .. } = POINT; x };
const PATTERN_TUPLE: u8 = { let Pair(a, b) = PAIR; a * b };
const PATTERN_TUPLE_REST: u8 = { let Pair(.., b) = PAIR; b };
const PATTERN_NESTED: i32 = { let Line { from: Point { x, .. }, to: Point { y, .. } } = LINE; x + y };
const PATTERN_UNIT: u8 = { let Unit = UNIT; let Empty {} = EMPTY; 5 };
const GENERIC_U8: u8 = Generic { value: 7u8, count: 2 }.value;
const GENERIC_SUM: u64 = { let g = Generic { value: 1u64 << 40, count: 2 }; g.value + g.count as u64 };
const GENERIC_NESTED: i8 = Generic { value: Generic { value: -3i8, count: 1 }, count: 2 }.value.value;
const GENERIC_ARRAY: u16 = { let s = Sized2 { items: [5u16, 6, 7], used: 2 }; s.items[s.used] };
const PHANTOM: u8 = Phantom::<u64>(6, core::marker::PhantomData).0;
const METHOD: i32 = POINT.manhattan();
const METHOD_CHAIN: i32 = POINT.shifted(10, 20).flipped().manhattan();
const METHOD_MUT: i32 = { let mut p = POINT; p.scale(3); p.scale(-2); p.x + p.y };
const METHOD_GENERIC: u8 = Generic { value: 7u8, count: 2 }.get();
const CONSTRUCTOR: i32 = { let p = Point::diagonal(4); p.x + p.y };
const RETURNED: Pair = Pair::swapped(PAIR);
const UNION_LOW: u16 = unsafe { Bits { whole: 0x1234_5678 }.halves.0 };
const UNION_BYTE: u8 = unsafe { Bits { whole: 0x1234_5678 }.bytes[3] };
const UNION_WRITTEN: u32 = { let mut b = Bits { whole: 0 }; b.halves = (0xabcd, 0x1234); unsafe { b.whole } };
const FIXED: u64 = Fixed::new(3).times(Fixed::half()).raw;
const RANDOM: u32 = { let mut g = Generator { state: 42 }; g.next(); g.next(); g.next() };
const COMPLEX_SQUARE: i64 = { let z = Complex { re: 3, im: 4 }.times(Complex { re: 3, im: 4 }); z.re * 1000 + z.im };
const FRACTION: i64 = { let f = Fraction { up: 1, down: 6 }.plus(Fraction { up: 3, down: 10 }); f.up * 1000 + f.down };

impl Point {
    const fn diagonal(n: i32) -> Self { Self { x: n, y: n } }
    const fn manhattan(&self) -> i32 { (if self.x < 0 { -self.x } else { self.x }) + if self.y < 0 { -self.y } else { self.y } }
    const fn shifted(self, dx: i32, dy: i32) -> Point { Point { x: self.x + dx, y: self.y + dy } }
    const fn flipped(self) -> Point { Point { x: self.y, y: self.x } }
    const fn scale(&mut self, by: i32) { self.x *= by; self.y *= by; }
}
impl Pair { const fn swapped(p: Pair) -> Pair { Pair(p.1, p.0) } }
impl<T: Copy> Generic<T> { const fn get(&self) -> T { self.value } }

// Fixed-point numbers with 16 bits behind the point.
struct Fixed { raw: u64 }
impl Fixed {
    const ONE: u64 = 1 << 16;
    const fn new(whole: u64) -> Fixed { Fixed { raw: whole * Fixed::ONE } }
    const fn half() -> Fixed { Fixed { raw: Self::ONE / 2 } }
    const fn times(self, other: Fixed) -> Fixed { Fixed { raw: self.raw * other.raw / Self::ONE } }
}

// A linear congruential generator of random numbers, with the constants of old C libraries.
struct Generator { state: u32 }
impl Generator {
    const fn next(&mut self) -> u32 { self.state = ((self.state as u64 * 1103515245 + 12345) & 0x7fff_ffff) as u32; self.state >> 16 }
}

#[derive(Clone, Copy)]
struct Complex { re: i64, im: i64 }
impl Complex {
    const fn times(self, o: Complex) -> Complex { Complex { re: self.re * o.re - self.im * o.im, im: self.re * o.im + self.im * o.re } }
}
struct Fraction { up: i64, down: i64 }
impl Fraction {
    const fn plus(self, o: Fraction) -> Fraction { Fraction { up: self.up * o.down + o.up * self.down, down: self.down * o.down }.reduced() }
    const fn reduced(self) -> Fraction { let mut a = self.up; let mut b = self.down; while b != 0 { (a, b) = (b, a % b); } Fraction { up: self.up / a, down: self.down / a } }
}
