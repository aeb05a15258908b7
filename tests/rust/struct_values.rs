// Struct expressions without a base, and fields of structs, where they are read and where they are written.

#[derive(Clone, Copy)]
struct Two { a: u16, b: u32 }
#[derive(Clone, Copy)]
#[repr(C)]
struct Laid { small: u8, large: u64, middle: u16 }
#[derive(Clone, Copy)]
#[repr(C, packed)]
struct Tight { small: u8, large: u64, middle: u16 }
#[derive(Clone, Copy)]
#[repr(C, align(32))]
struct Wide { byte: u8 }
#[derive(Clone, Copy)]
struct Nothing {}
#[derive(Clone, Copy)]
struct Hollow { before: (), number: u8, none: [u32; 0], behind: Nothing }
#[derive(Clone, Copy)]
struct Every { yes: bool, letter: char, least: i8, great: u128, signed: i128, size: usize, pointed: isize }
#[derive(Clone, Copy)]
struct Inner { left: (u8, u16), right: [u8; 3] }
#[derive(Clone, Copy)]
struct Outer { one: Inner, other: Inner, count: u8 }
#[derive(Clone, Copy)]
struct Pair<A, B> { first: A, second: B }
#[derive(Clone, Copy)]
struct State { low: u32, high: u32, steps: u64 }

const TWO: Two = Two { a: 1, b: 2 };
const TWO_OTHER_ORDER: Two = Two { b: 2, a: 1 };
const TWO_EDGES: Two = Two { a: 65_535, b: 1 << 31 };
const LAID: Laid = Laid { small: 0x11, large: 0x2233_4455_6677_8899, middle: 0xaabb };
const LAID_BACKWARD: Laid = Laid { middle: 0xaabb, large: 0x2233_4455_6677_8899, small: 0x11 };
const TIGHT: Tight = Tight { small: 0x11, large: 0x2233_4455_6677_8899, middle: 0xaabb };
const WIDE: u8 = Wide { byte: 7 }.byte;
const NOTHING: Nothing = Nothing {};
const HOLLOW: u8 = Hollow { before: (), number: 9, none: [], behind: Nothing {} }.number;
const EVERY_YES: bool = Every { yes: true, letter: 'x', least: -128, great: 0xffff_ffff_ffff_ffff_ffff_ffff_ffff_ffff, signed: -0x8000_0000_0000_0000_0000_0000_0000_0000, size: 5, pointed: -5 }.yes;
const EVERY_LETTER: char = Every { yes: true, letter: '\u{10ffff}', least: -128, great: 0xffff_ffff_ffff_ffff_ffff_ffff_ffff_ffff, signed: -0x8000_0000_0000_0000_0000_0000_0000_0000, size: 5, pointed: -5 }.letter;
const EVERY_LEAST: i8 = Every { yes: true, letter: 'x', least: -128, great: 0xffff_ffff_ffff_ffff_ffff_ffff_ffff_ffff, signed: -0x8000_0000_0000_0000_0000_0000_0000_0000, size: 5, pointed: -5 }.least;
const EVERY_GREAT: u128 = Every { yes: true, letter: 'x', least: -128, great: 0xffff_ffff_ffff_ffff_ffff_ffff_ffff_fffe, signed: -0x8000_0000_0000_0000_0000_0000_0000_0000, size: 5, pointed: -5 }.great;
const EVERY_SIGNED: i128 = Every { yes: true, letter: 'x', least: -128, great: 0xffff_ffff_ffff_ffff_ffff_ffff_ffff_ffff, signed: -0x7fff_ffff_ffff_ffff_ffff_ffff_ffff_ffff, size: 5, pointed: -5 }.signed;
const EVERY_POINTED: isize = Every { yes: false, letter: 'x', least: -128, great: 0, signed: 0, size: 0xffff_ffff_ffff_ffff, pointed: -0x8000_0000_0000_0000 }.pointed;

const READ_A: u16 = { let t = Two { a: 3, b: 4 }; t.a };
const READ_B: u32 = { let t = Two { a: 3, b: 4 }; t.b };
const READ_BOTH: u32 = { let t = Two { a: 3, b: 4 }; t.a as u32 * 10 + t.b };
const READ_TIGHT: u64 = { let t = Tight { small: 1, large: 0xffff_ffff_ffff_ffff, middle: 3 }; t.large };
const READ_NESTED: u16 = { let o = Outer { one: Inner { left: (1, 2), right: [3, 4, 5] }, other: Inner { left: (6, 7), right: [8, 9, 10] }, count: 11 }; o.other.left.1 };
const READ_NESTED_TUPLE: (u8, u16) = { let o = Outer { one: Inner { left: (1, 2), right: [3, 4, 5] }, other: Inner { left: (6, 7), right: [8, 9, 10] }, count: 11 }; o.one.left };
const READ_NESTED_ARRAY: [u8; 3] = { let o = Outer { one: Inner { left: (1, 2), right: [3, 4, 5] }, other: Inner { left: (6, 7), right: [8, 9, 10] }, count: 11 }; o.other.right };
const READ_COUNT: u8 = { let o = Outer { count: 11, other: Inner { right: [8, 9, 10], left: (6, 7) }, one: Inner { left: (1, 2), right: [3, 4, 5] } }; o.count };
const IN_TUPLE: u32 = { let t = (1u8, Two { a: 3, b: 40 }); t.1.b + t.0 as u32 };
const TUPLE_IN: u8 = { let i = Inner { left: (5, 6), right: [0; 3] }; i.left.0 };
const OF_BLOCK: u32 = { Two { a: 1, b: 8 } }.b;
const OF_IF: u32 = if true { Two { a: 1, b: 8 } } else { Two { a: 2, b: 9 } }.b;
const OF_LOOP: u32 = loop { break Two { a: 1, b: 8 }; }.b;
const OF_CALL: u32 = made(5, 6).b;
const OF_CALL_NESTED: u16 = twice(made(5, 6)).one.left.1;

const WRITE_A: u32 = { let mut t = Two { a: 3, b: 4 }; t.a = 7; t.a as u32 * 10 + t.b };
const WRITE_B: u32 = { let mut t = Two { a: 3, b: 4 }; t.b = 7; t.a as u32 * 10 + t.b };
const WRITE_NESTED: u16 = { let mut o = Outer { one: Inner { left: (1, 2), right: [3, 4, 5] }, other: Inner { left: (6, 7), right: [8, 9, 10] }, count: 11 }; o.other.left.1 = 100; o.one.left.1 + o.other.left.1 };
const WRITE_PART: u16 = { let mut o = Outer { one: Inner { left: (1, 2), right: [3, 4, 5] }, other: Inner { left: (6, 7), right: [8, 9, 10] }, count: 11 }; o.one.left = (9, 900); o.one.left.1 + o.one.left.0 as u16 };
const WRITE_WHOLE: u16 = { let mut o = Outer { one: Inner { left: (1, 2), right: [3, 4, 5] }, other: Inner { left: (6, 7), right: [8, 9, 10] }, count: 11 }; o.one = o.other; o.one.left.1 };
const WRITE_ADD: u32 = { let mut t = Two { a: 3, b: 4 }; t.b += 70; t.a *= 2; t.a as u32 * 1000 + t.b };
const WRITE_SHIFT: u64 = { let mut t = Tight { small: 3, large: 1, middle: 5 }; t.large <<= 63; t.large | t.small as u64 };
const WRITE_OVERFLOW: u16 = { let mut t = Two { a: 65_535, b: 4 }; t.a += 1; t.a };
const WRITE_KEEPS_OTHERS: Laid = { let mut l = Laid { small: 1, large: 2, middle: 3 }; l.large = 0xffff_ffff_ffff_ffff; l };
const COPIES: u32 = { let a = Two { a: 1, b: 2 }; let mut b = a; b.b = 50; a.b * 100 + b.b };

const ORDER: u32 = { let mut n = 0; let t = Two { b: { n += 1; n }, a: { n += 10; n as u16 } }; t.b * 100 + t.a as u32 };
const ORDER_OTHER: u32 = { let mut n = 0; let t = Two { a: { n += 10; n as u16 }, b: { n += 1; n } }; t.b * 100 + t.a as u32 };
const ORDER_PANIC: u32 = { let mut n = 1u32; let t = Two { b: n - 1, a: { n -= 1; 7 / n as u16 } }; t.b };
const ORDER_BREAK: u32 = 'out: { let t = Two { b: 5, a: break 'out 77 }; };
const IN_FIELD: u32 = Two { a: { let t = Two { a: 4, b: 5 }; t.a }, b: if 1 < 2 { 60 } else { 70 } }.b;

const GENERIC: Pair<u8, u32> = Pair { first: 1, second: 2 };
const GENERIC_SWAPPED: Pair<u32, u8> = Pair { second: 1, first: 2 };
const GENERIC_NESTED: Pair<Pair<u8, i16>, bool> = Pair { first: Pair { first: 3, second: -4 }, second: true };

const ZERO: u64 = run(0);
const MANY: u64 = run(1000);
const STEPPED: State = stepped(stepped(stepped(State { low: 1, high: 0xffff_ffff, steps: 0 })));
const FIBONACCI: u64 = { let mut s = State { low: 0, high: 1, steps: 0 }; while s.steps < 40 { let next = s.low + s.high; s.low = s.high; s.high = next; s.steps += 1; } s.low as u64 };

const fn made(a: u16, b: u32) -> Two { Two { a, b } }
const fn twice(t: Two) -> Outer { Outer { one: Inner { left: (1, t.a), right: [2; 3] }, other: Inner { left: (3, t.b as u16), right: [4; 3] }, count: 2 } }
const fn stepped(s: State) -> State { State { low: s.high ^ s.low, high: s.low, steps: s.steps + 1 } }
const fn run(times: u64) -> u64 {
    let mut s = State { low: 0x1234_5678, high: 0x9abc_def0, steps: 0 };
    while s.steps < times {
        s = stepped(s);
        s.low = s.low & 0x0fff_ffff | s.high & 0xf000_0000;
    }
    s.low as u64 * 3 + s.high as u64
}
