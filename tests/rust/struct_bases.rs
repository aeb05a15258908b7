// Struct expressions with a base, `S { a: 1, ..base }`, and structs without fields as values, `U`. What a base evaluates by itself changes
// nothing that a written field reads, and the other way around, as Rust evaluates it last and the program first.

struct One { a: u16 }
struct Two { a: u8, b: u32 }
#[repr(C)]
struct Three { a: u8, b: u64, c: u16 }
struct Four { a: u8, b: u64, c: [u8; 3], d: u32 }
#[repr(C, packed)]
struct Tight { a: u8, b: u64, c: u16 }
#[derive(Clone, Copy)]
struct Point { x: i32, y: i32 }
#[derive(Clone, Copy)]
struct Line { from: Point, to: Point, width: u8 }
struct Path { first: Line, second: Line, closed: bool }
struct Every { yes: bool, letter: char, least: i8, great: u128, signed: i128, size: usize, pair: (u8, u16) }
#[derive(Clone, Copy)]
struct State { low: u32, high: u32, steps: u32 }
struct Numbered(u8, u32, u16);
struct Nothing {}
struct Hollow { before: (), number: u8, none: [u32; 0], behind: Nothing, mark: Marker }
struct Pair<A, B> { first: A, second: B }
#[derive(Clone, Copy)]
struct Unit;
struct Marker;
#[derive(Clone, Copy)]
#[repr(align(16))]
struct Aligned;
struct Tagged { tag: Unit, number: u16 }
#[derive(Clone, Copy)]
struct Counted<const N: usize>;
mod inner {
    #[derive(Clone, Copy)]
    pub struct Unit;
    pub struct Deep { pub unit: Unit, pub number: u32 }
    pub const fn deep() -> Deep { Deep { unit: Unit, number: 77 } }
}
use inner::Unit as Other;

const ONE_NONE: One = One { ..One { a: 0x1122 } };
const ONE_A: One = One { a: 0xaabb, ..One { a: 0x1122 } };

const TWO_NONE: Two = Two { ..two() };
const TWO_A: Two = Two { a: 0xa1, ..two() };
const TWO_B: Two = Two { b: 0xb2b3_b4b5, ..two() };
const TWO_AB: Two = Two { a: 0xa1, b: 0xb2b3_b4b5, ..two() };

const THREE_NONE: Three = { let p = three(); Three { ..p } };
const THREE_A: Three = { let p = three(); Three { a: 0xa1, ..p } };
const THREE_B: Three = { let p = three(); Three { b: 0xb2b3_b4b5_b6b7_b8b9, ..p } };
const THREE_C: Three = { let p = three(); Three { c: 0xc1c2, ..p } };
const THREE_AB: Three = { let p = three(); Three { a: 0xa1, b: 0xb2b3_b4b5_b6b7_b8b9, ..p } };
const THREE_AC: Three = { let p = three(); Three { a: 0xa1, c: 0xc1c2, ..p } };
const THREE_BC: Three = { let p = three(); Three { b: 0xb2b3_b4b5_b6b7_b8b9, c: 0xc1c2, ..p } };
const THREE_ABC: Three = { let p = three(); Three { a: 0xa1, b: 0xb2b3_b4b5_b6b7_b8b9, c: 0xc1c2, ..p } };

const FOUR_NONE: Four = { let p = four(); Four { ..p } };
const FOUR_A: Four = { let p = four(); Four { a: 0xa1, ..p } };
const FOUR_B: Four = { let p = four(); Four { b: 0xb2b3_b4b5_b6b7_b8b9, ..p } };
const FOUR_C: Four = { let p = four(); Four { c: [0xc1, 0xc2, 0xc3], ..p } };
const FOUR_D: Four = { let p = four(); Four { d: 0xd1d2_d3d4, ..p } };
const FOUR_AB: Four = { let p = four(); Four { a: 0xa1, b: 0xb2b3_b4b5_b6b7_b8b9, ..p } };
const FOUR_AC: Four = { let p = four(); Four { a: 0xa1, c: [0xc1, 0xc2, 0xc3], ..p } };
const FOUR_AD: Four = { let p = four(); Four { a: 0xa1, d: 0xd1d2_d3d4, ..p } };
const FOUR_BC: Four = { let p = four(); Four { b: 0xb2b3_b4b5_b6b7_b8b9, c: [0xc1, 0xc2, 0xc3], ..p } };
const FOUR_BD: Four = { let p = four(); Four { b: 0xb2b3_b4b5_b6b7_b8b9, d: 0xd1d2_d3d4, ..p } };
const FOUR_CD: Four = { let p = four(); Four { c: [0xc1, 0xc2, 0xc3], d: 0xd1d2_d3d4, ..p } };
const FOUR_ABC: Four = { let p = four(); Four { a: 0xa1, b: 0xb2b3_b4b5_b6b7_b8b9, c: [0xc1, 0xc2, 0xc3], ..p } };
const FOUR_ABD: Four = { let p = four(); Four { a: 0xa1, b: 0xb2b3_b4b5_b6b7_b8b9, d: 0xd1d2_d3d4, ..p } };
const FOUR_ACD: Four = { let p = four(); Four { a: 0xa1, c: [0xc1, 0xc2, 0xc3], d: 0xd1d2_d3d4, ..p } };
const FOUR_BCD: Four = { let p = four(); Four { b: 0xb2b3_b4b5_b6b7_b8b9, c: [0xc1, 0xc2, 0xc3], d: 0xd1d2_d3d4, ..p } };
const FOUR_ABCD: Four = { let p = four(); Four { a: 0xa1, b: 0xb2b3_b4b5_b6b7_b8b9, c: [0xc1, 0xc2, 0xc3], d: 0xd1d2_d3d4, ..p } };

const TIGHT_NONE: Tight = { let p = tight(); Tight { ..p } };
const TIGHT_A: Tight = { let p = tight(); Tight { a: 0xa1, ..p } };
const TIGHT_B: Tight = { let p = tight(); Tight { b: 0xb2b3_b4b5_b6b7_b8b9, ..p } };
const TIGHT_C: Tight = { let p = tight(); Tight { c: 0xc1c2, ..p } };
const TIGHT_AB: Tight = { let p = tight(); Tight { a: 0xa1, b: 0xb2b3_b4b5_b6b7_b8b9, ..p } };
const TIGHT_AC: Tight = { let p = tight(); Tight { a: 0xa1, c: 0xc1c2, ..p } };
const TIGHT_BC: Tight = { let p = tight(); Tight { b: 0xb2b3_b4b5_b6b7_b8b9, c: 0xc1c2, ..p } };
const TIGHT_ABC: Tight = { let p = tight(); Tight { a: 0xa1, b: 0xb2b3_b4b5_b6b7_b8b9, c: 0xc1c2, ..p } };
const FOUR_DBA: Four = { let p = four(); Four { d: 0xd1d2_d3d4, b: 0xb2b3_b4b5_b6b7_b8b9, a: 0xa1, ..p } };
const FOUR_CA: Four = { let p = four(); Four { c: [0xc1, 0xc2, 0xc3], a: 0xa1, ..p } };

const POINT: i32 = { let p = Point { x: 5, y: 2 }; let p2 = Point { x: 3, ..p }; p.x * 1000 + p.y * 100 + p2.x * 10 + p2.y };
const POINT_OTHER: i32 = { let p = Point { x: 5, y: 2 }; let p2 = Point { y: 3, ..p }; p.x * 1000 + p.y * 100 + p2.x * 10 + p2.y };
const SHORTHAND: i32 = { let x = 7; let p = Point { x, ..Point { x: 5, y: 2 } }; p.x * 10 + p.y };
const FIELD: i32 = Point { x: 3, ..Point { x: 5, y: 2 } }.y;
const FIELD_WRITTEN: i32 = Point { x: 3, ..Point { x: 5, y: 2 } }.x;
const BASE_KEPT: u64 = { let p = three(); let q = Three { b: 5, ..p }; p.b ^ q.b ^ q.a as u64 ^ q.c as u64 };
const EVERY: u128 = { let e = every(); let f = Every { letter: 'z', ..e }; let g = Every { great: 1 << 100, yes: false, ..f }; g.great | g.size as u128 | (g.pair.1 as u128) << 70 };
const EVERY_LETTER: char = { let e = every(); Every { yes: false, ..Every { letter: '\u{10ffff}', ..e } }.letter };
const EVERY_SIGNED: i128 = Every { letter: 'q', least: 3, ..every() }.signed;
const EVERY_YES: bool = Every { letter: 'q', ..every() }.yes;
const EVERY_LEAST: i8 = Every { yes: false, size: 1, ..every() }.least;
const EVERY_PAIR: (u8, u16) = Every { yes: false, size: 1, ..every() }.pair;
const NUMBERED: Numbered = Numbered { 1: 0xb2b3_b4b5, ..Numbered { 2: 0x1011, 1: 0, 0: 1 } };
const NUMBERED_LATER: u32 = { let n = Numbered { 0: 1, 1: 20, 2: 300 }; let m = Numbered { 2: 500, 0: 7, ..n }; m.0 as u32 + m.1 + m.2 as u32 };

const LATE: i32 = { let mut p = Point { x: 1, y: 2 }; let q = Point { x: { p.y = 50; 7 }, ..p }; q.x * 100 + q.y };
const LATE_WRITTEN: i32 = { let mut p = Point { x: 1, y: 2 }; let q = Point { x: { p.x = 50; 7 }, ..p }; q.x * 1000 + q.y * 100 + p.x };
const LATE_WHOLE: i32 = { let mut p = Point { x: 1, y: 2 }; let q = Point { x: { p = Point { x: 3, y: 4 }; 7 }, ..p }; q.x * 100 + q.y };
const LATE_TWICE: u64 = { let mut p = three(); let q = Three { a: { p.b = 5; 1 }, c: { p.b = p.b * 10; 3 }, ..p }; q.b * 100 + q.a as u64 * 10 + q.c as u64 };
const LATE_FIELD: i32 = { let mut l = line(); let q = Point { x: { l.to.y = 50; 7 }, ..l.to }; q.x * 100 + q.y };
const LATE_FIELD_WHOLE: i32 = { let mut l = line(); let q = Point { y: { l = Line { width: 9, from: l.to, to: l.from }; 7 }, ..l.to }; q.x * 100 + q.y };
const LATE_PART: i32 = { let mut t = (1u8, Point { x: 1, y: 2 }); let q = Point { x: { t.1.y = 60; 7 }, ..t.1 }; q.x * 100 + q.y };
const LATE_COMPOUND: i32 = { let mut p = Point { x: 1, y: 2 }; let q = Point { x: { p.y += 40; p.y *= 2; 7 }, ..p }; q.x * 100 + q.y };
const LATE_LOOP: i32 = { let mut p = Point { x: 1, y: 2 }; let q = Point { x: { while p.y < 1000 { p.y = p.y * 3; } p.y }, ..p }; q.x * 10 + q.y };
const EARLIER: i32 = { let mut p = Point { x: 1, y: 2 }; let q = Point { x: p.y, ..p }; p.y = 50; q.x * 10 + q.y };
const ORDER: u64 = { let mut n = 0u64; let q = Three { c: { n += 1; n as u16 }, a: { n += 10; n as u8 }, ..Three { a: 0, b: 5, c: 0 } }; q.a as u64 * 1000 + q.b * 100 + q.c as u64 };
const ORDER_OTHER: u64 = { let mut n = 0u64; let q = Three { a: { n += 10; n as u8 }, c: { n += 1; n as u16 }, ..Three { a: 0, b: 5, c: 0 } }; q.a as u64 * 1000 + q.b * 100 + q.c as u64 };
const ONCE: i32 = { let mut n = 0; let q = Point { x: 5, ..{ n += 1; Point { x: 1, y: n } } }; q.x * 100 + q.y * 10 + n };
const ONCE_ALL_WRITTEN: i32 = { let mut n = 0; let q = Point { x: 5, y: 6, ..{ n += 1; Point { x: 1, y: n } } }; q.x * 100 + q.y * 10 + n };

const OF_BLOCK: i32 = { let q = Point { x: 3, ..{ let p = Point { x: 1, y: 2 }; p } }; q.x * 10 + q.y };
const OF_BLOCK_COPIED: i32 = { let p = Point { x: 1, y: 2 }; let q = Point { x: 3, ..{ p } }; q.x * 10 + q.y };
const OF_CALL: u64 = { let q = Three { a: 3, ..three() }; q.b ^ q.a as u64 };
const OF_METHOD: i32 = { let p = Point { x: 1, y: 2 }; let q = Point { x: 3, ..p.flipped() }; q.x * 10 + q.y };
const OF_LITERAL_CHAIN: Four = Four { a: 0xa1, ..Four { b: 0xb2b3_b4b5_b6b7_b8b9, ..Four { c: [0xc1, 0xc2, 0xc3], ..Four { d: 0xd1d2_d3d4, ..four() } } } };
const OF_LITERAL_OVERWRITTEN: i32 = { let q = Point { x: 1, ..Point { x: 2, ..Point { x: 3, y: 4 } } }; q.x * 10 + q.y };
const OF_IF: i32 = { let a = 5; let q = Point { x: 3, ..if a > 4 { Point { x: 1, y: 2 } } else { Point { x: 8, y: 9 } } }; q.x * 10 + q.y };
const OF_ELSE: i32 = { let a = 4; let q = Point { x: 3, ..if a > 4 { Point { x: 1, y: 2 } } else { Point { x: 8, y: 9 } } }; q.x * 10 + q.y };
const OF_LOOP: i32 = { let mut n = 0; let q = Point { x: 3, ..loop { n += 1; if n == 6 { break Point { x: 1, y: n }; } } }; q.x * 10 + q.y };
const OF_LABELLED: i32 = { let q = Point { x: 3, ..'out: { if 1 < 2 { break 'out Point { x: 1, y: 7 }; } Point { x: 1, y: 2 } } }; q.x * 10 + q.y };
const OF_FIELD: i32 = { let l = line(); let q = Point { x: 9, ..l.to }; q.x * 10 + q.y };
const OF_FIELD_DEEP: i32 = { let p = path(); let q = Point { y: 9, ..p.second.from }; q.x * 10 + q.y };
const OF_FIELD_OF_CALL: i32 = Point { x: 9, ..path().second.to }.y;
const OF_PART: i32 = { let t = (3u8, (Point { x: 1, y: 2 }, 4u16)); let q = Point { x: 9, ..t.1.0 }; q.x * 10 + q.y };
const OF_PART_OF_BLOCK: i32 = Point { x: 9, ..({ (7u8, Point { x: 1, y: 2 }) }).1 }.y;
const OF_ASSIGNED: i32 = { let mut p = Point { x: 1, y: 2 }; p = Point { x: 5, ..p }; p = Point { y: 6, ..p }; p.x * 10 + p.y };
const OF_CONSTANT: i32 = { let q = Point { x: 9, ..CORNER }; q.x * 10 + q.y };
const OF_REFERENCE: i32 = { let p = Point { x: 1, y: 2 }; let r = &p; let q = Point { x: 9, ..*r }; q.x * 10 + q.y };
const OF_ELEMENT: i32 = { let a = [Point { x: 1, y: 2 }, Point { x: 3, y: 4 }]; let q = Point { x: 9, ..a[1] }; q.x * 10 + q.y };

const PANIC_IN_BASE: u8 = { let n = 0u32; Two { a: 1, ..Two { a: 2, b: n - 1 } }.a };
const PANIC_IN_BASE_ALL_WRITTEN: u8 = { let n = 0u32; Two { a: 1, b: 2, ..Two { a: 2, b: 1 % n } }.a };
const PANIC_IN_FIELD: u32 = { let n = 255u8; Two { a: n + 1, ..two() }.b };
const PANIC_IN_FIRST: u64 = { let n = 0u8; Three { c: (1 / n) as u16, a: n - 1, ..three() }.b };
const PANIC_IN_SECOND: u64 = { let mut n = 1u8; Three { a: { n -= 1; n }, c: (1 % n) as u16, ..three() }.b };
const PANIC_IN_LATE: u8 = { let mut p = Two { a: 1, b: 0 }; Two { a: { p.b -= 1; 1 }, ..p }.a };
const PANIC_IN_INNER: u8 = { let n = 200u8; Two { a: 1, ..Two { b: (n * 2) as u32, ..two() } }.a };
const PANIC_IN_CALL: u8 = Two { a: 1, ..failing(0) }.a;
const PANIC_IN_CALL_OF_FIELD: u32 = Two { a: failing(0).a, ..two() }.b;
const PANIC_BEHIND: u32 = Two { a: 1, ..Two { a: 2, b: 0xffff_ffff } }.b + 1;

const NESTED: Line = { let l = line(); Line { from: Point { x: 9, ..l.from }, ..l } };
const NESTED_BOTH: Line = { let l = line(); Line { from: Point { x: 9, ..l.to }, to: Point { y: 8, ..l.from }, ..l } };
const NESTED_DEEP: Path = { let p = path(); Path { second: Line { to: Point { y: -1, ..p.second.to }, width: 200, ..p.first }, ..p } };
const NESTED_WIDTH: u8 = { let p = path(); Path { closed: false, ..p }.second.width };
const IN_TUPLE: (Point, u8, Point) = { let p = Point { x: 1, y: 2 }; (Point { x: 9, ..p }, 5, Point { y: 9, ..p }) };
const IN_ARRAY: [Point; 3] = { let p = Point { x: 1, y: 2 }; [Point { x: 9, ..p }, p, Point { y: 9, ..p }] };
const IN_REPEATED: [Point; 3] = { let p = Point { x: 1, y: 2 }; [Point { x: 9, ..p }; 3] };
const IN_ARGUMENTS: i32 = { let p = Point { x: 1, y: 2 }; area(Point { x: 9, ..p }, Point { y: 40, ..p }) };
const IN_RECEIVER: i32 = Point { x: 9, ..Point { x: 1, y: 2 } }.flipped().x;
const IN_CONDITION: u8 = { let p = Point { x: 1, y: 2 }; if (Point { x: 9, ..p }).x > p.x { 3 } else { 4 } };
const IN_STATEMENT: i32 = { let mut p = Point { x: 1, y: 2 }; Point { x: { p.x = 5; 3 }, ..p }; p.x };
const IN_BRANCHES: i32 = { let p = Point { x: 1, y: 2 }; let q = if p.x == 1 { Point { x: 7, ..p } } else { Point { y: 7, ..p } }; q.x * 10 + q.y };
const IN_OPERATOR: i32 = { let p = Point { x: 1, y: 2 }; Point { x: 9, ..p }.x - Point { y: 30, ..p }.y };
const IN_FIELD_ASSIGNED: i32 = { let mut l = line(); l.to = Point { x: 9, ..l.from }; l.from.x = l.to.x; l.from.x * 100 + l.to.y * 10 + l.from.y };
const IN_PART_ASSIGNED: i32 = { let mut t = (Point { x: 1, y: 2 }, Point { x: 3, y: 4 }); t.0 = Point { y: 9, ..t.1 }; t.0.x * 10 + t.0.y };

const RETURNED: Two = returned(0);
const RETURNED_LATER: Two = returned(200);
const RETURN_IN_FIELD: u32 = return_in_field(7);
const RETURN_IN_FIELD_NOT: u32 = return_in_field(8);
const RETURN_IN_BASE: u32 = return_in_base(7);
const RETURN_IN_BASE_NOT: u32 = return_in_base(8);
const BREAK_IN_FIELD: i32 = 'out: { let p = Point { x: 1, y: 2 }; let q = Point { x: break 'out 77, ..p }; };
const BREAK_IN_BASE: i32 = 'out: { let q = Point { x: 1, ..break 'out 78 }; };
const BREAK_SOMETIMES: i32 = { let mut n = 0; let p = Point { x: 1, y: 2 }; loop { n += 1; let q = Point { x: if n == 5 { break p.y * 100 + n } else { n }, ..p }; if q.x > 10 { break 0; } } };
const BREAK_WITH: Point = loop { let p = Point { x: 1, y: 2 }; break Point { x: 9, ..p }; };
const CONTINUE_IN_FIELD: i32 = { let mut n = 0; let mut p = Point { x: 0, y: 0 }; while n < 10 { n += 1; p = Point { x: if n % 2 == 0 { continue } else { p.x + n }, ..p }; p.y += 1; } p.x * 100 + p.y };
const LOOP_SUM: i32 = { let mut p = Point { x: 0, y: 1 }; while p.y <= 100 { p = Point { x: p.x + p.y, ..p }; p = Point { y: p.y + 1, ..p }; } p.x };
const LOOP_SWAP: u32 = { let mut s = State { low: 0, high: 1, steps: 0 }; while s.steps < 40 { s = State { low: s.high, high: s.low + s.high, steps: s.steps + 1, ..s }; } s.low };
const LOOP_STATE: State = { let mut s = State { low: 0x1234_5678, high: 0x9abc_def0, steps: 0 }; while s.steps < 500 { s = mixed(State { steps: s.steps + 1, ..s }); } s };
const LOOP_INSIDE: u32 = { let mut n = 0; let mut sum = 0; while n < 20 { sum += State { low: { let mut i = 0; while i < n { i += 3; } i }, ..State { low: 0, high: 5, steps: 1 } }.low; n += 1; } sum };
const RECURSIVE: Point = climbed(Point { x: 0, y: 3 }, 40);

const EMPTY: Nothing = Nothing { ..Nothing {} };
const EMPTY_OF_BLOCK: u8 = { let mut n = 1; let _e = Nothing { ..{ n = 5; Nothing {} } }; n };
const HOLLOW: Hollow = Hollow { number: 9, ..hollow() };
const HOLLOW_REST: u8 = Hollow { before: (), none: [], behind: Nothing {}, mark: Marker, ..hollow() }.number;
const HOLLOW_MARK: Hollow = { let h = hollow(); Hollow { mark: Marker, ..h } };
const TAGGED: Tagged = Tagged { number: 0x0102, ..Tagged { tag: Unit, number: 5 } };
const TAGGED_TAG: Tagged = Tagged { tag: Unit, ..Tagged { tag: Unit, number: 5 } };

const GENERIC: Pair<u8, u32> = { let p = Pair { first: 1, second: 2 }; Pair { first: 7, ..p } };
const GENERIC_ALL: Pair<u8, u32> = Pair { first: 7, second: 8, ..Pair { first: 1, second: 2 } };
const GENERIC_FIELD: u32 = Pair { first: 7u8, ..Pair { first: 1, second: 2u32 } }.second;
const GENERIC_NESTED: Pair<Pair<u8, i16>, bool> = { let p = Pair { first: Pair { first: 1u8, second: -2i16 }, second: true }; Pair { second: false, ..p } };

const UNIT: Unit = Unit;
const UNIT_IN_BRACKETS: Unit = (Unit);
const UNIT_BRACES: Unit = Unit {};
const UNIT_BASE: Unit = Unit { ..Unit };
const UNIT_BLOCK: Unit = { Unit };
const UNIT_LET: Unit = { let u = Unit; u };
const UNIT_MOVED: Marker = { let m = Marker; let n = m; n };
const UNIT_NUMBER: u8 = { let u = Unit; let n = 7; let v = u; let _w = (u, v); n };
const UNIT_ASSIGNED: Unit = { let mut u = Unit; u = Unit; u };
const UNIT_STATEMENT: u8 = { Unit; 7 };
const UNIT_STATEMENT_LAST: () = { Unit; };
const UNIT_IF: Unit = if 1 < 2 { Unit } else { Unit };
const UNIT_LOOP: Unit = loop { break Unit; };
const UNIT_LABELLED: Unit = 'out: { if 2 < 1 { break 'out Unit; } Unit };
const UNIT_TAIL: Unit = { let mut n = 0; while n < 10 { n += 1; } Unit };
const UNIT_TAIL_OF_TURN: u8 = { let mut n = 0u8; loop { n += 1; if n == 9 { break n; } let _u = { Unit }; } };
const UNIT_ARGUMENT: u8 = number_of(Unit, 7);
const UNIT_ARGUMENTS: u16 = between(1, Unit, 20, Marker, 300);
const UNIT_RESULT: Unit = unit();
const UNIT_RETURNED: Unit = unit_returned(true);
const UNIT_GIVEN: Unit = same(same(Unit));
const UNIT_RECEIVER: u8 = Unit.seven();
const UNIT_RECEIVER_LET: u8 = { let u = Unit; u.plus(u, 5) };
const UNIT_SELF: Unit = Unit::me();
const UNIT_IN_TUPLE: (Unit, u8, Unit) = (Unit, 7, Unit);
const UNIT_IN_TUPLE_ALONE: (Unit,) = (Unit,);
const UNIT_PART: Unit = (Unit, 7u8).0;
const UNIT_PART_OTHER: u8 = (Unit, 7u8, Marker).1;
const UNIT_PART_ASSIGNED: u8 = { let mut t = (Unit, 7u8); t.0 = Unit; t.1 };
const UNIT_IN_ARRAY: [Unit; 3] = [Unit, Unit, Unit];
const UNIT_REPEATED: [Unit; 5] = [Unit; 5];
const UNIT_REPEATED_NEVER: [Unit; 0] = [Unit; 0];
const UNIT_ARRAY_OF_PAIRS: [(u8, Unit); 2] = [(1, Unit), (2, Unit)];
const UNIT_FIELD: Tagged = Tagged { tag: Unit, number: 0x0102 };
const UNIT_FIELD_READ: Unit = Tagged { tag: Unit, number: 5 }.tag;
const UNIT_FIELD_ASSIGNED: u16 = { let mut t = Tagged { number: 5, tag: Unit }; t.tag = Unit; t.number };
const UNIT_FIELD_DEEP: u32 = { let d = inner::deep(); let e = inner::Deep { unit: inner::Unit, ..d }; e.number };
const UNIT_ALIGNED: Aligned = Aligned;
const UNIT_ALIGNED_LET: u8 = { let n = 5u8; let a = Aligned; let _b = a; n };
const UNIT_ALIGNED_FIELD: (u8, Aligned, u8) = (1, Aligned, 2);
const UNIT_OF_MODULE: inner::Unit = inner::Unit;
const UNIT_RENAMED: Other = Other;
const UNIT_SHADOWED: u8 = { let u = Unit; let u = (u, 7u8); let u = u.1; u };
const UNIT_INNER: u8 = { struct Unit { number: u8 } let u = Unit { number: 7 }; let _v = crate::Unit; u.number };
const UNIT_INNERMOST: u8 = { let u = Unit; let n = { struct Unit; let _v = Unit; let _w = (Unit, u); 7 }; n };
const UNIT_COUNTED: Counted<3> = Counted;
const UNIT_COUNTED_LET: Counted<4> = { let c = Counted::<4>; c };
const UNIT_PHANTOM: core::marker::PhantomData<u64> = core::marker::PhantomData;
const UNIT_PHANTOM_LET: u8 = { let _p = core::marker::PhantomData::<u32>; 7 };
const UNIT_IN_FIELD: u32 = Two { a: { let _u = Unit; 5 }, ..{ let _m = Marker; two() } }.b;
const UNIT_ORDER: u8 = { let mut n = 1; let _t = ({ n = n * 10; Unit }, { n = n + 2; Marker }); n };
const UNIT_PANIC: u8 = { let n = 255u8; let _t = (Unit, n + 1, Marker); n };
const UNIT_BEHIND_PANIC: Unit = { let n = 0u8; 1 / n; Unit };

const CORNER: Point = Point { x: 1, y: 2 };

const fn two() -> Two { Two { a: 1, b: 0x0203_0405 } }
const fn three() -> Three { Three { a: 1, b: 0x0203_0405_0607_0809, c: 0x1011 } }
const fn four() -> Four { Four { a: 1, b: 0x0203_0405_0607_0809, c: [10, 11, 12], d: 0x1314_1516 } }
const fn tight() -> Tight { Tight { a: 1, b: 0x0203_0405_0607_0809, c: 0x1011 } }
const fn line() -> Line { Line { from: Point { x: 1, y: 2 }, to: Point { x: 3, y: 4 }, width: 5 } }
const fn path() -> Path { let l = line(); Path { first: l, second: Line { width: 6, from: Point { x: 7, y: 8 }, ..l }, closed: true } }
const fn every() -> Every { Every { yes: true, letter: 'x', least: -128, great: 5, signed: -6, size: 7, pair: (8, 900) } }
const fn hollow() -> Hollow { Hollow { before: (), number: 5, none: [], behind: Nothing {}, mark: Marker } }
const fn failing(n: u32) -> Two { Two { b: n - 1, ..two() } }
const fn area(p: Point, q: Point) -> i32 { (p.x - q.x) * (q.y - p.y) }
const fn mixed(s: State) -> State { State { low: s.high ^ (s.low >> 3), high: (s.low & 0xffff) * 7 + s.steps, ..s } }
const fn climbed(p: Point, n: u8) -> Point { if n == 0 { p } else { climbed(Point { x: p.x + p.y, ..p }, n - 1) } }
const fn returned(n: u8) -> Two { let p = two(); if n > 100 { return Two { a: n, ..p }; } Two { b: 5, ..p } }
const fn return_in_field(n: u8) -> u32 { let p = two(); let q = Two { a: if n == 7 { return 70 } else { n }, ..p }; q.b + q.a as u32 }
const fn return_in_base(n: u8) -> u32 { let q = Two { a: n, ..if n == 7 { return 70 } else { two() } }; q.b + q.a as u32 }
const fn unit() -> Unit { Unit }
const fn unit_returned(now: bool) -> Unit { if now { return Unit; } Unit }
const fn same(u: Unit) -> Unit { u }
const fn number_of(_u: Unit, n: u8) -> u8 { n }
const fn between(a: u16, _u: Unit, b: u16, _m: Marker, c: u16) -> u16 { a + b + c }

impl Point { const fn flipped(self) -> Point { Point { x: self.y, y: self.x, ..self } } }
impl Unit {
    const fn me() -> Self { Self }
    const fn seven(self) -> u8 { 7 }
    const fn plus(self, _other: Unit, n: u8) -> u8 { n + 1 }
}
