// Tuples, arrays and repeated values that are made, bound, copied, passed, returned and handed out, without a look at their parts.

const UNIT_NAME: () = { let x = (); x };
const UNIT_ASSIGNED: () = { let mut x = (); x = (); x };
const UNIT_TAIL: () = { 1 + 1; () };
const UNIT_BRANCH: () = if 1 < 2 { () } else { };
const UNIT_BREAK: () = loop { break (); };
const UNIT_LATER: u8 = { let x = (); let y = x; 7 };
const UNITS: ((), ((), ()), [(); 3]) = ((), ((), ()), [(); 3]);
const MANY_UNITS: [(); 1000000] = [(); 1000000];

const SINGLE: (i64,) = (-9,);
const FOUR: (u8, u8, u8, u8) = (1, 2, 3, 4);
const LARGEST_FIRST: (u64, u32, u16, u8, bool) = (1, 2, 3, 4, true);
const LARGEST_IN_THE_MIDDLE: (u16, u64, u16, u32) = (1, 2, 3, 4);
const LARGEST_LAST: (u32, u16, u16, i64) = (1, 2, 3, -4);
const WIDE: (u128, i128) = (1 << 127, -1);
const CHARACTERS: (char, char) = ('a', '\u{10ffff}');
const BETWEEN: (u8, (), u8, [u16; 0], u16) = (1, (), 2, [], 3);
const INFERRED: (i32, i32) = { let t = (1, 2); t };
const COMPUTED: (u32, i32) = (7 * 6 - 2, -(5 - 8) * 3);
const CASTS: (u8, i8, u16) = (300i32 as u8, 200u8 as i8, -1i8 as u16);
const TESTS: (bool, bool, bool) = (1 < 2 && 3 > 4, !false, 'a' < 'b' || 1 / (2 - 1) == 0);
const DEEP: (((((u8,), u8), u8), u8), u8) = (((((1,), 2), 3), 4), 5);
const TREE: ((u16, u16), ((u8, u8), (u8, u8))) = ((1, 2), ((3, 4), (5, 6)));

const ARRAY_OF_ONE: [u128; 1] = [340282366920938463463374607431768211455];
const WORDS: [i16; 5] = [-32768, -1, 0, 1, 32767];
const TRUTHS: [bool; 4] = [true, false, !true, 1 == 1];
const LETTERS: [char; 3] = ['a', 'ß', '\u{1f600}'];
const SUMS: [u8; 3] = [1 + 2, 3 + 4, 5 * 6];
const MATRIX: [[i32; 3]; 2] = [[1, 2, 3], [-4, -5, -6]];
const CUBE: [[[u8; 2]; 2]; 2] = [[[1, 2], [3, 4]], [[5, 6], [7, 8]]];
const EMPTY_ROWS: [[u64; 0]; 4] = [[], [], [], []];
const OF_TUPLES: [(u16, u8, u8); 2] = [(1, 2, 3), (4, 5, 6)];
const OF_ARRAYS: ([u8; 4], [u16; 2], u64) = ([1, 2, 3, 4], [5, 6], 7);
const TYPED_BY_ONE: [u64; 3] = { let a = [1, 2, 3u64]; a };
const CRC_NIBBLES: [u32; 16] = [
    0x00000000, 0x1db71064, 0x3b6e20c8, 0x26d930ac, 0x76dc4190, 0x6b6b51f4, 0x4db26158, 0x5005713c,
    0xedb88320, 0xf00f9344, 0xd6d6a3e8, 0xcb61b38c, 0x9b64c2b0, 0x86d3d2d4, 0xa00ae278, 0xbdbdf21c,
];
const DAYS: [u8; 12] = [31, 28, 31, 30, 31, 30, 31, 31, 30, 31, 30, 31];

const ZEROES: [u8; 64] = [0; 64];
const NO_TIMES: [u32; 0] = [7; 0];
const ONCE: [u32; 1] = [7; 1];
const NEGATIVES: [i32; 5] = [-7; 5];
const REPEATED_TUPLE: [(u16, u16); 3] = [(1, 2); 3];
const REPEATED_ARRAY: [[u8; 3]; 2] = [[1, 2, 3]; 2];
const REPEATED_REPEATED: [[bool; 4]; 3] = [[true; 4]; 3];
const REPEATED_CALL: [u32; 4] = [factorial(5); 4];
const REPEATED_NAME: [i8; 3] = { let x = -3; [x; 3] };
const REPEATED_BY_SIZE: [u8; size(3)] = [9; size(3)];
const COUNTED_ONCE: ([u8; 3], u8) = { let mut n = 5; let a = [{ n += 1; n }; 3]; (a, n) };
const COUNTED_NO_TIMES: ([u8; 0], u8) = { let mut n = 5; let a = [{ n += 1; n }; 0]; (a, n) };
const LARGE_UNUSED: u8 = { let a = [1u64; 10000]; let b = a; 3 };
const LARGE: [u16; 2000] = [258; 2000];

const PANIC_FIRST: (u8, u8) = (255 + 1, 1 / 0);
const PANIC_LAST: (u8, u8) = (255, 0 - 1);
const PANIC_ELEMENT: [u8; 3] = [1, 2 % 0, 3];
const PANIC_REPEATED: [u8; 3] = [200 + 100; 3];
const PANIC_NO_TIMES: [u8; 0] = [200 + 100; 0];
const PANIC_IN_CALL: (u8, u32) = (1, factorial(13));
const PANIC_NOT_TAKEN: (u8, u8) = if 1 > 2 { (1 / 0, 2) } else { (3, 4) };
const PANIC_IN_STATEMENT: u8 = { (1, 1u8 << 8); 5 };

const NAME: (u8, bool) = { let t = (1, true); t };
const COPIED: ((u8, u8), (u8, u8)) = { let mut a = (1, 2); let b = a; a = (3, 4); (a, b) };
const ARRAY_COPIED: [[u8; 2]; 3] = { let mut a = [1, 2]; let b = a; a = [3, 4]; [b, a, b] };
const SHADOWED: (u8, [u8; 2]) = { let t = 1; let t = (t, [t + 1, t + 2]); t };
const NESTED_NAMES: (u8, (u8, u8)) = { let a = 1; let t = { let b = a + 1; (b, b + 1) }; (a, t) };
const SWAPPED: ([u8; 2], [u8; 2]) = { let mut a = [1, 2]; let mut b = [3, 4]; let t = a; a = b; b = t; (a, b) };
const BRANCHES: [u8; 3] = { let x = 7; if x > 9 { [0; 3] } else if x > 5 { [x, x + 1, x + 2] } else { [1, 1, 1] } };
const BREAK_WITH_TUPLE: (u32, u32) = { let mut i = 0; let mut s = 0; loop { i += 1; s += i; if s > 50 { break (i, s); } } };
const BREAK_TO_LABEL: [u8; 2] = 'out: { let mut i = 0; loop { i += 1; if i * i > 30 { break 'out [i, i * i]; } } };
const BREAK_IN_PART: u8 = loop { (1, break 9, 2); };
const CONTINUE_IN_ELEMENT: u8 = { let mut n = 0; loop { n += 1; if n == 4 { break; } [n, continue]; } n };
const LAST_OF_LOOP: (u8, u8) = { let mut t = (0, 0); let mut i = 0; while i < 5 { i += 1; t = (i, i * i); } t };
const FIBONACCI: (u64, u64) = { let mut a = 0; let mut b = 1; let mut i = 0; while i < 90 { let c = a + b; a = b; b = c; i += 1; } (a, b) };
const GROWING: [u32; 6] = { let mut n = 1; [{ n *= 2; n }, { n *= 3; n }, { n += 5; n }, n * n, { n -= 1; n }, n] };
const DIGITS: [u8; 4] = { let mut n = 1984u32; let d = { let x = n % 10; n /= 10; x as u8 }; let c = { let x = n % 10; n /= 10; x as u8 }; let b = { let x = n % 10; n /= 10; x as u8 }; [n as u8, b, c, d] };
const PARTS_ARE_LOOPS: (u8, u8) = (loop { break 3; }, { let mut i = 0; while i * i < 50 { i += 1; } i });

const RETURNED: (u32, u32) = divided(1000, 7);
const RETURNED_TWICE: ((u32, u32), (u32, u32)) = (divided(1000, 7), divided(99, 10));
const PASSED: (u8, [u8; 2]) = same((1, [2, 3]));
const PASSED_ON: [u8; 2] = same_array(same_array([7, 8]));
const IGNORED: u8 = third((1, 2), [3, 4, 5], 6);
const WRAPPED: ((u16, u16), u32) = wrapped((1, 2), 3);
const DOWN: (u8, [u8; 3]) = down(9);
const EARLY: (u8, u8) = early(40);
const LATE: (u8, u8) = early(3);
const GREATEST: [u64; 3] = [gcd(1071, 462), gcd(17, 5), gcd(2 * 3 * 5 * 7, 3 * 7 * 11)];
const UNIT_CALL: () = nothing((1, 2));
const UNIT_OF_CALL: ((), u8) = (nothing((3, 4)), 5);

const fn factorial(n: u32) -> u32 { if n == 0 { 1 } else { n * factorial(n - 1) } }
const fn gcd(a: u64, b: u64) -> u64 { if b == 0 { a } else { gcd(b, a % b) } }
const fn size(n: usize) -> usize { n * n + 1 }
const fn divided(a: u32, b: u32) -> (u32, u32) { (a / b, a % b) }
const fn same(t: (u8, [u8; 2])) -> (u8, [u8; 2]) { t }
const fn same_array(a: [u8; 2]) -> [u8; 2] { let mut b = [0; 2]; b = a; b }
const fn third(_t: (u8, u16), _a: [u8; 3], x: u8) -> u8 { x }
const fn wrapped(t: (u16, u16), x: u32) -> ((u16, u16), u32) { (t, x) }
const fn down(n: u8) -> (u8, [u8; 3]) { if n < 3 { (n, [n; 3]) } else { down(n - 2) } }
const fn early(n: u8) -> (u8, u8) { let mut i = 0; while i < n { if i * i > 50 { return (i, i * i); } i += 1; } (i, 0) }
const fn nothing(_t: (u8, u8)) { }
const fn goal_tuple() -> (u32, u16, u16) { let a = 1; (a, 2, 3) }
const fn goal_array() -> [u16; 4] { [factorial(3) as u16; 4] }
const fn goal_unit() -> () { () }
const fn goal_panics() -> (u8, u8) { let mut x = 250u8; (1, { x += 10; x }) }
const fn goal_returns() -> [i8; 2] { if gcd(8, 12) == 4 { return [-1, 1]; } [0; 2] }
