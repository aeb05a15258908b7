// Elements of arrays by an index: read, assigned and assigned by `+=` and its like, in arrays, tuples and structs, and indices out of bounds. There are locals and functions
// over arrays, and no constants by name. Where an index changes the array, or the number that stands beside it, Rust and the program have it in one order here.

struct Pair { low: u8, high: u32 }
#[derive(Clone, Copy)]
struct Point { x: i16, y: i32 }
#[derive(Clone, Copy)]
#[repr(C)]
struct Padded { flag: bool, wide: u64, byte: u8 }
#[derive(Clone, Copy)]
struct Stack { items: [u16; 4], used: usize }
#[derive(Clone, Copy)]
struct Row { cells: [u8; 3], sum: u16 }
struct Grid { rows: [Row; 2], place: (usize, usize) }
#[derive(Clone, Copy)]
struct Nothing;
#[derive(Clone, Copy)]
struct Empty { none: [u64; 0], unit: () }

// Elements of each sort, and where they lie.
const FIRST: u8 = [5, 6, 7][0];
const LAST: u8 = [5, 6, 7][2];
const ONLY: u64 = [9][0];
const NAMED: u16 = { let a = [1u16, 2, 3]; a[1] };
const ALL: [u16; 3] = { let a = [1u16, 2, 3]; [a[2], a[1], a[0]] };
const OFTEN: [i8; 5] = { let a = [-1i8, 1]; [a[0], a[1], a[0], a[0], a[1]] };
const OF_I128: i128 = { let a = [1i128, -170141183460469231731687303715884105728, 3]; a[1] };
const OF_U128: u128 = [340282366920938463463374607431768211455u128, 2][0];
const OF_I64: i64 = [-1, -2, -3i64][2];
const OF_TRUTHS: bool = { let a = [true, false, true]; a[1] };
const OF_CHARACTERS: char = ['a', '\u{1f600}', 'z'][1];
const OF_USIZE: usize = [10usize, 20, 30][[2usize, 0, 1][0]];
const OF_TUPLES: (u8, u32) = { let a = [(1u8, 2u32), (3, 4)]; a[1] };
const OF_TUPLES_WITH_PADDING: (u8, u64, u16) = { let a = [(1u8, 2u64, 3u16), (4, 5, 6), (7, 8, 9)]; a[2] };
const OF_POINTS: Point = { let a = [Point { x: -1, y: 2 }, Point { x: 3, y: -4 }]; a[1] };
const OF_PADDED: Padded = [Padded { flag: true, wide: 2, byte: 3 }, Padded { flag: false, wide: 0x0102_0304_0506_0708, byte: 9 }][1];
const OF_ARRAYS: [u8; 2] = { let a = [[1, 2], [3, 4], [5, 6]]; a[1] };
const OF_ARRAYS_OF_ARRAYS: [[u8; 2]; 2] = [[[1, 2], [3, 4]], [[5, 6], [7, 8]]][1];
const NESTED: u8 = { let a = [[1, 2], [3, 4], [5, 6]]; a[2][0] };
const NESTED_THREE: u16 = { let a = [[[1, 2], [3, 4]], [[5, 6], [7, 8u16]]]; a[1][0][1] };
const NESTED_IN_BRACKETS: u8 = { let a = [[1, 2], [3, 4]]; (a[1])[0] };
const NESTED_NAMED: u8 = { let a = [[1, 2], [3, 4]]; let row = a[1]; row[1] };
const NESTED_LITERAL: u8 = [[1, 2], [3, 4]][1][0];
const DEEP: u8 = { let a = [[[[[1u8, 2]; 2]; 2]; 2]; 2]; a[1][1][1][1][1] };
const REPEATED: u32 = { let a = [7u32; 100]; a[0] + a[50] + a[99] };
const REPEATED_ONCE: u8 = [7; 1][0];
const REPEATED_OFTEN: u64 = { let a = [3u64; 10000]; a[0] + a[5000] + a[9999] };
const REPEATED_ROW: u8 = { let a = [[1, 2, 3]; 4]; a[3][2] };
const REPEATED_TUPLE: u16 = { let a = [(1u8, 513u16); 9]; a[8].1 };
const AS_A_STATEMENT: u8 = { let a = [1, 2]; a[1]; a[0] };
const AS_AN_INITIALIZER: i32 = { let a = [1, 2]; let x: i32 = a[1]; x };
const COPIED_ARRAY: [u8; 3] = { let a = [1, 2, 3]; let mut b = a; b[0] = 9; [a[0], b[0], b[1]] };

// What the index is.
const BY_NAME: u8 = { let a = [5, 6, 7]; let i = 2; a[i] };
const BY_SUM: u8 = { let a = [5, 6, 7]; let i = 1; a[i + 1] };
const BY_DIFFERENCE: u8 = { let a = [5, 6, 7]; let i = 2; a[i - 2] };
const BY_REMAINDER: u8 = { let a = [5, 6, 7]; let n = 1000; a[n % 3] };
const BY_BITS: u8 = { let a = [5, 6, 7, 8]; let n = 0b1110; a[n & 3] };
const BY_CAST: u8 = { let a = [5, 6, 7]; let n = 2u8; a[n as usize] };
const BY_CAST_OF_NEGATIVE: u8 = { let a = [5, 6, 7]; let n = -1i32; a[(n + 2) as usize] };
const BY_CAST_OF_TRUTH: u8 = { let a = [5, 6]; let n = 7; a[(n > 3) as usize] };
const BY_CAST_OF_CHARACTER: u8 = { let a = [0u8; 128]; a['a' as usize] };
const BY_FIELD: u8 = { let a = [5, 6, 7]; let t = (1usize, 2usize); a[t.1] };
const BY_FIELD_OF_STRUCT: u16 = { let s = Stack { items: [5, 6, 7, 8], used: 3 }; s.items[s.used] };
const BY_ELEMENT: u8 = { let a = [5, 6, 7]; let b = [2, 0, 1]; a[b[1]] };
const BY_OWN_ELEMENT: usize = { let a = [2, 0, 1]; a[a[a[0]]] };
const BY_ELEMENTS_DEEP: usize = { let a = [3, 4, 0, 1, 2]; a[a[a[a[a[0]]]]] };
const BY_NESTED_ELEMENT: u8 = { let a = [[1, 2], [3, 4]]; let b = [[0, 1], [1, 0usize]]; a[b[0][1]][b[1][1]] };
const BY_CALL: u8 = { let a = [5, 6, 7]; a[half(5)] };
const BY_IF: u8 = { let a = [5, 6, 7]; let n = 4; a[if n > 3 { 2 } else { 0 }] };
const BY_BLOCK: u8 = { let a = [5, 6, 7]; a[{ let x = 1; x + 1 }] };
const BY_LOOP: u8 = { let a = [5, 6, 7]; let mut n = 0; a[loop { n += 1; if n * n > 3 { break n; } }] };
const BY_LABELLED: u8 = { let a = [5, 6, 7]; a['found: { let n = 9; if n > 8 { break 'found 2; } 0 }] };
const BY_GREATEST_PLUS_ONE: u8 = { let a = [5, 6]; let n = !0usize; a[n - (n - 1)] };
const BY_SHIFT: u8 = { let a = [5, 6, 7, 8]; let n = 0xc0u8; a[(n >> 6) as usize] };

// What gives the array.
const OF_BLOCK: u8 = { let n = 3; [n, n + 1] }[1];
const OF_BLOCK_OF_NAME: u8 = { let a = [3, 4]; let x = ({ a })[0]; x };
const OF_CALL: u32 = three(5)[2];
const OF_CALL_OF_ELEMENT: u32 = { let a = three(5); three(a[1])[0] };
const OF_IF: u8 = { let n = 5; (if n > 3 { [1, 2] } else { [3, 4] })[1] };
const OF_ELSE: u8 = { let n = 2; (if n > 3 { [1, 2] } else { [3, 4] })[1] };
const OF_LOOP: u16 = (loop { break [1u16, 2]; })[1];
const OF_LABELLED: u8 = ('out: { let n = 4; if n == 4 { break 'out [8, 9]; } [1, 2] })[0];
const OF_NAMES: u8 = { let x = 3; let y = 4; [x, y, x + y][2] };
const OF_ELEMENTS: u8 = { let a = [1, 2]; [a[1], a[0]][0] };
const OF_COMPUTED: [u8; 2] = [200 + 55, 8 / 2];
const OF_COMPUTED_ELEMENT: u8 = [1 + 2, 3 * 4, 5 - 5][1];
const OF_REPEATED_CALL: u32 = [half(9) as u32; 3][2];

// Elements of fields and fields of elements.
const FIELD_OF_ELEMENT: u32 = { let a = [(1u8, 2u32), (3, 4)]; a[1].1 };
const FIELD_OF_ELEMENT_OF_STRUCTS: i32 = { let a = [Point { x: 1, y: 2 }, Point { x: 3, y: -4 }]; a[1].y };
const FIELD_OF_ELEMENT_NOT_COPY: u32 = { let a = [Pair { low: 1, high: 2 }, Pair { low: 3, high: 4 }]; a[1].high + a[0].low as u32 };
const FIELD_OF_NESTED: u8 = { let a = [[(1u8, 2u16); 2], [(3, 4), (5, 6)]]; a[1][1].0 };
const ELEMENT_OF_FIELD: u16 = { let t = (1u8, [2u16, 3, 4]); t.1[2] };
const ELEMENT_OF_FIELD_OF_STRUCT: u8 = { let r = Row { cells: [7, 8, 9], sum: 0 }; r.cells[1] };
const ELEMENT_OF_ELEMENTS_FIELD: u8 = { let g = grid(); g.rows[1].cells[2] };
const ELEMENT_OF_ELEMENTS_FIELD_BY_FIELDS: u8 = { let g = grid(); g.rows[g.place.0].cells[g.place.1] };
const FIELD_OF_ELEMENT_OF_FIELD: u64 = { let t = (true, [(1u8, 2u64), (3, 4)], 5u16); t.1[1].1 };
const FIELD_OF_CALL: u8 = grid().rows[0].cells[1];
const FIELD_OF_LITERAL: u8 = [(1u8, 2u16), (3, 4)][1].0;
const ALTERNATING: u8 = { let a = [([([1u8, 2], 3u16), ([4, 5], 6)], 7u32), ([([8, 9], 10), ([11, 12], 13)], 14)]; a[1].0[1].0[0] };
const BEHIND_PADDING: u8 = { let a = [Padded { flag: true, wide: 1, byte: 2 }, Padded { flag: true, wide: 3, byte: 4 }]; a[0].byte * 10 + a[1].byte };
const BASE_OF_STRUCT: Point = { let a = [Point { x: 1, y: 2 }, Point { x: 3, y: 4 }]; Point { x: 9, ..a[1] } };
const BASE_OF_STRUCT_NESTED: Row = { let a = [[Row { cells: [1, 2, 3], sum: 4 }; 2], [Row { cells: [5, 6, 7], sum: 8 }; 2]]; let n = 1; Row { sum: 9, ..a[n][0] } };
const IN_STRUCT: Point = { let a = [5i16, 6]; let b = [7i32, 8]; Point { y: b[0], x: a[1] } };
const IN_TUPLE: (u8, u16) = { let a = [5u8, 6]; let b = [7u16, 8]; (a[1], b[1]) };

// What uses the element.
const SUM: i32 = { let a = [10, -3, 4]; a[0] + a[1] * a[2] };
const DIVISION: (i32, i32) = { let a = [-47, 6]; (a[0] / a[1], a[0] % a[1]) };
const SHIFTS: (u32, u32) = { let a = [0x0f0f_u32, 12]; (a[0] << a[1], a[0] >> a[1]) };
const BITS: (u8, u8, u8) = { let a = [0b1100u8, 0b1010]; (a[0] & a[1], a[0] | a[1], a[0] ^ a[1]) };
const MINUS: i16 = { let a = [1, 300i16]; -a[1] };
const MINUS_OF_LITERAL: i16 = -[1, 300i16][1];
const NOT: (bool, u8) = { let a = [true, false]; let b = [0x0fu8]; (!a[1], !b[0]) };
const COMPARED: [bool; 6] = { let a = [5u16, 7]; [a[0] < a[1], a[0] <= a[1], a[0] == a[1], a[0] != a[1], a[0] > a[1], a[0] >= a[1]] };
const COMPARED_CHARACTERS: bool = { let a = ['a', 'b']; a[0] < a[1] };
const CASTS: (u8, i64, u32) = { let a = [300u16, 1]; let b = [-1i8]; let c = ['z']; (a[0] as u8, b[0] as i64, c[0] as u32) };
const BOTH: bool = { let a = [true, false]; a[0] && a[1] };
const EITHER: bool = { let a = [true, false]; a[1] || a[0] };
const SECOND_NOT_ASKED: bool = { let a = [false]; a[0] && a[5 - a[0] as usize] };
const CONDITION: u8 = { let a = [false, true]; if a[1] { 1 } else { 2 } };
const CONDITION_ELSE: u8 = { let a = [false, true]; if a[0] { 1 } else if a[1] { 2 } else { 3 } };
const BRANCHES: u16 = { let a = [1u16, 2]; let n = 3; if n > 3 { a[0] } else { a[1] } };
const BREAK_WITH: u8 = { let a = [1, 4, 9, 16]; let mut i = 0; loop { if a[i] > 5 { break a[i]; } i += 1; } };
const RETURNED: (u8, u8) = (nth_or([1, 2, 3], 1), nth_or([1, 2, 3], 9));
const ARGUMENTS: u32 = { let a = [2u32, 10, 7]; weighted(a[1], a[2], a[0]) };
const ROW_AS_ARGUMENT: u32 = { let a = [[1, 2, 3], [4, 5, 6]]; total(a[0]) + total(a[1]) * 100 };
const RECEIVER: i32 = { let a = [Point { x: 1, y: 2 }, Point { x: 3, y: 5 }]; a[1].area() };
const RECEIVER_AND_ARGUMENT: i32 = { let a = [Point { x: 1, y: 2 }, Point { x: 3, y: 5 }]; a[1].times(a[0].y) };
const REPEATED_ELEMENT: [u16; 4] = { let a = [1u16, 513]; [a[1]; 4] };
const REPEATED_ARRAY: [[u8; 2]; 3] = { let a = [[1, 2], [3, 4]]; [a[1]; 3] };

// Elements that are assigned.
const ASSIGNED: [u8; 3] = { let mut a = [1, 2, 3]; a[1] = 20; a };
const ASSIGNED_FIRST: [u16; 2] = { let mut a = [1, 2]; a[0] = 0x0102; a };
const ASSIGNED_LAST: [u32; 3] = { let mut a = [1, 2, 3]; a[2] = 0x0102_0304; a };
const ASSIGNED_ALL: [i64; 3] = { let mut a = [0; 3]; a[2] = -3; a[0] = -1; a[1] = -2; a };
const ASSIGNED_TWICE: [u8; 2] = { let mut a = [1, 2]; a[1] = 9; a[1] = 8; a };
const ASSIGNED_BY_NAME: [u8; 3] = { let mut a = [1, 2, 3]; let i = 2; a[i] = a[i - 1]; a };
const ASSIGNED_NESTED: [[u8; 2]; 2] = { let mut a = [[0; 2]; 2]; a[0][1] = 1; a[1][0] = 2; a };
const ASSIGNED_ROW: [[u8; 2]; 3] = { let mut a = [[0; 2]; 3]; a[1] = [7, 8]; a };
const ASSIGNED_ROW_FROM_OWN: [[u8; 2]; 2] = { let mut a = [[1, 2], [3, 4]]; a[0] = a[1]; a[1][0] = 9; a };
const ASSIGNED_TUPLE: [(u8, u32); 2] = { let mut a = [(1, 2), (3, 4)]; a[1] = (5, 6); a };
const ASSIGNED_STRUCT: [Point; 2] = { let mut a = [Point { x: 1, y: 2 }; 2]; a[0] = Point { x: -1, y: -2 }; a };
const ASSIGNED_STRUCT_NOT_COPY: u32 = { let mut a = [Pair { low: 1, high: 2 }, Pair { low: 3, high: 4 }]; a[1] = Pair { low: 5, high: 6 }; a[1].high * 10 + a[0].high };
const ASSIGNED_FIELD: [(u8, u32); 2] = { let mut a = [(1, 2), (3, 4)]; a[1].0 = 30; a[0].1 = 20; a };
const ASSIGNED_FIELD_OF_STRUCT: [Padded; 2] = { let mut a = [Padded { flag: true, wide: 1, byte: 2 }; 2]; a[1].wide = !0; a[0].flag = false; a[1].byte = 9; a };
const ASSIGNED_IN_FIELD: (u8, [u16; 3], u8) = { let mut t = (1, [2, 3, 4], 5); t.1[1] = 0x0102; t };
const ASSIGNED_IN_STRUCT: Row = { let mut r = Row { cells: [1, 2, 3], sum: 4 }; r.cells[2] = 30; r };
const ASSIGNED_DEEP: Grid = { let mut g = grid(); g.rows[1].cells[0] = 99; g.rows[0].sum = 77; g.place.1 = 0; g };
const ASSIGNED_BY_FIELDS: Grid = { let mut g = grid(); g.rows[g.place.0].cells[g.place.1] = 88; g };
const ASSIGNED_TRUTH: [bool; 3] = { let mut a = [false; 3]; a[1] = !a[1]; a };
const ASSIGNED_CHARACTER: [char; 2] = { let mut a = ['a', 'b']; a[0] = '\u{20ac}'; a };
const ASSIGNED_WIDE: [u128; 2] = { let mut a = [0u128; 2]; a[1] = !0 >> 3; a };
const ASSIGNED_UNIT: u8 = { let mut a = [(); 3]; a[1] = (); let _x = a[1]; 5 };
const ASSIGNED_OF_BLOCK: [u8; 2] = { let mut a = [1, 2]; ({ a })[0] = 9; a };
const ASSIGNED_OF_CALL: u8 = { three(1)[0] = 5; 7 };
const ASSIGNED_OF_LITERAL: u8 = { [1, 2][1] = 5; 7 };
const SWAPPED: [u8; 2] = { let mut a = [1, 2]; let t = a[0]; a[0] = a[1]; a[1] = t; a };
const SWAPPED_ROWS: [[u16; 2]; 2] = { let mut a = [[1, 2], [3, 4]]; let t = a[0]; a[0] = a[1]; a[1] = t; a };
const AS_A_TAIL: () = { let mut a = [1, 2]; a[0] = 3 };
const AS_BRANCHES: [u8; 2] = { let mut a = [1, 2]; if a[0] > 3 { a[0] = 5 } else { a[1] = 6 } a };

// Compound assignments.
const ADDED: [u8; 3] = { let mut a = [1, 2, 3]; a[0] += 5; a };
const EACH_OPERATOR: [u32; 10] = { let mut a = [100u32; 10]; a[0] += 7; a[1] -= 7; a[2] *= 7; a[3] /= 7; a[4] %= 7; a[5] <<= 7; a[6] >>= 2; a[7] &= 7; a[8] |= 7; a[9] ^= 7; a };
const EACH_OPERATOR_SIGNED: [i16; 7] = { let mut a = [-100i16; 7]; a[0] += -7; a[1] -= -7; a[2] *= -7; a[3] /= 7; a[4] %= 7; a[5] <<= 3; a[6] >>= 3; a };
const TRUTHS: [bool; 3] = { let mut a = [true; 3]; a[0] &= false; a[1] |= false; a[2] ^= true; a };
const BY_ITS_NEIGHBOUR: [u16; 3] = { let mut a = [1, 2, 3]; a[1] += a[0]; a[2] *= a[1]; a };
const BY_ITSELF: [u8; 2] = { let mut a = [3, 4]; a[0] += a[0]; a[1] *= a[1]; a };
const NESTED_ADDED: [[i32; 2]; 2] = { let mut a = [[1, 2], [3, 4]]; a[1][0] -= a[0][1] * 5; a };
const FIELD_ADDED: [(u8, u16); 2] = { let mut a = [(1, 2), (3, 4)]; a[1].1 += 500; a[0].0 <<= 3; a };
const STRUCT_ADDED: [Point; 2] = { let mut a = [Point { x: 1, y: 2 }; 2]; a[1].x -= 5; a[0].y += a[1].y; a };
const IN_FIELD_ADDED: Grid = { let mut g = grid(); g.rows[1].cells[2] *= 2; g.rows[0].sum += 256; g };
const SHIFTED_BY_ELEMENT: u32 = { let a = [5u8, 6]; let mut n = 3u32; n <<= a[0]; n };
const ADDED_BY_ELEMENT: u16 = { let a = [5u16, 6]; let mut n = 10; n += a[1]; n *= a[0]; n };
const OF_CALL_ADDED: u8 = { three(1)[1] += 5; 7 };
const COUNTED: [u8; 4] = { let d = [3usize, 1, 3, 0, 3, 1]; let mut c = [0; 4]; let mut i = 0; while i < 6 { c[d[i]] += 1; i += 1; } c };

// Indices with effects, and arrays that they change.
const INDEX_COUNTS: (u8, usize) = { let a = [5, 6, 7]; let mut i = 0; let x = a[{ i += 2; i }]; (x, i) };
const INDICES_COUNT: ([u8; 3], usize) = { let a = [5, 6, 7]; let mut i = 0; let x = [a[{ i += 1; i - 1 }], a[{ i += 1; i - 1 }], a[{ i += 1; i - 1 }]]; (x, i) };
const INDICES_OF_NESTED: (u8, usize) = { let a = [[1, 2], [3, 4]]; let mut i = 2; let x = a[{ i = i / 2; i }][{ i = i - 1; i }]; (x, i) };
const INDEX_CHANGES_ARRAY: u8 = { let mut a = [1, 2, 3]; let x = a[{ a = [7, 8, 9]; 1 }]; x };
const INDEX_CHANGES_ELEMENT: u8 = { let mut a = [1, 2, 3]; let x = a[{ a[1] = 8; 1 }]; x };
const INDEX_CHANGES_OTHER: (u8, [u8; 3]) = { let mut a = [1, 2, 3]; let x = a[{ a[2] = 8; 1 }]; (x, a) };
const INDEX_CHANGES_INDEX: usize = { let mut a = [1, 2, 0]; let x = a[{ let i = a[0]; a[0] = 2; a[i] = i + 5; i }]; x };
const INDEX_CHANGES_FIELD: u16 = { let mut t = (1u8, [2u16, 3]); let x = t.1[{ t.1 = [7, 9]; t.0 as usize }]; x };
const INDEX_IS_KEPT: u8 = { let a = [5, 6, 7]; let mut i = 1; let x = a[i]; i = 2; x * 10 + a[i] };
const INDEX_IS_KEPT_IN_ROW: u8 = { let a = [[1, 2], [3, 4]]; let mut i = 0; let x = a[i][{ i = 1; i }]; x };
const ASSIGNED_BY_COUNT: ([u8; 3], usize) = { let mut a = [1, 2, 3]; let mut i = 0; a[{ i += 1; i }] = 9; (a, i) };
const VALUE_BEFORE_INDEX: ([u8; 3], usize) = { let mut a = [1, 2, 3]; let mut i = 0; a[{ i *= 2; i }] = { i += 1; 9 }; (a, i) };
const VALUE_CHANGES_INDEX: [u8; 3] = { let mut a = [1, 2, 3]; let mut i = 0; a[i] = { i = 2; 9 }; a };
const VALUE_CHANGES_ARRAY: [u8; 3] = { let mut a = [1, 2, 3]; a[1] = { a = [7, 7, 7]; 9 }; a };
const VALUE_OF_OWN_ELEMENT: [usize; 3] = { let mut a = [1, 2, 0]; a[a[0]] = a[a[1]]; a };
const INDEX_OF_COMPOUND: ([u8; 3], usize) = { let mut a = [1, 2, 3]; let mut i = 0; a[{ i += 1; i }] += 10; (a, i) };
const INDEX_BREAKS: u8 = { let a = [1, 2]; let mut n = 0; loop { n += 1; let x = a[if n > 2 { break } else { n - 1 }]; if x == 9 { break; } } n as u8 };
const INDEX_CONTINUES: u32 = { let a = [1u32, 2, 3, 4]; let mut i = 0; let mut s = 0; while i < 4 { i += 1; s += a[if i == 2 { continue } else { i - 1 }]; } s };
const INDEX_RETURNS: (u8, u8) = (or_return(1), or_return(7));
const INDEX_IN_SCOPE: u8 = { let a = [1, 2, 3]; let i = 0; let x = a[{ let i = 2; i }]; x * 10 + a[i] };

// No bytes.
const UNIT_ELEMENT: () = [(); 3][2];
const UNIT_ELEMENT_NAMED: () = { let a = [(), (), ()]; let i = 1; a[i] };
const NOTHING_ELEMENT: Nothing = { let a = [Nothing; 4]; a[3] };
const EMPTY_ELEMENT: Empty = { let a = [Empty { none: [], unit: () }; 2]; a[1] };
const ARRAY_OF_NONE: [u32; 0] = { let a = [[0u32; 0]; 3]; a[2] };
const UNIT_BESIDE: (u8, ()) = { let a = [(7u8, ()), (8, ())]; a[1] };
const UNIT_OF_ELEMENT: () = { let a = [(7u8, ()), (8, ())]; a[1].1 };
const MANY_UNITS: u8 = { let a = [(); 10000]; a[9999]; let _x = a[5000]; 3 };
const BEHIND_UNITS: u8 = { let t = ([(); 5], [1u8, 2]); t.0[4]; t.1[1] };

// Out of bounds.
const AT_THE_LENGTH: u8 = { let a = [1, 2, 3]; let i = 3; a[i] };
const AT_THE_LENGTH_BY_LITERAL: u8 = { let a = [1, 2, 3]; a[3] };
const AT_THE_LENGTH_OF_LITERAL: u8 = [1, 2, 3][3];
const BEHIND_THE_LENGTH: u8 = { let a = [1, 2, 3]; let i = 2; a[i + 2] };
const AT_THE_GREATEST: u8 = { let a = [1, 2, 3]; a[!0] };
const AT_THE_GREATEST_OF_MANY: u16 = { let a = [0u16; 10000]; let i = !0usize; a[i] };
const AT_HALF_OF_THE_GREATEST: u64 = { let a = [1u64, 2]; let i = 1usize << 61; a[i] };
const OF_NO_ELEMENTS: u8 = { let a = [0u8; 0]; let i = 0; a[i] };
const OF_NO_ELEMENTS_LITERAL: u64 = { let a: [u64; 0] = []; a[0] };
const OF_ONE: u8 = { let a = [1]; a[1] };
const OF_UNITS: () = { let a = [(); 3]; let i = 3; a[i] };
const OF_UNITS_GREATEST: () = { let a = [(); 3]; let i = !0; a[i] };
const OF_NO_UNITS: () = { let a = [(); 0]; let i = 0; a[i] };
const OF_MANY: u8 = { let a = [7u8; 10000]; let i = 10000; a[i] };
const OF_ROW: u8 = { let a = [[1, 2], [3, 4]]; let i = 2; a[1][i] };
const OF_ROWS: u8 = { let a = [[1, 2], [3, 4]]; let i = 2; a[i][1] };
const OF_ROW_WITHIN_THE_WHOLE: u8 = { let a = [[1, 2], [3, 4]]; let i = 3; a[0][i] };
const OF_ROWS_WHOLE: [u8; 2] = { let a = [[1, 2], [3, 4]]; let i = 2; a[i] };
const OF_FIELD: u16 = { let t = (1u8, [2u16, 3], 4u16); let i = 2; t.1[i] };
const OF_STRUCT: u8 = { let r = Row { cells: [1, 2, 3], sum: 4 }; let i = 3; r.cells[i] };
const FIELD_OUT: u32 = { let a = [(1u8, 2u32)]; let i = 1; a[i].1 };
const FIELD_OUT_OF_UNIT: () = { let a = [(1u8, ())]; let i = 1; a[i].1 };
const BY_ELEMENT_OUT: u8 = { let a = [1, 2, 3]; let b = [0, 3]; a[b[1]] };
const BY_ELEMENT_OUT_INSIDE: u8 = { let a = [1, 2, 3]; let b = [0, 1]; a[b[2 + b[0]]] };
const OUT_IN_BASE: Point = { let a = [Point { x: 1, y: 2 }]; let i = 1; Point { x: 1, ..a[i] } };
const OUT_AFTER_A_LOOP: u8 = { let a = [1, 2, 3]; let mut i = 0; let mut s = 0; loop { s += a[i]; i += 1; if s > 100 { break s; } } };
const OUT_IN_SUM: u8 = { let a = [1, 2, 3]; let i = 3; 1 + a[i] };
const OUT_IN_TUPLE: (u8, u8) = { let a = [1, 2, 3]; let i = 5; (a[0], a[i]) };
const OUT_IN_ARRAY: [u8; 2] = { let a = [1, 2, 3]; let i = 5; [a[i], a[0]] };
const OUT_IN_REPEAT: [u8; 3] = { let a = [1, 2, 3]; let i = 3; [a[i]; 3] };
const OUT_IN_REPEAT_OF_NONE: [u8; 0] = { let a = [1, 2, 3]; let i = 3; [a[i]; 0] };
const OUT_IN_CAST: u32 = { let a = [1u8, 2]; let i = 2; a[i] as u32 };
const OUT_IN_MINUS: i8 = { let a = [1i8, 2]; let i = 2; -a[i] };
const OUT_IN_CONDITION: u8 = { let a = [true]; let i = 1; if a[i] { 1 } else { 2 } };
const OUT_IN_AND: bool = { let a = [true]; let i = 1; a[i] && a[0] };
const OUT_IN_AND_ON_THE_RIGHT: bool = { let a = [true]; let i = 1; a[0] && a[i] };
const OUT_NOT_ASKED: bool = { let a = [true]; let i = 1; a[0] || a[i] };
const OUT_NOT_TAKEN: u8 = { let a = [1, 2]; let i = 2; if i < 2 { a[i] } else { 9 } };
const OUT_IN_LET: u8 = { let a = [1, 2]; let i = 2; let x = a[i]; x };
const OUT_IN_ARGUMENT: u32 = { let a = [1u32, 2]; let i = 2; weighted(1, a[i], 3) };
const OUT_IN_RECEIVER: i32 = { let a = [Point { x: 1, y: 2 }]; let i = 1; a[i].area() };
const OUT_IN_CALLED: u8 = nth([1, 2, 3], 3);
const OUT_IN_CALLED_DEEPER: u8 = nth_of_next([1, 2, 3], 2);
const OUT_ASSIGNED: [u8; 3] = { let mut a = [1, 2, 3]; let i = 3; a[i] = 9; a };
const OUT_ASSIGNED_GREATEST: [u8; 3] = { let mut a = [1, 2, 3]; let i = !0; a[i] = 9; a };
const OUT_ASSIGNED_UNIT: u8 = { let mut a = [(); 3]; let i = 3; a[i] = (); 5 };
const OUT_ASSIGNED_ROW: [[u8; 2]; 2] = { let mut a = [[1, 2], [3, 4]]; let i = 2; a[i] = [5, 6]; a };
const OUT_ASSIGNED_IN_ROW: [[u8; 2]; 2] = { let mut a = [[1, 2], [3, 4]]; let i = 2; a[0][i] = 5; a };
const OUT_ASSIGNED_FIELD: [(u8, u8); 1] = { let mut a = [(1, 2)]; let i = 1; a[i].1 = 5; a };
const OUT_ASSIGNED_IN_FIELD: (u8, [u8; 2], u8) = { let mut t = (1, [2, 3], 4); let i = 2; t.1[i] = 5; t };
const OUT_ASSIGNED_FROM: u8 = { let a = [1, 2]; let i = 2; let mut x = 0; x = a[i]; x };
const OUT_ASSIGNED_FROM_AND_TO: [u8; 2] = { let mut a = [1, 2]; let i = 2; a[i + 1] = a[i]; a };
const OUT_ADDED: [u8; 3] = { let mut a = [1, 2, 3]; let i = 3; a[i] += 9; a };
const OUT_ADDED_BY: u8 = { let a = [1, 2, 3]; let i = 3; let mut x = 5; x += a[i]; x };
const OUT_SHIFTED: [u8; 3] = { let mut a = [1, 2, 3]; let i = 3; a[i] <<= 9 - 8; a };
const OUT_BEFORE_OVERFLOW: u8 = { let a = [255u8, 1]; let i = 2; a[0] + a[i] };
const OUT_BEFORE_DIVISION: u8 = { let a = [1u8, 0]; let i = 2; a[i] / a[1] };
const OVERFLOW_BEFORE_OUT: u8 = { let a = [255u8, 1]; let i = 2; (a[0] + a[1]) + a[i] };
const INDEX_OVERFLOWS: u8 = { let a = [1, 2, 3]; let i = 0usize; a[i - 1] };
const INDEX_DIVIDES_BY_ZERO: u8 = { let a = [1, 2, 3]; let i = 0usize; a[5 / i] };
const ELEMENTS_OVERFLOW: u8 = { let a = [200u8, 100]; a[0] + a[1] };
const ELEMENT_OVERFLOWS: [u8; 2] = { let mut a = [200u8, 100]; a[0] += a[1]; a };
const ELEMENT_DIVIDES_BY_ZERO: u8 = { let mut a = [200u8, 0]; a[0] /= a[1]; a[0] };
const ELEMENT_SHIFTS_TOO_FAR: u16 = { let mut a = [1u16, 16]; a[0] <<= a[1]; a[0] };

// Functions over arrays.
const OF_PARAMETER: u8 = nth([5, 6, 7], 1);
const OF_PARAMETER_CHANGED: ([u8; 3], [u8; 3]) = { let a = [1, 2, 3]; (with([1, 2, 3], 1, 9), a) };
const OF_RESULT: u8 = with([1, 2, 3], 2, 9)[2];
const RECURSION: u32 = sum_from([1, 2, 3, 4, 5], 0);
const RECURSION_CHANGES: [u8; 5] = filled_from([0; 5], 0);
const REVERSED: [u8; 5] = reversed([1, 2, 3, 4, 5]);
const SORTED: [i16; 9] = sorted([5, -3, 9, 0, -300, 127, 2, 2, 1]);
const SORTED_BY_HEAP: [u32; 12] = by_heap([5, 3, 9, 0, 11, 127, 2, 2, 1, 4_000_000_000, 6, 7]);
const SEARCHED: [usize; 3] = [searched([2, 3, 5, 7, 11, 13, 17, 19], 13), searched([2, 3, 5, 7, 11, 13, 17, 19], 2), searched([2, 3, 5, 7, 11, 13, 17, 19], 4)];
const TRANSPOSED: [[u8; 3]; 2] = transposed([[1, 2], [3, 4], [5, 6]]);
const PUSHED: Stack = { let s = Stack { items: [0; 4], used: 0 }; s.pushed(5).pushed(6).pushed(0x0708) };
const POPPED: u16 = { let s = Stack { items: [5, 6, 7, 8], used: 3 }; s.top() * 10 + s.pushed(9).top() };
const PUSHED_TOO_OFTEN: Stack = Stack { items: [0; 4], used: 3 }.pushed(1).pushed(2);
const MOVED_ROWS: Grid = grid().turned();
const DETERMINANT: i64 = determinant([[2, -1, 0], [1, 3, 4], [-5, 2, 6]]);
const EDITS: usize = edits([1, 2, 3, 4, 5, 6, 7], [2, 3, 9, 4, 6, 8, 7]);
const PERMUTATIONS: u32 = permutations([1, 2, 3, 4, 5]);
const QUEENS: u32 = queens([0; 6], 0);

// Tables and loops.
const TOTAL: u32 = { let a = [3, 1, 4, 1, 5, 9, 2, 6]; let mut i = 0; let mut s = 0; while i < 8 { s += a[i]; i += 1; } s };
const MAXIMUM: i32 = { let a = [3, -1, 41, 1, 5]; let mut i = 1; let mut m = a[0]; while i < 5 { if a[i] > m { m = a[i]; } i += 1; } m };
const SQUARES: [u32; 8] = { let mut a = [0; 8]; let mut i = 0; while i < 8 { a[i] = (i * i) as u32; i += 1; } a };
const FIBONACCI: [u64; 12] = { let mut a = [1; 12]; let mut i = 2; while i < 12 { a[i] = a[i - 1] + a[i - 2]; i += 1; } a };
const PASCAL: [u16; 9] = { let mut row = [0; 9]; row[0] = 1; let mut n = 1; while n < 9 { let mut k = n; while k > 0 { row[k] += row[k - 1]; k -= 1; } n += 1; } row };
const TRIANGLE: [[u8; 5]; 5] = { let mut a = [[0; 5]; 5]; let mut i = 0; while i < 5 { a[i][0] = 1; let mut k = 1; while k <= i { a[i][k] = a[i - 1][k - 1] + a[i - 1][k]; k += 1; } i += 1; } a };
const SIEVE: [bool; 30] = { let mut s = [true; 30]; s[0] = false; s[1] = false; let mut i = 2; while i * i < 30 { if s[i] { let mut j = i * i; while j < 30 { s[j] = false; j += i; } } i += 1; } s };
const PRIMES_TO_10000: u32 = { let mut s = [true; 10000]; s[0] = false; s[1] = false; let mut i = 2; while i * i < 10000 { if s[i] { let mut j = i * i; while j < 10000 { s[j] = false; j += i; } } i += 1; } let mut n = 0; i = 0; while i < 10000 { if s[i] { n += 1; } i += 1; } n };
const CRC_ENTRIES: [u32; 4] = { let t = crc_table(); [t[0], t[1], t[128], t[255]] };
const CRC_OF_DIGITS: u32 = { let t = crc_table(); let d = [49u8, 50, 51, 52, 53, 54, 55, 56, 57]; let mut c = !0u32; let mut i = 0; while i < 9 { c = t[((c ^ d[i] as u32) & 255) as usize] ^ (c >> 8); i += 1; } !c };
const CRC_OF_10000: u32 = { let t = crc_table(); let mut d = [0u8; 10000]; let mut i = 0; while i < 10000 { d[i] = (i * 7 + 3) as u8; i += 1; } let mut c = !0u32; i = 0; while i < 10000 { c = t[((c ^ d[i] as u32) & 255) as usize] ^ (c >> 8); i += 1; } !c };
const PRODUCT_OF_16_BY_16: [i64; 16] = { let p = product(numbered(1), numbered(3)); let mut d = [0; 16]; let mut i = 0; while i < 16 { d[i] = p[i][15 - i]; i += 1; } d };
const FILLED_64_KB: u64 = { let mut a = [0u8; 65536]; let mut i = 0; while i < 65536 { a[i] = (i * 31 >> 3) as u8; i += 1; } let mut s = 0u64; i = 0; while i < 65536 { s = s * 3 % 1_000_003 + a[i] as u64; i += 1; } s };
const FILLED_64_KB_OF_WORDS: u64 = { let mut a = [0u64; 8192]; let mut i = 0; while i < 8192 { a[8191 - i] = (i * i) as u64; i += 1; } a[0] + a[4095] + a[8191] };
const HISTOGRAM: [u16; 8] = { let mut h = [0; 8]; let mut x = 1u32; let mut i = 0; while i < 500 { x = x * 75 % 65537; h[(x >> 13 & 7) as usize] += 1; i += 1; } h };
const RING: [u8; 5] = { let mut a = [0; 5]; let mut at = 0; let mut i = 0; while i < 23 { a[at] = i; at = (at + 2) % 5; i += 1; } a };
const LIFE: [[bool; 6]; 6] = { let mut g = [[false; 6]; 6]; g[0][1] = true; g[1][2] = true; g[2][0] = true; g[2][1] = true; g[2][2] = true; let mut n = 0; while n < 4 { g = after(g); n += 1; } g };
const WORDS_OF_BYTES: [u32; 2] = { let b = [1u8, 2, 3, 4, 0xfe, 0xff, 0, 0x80]; let mut w = [0u32; 2]; let mut i = 0; while i < 8 { w[i / 4] |= (b[i] as u32) << (i % 4 * 8); i += 1; } w };
const DIGITS: [u8; 10] = { let mut d = [0; 10]; let mut n = 4_294_967_295u32; let mut i = 10; while i > 0 { i -= 1; d[i] = (n % 10) as u8 + 48; n /= 10; } d };
const BIG_POWER: [u32; 4] = { let mut a = [1u32, 0, 0, 0]; let mut n = 0; while n < 50 { let mut carry = 0u64; let mut i = 0; while i < 4 { let x = a[i] as u64 * 5 + carry; a[i] = x as u32; carry = x >> 32; i += 1; } n += 1; } a };
const POWERS_OF_TEN: [u64; 20] = { let mut a = [1; 20]; let mut i = 1; while i < 20 { a[i] = a[i - 1] * 10; i += 1; } a };
const POWERS_OF_TEN_TOO_MANY: [u64; 21] = { let mut a = [1; 21]; let mut i = 1; while i < 21 { a[i] = a[i - 1] * 10; i += 1; } a };
const BACKWARDS: [u8; 256] = { let mut a = [0; 256]; let mut i = 0; while i < 256 { let mut n = 0; let mut b = 0; while b < 8 { n |= (i as u8 >> b & 1) << (7 - b); b += 1; } a[i] = n; i += 1; } a };
const LCS: usize = { let a = [1, 3, 5, 7, 2, 4]; let b = [3, 1, 5, 2, 7, 4]; let mut t = [[0usize; 7]; 7]; let mut i = 0; while i < 6 { let mut k = 0; while k < 6 { t[i + 1][k + 1] = if a[i] == b[k] { t[i][k] + 1 } else if t[i][k + 1] > t[i + 1][k] { t[i][k + 1] } else { t[i + 1][k] }; k += 1; } i += 1; } t[6][6] };

const fn half(n: usize) -> usize { n / 2 }
const fn three(n: u32) -> [u32; 3] { [n, n * 2, n * 3] }
const fn grid() -> Grid { Grid { rows: [Row { cells: [1, 2, 3], sum: 6 }, Row { cells: [4, 5, 6], sum: 15 }], place: (1, 1) } }
const fn nth(a: [u8; 3], i: usize) -> u8 { a[i] }
const fn nth_of_next(a: [u8; 3], i: usize) -> u8 { nth(a, i + 1) }
const fn nth_or(a: [u8; 3], i: usize) -> u8 { if i < 3 { return a[i]; } 99 }
const fn or_return(n: usize) -> u8 { let a = [5, 6]; a[if n > 1 { return 77 } else { n }] }
const fn weighted(a: u32, b: u32, c: u32) -> u32 { a * 100 + b * 10 + c }
const fn total(a: [u32; 3]) -> u32 { a[0] + a[1] + a[2] }
const fn with(mut a: [u8; 3], i: usize, n: u8) -> [u8; 3] { a[i] = n; a }
const fn sum_from(a: [u32; 5], i: usize) -> u32 { if i == 5 { 0 } else { a[i] + sum_from(a, i + 1) } }
const fn filled_from(mut a: [u8; 5], i: usize) -> [u8; 5] { if i == 5 { return a; } a[i] = i as u8 * 3; filled_from(a, i + 1) }
const fn reversed(mut a: [u8; 5]) -> [u8; 5] { let mut i = 0; while i < 2 { let t = a[i]; a[i] = a[4 - i]; a[4 - i] = t; i += 1; } a }
const fn sorted(mut a: [i16; 9]) -> [i16; 9] {
    let mut i = 1;
    while i < 9 {
        let mut j = i;
        while j > 0 && a[j - 1] > a[j] {
            let t = a[j];
            a[j] = a[j - 1];
            a[j - 1] = t;
            j -= 1;
        }
        i += 1;
    }
    a
}
const fn sunk(mut a: [u32; 12], from: usize, end: usize) -> [u32; 12] {
    let mut i = from;
    loop {
        let mut child = 2 * i + 1;
        if child >= end {
            return a;
        }
        if child + 1 < end && a[child + 1] > a[child] {
            child += 1;
        }
        if a[i] >= a[child] {
            return a;
        }
        let t = a[i];
        a[i] = a[child];
        a[child] = t;
        i = child;
    }
}
const fn by_heap(mut a: [u32; 12]) -> [u32; 12] {
    let mut i = 6;
    while i > 0 {
        i -= 1;
        a = sunk(a, i, 12);
    }
    let mut end = 12;
    while end > 1 {
        end -= 1;
        let t = a[0];
        a[0] = a[end];
        a[end] = t;
        a = sunk(a, 0, end);
    }
    a
}
const fn searched(a: [u32; 8], wanted: u32) -> usize {
    let mut low = 0;
    let mut high = 8;
    while low < high {
        let middle = (low + high) / 2;
        if a[middle] < wanted {
            low = middle + 1;
        } else {
            high = middle;
        }
    }
    low
}
const fn transposed(a: [[u8; 2]; 3]) -> [[u8; 3]; 2] {
    let mut t = [[0; 3]; 2];
    let mut i = 0;
    while i < 6 {
        t[i % 2][i / 2] = a[i / 2][i % 2];
        i += 1;
    }
    t
}
const fn determinant(a: [[i64; 3]; 3]) -> i64 {
    let mut s = 0;
    let mut i = 0;
    while i < 3 {
        let j = (i + 1) % 3;
        let k = (i + 2) % 3;
        s += a[0][i] * (a[1][j] * a[2][k] - a[1][k] * a[2][j]);
        i += 1;
    }
    s
}
const fn edits(a: [u8; 7], b: [u8; 7]) -> usize {
    let mut row = [0, 1, 2, 3, 4, 5, 6, 7];
    let mut i = 0;
    while i < 7 {
        let mut corner = row[0];
        row[0] = i + 1;
        let mut k = 0;
        while k < 7 {
            let above = row[k + 1];
            let mut least = corner + (a[i] != b[k]) as usize;
            if above + 1 < least { least = above + 1; }
            if row[k] + 1 < least { least = row[k] + 1; }
            row[k + 1] = least;
            corner = above;
            k += 1;
        }
        i += 1;
    }
    row[7]
}
const fn permutations(mut a: [u8; 5]) -> u32 {
    let mut counts = [0; 5];
    let mut many = 1;
    let mut i = 0;
    while i < 5 {
        if counts[i] < i {
            let j = if i % 2 == 0 { 0 } else { counts[i] };
            let t = a[j];
            a[j] = a[i];
            a[i] = t;
            many += 1;
            counts[i] += 1;
            i = 0;
        } else {
            counts[i] = 0;
            i += 1;
        }
    }
    many * 1000 + a[0] as u32 * 100 + a[4] as u32
}
const fn queens(mut placed: [i32; 6], row: usize) -> u32 {
    if row == 6 {
        return 1;
    }
    let mut found = 0;
    let mut column = 0;
    while column < 6 {
        let mut is_free = true;
        let mut above = 0;
        while above < row {
            let aside = placed[above] - column;
            if aside == 0 || aside == (row - above) as i32 || -aside == (row - above) as i32 {
                is_free = false;
            }
            above += 1;
        }
        if is_free {
            placed[row] = column;
            found += queens(placed, row + 1);
        }
        column += 1;
    }
    found
}
const fn crc_table() -> [u32; 256] {
    let mut t = [0u32; 256];
    let mut i = 0;
    while i < 256 {
        let mut c = i as u32;
        let mut k = 0;
        while k < 8 {
            c = if c & 1 == 1 { 0xedb8_8320 ^ (c >> 1) } else { c >> 1 };
            k += 1;
        }
        t[i] = c;
        i += 1;
    }
    t
}
const fn numbered(step: i64) -> [[i64; 16]; 16] {
    let mut a = [[0; 16]; 16];
    let mut n = 0;
    while n < 256 {
        a[n / 16][n % 16] = (n as i64 * step) % 17 - 8;
        n += 1;
    }
    a
}
const fn product(a: [[i64; 16]; 16], b: [[i64; 16]; 16]) -> [[i64; 16]; 16] {
    let mut p = [[0; 16]; 16];
    let mut i = 0;
    while i < 16 {
        let mut j = 0;
        while j < 16 {
            let mut k = 0;
            while k < 16 {
                p[i][j] += a[i][k] * b[k][j];
                k += 1;
            }
            j += 1;
        }
        i += 1;
    }
    p
}
const fn after(g: [[bool; 6]; 6]) -> [[bool; 6]; 6] {
    let mut next = [[false; 6]; 6];
    let mut i = 0;
    while i < 36 {
        let mut around = 0;
        let mut d = 0;
        while d < 9 {
            if d != 4 && g[(i / 6 + d / 3 + 5) % 6][(i % 6 + d % 3 + 5) % 6] {
                around += 1;
            }
            d += 1;
        }
        next[i / 6][i % 6] = around == 3 || (around == 2 && g[i / 6][i % 6]);
        i += 1;
    }
    next
}

impl Point {
    const fn area(self) -> i32 { self.x as i32 * self.y }
    const fn times(self, n: i32) -> i32 { self.area() * n }
}
impl Stack {
    const fn pushed(mut self, n: u16) -> Stack { self.items[self.used] = n; self.used += 1; self }
    const fn top(self) -> u16 { self.items[self.used - 1] }
}
impl Grid {
    const fn turned(mut self) -> Grid { let r = self.rows[0]; self.rows[0] = self.rows[1]; self.rows[1] = r; self.rows[1].cells[self.place.0] += 100; self }
}
