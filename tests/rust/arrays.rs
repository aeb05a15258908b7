// Arrays: literals, repetition, indexing, assignment to elements, slices of references, texts as bytes.

const BYTES: [u8; 4] = [1, 2, 3, 4];
const WORDS: [i16; 3] = [-1, 0, 1];
const NONE: [u64; 0] = [];
const REPEATED: [u8; 5] = [7; 5];
const REPEATED_BOOL: [bool; 3] = [true; 3];
const NESTED: [[u8; 2]; 3] = [[1, 2], [3, 4], [5, 6]];
const NESTED_REPEATED: [[u16; 2]; 2] = [[9; 2]; 2];
const TUPLES: [(u8, u8); 2] = [(1, 2), (3, 4)];
const LENGTH: usize = 3;
const BY_CONST: [u8; LENGTH * 2] = [1; LENGTH * 2];
const FIRST: u8 = BYTES[0];
const LAST: u8 = BYTES[3];
const COMPUTED: u8 = BYTES[1 + 1];
const OF_LITERAL: i32 = [10, 20, 30][1];
const NESTED_INDEX: u8 = NESTED[2][0];
const TUPLE_INDEX: u8 = TUPLES[1].0;
const INDEX_BY_ELEMENT: u8 = BYTES[BYTES[0] as usize];
const OUT_OF_BOUNDS: u8 = { let mut i = 2; while i < 4 { i += 1; } BYTES[i] };
const ASSIGNED: [u8; 3] = { let mut a = [1, 2, 3]; a[1] = 20; a };
const ADDED: [u8; 3] = { let mut a = [1, 2, 3]; a[0] += 5; a[2] *= 4; a };
const NESTED_ASSIGNED: [[u8; 2]; 2] = { let mut a = [[0; 2]; 2]; a[0][1] = 1; a[1] = [7, 8]; a };
const ELEMENT_ASSIGNED_IN_TUPLE: u8 = { let mut a = [(1, 2), (3, 4)]; a[1].0 = 30; a[1].0 + a[0].1 };
const COPIED: u8 = { let a = [1, 2, 3]; let mut b = a; b[0] = 9; a[0] + b[0] };
const SWAPPED: [u8; 2] = { let mut a = [1, 2]; let t = a[0]; a[0] = a[1]; a[1] = t; a };
const ORDER: [u8; 3] = { let mut n = 0; [{ n += 1; n }, { n *= 5; n }, { n -= 2; n }] };
const SUM: u32 = { let a = [3, 1, 4, 1, 5, 9, 2, 6]; let mut i = 0; let mut s = 0; while i < 8 { s += a[i]; i += 1; } s };
const MAXIMUM: i32 = { let a = [3, -1, 41, 1, 5]; let mut i = 1; let mut m = a[0]; while i < 5 { if a[i] > m { m = a[i]; } i += 1; } m };
const SQUARES: [u32; 8] = { let mut a = [0; 8]; let mut i = 0; while i < 8 { a[i] = (i * i) as u32; i += 1; } a };
const FIBONACCI: [u64; 12] = { let mut a = [1; 12]; let mut i = 2; while i < 12 { a[i] = a[i - 1] + a[i - 2]; i += 1; } a };
const REVERSED: [u8; 4] = { let mut a = BYTES; let mut i = 0; while i < 2 { let t = a[i]; a[i] = a[3 - i]; a[3 - i] = t; i += 1; } a };
const SORTED: [i8; 7] = sorted([5, -3, 9, 0, -128, 127, 2]);
const SIEVE: [bool; 30] = { let mut s = [true; 30]; s[0] = false; s[1] = false; let mut i = 2; while i * i < 30 { let mut j = i * i; while j < 30 { s[j] = false; j += i; } i += 1; } s };
const PRODUCT: [[i32; 2]; 2] = multiply([[1, 2], [3, 4]], [[5, -6], [7, 8]]);
const PASCAL: [u16; 9] = { let mut row = [0; 9]; row[0] = 1; let mut n = 1; while n < 9 { let mut k = n; while k > 0 { row[k] += row[k - 1]; k -= 1; } n += 1; } row };
const POSITION: usize = position(&[3, 1, 4, 1, 5], 4);
const POSITION_MISSING: usize = position(&[3, 1, 4, 1, 5], 7);
const SEARCHED: usize = { let a = [2, 3, 5, 7, 11, 13, 17, 19]; let mut low = 0; let mut high = 8; while low < high { let middle = (low + high) / 2; if a[middle] < 13 { low = middle + 1; } else { high = middle; } } low };
const TEXT_BYTE: u8 = b"hello"[1];
const BYTE_TEXT: [u8; 5] = *b"hello";
const SLICE_LENGTH: usize = { let s: &[u8] = &BYTES; s.len() };
const SLICE_ELEMENT: u8 = { let s: &[u8] = &BYTES; s[2] };
const SLICE_SUM: u32 = total(&[1, 2, 3, 4, 5]);
const ARRAY_LENGTH: usize = BYTES.len() + NONE.len();
const GENERIC_LENGTH: u64 = total_of([1, 2, 3]) + total_of([10; 10]);
const FIELD_ARRAY: u8 = { struct Buffer { bytes: [u8; 4], used: usize } let mut b = Buffer { bytes: [0; 4], used: 0 }; b.bytes[b.used] = 7; b.used += 1; b.bytes[b.used] = 8; b.bytes[0] * 10 + b.bytes[1] };
static TABLE: [u8; 16] = *b"0123456789abcdef";
const OF_STATIC: u8 = TABLE[11];
const HEX: [u8; 8] = { let mut out = [0; 8]; let n = 0xdead_beef_u32; let mut i = 0; while i < 8 { out[i] = TABLE[(n >> (28 - 4 * i as u32) & 0xf) as usize]; i += 1; } out };

const fn sorted<const N: usize>(mut a: [i8; N]) -> [i8; N] {
    let mut i = 1;
    while i < N {
        let mut j = i;
        while j > 0 && a[j - 1] > a[j] {
            let t = a[j];
            a[j] = a[j - 1];
            a[j - 1] = t;
            j -= 1;
        }
        i += 1;
    }
    a
}
const fn multiply(a: [[i32; 2]; 2], b: [[i32; 2]; 2]) -> [[i32; 2]; 2] {
    [[a[0][0] * b[0][0] + a[0][1] * b[1][0], a[0][0] * b[0][1] + a[0][1] * b[1][1]],
     [a[1][0] * b[0][0] + a[1][1] * b[1][0], a[1][0] * b[0][1] + a[1][1] * b[1][1]]]
}
const fn position(a: &[u8], wanted: u8) -> usize {
    let mut i = 0;
    while i < a.len() {
        if a[i] == wanted {
            return i;
        }
        i += 1;
    }
    a.len()
}
const fn total(a: &[u32]) -> u32 { let mut i = 0; let mut s = 0; while i < a.len() { s += a[i]; i += 1; } s }
const fn total_of<const N: usize>(a: [u64; N]) -> u64 { let mut i = 0; let mut s = 0; while i < N { s += a[i]; i += 1; } s }
