// Tuples: values, fields, patterns, assignment to fields.

const UNIT: () = ();
const ONE: (u8,) = (7,);
const PAIR: (u16, i16) = (1, -1);
const SAME: (u8, u8, u8) = (1, 2, 3);
const MIXED: (u32, u16, u8, bool) = (1, 2, 3, true);
const NESTED: ((u8, u8), (u8, u8)) = ((1, 2), (3, 4));
const WITH_UNIT: (u8, (), u8) = (1, (), 2);
const FIRST: u8 = (5, 6).0;
const SECOND: i64 = (5u8, -6i64).1;
const FIELD_OF_FIELD: u8 = ((1, 2), (3, 4)).1.0;
const FIELD_OF_NAME: u16 = { let t = (1u8, 2u16, 3u32); t.1 };
const SUM_OF_FIELDS: i32 = { let t = (10, -3, 4); t.0 + t.1 * t.2 };
const OF_CONST: u16 = PAIR.0 + 4;
const ASSIGNED: u8 = { let mut t = (1, 2); t.0 = 9; t.0 * 10 + t.1 };
const ADDED: u8 = { let mut t = (1u8, 2u16); t.0 += 4; t.1 *= 3; t.0 + t.1 as u8 };
const NESTED_ASSIGNED: u8 = { let mut t = (1, (2, 3)); (t.1).1 = 30; t.0 + t.1.0 + t.1.1 };
const WHOLE_ASSIGNED: u8 = { let mut t = (1, 2); t = (t.1, t.0); t.0 * 10 + t.1 };
const COPIED: u8 = { let a = (1, 2); let mut b = a; b.0 = 50; a.0 + b.0 };
const PATTERN: u8 = { let (a, b) = (3, 4); a * 10 + b };
const PATTERN_NESTED: u8 = { let (a, (b, c)) = (1, (2, 3)); a * 100 + b * 10 + c };
const PATTERN_WILD: u8 = { let (a, _, c) = (1, 2u64, 3); a + c };
const PATTERN_REST: u8 = { let (a, .., z) = (1, 2, 3, 4, 5); a + z };
const PATTERN_REST_FIRST: u8 = { let (.., y, z) = (1, 2, 3, 4, 5); y + z };
const PATTERN_REST_LAST: u8 = { let (a, ..) = (1u8, 2u64, true); a };
const PATTERN_MUT: u8 = { let (mut a, b) = (1, 2); a += b; a };
const SWAP: (u8, u8) = { let (a, b) = (1, 2); (b, a) };
const ORDER: (u8, u8) = { let mut n = 0; ({ n += 1; n }, { n += 1; n }) };
const PANICS_INSIDE: (u8, u8) = (1, 255 + 1);
const RETURNED: (u32, u32) = divided(47, 6);
const RETURNED_FIELD: u32 = divided(47, 6).1;
const TAKEN: i32 = dot((1, 2, 3), (4, -5, 6));
const OVERFLOWING: (u8, bool) = add_with_carry(200, 100);
const WIDE: (u64, u64) = multiply_wide(0xffff_ffff_ffff_fff1, 0xffff_ffff_ffff_ff00);
const EXTENDED_GCD: (i64, i64, i64) = extended_gcd(240, 46);

const fn divided(a: u32, b: u32) -> (u32, u32) { (a / b, a % b) }
const fn dot(a: (i32, i32, i32), b: (i32, i32, i32)) -> i32 { a.0 * b.0 + a.1 * b.1 + a.2 * b.2 }
const fn add_with_carry(a: u8, b: u8) -> (u8, bool) { let s = a as u16 + b as u16; (s as u8, s > 255) }
// The product of two words as a high and a low one, from halves.
const fn multiply_wide(a: u64, b: u64) -> (u64, u64) {
    let mask = 0xffff_ffff;
    let (a1, a0, b1, b0) = (a >> 32, a & mask, b >> 32, b & mask);
    let low = a0 * b0;
    let middle = a1 * b0 + (low >> 32);
    let middle2 = a0 * b1 + (middle & mask);
    (a1 * b1 + (middle >> 32) + (middle2 >> 32), (middle2 << 32) | (low & mask))
}
const fn extended_gcd(a: i64, b: i64) -> (i64, i64, i64) {
    if b == 0 {
        return (a, 1, 0);
    }
    let (g, x, y) = extended_gcd(b, a % b);
    (g, y, x - a / b * y)
}
