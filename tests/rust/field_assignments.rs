// Fields of tuples that are assigned, by `=` and by each compound operator: of names, of parameters and of values without a name.

const SECOND: u8 = { let mut a = (10, 20, 3, 15); a.1 = 2; a.0 + a.1 + a.2 + a.3 };
const EACH: (u8, u16, u32) = { let mut t = (1u8, 2u16, 3u32); t.2 = 6; t.0 = 4; t.1 = 5; t };
const ONLY: (u16,) = { let mut t = (7u16,); t.0 = 513; t };
const LAST_OF_SIX: (u8, u8, u8, u8, u8, u8) = { let mut t = (1, 2, 3, 4, 5, 6); t.5 = 9; t };
const TWICE: (u8, u8) = { let mut t = (1, 2); t.1 = 9; t.1 = 8; t };
const FROM_NEIGHBOUR: (u8, u8) = { let mut t = (1, 2); t.1 = t.0; t };
const FROM_ITSELF: (u8, u8) = { let mut t = (1, 2); t.1 = t.1 + t.1; t };
const TYPE_BY_ASSIGNMENT: (u8, i64) = { let mut t = (1, 2); t.0 = 7u8; t.1 = -9i64; t };
const IN_BRACKETS: (u8, u8) = { let mut t = (1, 2); (t.0) = 5; (t).1 = 6; t };

// Each type between two bytes, which stay.
const OF_U8: (u8, u8, u8) = { let mut t = (0, 0, 0); t.1 = 255; t };
const OF_U16: (u8, u16, u8) = { let mut t = (255, 65535, 255); t.1 = 0; t };
const OF_U32: (u8, u32, u8) = { let mut t = (0, 0, 0); t.1 = 4_294_967_295; t };
const OF_U64: (u8, u64, u8) = { let mut t = (255, 18_446_744_073_709_551_615, 255); t.1 = 0; t };
const OF_U128: (u8, u128, u8) = { let mut t = (0, 0, 0); t.1 = 0xffff_ffff_ffff_ffff_ffff_ffff_ffff_ffff; t };
const OF_USIZE: (u8, usize, u8) = { let mut t = (255, 0x0102_0304_0506_0708, 255); t.1 = 1; t };
const OF_I8: (u8, i8, u8) = { let mut t = (0, 0, 0); t.1 = -128; t };
const OF_I16: (u8, i16, u8) = { let mut t = (255, -1, 255); t.1 = 32767; t };
const OF_I32: (u8, i32, u8) = { let mut t = (0, 0, 0); t.1 = -2_147_483_648; t };
const OF_I64: (u8, i64, u8) = { let mut t = (255, -1, 255); t.1 = 9_223_372_036_854_775_807; t };
const OF_I128: (u8, i128, u8) = { let mut t = (0, 0, 0); t.1 = -170_141_183_460_469_231_731_687_303_715_884_105_728; t };
const OF_ISIZE: (u8, isize, u8) = { let mut t = (255, -1, 255); t.1 = 0; t };
const OF_BOOL: (bool, bool, bool) = { let mut t = (true, true, true); t.1 = false; t };
const OF_CHAR: (u8, char, u8) = { let mut t = (255, 'a', 255); t.1 = '\u{10ffff}'; t };
const AROUND: (u8, u64, u8) = { let mut t = (0, 0x0102_0304_0506_0708, 0); t.0 = 255; t.2 = 254; t };
const OUT_OF_ORDER: (u8, u64, u16, u32) = { let mut t = (1, 2, 3, 4); t.2 = 65535; t.0 = 9; t };
const PADDED: [u64; 2] = { let mut t = (255u8, 1u64); t.0 = 254; t.1 = t.1 << 63; [t.0 as u64, t.1] };
const UNIT: (u8, (), u8) = { let mut t = (1, (), 2); t.1 = (); t.2 = 3; t };
const UNIT_BY_BLOCK: u8 = { let mut t = (1, ()); t.1 = { t.0 = 9; }; t.0 };
const UNIT_BY_ASSIGNMENT: u8 = { let mut t = (1, ()); t.1 = t.0 = 8; t.0 };
const NO_ELEMENTS: u8 = { let mut t = (1, [0u64; 0], 2); t.1 = []; t.0 + t.2 };

// Fields of fields.
const NESTED: ((u8, u8), (u8, u8)) = { let mut t = ((1, 2), (3, 4)); t.1.0 = 9; t };
const NESTED_EACH: ((u8, u16), (u32, u64)) = { let mut t = ((1, 2), (3, 4)); t.0.0 = 5; t.0.1 = 6; t.1.0 = 7; t.1.1 = 8; t };
const NESTED_IN_BRACKETS: (u8, (u8, u8)) = { let mut t = (1, (2, 3)); (t.1).1 = 30; t };
const NESTED_WHOLE: (u8, (u8, u8), u8) = { let mut t = (1, (2, 3), 4); t.1 = (5, 6); t };
const NESTED_FROM_OTHER: ((u8, u8), (u8, u8)) = { let mut t = ((1, 2), (3, 4)); t.0 = t.1; t.1.0 = 9; t };
const NESTED_FROM_ITS_PARTS: (u8, (u8, u8)) = { let mut t = (1, (2, 3)); t.1 = (t.1.1, t.1.0); t };
const NESTED_PADDING: [u64; 5] = {
    let mut t = ((1u8, 2u16), (3u32, (4u8, 5u64)));
    t.1.1.0 = 255;
    t.0.1 = 513;
    t.1.0 = 7;
    [t.0.0 as u64, t.0.1 as u64, t.1.0 as u64, t.1.1.0 as u64, t.1.1.1]
};
const DEEP: (((((u8,), u8), u8), u8), u8) = { let mut t = (((((1,), 2), 3), 4), 5); t.0.0.0.0.0 = 9; t.0.0.1 = 8; t };
const DEEP_TO_THE_RIGHT: (u64, (u64, (u64, (u64, u64)))) = { let mut t = (1, (2, (3, (4, 5)))); t.1.1.1.1 = 50; t.1.1.0 = 30; t };
const ARRAY: (u8, [u16; 3], u8) = { let mut t = (1, [2, 3, 4], 5); t.1 = [7, 8, 9]; t.0 = 255; t };
const ARRAY_OF_TUPLES: ([(u16, u16); 2], u16) = { let mut t = ([(1, 2), (3, 4)], 5); let p = (6, 7); t.0 = [p; 2]; t };

// What is copied, and what isn't.
const COPY_STAYS: [u8; 4] = { let mut t = (1, 2); let s = t; t.0 = 9; [s.0, s.1, t.0, t.1] };
const ORIGINAL_STAYS: [u8; 4] = { let s = (1, 2); let mut t = s; t.0 = 9; t.1 += 7; [s.0, s.1, t.0, t.1] };
const PART_STAYS: [u8; 4] = { let mut t = ((1, 2), 3); let p = t.0; t.0.1 = 9; [p.0, p.1, t.0.0, t.0.1] };
const OF_NAMED_PART: [u8; 4] = { let t = ((1, 2), 3); let mut p = t.0; p.1 = 9; [p.0, p.1, t.0.0, t.0.1] };
const INSIDE_STAYS: (u8, u8, u8) = { let mut t = (1, 2); let s = (t, 3); t.0 = 9; (s.0.0, s.0.1, t.0) };
const CALLER_KEEPS: [u16; 4] = { let t = (1, 2); let s = with_second(t, 9); [t.0 as u16, t.1, s.0 as u16, s.1] };
const SHADOWED: (u8, u8) = { let mut t = (1, 2); { let mut t = (3, 4); t.0 = 9; } t.1 = 7; t };
const SWAPPED: (u8, u8) = { let mut t = (1, 2); let a = t.0; t.0 = t.1; t.1 = a; t };
const SWAPPED_PARTS: ((u8, u8), (u8, u8)) = { let mut t = ((1, 2), (3, 4)); let a = t.0; t.0 = t.1; t.1 = a; t };
const SWAPPED_BETWEEN: [u8; 4] = { let mut s = (1, 2); let mut t = (3, 4); let a = s.1; s.1 = t.0; t.0 = a; [s.0, s.1, t.0, t.1] };
const SWAPPED_BY_BITS: (u8, u8) = { let mut t = (170, 15); t.0 ^= t.1; t.1 ^= t.0; t.0 ^= t.1; t };
const ROTATED: (u8, u8, u8) = { let mut t = (1, 2, 3); let a = t.0; t.0 = t.1; t.1 = t.2; t.2 = a; t };
const WHOLE_BEHIND_PART: (u8, u8) = { let mut t = (1, 2); t.0 = 9; t = (t.1, t.0); t.1 += 1; t };

// What the value is.
const BY_CALL: (u32, u32) = { let mut t = (47, 6); t.0 = divided(t.0, t.1).1; t };
const BY_CALL_OF_TUPLE: ((u32, u32), u32) = { let mut t = ((0, 0), 47); t.0 = divided(t.1, 6); t };
const BY_IF: (u8, u8) = { let mut t = (1, 2); t.1 = if t.0 > 0 { 7 } else { 8 }; t.0 = if t.1 > 7 { 5 } else { 6 }; t };
const BY_TESTS: (bool, bool) = { let mut t = (true, false); t.1 = t.0 && !t.1; t.0 = t.0 != t.1; t };
const BY_CASTS: (u16, u8, i64) = { let mut t = (300, 0, 0); t.1 = t.0 as u8; t.2 = -(t.0 as i64); t };
const BY_BLOCK: (u8, u8) = { let mut t = (1, 2); t.1 = { let a = t.0; t.0 = 9; a * 5 }; t };
const BY_BLOCK_OF_WHOLE: (u8, u8) = { let mut t = (1, 2); t.1 = { t = (5, 6); t.0 * t.1 }; t };
const BY_BLOCK_OF_ITSELF: ((u8, u8), u8) = { let mut t = ((1, 2), 3); t.0 = { t.0.0 = 9; t.0 }; t };
const BY_LOOP: (u32, u32) = { let mut t = (0, 0); t.1 = loop { t.0 += 7; if t.0 > 50 { break t.0 * 2; } }; t };
const BY_LABELLED: (u8, u8) = { let mut t = (1, 2); t.1 = 'out: { if t.0 == 1 { break 'out 9; } 7 }; t };

// Compound operators.
const ADD_U8: (u8, u8, u8) = { let mut t = (255, 250, 255); t.1 += 5; t };
const ADD_I64: (u8, i64, u8) = { let mut t = (255, -9_223_372_036_854_775_807, 255); t.1 += -1; t };
const ADD_U128: (u8, u128, u8) = { let mut t = (255, 0xffff_ffff_ffff_ffff, 255); t.1 += 1; t };
const SUB_U16: (u8, u16, u8) = { let mut t = (255, 65535, 255); t.1 -= 65535; t };
const SUB_I8: (u8, i8, u8) = { let mut t = (255, -100, 255); t.1 -= 28; t };
const SUB_USIZE: (u8, usize, u8) = { let mut t = (255, 0x1_0000_0000, 255); t.1 -= 1; t };
const MUL_U32: (u8, u32, u8) = { let mut t = (255, 65535, 255); t.1 *= 65537; t };
const MUL_I128: (u8, i128, u8) = { let mut t = (255, -18_446_744_073_709_551_616, 255); t.1 *= 9_223_372_036_854_775_808; t };
const DIV_I16: (u8, i16, u8) = { let mut t = (255, -32767, 255); t.1 /= -1; t };
const DIV_U64: (u8, u64, u8) = { let mut t = (255, 18_446_744_073_709_551_615, 255); t.1 /= 10; t };
const REM_ISIZE: (u8, isize, u8) = { let mut t = (255, -7, 255); t.1 %= 3; t };
const REM_U8: (u8, u8, u8) = { let mut t = (255, 254, 255); t.1 %= t.0; t };
const AND_I32: (u8, i32, u8) = { let mut t = (255, -1, 255); t.1 &= 0x1234_5678; t };
const AND_BOOL: (u8, bool, u8) = { let mut t = (255, true, 255); t.1 &= false; t };
const OR_U16: (u8, u16, u8) = { let mut t = (255, 0x00ff, 255); t.1 |= 0xff00; t };
const OR_BOOL: (bool, bool) = { let mut t = (false, true); t.0 |= t.1; t };
const XOR_I8: (u8, i8, u8) = { let mut t = (255, -1, 255); t.1 ^= 0x55; t };
const XOR_BOOL: (bool, bool) = { let mut t = (true, true); t.0 ^= t.1; t };
const SHL_U64: (u8, u64, u8) = { let mut t = (63, 1, 255); t.1 <<= t.0; t };
const SHL_I16: (u8, i16, u8) = { let mut t = (255, -3, 255); t.1 <<= 4i128; t };
const SHR_U128: (u8, u128, u8) = { let mut t = (127, 0xffff_ffff_ffff_ffff_ffff_ffff_ffff_ffff, 255); t.1 >>= t.0; t };
const SHR_I32: (u8, i32, u8) = { let mut t = (255, -256, 255); t.1 >>= 4usize; t };
const TO_NESTED: (u8, (u8, (u8, u64))) = { let mut t = (1, (2, (3, 4))); t.1.1.1 += 18_446_744_073_709_551_611; t.1.0 *= 100; t.1.1.0 -= 3; t };
const TO_ITSELF: (u8, u16) = { let mut t = (7, 3); t.0 += t.0; t.1 <<= t.1; t };
const EACH_BY_OTHER: (u8, u8) = { let mut t = (7, 9); t.0 += t.1; t.1 *= t.0; t.0 -= 15; t };
const COMPOUND_BY_CALL: (u32, u32) = { let mut t = (1000, 7); t.0 /= divided(t.0, t.1).1; t.1 += divided(t.0, t.1).0; t };
const COMPOUND_BY_IF: (u8, u8) = { let mut t = (7, 9); t.1 -= if t.0 > 3 { 1 } else { 2 }; t };
const COMPOUND_OF_BEHIND: (u8, u8) = { let mut t = (1, 2); t.0 += { t.0 = 5; 1 }; t };
const COMPOUND_OF_WHOLE_BEHIND: (u8, u8) = { let mut t = (1, 2); t.0 += { t = (5, 6); t.1 }; t };
const COMPOUND_OF_COMPOUND: (u8, u8) = { let mut t = (1, 2); t.0 += { t.0 += 1; t.0 }; t };
const COMPOUND_WITHOUT_OVERFLOW: u8 = { let mut t = (255, 2); t.0 += { t.0 = 1; 2 }; t.0 };

// Fields of values without a name: only what their parts do is seen.
const OF_LITERAL: u8 = { (1, 2).0 = 3; ((1, 2), 3).0.1 = 7; (1, 2).0 += 3; 5 };
const OF_CALL: u32 = { divided(47, 6).0 = 3; divided(47, 6).1 *= 3; divided(47, 6).1 };
const OF_BLOCK: (u8, u8) = { let t = (1, 2); ({ t }).0 = 9; ({ t }).1 += 9; t };
const OF_IF: (u8, u8) = { let t = (1, 2); (if t.0 == 1 { t } else { (3, 4) }).1 = 9; t };
const OF_LOOP: u8 = { let mut n = 1; (loop { n += 1; if n > 5 { break (n, n); } }).1 = 9; n };
const VALUE_BEFORE_BASE: u8 = { let mut n = 1; ({ n *= 10; (n, 0) }).0 = { n += 2; 5 }; n };
const BASE_ASSIGNS: (u8, u8) = { let mut t = (1, 2); ({ t.1 = 9; t }).0 = t.1; t };
const BASE_BREAKS: u8 = { let mut n = 0; loop { ({ n += 1; if n > 3 { break; } (n, n) }).0 = 1; } n };
const BASE_CONTINUES: u8 = { let mut n = 0; let mut m = 0; while n < 5 { n += 1; ({ if n == 3 { continue; } (n, n) }).1 *= 2; m += n; } m };
const BASE_RETURNS: (u8, u8) = (or_return(2), or_return(5));
const VALUE_BREAKS: u8 = { let mut t = (1, 2); loop { t.0 = { let a = t.0 * 2; if a > 20 { break; } a }; } t.0 };
const VALUE_CONTINUES: (u8, u8, u8) = { let mut t = (0, 0, 0); while t.0 < 5 { t.0 += 1; t.1 += { if t.0 == 3 { continue; } t.0 }; t.2 += 1; } t };
const VALUE_LEAVES_BASE: u8 = { let mut n = 1; 'out: { ({ n = 50; (n, n) }).0 = { n = 7; if n == 7 { break 'out; } 3 }; } n };

// Where the assignment stands.
const AS_A_TAIL: () = { let mut t = (1, 2); t.0 = 3 };
const AS_A_TAIL_OF_BLOCK: (u8, u8) = { let mut t = (1, 2); { t.0 += 3 } t };
const AS_AN_INITIALIZER: u8 = { let mut t = (1, 2); let _y: () = t.0 = 3; t.0 };
const AS_BRANCHES: (u8, u8) = { let mut t = (1, 2); if t.0 > 3 { t.0 = 5 } else { t.1 = 6 } t };
const NOT_TAKEN: (u8, u8) = { let mut t = (1, 2); if t.0 == 2 { t.1 = 9; } t };
const IN_CONDITION: u8 = { let mut t = (1, 2); if { t.0 = 5; t.0 == 5 } { t.1 } else { t.0 } };
const NOT_ASKED: (u8, bool) = { let mut t = (1, false); t.1 = t.1 && { t.0 = 4; true }; t };
const BOTH_ASKED: (u8, bool) = { let mut t = (1, true); t.1 = t.1 && { t.0 = 4; true }; t };
const BEFORE_A_BLOCK: u8 = { let mut t = (1, 2); ({ t.0 }) + { t.0 = 5; t.0 } };
const CONDITION: u8 = { let mut t = (true, 0); while t.0 { t.1 += 1; t.0 = t.1 < 5; } t.1 };

// Loops.
const SUM: (u32, u32) = { let mut t = (0, 0); while t.0 < 100 { t.0 += 1; t.1 += t.0; } t };
const FIBONACCI: (u64, u64) = { let mut t = (0, 1); let mut i = 0; while i < 90 { let a = t.0; t.0 = t.1; t.1 += a; i += 1; } t };
const POWER: u64 = { let mut t = (3, 40, 1); while t.1 > 0 { if t.1 & 1 == 1 { t.2 *= t.0; } t.1 >>= 1; if t.1 > 0 { t.0 *= t.0; } } t.2 };
const PAIRS: (u8, (u8, u8)) = { let mut t = (0, (0, 0)); while t.0 < 6 { t.1.0 = 0; while t.1.0 < t.0 { t.1.1 += t.1.0; t.1.0 += 1; } t.0 += 1; } t };
const SKIPPED: (u8, u8) = { let mut t = (0, 0); loop { t.0 += 1; if t.0 % 3 == 0 { continue; } if t.0 > 20 { break; } t.1 += t.0; } t };

// Panics.
const PANIC_IN_ADD: u8 = { let mut t = (1u8, 255u8); t.1 += t.0; t.1 };
const PANIC_IN_ADD_OF_NESTED: u8 = { let mut t = (1u8, (2u8, 250u8)); t.1.1 += 6; t.0 };
const PANIC_IN_SUB: u16 = { let mut t = (1u16, 0u16); t.1 -= t.0; t.1 };
const PANIC_IN_MUL: i64 = { let mut t = (-1i64, -9_223_372_036_854_775_807i64 - 1); t.1 *= t.0; t.1 };
const PANIC_IN_DIV: i32 = { let mut t = (0i32, 5i32); t.1 /= t.0; t.1 };
const PANIC_IN_DIV_OF_LEAST: i8 = { let mut t = (-1i8, -128i8); t.1 /= t.0; t.1 };
const PANIC_IN_REM: u128 = { let mut t = (0u128, 5u128); t.1 %= t.0; t.1 };
const PANIC_IN_SHL: u8 = { let mut t = (8u32, 1u8); t.1 <<= t.0; t.1 };
const PANIC_IN_SHR: i128 = { let mut t = (-1i8, 1i128); t.1 >>= t.0; t.1 };
const PANIC_IN_VALUE: u8 = { let mut t = (1u8, 200u8); t.0 = t.1 + 56; t.0 };
const PANIC_IN_BASE: u32 = { let n = 0; (5 / n, 2).1 = 3; n };
const PANIC_IN_CALL_OF_BASE: u32 = { divided(1, 0).0 = 3; 5 };
const PANIC_IN_COMPOUND_OF_VALUE: u8 = { (255u8, 2u8).0 += 3; 5 };
const PANIC_BY_WHAT_WAS_ASSIGNED: u8 = { let mut t = (1u8, 2u8); t.1 = 0; t.0 / t.1 };
const PANIC_BEHIND: u8 = { let mut t = (1u8, 2u8); t.0 += { t.0 = 255; 2 }; t.0 };
const PANIC_NOT_TAKEN: u8 = { let mut t = (1u8, 0u8); t.1 = 1; t.0 / t.1 };

// Functions that change their own copies.
const OF_PARAMETER: (u8, u16) = with_second((1, 2), 255);
const OF_SELF_LIKE: ((u8, u16), u32) = renamed(((1, 2), 3), 4);
const RECURSION: u32 = sum_down((5, 0));
const RECURSION_KEEPS: u32 = kept((3, 0));
const SORTED: (u8, u8, u8, u8) = sorted((9, 2, 5, 1));
const COLLATZ: (u64, u32) = collatz(27);
const GCD: (u64, i64, i64) = extended_gcd(240, 46);
const RANDOM: [u32; 4] = { let mut s = (1, 0); s = random(s); let a = s.1; s = random(s); let b = s.1; s = random(s); let c = s.1; [a, b, c, random(s).1] };
const CLOCK: (u8, u8, u8) = ticked((23, 58, 59), 62);
const CARRIED: (u64, u64) = wide_sum((18_446_744_073_709_551_614, 5), (3, 6));
const ROOT: u64 = root(1_000_000_007);
const STATE: (u32, (u32, u32)) = mixed(12345, 20);

const fn divided(a: u32, b: u32) -> (u32, u32) { (a / b, a % b) }
const fn with_second(mut t: (u8, u16), x: u16) -> (u8, u16) { t.1 = x; t.0 += 1; t }
const fn renamed(mut t: ((u8, u16), u32), x: u16) -> ((u8, u16), u32) { t.0.1 = x; t.1 += t.0.1 as u32; t }
const fn or_return(n: u8) -> u8 { ({ if n > 3 { return 99; } (n, n) }).0 = n + 1; n * 2 }
const fn sum_down(mut t: (u32, u32)) -> u32 {
    if t.0 == 0 {
        return t.1;
    }
    t.1 += t.0;
    t.0 -= 1;
    sum_down(t)
}
const fn kept(mut t: (u32, u32)) -> u32 {
    let n = t.0;
    if n == 0 {
        return 7;
    }
    t.0 = n - 1;
    t.1 = kept(t);
    t.0 + t.1 * 10
}
const fn sorted(mut t: (u8, u8, u8, u8)) -> (u8, u8, u8, u8) {
    let mut moved = true;
    while moved {
        moved = false;
        if t.0 > t.1 {
            let a = t.0;
            t.0 = t.1;
            t.1 = a;
            moved = true;
        }
        if t.1 > t.2 {
            let a = t.1;
            t.1 = t.2;
            t.2 = a;
            moved = true;
        }
        if t.2 > t.3 {
            let a = t.2;
            t.2 = t.3;
            t.3 = a;
            moved = true;
        }
    }
    t
}
const fn collatz(n: u64) -> (u64, u32) {
    let mut t = (n, (n, 0));
    while t.0 != 1 {
        if t.0 % 2 == 0 {
            t.0 /= 2;
        } else {
            t.0 *= 3;
            t.0 += 1;
        }
        if t.0 > t.1.0 {
            t.1.0 = t.0;
        }
        t.1.1 += 1;
    }
    t.1
}
const fn extended_gcd(a: i64, b: i64) -> (u64, i64, i64) {
    let mut r = ((a, 1, 0), (b, 0, 1));
    while r.1.0 != 0 {
        let q = r.0.0 / r.1.0;
        let last = r.0;
        r.0 = r.1;
        r.1.0 = last.0 - q * r.1.0;
        r.1.1 = last.1 - q * r.1.1;
        r.1.2 = last.2 - q * r.1.2;
    }
    (r.0.0 as u64, r.0.1, r.0.2)
}
const fn random(mut state: (u64, u32)) -> (u64, u32) {
    state.0 = ((state.0 as u128 * 6_364_136_223_846_793_005 + 1_442_695_040_888_963_407) & 0xffff_ffff_ffff_ffff) as u64;
    state.1 = (state.0 >> 32) as u32;
    state
}
const fn ticked(mut t: (u8, u8, u8), seconds: u32) -> (u8, u8, u8) {
    let mut left = seconds;
    while left > 0 {
        left -= 1;
        t.2 += 1;
        if t.2 < 60 {
            continue;
        }
        t.2 = 0;
        t.1 += 1;
        if t.1 == 60 {
            t.1 = 0;
            t.0 += 1;
            t.0 %= 24;
        }
    }
    t
}
const fn wide_sum(mut a: (u64, u64), b: (u64, u64)) -> (u64, u64) {
    let low = a.0 as u128 + b.0 as u128;
    a.0 = low as u64;
    a.1 += (low >> 64) as u64;
    a.1 += b.1;
    a
}
const fn root(n: u64) -> u64 {
    let mut t = (0, n);
    while t.0 < t.1 {
        let middle = t.1 - (t.1 - t.0) / 2;
        if middle <= n / middle {
            t.0 = middle;
        } else {
            t.1 = middle - 1;
        }
    }
    t.0
}
const fn mixed(seed: u32, turns: u32) -> (u32, (u32, u32)) {
    let mut s = (seed, (0, 0));
    while s.1.0 < turns {
        s.0 ^= (s.0 & 0x7ffff) << 13;
        s.0 ^= s.0 >> 17;
        s.0 ^= (s.0 & 0x7ff_ffff) << 5;
        s.1.1 ^= s.0;
        s.1.0 += 1;
    }
    s
}
const fn goal_assigns() -> (u8, u32) { let mut t = (1, 2); t.1 = 70000; t }
const fn goal_adds() -> u64 { let mut t = (1u8, (2u8, 3u64)); t.1.1 += t.1.0 as u64; t.1.1 *= 1000; t.1.1 }
const fn goal_returns() -> u16 { let mut t = (1u8, 3u16); if t.0 == 1 { t.1 -= 1; return t.1; } 0 }
const fn goal_panics() -> u8 { let mut t = (250u8, 6u8); t.0 += t.1; t.0 }
const fn goal_unit() { let mut t = (250u8, 5u8); t.0 += t.1 }
