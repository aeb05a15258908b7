// Fields of tuples that are read: of tuples as they are made, of names, of what calls, blocks, branches and loops give, and of fields.

const FIRST: u8 = (5, 6).0;
const SECOND: u32 = (1u8, 2u32).1;
const THIRD: i64 = (1u8, true, -3i64).2;
const ONLY: u16 = (7u16,).0;
const LAST_OF_SIX: u8 = (1, 2, 3, 4, 5, 6).5;
const COMPUTED: u8 = (1 + 2, 3 * 4).1;
const TRUTH: bool = (1, true, 'x').1;
const CHARACTER: char = (1, true, 'x').2;
const NUMBER_BY_FIELD: i32 = (1, 2).0;
const NAMED: u16 = { let t = (1u8, 2u16, 3u32); t.1 };
const NAMED_WITH_TYPE: u64 = { let t: (u8, u64) = (1, 2); let x: u64 = t.1; x };
const ALL_OF_NAMED: (u8, u16, u32) = { let t = (1u8, 2u16, 3u32); (t.0, t.1, t.2) };
const TURNED_AROUND: (u32, u16, u8) = { let t = (1u8, 2u16, 3u32); (t.2, t.1, t.0) };
const OFTEN: [u8; 5] = { let t = (1, 2); [t.0, t.1, t.0, t.0, t.1] };
const AS_A_STATEMENT: u8 = { let t = (1, 2); t.0; t.1 };

// Where the parts lie.
const AFTER_PADDING: u64 = { let t = (1u8, 2u64); t.1 };
const BEFORE_PADDING: u8 = { let t = (1u8, 2u64); t.0 };
const OF_FOUR: (u8, u64, u16, u32) = { let t = (1u8, 0x0102_0304_0506_0708u64, 0x1112u16, 0x2122_2324u32); (t.0, t.1, t.2, t.3) };
const OF_FOUR_AS_ARRAY: [u64; 4] = { let t = (1u8, 2u64, 3u16, 4u32); [t.0 as u64, t.1, t.2 as u64, t.3 as u64] };
const OF_BYTES_AND_WORDS: [u16; 6] = { let t = (1u8, 2u16, 3u8, 4u16, 5u8, 6u16); [t.0 as u16, t.1, t.2 as u16, t.3, t.4 as u16, t.5] };
const WIDE: u128 = (1u8, 1u128 << 100, 2u8).1;
const BESIDE_WIDE: (u8, u8) = { let t = (1u8, -1i128, 2u8); (t.0, t.2) };
const SIGNED: (i8, i16, i32, i64) = { let t = (-1i64, -2i32, -3i16, -4i8); (t.3, t.2, t.1, t.0) };
const TRUTHS: (bool, bool, bool) = { let t = (true, 7u16, false, 'a', true); (t.0, t.2, t.4) };
const BEHIND_NO_ELEMENTS: u8 = ([0u32; 0], 9u8).1;
const NO_ELEMENTS: [u64; 0] = (1u8, [0u64; 0]).1;
const UNIT: () = (1u8, (), 2u8).1;
const BEHIND_UNIT: u8 = (1u8, (), 2u8).2;
const UNIT_NAMED: () = { let t = ((), 5u32); let u = t.0; u };
const BESIDE_UNIT: u32 = { let t = ((), 5u32); t.1 };
const UNITS: ((), ()) = ((), ((), ())).1;
const UNIT_OF_UNITS: () = ((), ((), ())).1.0;

// Fields of fields.
const NESTED: u8 = { let t = ((1, 2), (3, 4)); t.1.0 };
const NESTED_ALL: [u8; 4] = { let t = ((1, 2), (3, 4)); [t.0.0, t.0.1, t.1.0, t.1.1] };
const NESTED_LITERAL: u8 = ((1, 2), (3, 4)).0.1;
const NESTED_IN_BRACKETS: u8 = { let t = ((1, 2), (3, 4)); (t.1).1 };
const NESTED_WHOLE: (u8, u16) = { let t = ((1u8, 2u16), 3u32); t.0 };
const NESTED_NAMED: u16 = { let t = ((1u8, 2u16), 3u32); let p = t.0; p.1 };
const NESTED_PADDING: [u64; 5] = { let t = ((1u8, 2u16), (3u32, (4u8, 5u64))); [t.0.0 as u64, t.0.1 as u64, t.1.0 as u64, t.1.1.0 as u64, t.1.1.1] };
const NESTED_PARTS: ((u8, u64), (u8, u16)) = { let t = ((1u8, 2u16), (3u32, (4u8, 5u64))); (t.1.1, t.0) };
const DEEP: u8 = (((((1,), 2), 3), 4), 5).0.0.0.0.0;
const DEEP_IN_THE_MIDDLE: (((u8,), u8), u8) = (((((1,), 2), 3), 4), 5).0.0;
const DEEP_TO_THE_RIGHT: (u8, u16) = { let t = (1u64, (2u32, (3u8, (4u16, (5u8, 6u16))))); t.1.1.1.1 };
const DEEP_SUM: u64 = { let t = (1u64, (2u32, (3u8, (4u16, (5u8, 6u64))))); t.0 + t.1.0 as u64 + t.1.1.0 as u64 + t.1.1.1.0 as u64 + t.1.1.1.1.1 };
const DEEP_SINGLES: i32 = ((((((((-8i32,),),),),),),),).0.0.0.0.0.0.0.0;
const ARRAY: [u16; 3] = (1u8, [1, 2, 3]).1;
const ARRAY_OF_TUPLES: [(u8, u16); 2] = { let t = ([(1, 2), (3, 4)], true); t.0 };
const OF_REPEATED: ([u8; 4], u8) = { let t = ([7; 4], (8, 9)); (t.0, t.1.1) };

// What gives the tuple.
const OF_BLOCK: u8 = { let a = 3; (a, a + 1) }.1;
const OF_BLOCK_OF_NAME: u8 = { let t = (3, 4); { t }.0 };
const OF_CALL: u32 = divided(47, 6).1;
const OF_CALL_FIRST: u32 = divided(47, 6).0;
const OF_CALL_OF_FIELDS: u32 = divided(divided(1000, 7).0, divided(1000, 7).1).1;
const OF_NESTED_CALL: u16 = nested(5).1.0;
const OF_IF: u8 = { let x = 5; if x > 3 { (1, 2) } else { (3, 4) }.1 };
const OF_ELSE: u8 = { let x = 3; (if x > 3 { (1, 2) } else { (3, 4) }).1 };
const OF_ELSE_IF: u16 = { let x = 7; let y = if x > 9 { (1u8, 2u16) } else if x > 6 { (3, 4) } else { (5, 6) }.1; y };
const OF_LOOP: u16 = loop { break (1u8, 2u16); }.1;
const OF_LOOP_OF_TURNS: u32 = { let mut n = 0; loop { n += 7; if n > 50 { break (n, n * n); } }.1 };
const OF_LABELLED: u8 = 'out: { let x = 4; if x == 4 { break 'out (8, 9); } (1, 2) }.0;
const OF_TUPLE_OF_NAMES: u8 = { let a = 1; let b = 2; (a, b, a + b).2 };
const OF_TUPLE_OF_FIELDS: u8 = { let t = (1, 2); (t.1, t.0).0 };
const OF_SWAPPED_TWICE: u8 = { let t = (1, 2); let s = (t.1, t.0); (s.1, s.0).0 };
const OF_CALL_WITH_TUPLE: u8 = swapped((3u16, 4u8)).0;
const OF_RETURN_BESIDE: (u8, u8) = (or_return(2), or_return(5));
const OF_BREAK_BESIDE: u8 = loop { let x = 1; let y = if x == 1 { break 9; } else { (1u8, 2u8) }.1; };

// What uses the field.
const SUM: i32 = { let t = (10, -3, 4); t.0 + t.1 * t.2 };
const DIFFERENCE: i8 = { let t = (5i8, 9i8); t.0 - t.1 };
const DIVISION: (i32, i32) = { let t = (-47i32, 6i32); (t.0 / t.1, t.0 % t.1) };
const SHIFTS: (u32, u32) = { let t = (0x0f0fu32, 12u8); (t.0 << t.1, t.0 >> t.1) };
const BITS: (u8, u8, u8) = { let t = (0b1100u8, 0b1010u8); (t.0 & t.1, t.0 | t.1, t.0 ^ t.1) };
const MINUS: i16 = { let t = (true, 300i16); -t.1 };
const MINUS_OF_LITERAL: i16 = -(1u8, 300i16).1;
const NOT: (bool, u8) = { let t = (true, 0x0fu8); (!t.0, !t.1) };
const COMPARED: (bool, bool, bool) = { let t = (5u16, 7u16); (t.0 < t.1, t.0 == t.1, t.0 >= t.1) };
const COMPARED_CHARACTERS: bool = { let t = ('a', 'b'); t.0 < t.1 };
const COMPARED_TRUTHS: bool = { let t = (true, (false, true)); t.0 == t.1.1 && t.0 != t.1.0 };
const CASTS: (u8, i64, u32, u16) = { let t = (300u16, -1i8, 'z', true); (t.0 as u8, t.1 as i64, t.2 as u32, t.3 as u16) };
const CAST_TO_OWN_TYPE: u16 = { let t = (1u8, 2u16); t.1 as u16 };
const BOTH: bool = { let t = (true, false); t.0 && t.1 };
const EITHER: bool = { let t = (true, false); t.0 || t.1 };
const SECOND_NOT_ASKED: bool = { let t = (false, 0u8); t.0 && 1 / t.1 == 0 };
const FIELDS_OF_TESTS: bool = (1 < 2, 3 < 2).0 && !(1 < 2, 3 < 2).1;
const CONDITION: u8 = { let t = (1, true); if t.1 { t.0 } else { 9 } };
const CONDITION_OF_CALL: u8 = if tested(7).0 { 1 } else if tested(7).1 { 2 } else { 3 };
const CONDITION_OF_LITERAL: u8 = if (false, true).0 { 1 } else { 2 };
const BRANCHES: u16 = { let t = (1u16, (2u16, 3u16), false); if t.2 { t.0 } else { t.1.1 } };
const WHILE: u32 = { let mut t = (0u32, 0u32); while t.0 < 10 { t = (t.0 + 1, t.1 + t.0); } t.1 };
const WHILE_FLAG: u8 = { let mut t = (true, 0u8); while t.0 { t = (t.1 < 4, t.1 + 1); } t.1 };
const BREAK_WITH: u64 = { let mut t = (0u64, 1u64, 0u8); loop { if t.2 == 90 { break t.0; } t = (t.1, t.0 + t.1, t.2 + 1); } };
const BREAK_LABEL_WITH: u8 = { let t = (1u8, 6u8); 'out: { if t.0 == 1 { break 'out t.1; } 0 } };
const CONTINUE_BY: u32 = { let mut t = (0u32, 0u32); loop { t = (t.0 + 1, t.1); if t.0 % 3 == 0 { continue; } if t.0 > 20 { break; } t = (t.0, t.1 + t.0); } t.1 };
const RETURNED: (u16, u16) = (greater((3, 9)), greater((9, 3)));
const ARGUMENTS: u32 = { let t = (47u32, 6u32); let d = divided(t.0, t.1); d.0 * 100 + d.1 };
const ARGUMENTS_TURNED: (u32, u32) = { let t = (6u32, (1u8, 47u32)); divided(t.1.1, t.0) };
const PART_AS_ARGUMENT: u16 = { let t = ((1u16, 2u16), (30u16, 20u16)); greater(t.0) + greater(t.1) };
const RECEIVER: u8 = { let t = (3u8, 9u8); t.0.abs_diff(t.1) };
const RECEIVER_OF_LITERAL: i32 = (1u8, -7i32).1.abs();
const REPEATED: [u16; 4] = { let t = (1u8, 513u16); [t.1; 4] };
const REPEATED_PART: [(u8, u16); 2] = { let t = (1u8, (2u8, 3u16)); [t.1; 2] };
const ADDED: u16 = { let t = (5u8, 6u16); let mut n = 10; n += t.1; n *= t.1; n };
const SHIFTED_BY: u32 = { let t = (5u8, 6u16); let mut n = 3; n <<= t.0; n };
const ASSIGNED_TO_NAME: u16 = { let t = (5u8, 6u16); let mut n = 10; n = t.1; n };
const NAMED_TWICE: (u8, u8) = { let t = (1, 2); let t = (t.1, t.0 + 5); let t = (t.1, t.0); t };

// The tuple is assigned.
const ASSIGNED_BEFORE: u8 = { let mut t = (1, 2); t = (3, 4); t.0 };
const ASSIGNED_BY_LEFT: u8 = { let mut t = (1, 2); ({ t = (5, 6); 1 }) + t.0 };
const ASSIGNED_AFTER_COPY: (u8, u8) = { let mut t = (1, 2); let x = t.0; t = (5, 6); (x, t.0) };
const ASSIGNED_AFTER_COPY_OF_PART: ((u8, u8), u8) = { let mut t = ((1, 2), 3); let p = t.0; t = ((5, 6), 7); (p, t.0.1) };
const ASSIGNED_AFTER_BLOCK: u8 = { let mut t = (1, 2); ({ t.0 }) + { t = (5, 6); 1 } };
const ASSIGNED_AFTER_TUPLE: u8 = { let mut t = (1, 2); (t.0, t.1).0 + { t = (5, 6); 1 } };
const ASSIGNED_AFTER_WHOLE: u8 = { let mut t = (1, 2); (t, 3).0.1 + { t = (5, 6); 1 } };
const ASSIGNED_AFTER_SUM: u8 = { let mut t = (1, 2); t.0 + t.1 + { t = (5, 6); 1 } };
const ASSIGNED_AFTER_MINUS: i8 = { let mut t = (1i8, 2i8); -t.0 + { t = (5, 6); 1 } };
const ASSIGNED_AFTER_CAST: u16 = { let mut t = (1u8, 2u8); t.0 as u16 + { t = (5, 6); 1 } };
const ASSIGNED_AFTER_CALL: u16 = { let mut t = (1u16, 2u16); greater(t) + { t = (50, 60); 1 } };
const ASSIGNED_AFTER_FIELD_OF_CALL: u32 = { let mut t = (47u32, 6u32); divided(t.0, t.1).0 + { t = (1, 1); 1 } };
const ASSIGNED_AFTER_IF: u8 = { let mut t = (1, true); (if t.1 { t.0 } else { 9 }) + { t = (5, false); 1 } };
const ASSIGNED_AFTER_TEST: bool = { let mut t = (true, false); t.0 && { t = (false, true); t.1 } };
const ASSIGNED_IN_CONDITION: u8 = { let mut t = (1, 2); if { t = (5, 6); t.0 == 5 } { t.1 } else { t.0 } };
const ASSIGNED_OTHER: u8 = { let mut t = (1, 2); let mut s = (3, 4); t.0 + { s = (5, 6); s.1 } };
const ASSIGNED_THE_SAME: u8 = { let mut t = (1, 2); t.0 + { t = (1, 6); t.1 } };
const SHADOWED: u8 = { let t = (1, 2); t.0 + { let t = (5, 6); t.1 } };
const SWAPPED: (u8, u8) = { let mut t = (1, 2); t = (t.1, t.0); t };
const SWAPPED_BY_NAME: ((u8, u8), (u8, u8)) = { let mut t = ((1, 2), (3, 4)); let a = t.0; t = (t.1, a); t };
const FROM_ITS_PART: (u8, (u8, u8)) = { let mut p = (1, 2); let t = (p, (3, 4)); p = t.1; (t.0.0, p) };
const FIBONACCI: (u64, u64) = { let mut t = (0, 1); let mut i = 0; while i < 90 { t = (t.1, t.0 + t.1); i += 1; } t };

// Panics.
const PANIC_IN_SUM: u8 = { let t = (255u8, 1u8); t.0 + t.1 };
const PANIC_BY_FIELD: u32 = { let t = (1u8, 0u32); 7 / t.1 };
const PANIC_BY_AMOUNT: u16 = { let t = (1u16, 16u8); t.0 << t.1 };
const PANIC_IN_OTHER_PART: u8 = (1u8 / 0, 2u8).1;
const PANIC_IN_PART: u8 = (200u8 + 100, 2u8).0;
const PANIC_IN_BLOCK: u8 = { let n = 0; (1, 5 % n) }.0;
const PANIC_IN_CALL: u32 = divided(1, 0).1;
const PANIC_BEHIND: u8 = { let t = (1u8, 200u8); t.0 + { t.1 + 56 } };
const PANIC_IN_STATEMENT: u8 = { let t = (1u8, 200u8); (t.0 - 2, 3).1; 5 };
const PANIC_NOT_TAKEN: u8 = { let t = (1u8, 0u8); if t.1 == 0 { t.0 } else { t.0 / (t.1 - t.1) } };
const MINUS_OF_LEAST: i8 = { let t = (0u8, -128i8); -t.1 };

// Functions of tuples.
const GCD: u64 = gcd((1071, 462));
const EXTENDED_GCD: (i64, i64, i64) = extended_gcd(240, 46);
const POWER: u64 = power((3, 20)).1;
const FIBONACCI_BY_MATRIX: u64 = matrix_power(((1, 1), (1, 0)), 60).0.1;
const COMPLEX: (i32, i32) = times((3, -4), times((0, 1), (2, 5)));
const FRACTION: (u32, u32) = plus((1, 6), plus((3, 10), (2, 15)));
const SORTED: (u8, u8, u8) = sorted((9, 2, 5));
const ROOT: u64 = root(1_000_000_007);
const COLLATZ: (u64, u32) = collatz(27);
const CIVIL: (i64, u8, u8) = civil(19_999);
const RANDOM: [u32; 4] = { let a = random(1); let b = random(a.0); let c = random(b.0); [a.1, b.1, c.1, random(c.0).1] };
const CLOCK: (u8, u8, u8) = later((23, 58, 59), 62);
const CARRIED: (u64, u64) = wide_sum((18_446_744_073_709_551_614, 5), (3, 6));
const DISTANCE: u32 = { let a = (3i32, -4i32); let b = (-2i32, 8i32); let d = (a.0 - b.0, a.1 - b.1); (d.0 * d.0 + d.1 * d.1) as u32 };

const fn divided(a: u32, b: u32) -> (u32, u32) { (a / b, a % b) }
const fn nested(n: u8) -> (u8, (u16, u32)) { (n, (n as u16 * 100, n as u32 * 100000)) }
const fn swapped(t: (u16, u8)) -> (u8, u16) { (t.1, t.0) }
const fn tested(n: u8) -> (bool, bool) { (n > 9, n > 5) }
const fn or_return(n: u8) -> u8 { let x = if n > 3 { return 99; } else { (n, n + 1) }.1; x * 2 }
const fn greater(t: (u16, u16)) -> u16 { if t.0 > t.1 { return t.0; } t.1 }
const fn gcd(t: (u64, u64)) -> u64 { if t.1 == 0 { t.0 } else { gcd((t.1, t.0 % t.1)) } }
const fn extended_gcd(a: i64, b: i64) -> (i64, i64, i64) {
    if b == 0 {
        return (a, 1, 0);
    }
    let r = extended_gcd(b, a % b);
    (r.0, r.2, r.1 - a / b * r.2)
}
// The base and the exponent give the base and the power.
const fn power(t: (u64, u32)) -> (u64, u64) {
    let mut state = (1, t.1);
    while state.1 > 0 {
        state = (state.0 * t.0, state.1 - 1);
    }
    (t.0, state.0)
}
const fn product(a: ((u64, u64), (u64, u64)), b: ((u64, u64), (u64, u64))) -> ((u64, u64), (u64, u64)) {
    (
        (a.0.0 * b.0.0 + a.0.1 * b.1.0, a.0.0 * b.0.1 + a.0.1 * b.1.1),
        (a.1.0 * b.0.0 + a.1.1 * b.1.0, a.1.0 * b.0.1 + a.1.1 * b.1.1),
    )
}
const fn matrix_power(m: ((u64, u64), (u64, u64)), n: u32) -> ((u64, u64), (u64, u64)) {
    if n == 0 {
        ((1, 0), (0, 1))
    } else if n % 2 == 1 {
        product(m, matrix_power(m, n - 1))
    } else {
        let half = matrix_power(m, n / 2);
        product(half, half)
    }
}
const fn times(a: (i32, i32), b: (i32, i32)) -> (i32, i32) { (a.0 * b.0 - a.1 * b.1, a.0 * b.1 + a.1 * b.0) }
const fn plus(a: (u32, u32), b: (u32, u32)) -> (u32, u32) {
    let sum = (a.0 * b.1 + b.0 * a.1, a.1 * b.1);
    let common = gcd((sum.0 as u64, sum.1 as u64)) as u32;
    (sum.0 / common, sum.1 / common)
}
const fn sorted(given: (u8, u8, u8)) -> (u8, u8, u8) {
    let mut t = given;
    loop {
        if t.0 > t.1 {
            t = (t.1, t.0, t.2);
        } else if t.1 > t.2 {
            t = (t.0, t.2, t.1);
        } else {
            break t;
        }
    }
}
const fn root(n: u64) -> u64 {
    let mut t = (0, n);
    while t.0 < t.1 {
        let middle = t.1 - (t.1 - t.0) / 2;
        t = if middle <= n / middle { (middle, t.1) } else { (t.0, middle - 1) };
    }
    t.0
}
const fn collatz(n: u64) -> (u64, u32) {
    let mut t = (n, n, 0);
    while t.0 != 1 {
        let next = if t.0 % 2 == 0 { t.0 / 2 } else { 3 * t.0 + 1 };
        t = (next, if next > t.1 { next } else { t.1 }, t.2 + 1);
    }
    (t.1, t.2)
}
// The day of the calendar, so many days behind the first of January 1970.
const fn civil(days: i64) -> (i64, u8, u8) {
    let shifted = days + 719_468;
    let era = (shifted / 146_097, shifted % 146_097);
    let year = (era.1 - era.1 / 1_460 + era.1 / 36_524 - era.1 / 146_096) / 365;
    let day = era.1 - (365 * year + year / 4 - year / 100);
    let month = (5 * day + 2) / 153;
    let found = (day - (153 * month + 2) / 5 + 1, if month < 10 { month + 3 } else { month - 9 });
    (year + era.0 * 400 + (found.1 <= 2) as i64, found.1 as u8, found.0 as u8)
}
const fn random(state: u64) -> (u64, u32) {
    let next = ((state as u128 * 6_364_136_223_846_793_005 + 1_442_695_040_888_963_407) & 0xffff_ffff_ffff_ffff) as u64;
    (next, (next >> 32) as u32)
}
const fn later(t: (u8, u8, u8), seconds: u32) -> (u8, u8, u8) {
    let s = divided(t.2 as u32 + seconds, 60);
    let m = divided(t.1 as u32 + s.0, 60);
    let h = divided(t.0 as u32 + m.0, 24);
    (h.1 as u8, m.1 as u8, s.1 as u8)
}
const fn wide_sum(a: (u64, u64), b: (u64, u64)) -> (u64, u64) {
    let low = a.0 as u128 + b.0 as u128;
    let parts = (low as u64, (low >> 64) as u64);
    (parts.0, a.1 + b.1 + parts.1)
}
const fn goal_field() -> u32 { let t = (1u8, 70000u32); t.1 }
const fn goal_field_of_call() -> u32 { divided(100, 7).1 }
const fn goal_returns_field() -> u16 { let t = (1u8, (2u8, 3u16)); if t.0 == 1 { return t.1.1; } 0 }
const fn goal_panics() -> u8 { let t = (250u8, 6u8); (t.0 + t.1, 1).1 }
const fn goal_unit() -> () { (1u8, ()).1 }
