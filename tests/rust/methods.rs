// Calls of methods of integers, those whose bodies in `front/library_bodies.py` are of forms that are evaluated.

// Each method, at some types, and at the ends of their ranges.
const ABS: i8 = (-127i8).abs();
const ABS_OF_ZERO: i16 = 0i16.abs();
const ABS_WIDE: i128 = (-170_141_183_460_469_231_731_687_303_715_884_105_727i128).abs();
const SIGNUM: i32 = (-7i32).signum() * 100 + 9i32.signum() * 10 + 0i32.signum();
const IS_NEGATIVE: bool = (-1i64).is_negative() && !0i64.is_negative() && !1i64.is_negative();
const IS_POSITIVE: bool = !(-1isize).is_positive() && !0isize.is_positive() && 1isize.is_positive();
const DIV_EUCLID: i32 = 7i32.div_euclid(4) * 1000 + (-7i32).div_euclid(4) * 100 + 7i32.div_euclid(-4) * 10 + (-7i32).div_euclid(-4);
const REM_EUCLID: i32 = 7i32.rem_euclid(4) * 1000 + (-7i32).rem_euclid(4) * 100 + 7i32.rem_euclid(-4) * 10 + (-7i32).rem_euclid(-4);
const REM_EUCLID_LEAST: i8 = (-128i8).rem_euclid(127);
const ABS_DIFF: u8 = 255u8.abs_diff(0) - 0u8.abs_diff(254);
const ABS_DIFF_WIDE: u128 = 1u128.abs_diff(340_282_366_920_938_463_463_374_607_431_768_211_455);
const IS_POWER_OF_TWO: bool = 64u16.is_power_of_two() && !0u16.is_power_of_two() && !65_535u16.is_power_of_two() && 1u16.is_power_of_two();
const DIV_CEIL: u64 = 7u64.div_ceil(2) * 100 + 8u64.div_ceil(2) * 10 + 0u64.div_ceil(2);
const WRAPPING_SUB: u8 = 3u8.wrapping_sub(5);
const WRAPPING_SUB_SAME: usize = 5usize.wrapping_sub(5);
const WRAPPING_NEG: u32 = 1u32.wrapping_neg();
const WRAPPING_NEG_OF_ZERO: u32 = 0u32.wrapping_neg();
const WRAPPING_SHL: u8 = 5u8.wrapping_shl(10);
const WRAPPING_SHR: i16 = (-300i16).wrapping_shr(35);
const SHIFT_BY_ALL: i128 = (-3i128).wrapping_shl(128);

// Receivers.
const fn five() -> u8 { 5 }
const fn minus_three() -> i32 { -3 }
const OF_CALL: u8 = five().abs_diff(9);
const OF_CALL_IN_BRACKETS: i32 = (minus_three() - 4).abs();
const OF_BLOCK: i32 = { let a = -5i32; a * 3 }.abs();
const OF_IF: i32 = if five() > 4 { minus_three() } else { 8 }.abs();
const OF_LOOP: i32 = loop { break -6i32; }.abs();
const OF_LABELLED_BLOCK: i32 = 'a: { if five() == 5 { break 'a -9i32; } 4 }.signum();
const OF_NAME: u16 = { let a = 300u16; let b = 500; a.abs_diff(b) };
const OF_METHOD_CALL: i32 = minus_three().rem_euclid(10).div_euclid(2).signum().abs();
const MINUS_BEFORE: i32 = -7i32.rem_euclid(4);
const NOT_BEFORE: u8 = !200u8.wrapping_shl(1);
const NOT_BEFORE_BOOL: bool = !16u32.is_power_of_two() || !(-1i8).is_negative();

// Arguments.
const ARGUMENT_IS_CALL: u8 = 9u8.abs_diff(five());
const ARGUMENT_IS_METHOD_CALL: u8 = 9u8.abs_diff(5u8.wrapping_sub(7));
const ARGUMENT_IS_IF: i32 = minus_three().div_euclid(if five().is_power_of_two() { 2 } else { -2 });
const ARGUMENT_IS_BLOCK: u64 = 1_000u64.div_ceil({ let mut a = 1; while a < 20 { a = a * 3; } a });
const ARGUMENT_OF_OTHER_TYPE: u64 = 1u64.wrapping_shl({ let n = 70u32; n - 3 });
const ARGUMENT_OF_FUNCTION: u8 = distance(20u8.abs_diff(3), 40u8.wrapping_shr(2));
const fn distance(a: u8, b: u8) -> u8 { a.abs_diff(b) }

// As operands, conditions, statements, values of jumps.
const OPERANDS: i32 = minus_three().abs() * 10 - minus_three().signum();
const COMPARED: bool = minus_three().abs() == minus_three() * -1 && 7u8.abs_diff(9) < 3;
const CONDITION: u8 = if minus_three().is_negative() { 1 } else if five().is_power_of_two() { 2 } else { 3 };
const LEFT_DECIDES: bool = 3u8.is_power_of_two() && 1u8.div_ceil(0) == 0;
const LEFT_DECIDES_OR: bool = 4u8.is_power_of_two() || 1u8.div_ceil(0) == 0;
const STATEMENT: u8 = { five().abs_diff(1); minus_three().abs(); 3 };
const ASSIGNED: u8 = { let mut a = 7u8; a = a.wrapping_sub(9); a = a.abs_diff(250); a };
const BROKEN_WITH: u32 = { let mut a = 1u32; loop { a = a * 2 + 1; if (a + 1).is_power_of_two() && a > 100 { break a.wrapping_neg(); } } };
const fn least_power(n: u64) -> u64 { let mut p = 1; while p < n { p = p * 2; } p }
const fn checked(a: i32, b: i32) -> i32 { if b == 0 { return a.signum(); } a.div_euclid(b) }
const RETURNED: i32 = checked(-9, 0) * 1000 + checked(-9, 4);
const IN_LOOP: u64 = { let mut a = 0; let mut i = 0u64; while i < 20 { a = a + i.abs_diff(10); i = i + 1; } a };
const ROUNDED: bool = least_power(1_000).is_power_of_two() && least_power(1_000) == 1_024;

// In functions.
const fn gcd(a: i64, b: i64) -> i64 { if b == 0 { a.abs() } else { gcd(b, a.rem_euclid(b)) } }
const GCD: i64 = gcd(-3_528, 3_780);
const fn clock(h: i32, plus: i32) -> i32 { (h + plus).rem_euclid(24) }
const CLOCK: i32 = clock(3, -30) * 100 + clock(23, 25);
const fn steps(n: u32) -> u32 { if n == 0 { 0 } else { 1 + steps(n.div_ceil(2) - (if n == 1 { 1 } else { 0 })) } }
const STEPS: u32 = steps(1_000);
const fn bits(n: u16) -> u16 { let mut n = n; let mut c = 0; while n != 0 { n = n & n.wrapping_sub(1); c = c + 1; } c }
const BITS: u16 = bits(0xbeef) * 100 + bits(0);
const fn lowest_bit(n: u16) -> u16 { n & n.wrapping_neg() }
const LOWEST_BIT: u16 = lowest_bit(0b1011_0000);
const fn mixed_up(n: u32) -> u32 { let a = n ^ n.wrapping_shl(13); let b = a ^ a.wrapping_shr(17); b ^ b.wrapping_shl(5) }
const XORSHIFT: u32 = mixed_up(mixed_up(mixed_up(2_463_534_242)));
const fn days() -> i32 { let y = 2_024i32; (y - 1).div_euclid(4) - (y - 1).div_euclid(100) + (y - 1).div_euclid(400) }
const fn far() -> u64 { let mut a = 7u64; let mut i = 0; while i < 50 { a = a.abs_diff(a.wrapping_shl(i)) / 3 + 1; i = i + 1; } a }

// Panics, before methods and in them. The methods stand in functions here, as the compiler tells of these alone as the way to a panic.
const IN_RECEIVER: u8 = (five() - 6).abs_diff(1 / (five() - 5));
const IN_ARGUMENT: u8 = 9u8.abs_diff(200 + five() * 20);
const BEHIND: u8 = 5u8.abs_diff(3) - 5u8.abs_diff(1);
const fn quotient(a: i32, b: i32) -> i32 { a.div_euclid(b) }
const fn remainder(a: i64, b: i64) -> i64 { a.rem_euclid(b) }
const fn ceiling(a: u8, b: u8) -> u8 { a.div_ceil(b) }
const fn least(a: i8, b: i8) -> i8 { a.div_euclid(b) }
const BY_ZERO: i32 = quotient(7, 0);
const REMAINDER_BY_ZERO: i64 = remainder(-7, 0);
const CEIL_BY_ZERO: u8 = ceiling(five(), 0);
const LEAST_BY_MINUS_ONE: i8 = least(-128, -1);
const fn in_function() -> u8 { ceiling(five(), five() - 5) }
