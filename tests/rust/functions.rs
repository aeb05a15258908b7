// Calls of functions with value parameters, by the forms that stand in their bodies: integers, `bool`, blocks, `if`, loops, jumps.

// Parameters of each type.
const fn same_u8(x: u8) -> u8 { x }
const fn same_u16(x: u16) -> u16 { x }
const fn same_u32(x: u32) -> u32 { x }
const fn same_u64(x: u64) -> u64 { x }
const fn same_u128(x: u128) -> u128 { x }
const fn same_usize(x: usize) -> usize { x }
const fn same_i8(x: i8) -> i8 { x }
const fn same_i16(x: i16) -> i16 { x }
const fn same_i32(x: i32) -> i32 { x }
const fn same_i64(x: i64) -> i64 { x }
const fn same_i128(x: i128) -> i128 { x }
const fn same_isize(x: isize) -> isize { x }
const fn same_bool(x: bool) -> bool { x }
const fn same_unit(x: ()) { x }
const SAME_U8: u8 = same_u8(255);
const SAME_U16: u16 = same_u16(65_535);
const SAME_U32: u32 = same_u32(4_294_967_295);
const SAME_U64: u64 = same_u64(18_446_744_073_709_551_615);
const SAME_U128: u128 = same_u128(340_282_366_920_938_463_463_374_607_431_768_211_455);
const SAME_USIZE: usize = same_usize(0x0123_4567_89ab_cdef);
const SAME_I8: i8 = same_i8(-128);
const SAME_I16: i16 = same_i16(-32_768);
const SAME_I32: i32 = same_i32(-2);
const SAME_I64: i64 = same_i64(-9_223_372_036_854_775_808);
const SAME_I128: i128 = same_i128(-1 << 100);
const SAME_ISIZE: isize = same_isize(-1);
const SAME_BOOL: bool = same_bool(true);
const SAME_UNIT: () = same_unit({});
const fn many(a: u8, b: u16, c: u32, d: u64, e: u128, f: bool, g: i8, h: i16, i: i32, j: i64, k: i128, l: usize) -> i128 {
    if f && a == 1 && b == 2 && c == 3 && d == 4 && e == 5 && l == 12 && g < 0 && h < 0 && i < 0 && j < 0 { k } else { 0 }
}
const MANY: i128 = many(1, 2, 3, 4, 5, true, -6, -7, -8, -9, -10, 12);

// Recursion.
const fn factorial(k: i32) -> i32 { if k > 0 { factorial(k - 1) * k } else { 1 } }
const fn fibonacci(n: u32) -> u32 { if n < 2 { n } else { fibonacci(n - 1) + fibonacci(n - 2) } }
const fn even(n: u32) -> bool { if n == 0 { true } else { odd(n - 1) } }
const fn odd(n: u32) -> bool { if n == 0 { false } else { even(n - 1) } }
const fn gcd(a: u64, b: u64) -> u64 { if b == 0 { a } else { gcd(b, a % b) } }
const fn power(base: i64, n: u32) -> i64 { if n == 0 { 1 } else { base * power(base, n - 1) } }
const fn fast_power(base: u128, n: u32) -> u128 {
    if n == 0 { return 1; }
    let half = fast_power(base, n / 2);
    if n % 2 == 0 { half * half } else { half * half * base }
}
const fn ackermann(m: u32, n: u32) -> u32 { if m == 0 { n + 1 } else if n == 0 { ackermann(m - 1, 1) } else { ackermann(m - 1, ackermann(m, n - 1)) } }
const fn mccarthy(n: u32) -> u32 { if n > 100 { n - 10 } else { mccarthy(mccarthy(n + 11)) } }
const fn female(n: u32) -> u32 { if n == 0 { 1 } else { n - male(female(n - 1)) } }
const fn male(n: u32) -> u32 { if n == 0 { 0 } else { n - female(male(n - 1)) } }
const fn hofstadter(n: u32) -> u32 { if n < 3 { 1 } else { hofstadter(n - hofstadter(n - 1)) + hofstadter(n - hofstadter(n - 2)) } }
const fn takeuchi(x: i32, y: i32, z: i32) -> i32 { if y < x { takeuchi(takeuchi(x - 1, y, z), takeuchi(y - 1, z, x), takeuchi(z - 1, x, y)) } else { z } }
const fn binomial(n: u32, k: u32) -> u32 { if k == 0 || k == n { 1 } else { binomial(n - 1, k - 1) + binomial(n - 1, k) } }
const fn partitions(n: u32, most: u32) -> u32 { if n == 0 { 1 } else if most == 0 { 0 } else if most > n { partitions(n, n) } else { partitions(n - most, most) + partitions(n, most - 1) } }
const fn hanoi(n: u32) -> u32 { if n == 0 { 0 } else { hanoi(n - 1) + 1 + hanoi(n - 1) } }
const fn digits(n: u64) -> u32 { if n < 10 { 1 } else { 1 + digits(n / 10) } }
const fn digit_sum(n: u64) -> u64 { if n == 0 { 0 } else { n % 10 + digit_sum(n / 10) } }
const fn collatz(n: u64, steps: u32) -> u32 { if n == 1 { steps } else if n % 2 == 0 { collatz(n / 2, steps + 1) } else { collatz(3 * n + 1, steps + 1) } }
const fn sum_to(n: u32) -> u32 { if n == 0 { 0 } else { n + sum_to(n - 1) } }
const FACTORIAL: i32 = factorial(5);
const FIBONACCI: u32 = fibonacci(20);
const EVEN: bool = even(40);
const ODD: bool = odd(40);
const GCD: u64 = gcd(1_071, 462);
const POWER: i64 = power(-3, 17);
const FAST_POWER: u128 = fast_power(7, 40);
const ACKERMANN: u32 = ackermann(2, 3);
const MCCARTHY: u32 = mccarthy(77);
const FEMALE: u32 = female(12);
const MALE: u32 = male(13);
const HOFSTADTER: u32 = hofstadter(15);
const TAKEUCHI: i32 = takeuchi(7, 4, 1);
const BINOMIAL: u32 = binomial(12, 5);
const PARTITIONS: u32 = partitions(20, 20);
const HANOI: u32 = hanoi(10);
const DIGITS: u32 = digits(1_234_567);
const DIGIT_SUM: u64 = digit_sum(9_876_543_210);
const COLLATZ: u32 = collatz(27, 0);
const SUM_TO: u32 = sum_to(90);
const QUEENS: u32 = queens(6, 0, 0, 0, 0);
const fn queens(size: u32, row: u32, columns: u32, left: u32, right: u32) -> u32 {
    if row == size { return 1; }
    let mut found = 0;
    let mut column = 0;
    while column < size {
        let bit = 1u32 << column;
        if (columns | left | right) & bit == 0 { found = found + queens(size, row + 1, columns | bit, (left | bit) << 1, (right | bit) >> 1); }
        column = column + 1;
    }
    found
}

// In each place.
const fn twice(x: u32) -> u32 { x * 2 }
const fn add(a: u32, b: u32) -> u32 { a + b }
const fn less(a: u32, b: u32) -> bool { a < b }
const fn nothing() {}
const fn ignores(_a: u32, _b: bool) {}
const IN_LEFT_OPERAND: u32 = twice(3) + 1;
const IN_RIGHT_OPERAND: u32 = 1 + twice(3);
const IN_BOTH_OPERANDS: u32 = twice(3) * twice(4) - twice(5);
const UNDER_NOT: u32 = !twice(3);
const UNDER_MINUS: i64 = -power(-3, 3);
const IN_COMPARISON: bool = twice(3) >= twice(2) + 2;
const IN_SHIFT: u64 = 1 << twice(3);
const IN_CONDITION: u8 = if less(3, 5) { 1 } else { 2 };
const IN_CONDITION_NOT: u8 = if less(5, 5) { 1 } else { 2 };
const IN_CONDITION_OF_CALLS: u8 = if less(twice(2), twice(3)) && !less(3, 3) { 1 } else { 2 };
const IN_BRANCH: u32 = if true { twice(4) } else { twice(5) };
const IN_OTHER_BRANCH: u32 = if false { twice(4) } else { twice(5) };
const IN_WHILE: u32 = { let mut i = 0; while less(i, 5) { i = add(i, 1); } i };
const IN_AND: bool = less(1, 2) && less(2, 3);
const IN_AND_NOT: bool = less(2, 1) && less(1 / 0, 3);
const IN_OR: bool = less(1, 2) || less(1 / 0, 3);
const IN_OR_NOT: bool = less(2, 1) || less(2, 3);
const IN_ARGUMENT: u32 = twice(twice(twice(3)));
const IN_ARGUMENTS: u32 = add(twice(3), add(twice(4), 5));
const IN_LET: u32 = { let a = twice(4); let b = add(a, a); a * b };
const IN_ASSIGNMENT: u32 = { let mut a = 3; a = twice(a); a = add(a, twice(a)); a };
const IN_STATEMENT: u32 = { twice(4); nothing(); ignores(1, true); 3 };
const IN_LOOP: u32 = { let mut i = 0; loop { i = add(i, 3); if less(20, i) { break twice(i); } } };
const IN_LABELLED: u32 = 'a: { if less(1, 2) { break 'a twice(50); } 60 };
const IN_BLOCK: u32 = { { twice(1) } };
const UNIT: () = nothing();
const UNIT_OF_ARGUMENTS: () = ignores(twice(1), less(1, 2));
const BLOCK_AS_ARGUMENT: u32 = add({ let a = 3; a * 2 }, if less(2, 1) { 4 } else { 5 });
const LOOP_AS_ARGUMENT: u32 = twice(loop { break 4; });
const IN_ORDER: u32 = { let mut n = 1; add({ n = n * 4; n }, { n = n + 5; n }) };
const SUM_BEFORE_ASSIGNMENT: u32 = { let mut n = 1; add(n + 0, { n = 7; 1 }) * n };
const SQUARES: u32 = { let mut s = 0; let mut i = 0; while i < 20 { s = add(s, i * i); i = i + 1; } s };

// Their own names.
const fn assigned(mut x: u32, y: u32) -> u32 { x = x + y; x = x * 2; x }
const fn shadowed(x: u32) -> u32 { let x = x + 1; let y = { let x = x * 2; x }; x + y }
const fn count(n: u32) -> u32 { let mut i = 0; let mut s = 0; while i < n { s = s + i; i = i + 1; } s }
const fn with_a_lifetime<'a>(x: u32) -> u32 { x + 1 }
const fn nested(x: u32) -> u32 { const fn nested(x: u32) -> u32 { x + 1_000 } nested(x) + nested(x) }
const ASSIGNED: u32 = assigned(3, 4);
const ASSIGNED_NAME: u32 = { let x = 3; let y = assigned(x, x); x * 100 + y };
const SHADOWED: u32 = shadowed(4);
const OWN_CELLS: u32 = count(4) * 100 + count(5);
const NAMES: u32 = { let x = 1; let y = twice(x); let x = add(x, y); x * 10 + y };
const WITH_A_LIFETIME: u32 = with_a_lifetime(4);
const NESTED: u32 = nested(5);
const IN_MODULE: u32 = inner::third(6) + inner::deeper::half(9);
mod inner {
    pub const fn third(x: u32) -> u32 { deeper::half(x) - 1 }
    pub mod deeper { pub const fn half(x: u32) -> u32 { x / super::super::two({}) } }
}
const fn two(_unit: ()) -> u32 { 2 }

// They return.
const fn early(x: i32) -> i32 { if x < 0 { return -1; } if x == 0 { return 0; } 1 }
const fn out_of_loop(limit: u32) -> u32 { let mut i = 0; loop { i = i + 1; if i * i > limit { return i; } } }
const fn out_of_loops(limit: u32) -> u32 { let mut a = 1; loop { let mut b = 1; while b < a { if a * b > limit { return a * 100 + b; } b = b + 1; } a = a + 1; } }
const fn of_call(x: u32) -> u32 { return twice(add(x, 1)); }
const fn in_argument(x: u32) -> u32 { add(x, if x > 3 { return 7 } else { x }) }
const fn prime(n: u32) -> bool { if n < 2 { return false; } let mut d = 2; while d * d <= n { if n % d == 0 { return false; } d = d + 1; } true }
const fn primes_below(limit: u32) -> u32 { let mut found = 0; let mut n = 0; while n < limit { if prime(n) { found = found + 1; } n = n + 1; } found }
const fn root(n: u64) -> u64 { search(n, 0, n + 1) }
const fn search(n: u64, low: u64, high: u64) -> u64 {
    let middle = low + (high - low) / 2;
    if middle == low { return low; }
    if middle <= n / middle { search(n, middle, high) } else { search(n, low, middle) }
}
const EARLY_LOW: i32 = early(-7);
const EARLY_ZERO: i32 = early(0);
const EARLY_HIGH: i32 = early(7);
const OUT_OF_LOOP: u32 = out_of_loop(500);
const OUT_OF_LOOPS: u32 = out_of_loops(50);
const OF_CALL: u32 = of_call(4);
const IN_ARGUMENT_TAKEN: u32 = in_argument(4);
const IN_ARGUMENT_NOT: u32 = in_argument(3);
const PRIMES: u32 = primes_below(100);
const ROOT: u64 = root(4_000_000);

// They panic.
const fn subtract(a: u8, b: u8) -> u8 { a - b }
const fn divide(a: i32, b: i32) -> i32 { a / b }
const fn remainder(a: i32, b: i32) -> i32 { a % b }
const fn shift(a: u16, by: u32) -> u16 { a << by }
const fn down(n: u8) -> u8 { if n == 0 { subtract(0, 1) } else { down(n - 1) } }
const SUBTRACT_PANICS: u8 = subtract(3, 4);
const DIVIDE_PANICS: i32 = divide(1, 0);
const DIVIDE_OVERFLOWS: i32 = divide(-2_147_483_648, -1);
const REMAINDER_PANICS: i32 = remainder(1, 0);
const SHIFT_PANICS: u16 = shift(1, 16);
const FACTORIAL_PANICS: i32 = factorial(13);
const DOWN_PANICS: u8 = down(6);
const ARGUMENT_PANICS: u8 = subtract(1 / (1 - 1), 2);
const SECOND_ARGUMENT_PANICS: u8 = subtract(subtract(4, 1), subtract(1, 4));
const BEHIND_CALL_PANICS: u8 = subtract(4, 1) - subtract(4, 0);
const BRANCH_DOES_NOT_PANIC: u8 = if less(2, 1) { subtract(1, 4) } else { subtract(4, 1) };

// They never return.
const fn never(_n: u32) -> ! { loop {} }
const fn fail(n: u32) -> ! { 1 / n; never(n) }
const fn at_least_three(x: u32) -> u32 { if x > 2 { x } else { fail(x) } }
const fn checked(x: u32) -> u32 { if x < 3 { never(x); } x + 1 }
const fn forever(n: u32) -> ! { forever(n - 1) }
const NOT_CALLED: u32 = at_least_three(3);
const NOT_CALLED_AS_STATEMENT: u32 = checked(3);
const NEVER_PANICS: u32 = at_least_three(0);
const NEVER_IN_LET_PANICS: u32 = { let x: u32 = fail(0); x };
const NEVER_AS_ARGUMENT_PANICS: u32 = twice(fail(0));
const FOREVER_PANICS: u32 = if less(1, 2) { forever(3) } else { 4 };

// Functions without parameters that call, as goals.
const fn calls() -> u32 { twice(add(3, 4)) }
const fn calls_calls() -> u32 { calls() + calls() }
const fn calls_in_loop() -> u32 { let mut i = 0; let mut s = 0; while less(i, 30) { i = i + 1; if prime(i) { continue; } s = add(s, i); } s }
const fn calls_and_panics() -> u8 { subtract(1, 2) }
const fn calls_unit() { ignores(calls(), prime(7)) }
const fn calls_itself() -> u32 { if less(1, 2) { 5 } else { calls_itself() } }
