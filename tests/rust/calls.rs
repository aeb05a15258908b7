// Calls of `const fn`: parameters, `return`, recursion, generic functions, methods, and constants that name constants.

const fn three() -> u8 { 3 }
const fn double(x: u32) -> u32 { x * 2 }
const fn add(a: i64, b: i64) -> i64 { a + b }
const fn nothing() {}
const fn first(a: u8, _b: u16, _: u32) -> u8 { a }
const fn early(x: i32) -> i32 { if x < 0 { return -1; } if x == 0 { return 0; } 1 }
const fn early_in_loop(limit: u32) -> u32 { let mut i = 0; loop { i += 1; if i * i > limit { return i; } } }
const fn early_unit(x: u8) -> u8 { let mut y = x; touch(&mut y); y }
const fn touch(x: &mut u8) { if *x > 10 { return; } *x += 1; }
const fn changed(mut x: u8) -> u8 { x += 1; x *= 2; x }
const fn factorial(n: u64) -> u64 { if n == 0 { 1 } else { n * factorial(n - 1) } }
const fn fibonacci(n: u32) -> u32 { if n < 2 { n } else { fibonacci(n - 1) + fibonacci(n - 2) } }
const fn is_even(n: u32) -> bool { if n == 0 { true } else { is_odd(n - 1) } }
const fn is_odd(n: u32) -> bool { if n == 0 { false } else { is_even(n - 1) } }
const fn ackermann(m: u32, n: u32) -> u32 { if m == 0 { n + 1 } else if n == 0 { ackermann(m - 1, 1) } else { ackermann(m - 1, ackermann(m, n - 1)) } }
const fn gcd(a: u64, b: u64) -> u64 { if b == 0 { a } else { gcd(b, a % b) } }
const fn power(base: i64, exp: u32) -> i64 { if exp == 0 { 1 } else { base * power(base, exp - 1) } }
const fn same<T: Copy>(x: T) -> T { x }
const fn pick<T: Copy, const FIRST: bool>(a: T, b: T) -> T { if FIRST { a } else { b } }
const fn times<const N: u32>(x: u32) -> u32 { x * N }
const fn twice_same<T: Copy>(x: T) -> T { same(same(x)) }
const fn subtract(a: u8, b: u8) -> u8 { a - b }
const fn divide(a: i32, b: i32) -> i32 { a / b }
const fn deep(a: u8) -> u8 { subtract(double(a as u32) as u8, 100) }
const fn max(a: i32, b: i32) -> i32 { if a > b { a } else { b } }
const fn unreachable_end(x: u8) -> u8 { if x > 3 { return x } else { return 3 } }
const fn inner_fn(x: u16) -> u16 { const fn inner(x: u16) -> u16 { x + OFFSET } const OFFSET: u16 = 1000; inner(x) }

const CALL: u8 = three();
const ARGUMENT: u32 = double(21);
const TWO_ARGUMENTS: i64 = add(-5, 8);
const NESTED: u32 = double(double(double(1)));
const IN_OPERANDS: i64 = add(1, 2) * add(3, 4) - add(5, 6);
const UNIT: () = nothing();
const IGNORED: u8 = { three(); nothing(); 4 };
const FIRST: u8 = first(1, 2, 3);
const EARLY_LOW: i32 = early(-7);
const EARLY_ZERO: i32 = early(0);
const EARLY_HIGH: i32 = early(7);
const EARLY_IN_LOOP: u32 = early_in_loop(500);
const EARLY_UNIT_LOW: u8 = early_unit(4);
const EARLY_UNIT_HIGH: u8 = early_unit(40);
const CHANGED: u8 = changed(7);
const FACTORIAL: u64 = factorial(20);
const FACTORIAL_PANICS: u64 = factorial(21);
const FIBONACCI: u32 = fibonacci(15);
const EVEN: bool = is_even(20);
const ODD: bool = is_odd(20);
const ACKERMANN: u32 = ackermann(2, 3);
const GCD: u64 = gcd(3_528, 3_780);
const POWER: i64 = power(-3, 17);
const SAME_U8: u8 = same(200);
const SAME_BOOL: bool = same::<bool>(true);
const SAME_I128: i128 = same(-1);
const PICK_FIRST: i16 = pick::<i16, true>(1, -1);
const PICK_SECOND: i16 = pick::<i16, false>(1, -1);
const TIMES: u32 = times::<3>(times::<5>(2));
const TWICE_SAME: u64 = twice_same(1 << 40);
const SUBTRACT_PANICS: u8 = subtract(3, 4);
const DIVIDE_PANICS: i32 = divide(1, 0);
const DIVIDE_OVERFLOWS: i32 = divide(-2147483648, -1);
const DEEP: u8 = deep(60);
const DEEP_PANICS: u8 = deep(20);
const MAX: i32 = max(max(3, 9), max(-4, 5));
const ENDS: u8 = unreachable_end(2) * 10 + unreachable_end(7);
const INNER: u16 = inner_fn(24);
const ARGUMENTS_IN_ORDER: i64 = { let mut n = 1; add({ n *= 10; n }, { n += 5; n }) };
const ARGUMENT_PANICS: i64 = add(1 / (1 - 1), 2);

// Constants and statics by their names.
const BASE: u32 = 40;
const NAMED: u32 = BASE + 2;
const NAMED_TWICE: u32 = BASE * BASE;
const NAMED_CHAIN: u32 = NAMED + NAMED_TWICE;
const NAMED_LATER: u32 = LATER * 2;
const LATER: u32 = double(8);
static STATIC_OF_CONST: u32 = BASE - 1;
const CONST_OF_STATIC: u32 = STATIC_OF_CONST + 1;
static STATIC_OF_STATIC: u32 = STATIC_OF_CONST * 2;
const IN_MODULE: i8 = numbers::LOW + numbers::deeper::lift(3);
const CONST_BLOCK: u8 = const { 3 + 4 } * 2;
const FAILS: u8 = 200 + 100;
const NAMES_FAILING: u8 = FAILS - 1;

mod numbers {
    pub const LOW: i8 = -100;
    pub mod deeper {
        pub const fn lift(x: i8) -> i8 { x - super::LOW }
    }
}

// Associated functions and constants.
struct Metre(u32);
impl Metre {
    const PER_MILE: u32 = 1609;
    const fn of_miles(miles: u32) -> Metre { Metre(miles * Self::PER_MILE) }
    const fn get(&self) -> u32 { self.0 }
    const fn plus(self, other: Metre) -> Metre { Metre(self.0 + other.0) }
    const fn grow(&mut self, by: u32) -> u32 { self.0 += by; self.0 }
}
const ASSOCIATED: u32 = Metre::PER_MILE;
const METHOD: u32 = Metre::of_miles(3).get();
const METHOD_BY_VALUE: u32 = Metre(5).plus(Metre(6)).get();
const METHOD_BY_PATH: u32 = Metre::get(&Metre(8));
const METHOD_MUT: u32 = { let mut m = Metre(1); m.grow(4); m.grow(10) + m.get() };
