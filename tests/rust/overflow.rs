// Constants that panic: each operator beyond the ends of each integer type.

const I8_ADD: i8 = 127 + 1;
const I8_SUB: i8 = -128 - 1;
const I8_MUL: i8 = 64 * 2;
const I8_DIV_ZERO: i8 = 127 / (5 - 5);
const I8_REM_ZERO: i8 = 7 % (1 - 1);
const I8_SHL: i8 = 1 << 8;
const I8_SHR: i8 = 127 >> 8;
const I8_SHR_NEGATIVE: i8 = 1 >> -1;
const I8_ADD_DOWN: i8 = -128 + -1;
const I8_SUB_UP: i8 = 127 - -1;
const I8_DIV_LOW: i8 = -128 / -1;
const I8_REM_LOW: i8 = -128 % -1;
const I8_MUL_LOW: i8 = -128 * -1;
const I8_NEG_LOW: i8 = { let low: i8 = -128; -low };

const I16_ADD: i16 = 32767 + 1;
const I16_SUB: i16 = -32768 - 1;
const I16_MUL: i16 = 16384 * 2;
const I16_DIV_ZERO: i16 = 32767 / (5 - 5);
const I16_REM_ZERO: i16 = 7 % (1 - 1);
const I16_SHL: i16 = 1 << 16;
const I16_SHR: i16 = 32767 >> 16;
const I16_SHR_NEGATIVE: i16 = 1 >> -1;
const I16_ADD_DOWN: i16 = -32768 + -1;
const I16_SUB_UP: i16 = 32767 - -1;
const I16_DIV_LOW: i16 = -32768 / -1;
const I16_REM_LOW: i16 = -32768 % -1;
const I16_MUL_LOW: i16 = -32768 * -1;
const I16_NEG_LOW: i16 = { let low: i16 = -32768; -low };

const I32_ADD: i32 = 2147483647 + 1;
const I32_SUB: i32 = -2147483648 - 1;
const I32_MUL: i32 = 1073741824 * 2;
const I32_DIV_ZERO: i32 = 2147483647 / (5 - 5);
const I32_REM_ZERO: i32 = 7 % (1 - 1);
const I32_SHL: i32 = 1 << 32;
const I32_SHR: i32 = 2147483647 >> 32;
const I32_SHR_NEGATIVE: i32 = 1 >> -1;
const I32_ADD_DOWN: i32 = -2147483648 + -1;
const I32_SUB_UP: i32 = 2147483647 - -1;
const I32_DIV_LOW: i32 = -2147483648 / -1;
const I32_REM_LOW: i32 = -2147483648 % -1;
const I32_MUL_LOW: i32 = -2147483648 * -1;
const I32_NEG_LOW: i32 = { let low: i32 = -2147483648; -low };

const I64_ADD: i64 = 9223372036854775807 + 1;
const I64_SUB: i64 = -9223372036854775808 - 1;
const I64_MUL: i64 = 4611686018427387904 * 2;
const I64_DIV_ZERO: i64 = 9223372036854775807 / (5 - 5);
const I64_REM_ZERO: i64 = 7 % (1 - 1);
const I64_SHL: i64 = 1 << 64;
const I64_SHR: i64 = 9223372036854775807 >> 64;
const I64_SHR_NEGATIVE: i64 = 1 >> -1;
const I64_ADD_DOWN: i64 = -9223372036854775808 + -1;
const I64_SUB_UP: i64 = 9223372036854775807 - -1;
const I64_DIV_LOW: i64 = -9223372036854775808 / -1;
const I64_REM_LOW: i64 = -9223372036854775808 % -1;
const I64_MUL_LOW: i64 = -9223372036854775808 * -1;
const I64_NEG_LOW: i64 = { let low: i64 = -9223372036854775808; -low };

const I128_ADD: i128 = 170141183460469231731687303715884105727 + 1;
const I128_SUB: i128 = -170141183460469231731687303715884105728 - 1;
const I128_MUL: i128 = 85070591730234615865843651857942052864 * 2;
const I128_DIV_ZERO: i128 = 170141183460469231731687303715884105727 / (5 - 5);
const I128_REM_ZERO: i128 = 7 % (1 - 1);
const I128_SHL: i128 = 1 << 128;
const I128_SHR: i128 = 170141183460469231731687303715884105727 >> 128;
const I128_SHR_NEGATIVE: i128 = 1 >> -1;
const I128_ADD_DOWN: i128 = -170141183460469231731687303715884105728 + -1;
const I128_SUB_UP: i128 = 170141183460469231731687303715884105727 - -1;
const I128_DIV_LOW: i128 = -170141183460469231731687303715884105728 / -1;
const I128_REM_LOW: i128 = -170141183460469231731687303715884105728 % -1;
const I128_MUL_LOW: i128 = -170141183460469231731687303715884105728 * -1;
const I128_NEG_LOW: i128 = { let low: i128 = -170141183460469231731687303715884105728; -low };

const ISIZE_ADD: isize = 9223372036854775807 + 1;
const ISIZE_SUB: isize = -9223372036854775808 - 1;
const ISIZE_MUL: isize = 4611686018427387904 * 2;
const ISIZE_DIV_ZERO: isize = 9223372036854775807 / (5 - 5);
const ISIZE_REM_ZERO: isize = 7 % (1 - 1);
const ISIZE_SHL: isize = 1 << 64;
const ISIZE_SHR: isize = 9223372036854775807 >> 64;
const ISIZE_SHR_NEGATIVE: isize = 1 >> -1;
const ISIZE_ADD_DOWN: isize = -9223372036854775808 + -1;
const ISIZE_SUB_UP: isize = 9223372036854775807 - -1;
const ISIZE_DIV_LOW: isize = -9223372036854775808 / -1;
const ISIZE_REM_LOW: isize = -9223372036854775808 % -1;
const ISIZE_MUL_LOW: isize = -9223372036854775808 * -1;
const ISIZE_NEG_LOW: isize = { let low: isize = -9223372036854775808; -low };

const U8_ADD: u8 = 255 + 1;
const U8_SUB: u8 = 0 - 1;
const U8_MUL: u8 = 128 * 2;
const U8_DIV_ZERO: u8 = 255 / (5 - 5);
const U8_REM_ZERO: u8 = 7 % (1 - 1);
const U8_SHL: u8 = 1 << 8;
const U8_SHR: u8 = 255 >> 8;
const U8_SHR_NEGATIVE: u8 = 1 >> -1;

const U16_ADD: u16 = 65535 + 1;
const U16_SUB: u16 = 0 - 1;
const U16_MUL: u16 = 32768 * 2;
const U16_DIV_ZERO: u16 = 65535 / (5 - 5);
const U16_REM_ZERO: u16 = 7 % (1 - 1);
const U16_SHL: u16 = 1 << 16;
const U16_SHR: u16 = 65535 >> 16;
const U16_SHR_NEGATIVE: u16 = 1 >> -1;

const U32_ADD: u32 = 4294967295 + 1;
const U32_SUB: u32 = 0 - 1;
const U32_MUL: u32 = 2147483648 * 2;
const U32_DIV_ZERO: u32 = 4294967295 / (5 - 5);
const U32_REM_ZERO: u32 = 7 % (1 - 1);
const U32_SHL: u32 = 1 << 32;
const U32_SHR: u32 = 4294967295 >> 32;
const U32_SHR_NEGATIVE: u32 = 1 >> -1;

const U64_ADD: u64 = 18446744073709551615 + 1;
const U64_SUB: u64 = 0 - 1;
const U64_MUL: u64 = 9223372036854775808 * 2;
const U64_DIV_ZERO: u64 = 18446744073709551615 / (5 - 5);
const U64_REM_ZERO: u64 = 7 % (1 - 1);
const U64_SHL: u64 = 1 << 64;
const U64_SHR: u64 = 18446744073709551615 >> 64;
const U64_SHR_NEGATIVE: u64 = 1 >> -1;

const U128_ADD: u128 = 340282366920938463463374607431768211455 + 1;
const U128_SUB: u128 = 0 - 1;
const U128_MUL: u128 = 170141183460469231731687303715884105728 * 2;
const U128_DIV_ZERO: u128 = 340282366920938463463374607431768211455 / (5 - 5);
const U128_REM_ZERO: u128 = 7 % (1 - 1);
const U128_SHL: u128 = 1 << 128;
const U128_SHR: u128 = 340282366920938463463374607431768211455 >> 128;
const U128_SHR_NEGATIVE: u128 = 1 >> -1;

const USIZE_ADD: usize = 18446744073709551615 + 1;
const USIZE_SUB: usize = 0 - 1;
const USIZE_MUL: usize = 9223372036854775808 * 2;
const USIZE_DIV_ZERO: usize = 18446744073709551615 / (5 - 5);
const USIZE_REM_ZERO: usize = 7 % (1 - 1);
const USIZE_SHL: usize = 1 << 64;
const USIZE_SHR: usize = 18446744073709551615 >> 64;
const USIZE_SHR_NEGATIVE: usize = 1 >> -1;

// The first of several panics is told.
const FIRST_DIV: u8 = 1 / (1 - 1) + (255 + 1);
const FIRST_ADD: u8 = (255 + 1) + 1 / (1 - 1);
const IN_BLOCK: i16 = { let a = 200; let b = a * a; b };
const IN_STATEMENT: u8 = { 255u8 + 1; 3 };
const IN_COMPARISON: bool = 0u8 - 1 < 3;
const BEFORE_LET: u64 = { let a = 10 - 11u64; let b = 1 << 64u64; a + b };
static STATIC_SUM: u8 = 200 + 100;
