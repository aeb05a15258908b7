// Blocks, `let`, shadowing and expression statements.

const EMPTY: () = {};
const UNIT: () = { 3 + 4; };
const TAIL: u8 = { 7 };
const NESTED: u8 = {{{ 7 + 1 }}};
const ONE_LET: u16 = { let a = 300; a };
const TWO_LETS: u16 = { let a = 300; let b = 5; a * b };
const COPY: i32 = { let a = -5; let b = a; let c = b; c };
const SHADOWED: i32 = { let a = 1; let a = a + 1; let a = a * 10; a };
const SHADOWED_INSIDE: i32 = { let a = 1; let b = { let a = 20; a + 1 }; a + b };
const OUTER_AGAIN: i32 = { let x = 1; { let x = 2; x }; x };
const SHADOWED_TYPE: u64 = { let a = 3u8; let b = a == 3; let a = 70_000_000_000u64; let c = b ^ true; let d = c | true; let e = d & b; let f = e != c; let g = f; a };
const IN_OPERAND: i32 = { let x = 5; ({ let x = x + 1; x * 2 }) + x };
const BOTH_OPERANDS: i32 = ({ let a = 3; a * a }) - ({ let a = 4; a * a });
const LET_OF_BLOCK: u32 = { let a = { let b = 6; b * b }; a + 6 };
const DEEP: u32 = { let a = { let b = { let c = { let d = 1; d + 1 }; c * 3 }; b * 4 }; a + 1 };
const STATEMENTS: u8 = { 1u8; 2u8 + 3; { 4u8 }; 5 };
const STATEMENT_BLOCK: u8 = { let a = 9; { let a = 10u8; a + 1; } a };
const STATEMENT_NAME: u8 = { let a = 9; a; a; a };
const UNUSED: i8 = { let _a = 100; let _b = -100i8; -1 };
const MUTABLE: i8 = { let mut a = 4; a };
const TYPED: i128 = { let a: i128 = -170_141_183_460_469_231_731_687_303_715_884_105_728; let b: i128 = 1; a + b };
const UNIT_LET: u8 = { let u = {}; let v = u; v; 8 };
const BOOL_LET: bool = { let a = 3 < 4; let b = a == false; !b & a };
const AVERAGE: u32 = { let a = 4_000_000_000u32; let b = 4_200_000_000u32; (a & b) + ((a ^ b) >> 1) };
const SWAP_BY_XOR: u16 = { let a = 0x1234; let b = 0xabcd; let a = a ^ b; let b = a ^ b; let a = a ^ b; a - b / 2 };
const POLYNOMIAL: i64 = { let x = -3; let c = 7; ((2 * x + c) * x - 5) * x + 1 };
const SECONDS: u64 = { let days = 365; let hours = days * 24; let minutes = hours * 60; minutes * 60 };
const ROUNDED_UP: usize = { let size = 4097; let page = 4096; (size + page - 1) / page * page };
const ALIGNED: usize = { let address = 0x1003; let align = 16; (address + align - 1) & !(align - 1) };
const IS_POWER: bool = { let n = 4096u32; (n & (n - 1)) == 0 };
const LOW_BIT: u32 = { let n = 0b1011_0000u32; n & (!n + 1) };
const SIGN: i32 = { let n = -17; (n >> 31) | (!n >> 31 & 1) };
const ABSOLUTE: i32 = { let n = -17; let mask = n >> 31; (n ^ mask) - mask };
const ROTATED: u32 = { let n = 0x8000_00f1u32; (n << 4) | (n >> 28) };
const PACKED: u64 = { let year = 2024u64; let month = 2u64; let day = 29u64; (year << 9) | (month << 5) | day };
const UNPACKED_MONTH: u64 = { let packed = 1036381u64; (packed >> 5) & 0xf };
const FIXED_POINT: i64 = { let one = 1i64 << 16; let a = one + one / 2; let b = one * 3; a * b / one };
const CENTS: i64 = { let euros = -12; let cents = 34; euros * 100 - cents };
const FLOOR_DIVISION: i32 = { let a = -7; let b = 2; let q = a / b; let r = a % b; q - ((r >> 31) & 1) };
const HASH_STEP: u64 = { let h = 0xcbf2_9ce4_8422_2325u64; let h = h ^ 0x61; (h & 0xffff_ffff) * 0x1b3 % 0xffff_ffff };
static COUNTER: u32 = { let a = 40; a + 2 };
static FLAG: bool = 3 > 4;
static LIMIT: i16 = -32768;

mod inner {
    pub const DEPTH: u8 = { let a = 1; a + 1 };
    pub mod deeper {
        pub const DEPTH: u8 = { let a = 2; a + 1 };
        pub static TOP: u64 = { let a = 1; a << 63 };
    }
}
