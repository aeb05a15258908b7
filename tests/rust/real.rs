// What libraries compute at compile time, written anew: checksums, roots, logarithms, hashes, dates, tables of bytes.

// Products and sums that wrap, by way of a wider type.
const fn product(a: u64, b: u64) -> u64 { (a as u128 * b as u128) as u64 }
const fn sum(a: u64, b: u64) -> u64 { (a as u128 + b as u128) as u64 }
const fn product32(a: u32, b: u32) -> u32 { (a as u64 * b as u64) as u32 }
const fn sum32(a: u32, b: u32) -> u32 { (a as u64 + b as u64) as u32 }
const fn turned(x: u64, by: u32) -> u64 { (x << by) | (x >> (64 - by)) }
const fn turned32(x: u32, by: u32) -> u32 { (x << by) | (x >> (32 - by)) }

// CRC-32 with the reflected polynomial: the table of bytes, and the sum of a text.
const CRC32: [u32; 256] = crc32_table(0xedb8_8320);
const CRC32_ENTRY: u32 = CRC32[0x77];
const CRC32_CHECK: u32 = crc32(b"123456789");
const CRC32_EMPTY: u32 = crc32(b"");
const fn crc32_table(polynomial: u32) -> [u32; 256] {
    let mut table = [0; 256];
    let mut n = 0;
    while n < 256 {
        let mut c = n as u32;
        let mut k = 0;
        while k < 8 {
            c = if c & 1 == 1 { polynomial ^ (c >> 1) } else { c >> 1 };
            k += 1;
        }
        table[n] = c;
        n += 1;
    }
    table
}
const fn crc32(bytes: &[u8]) -> u32 {
    let mut c = !0u32;
    let mut i = 0;
    while i < bytes.len() {
        c = CRC32[((c ^ bytes[i] as u32) & 0xff) as usize] ^ (c >> 8);
        i += 1;
    }
    !c
}

// CRC-16 from the top bit, and CRC-8, bit by bit.
const CRC16_CHECK: u16 = crc16(b"123456789");
const CRC8_CHECK: u8 = crc8(b"123456789");
const fn crc16(bytes: &[u8]) -> u16 {
    let mut c = 0xffffu16;
    let mut i = 0;
    while i < bytes.len() {
        c ^= (bytes[i] as u16) << 8;
        let mut k = 0;
        while k < 8 {
            c = if c & 0x8000 != 0 { (c << 1) ^ 0x1021 } else { c << 1 };
            k += 1;
        }
        i += 1;
    }
    c
}
const fn crc8(bytes: &[u8]) -> u8 {
    let mut c = 0u8;
    let mut i = 0;
    while i < bytes.len() {
        c ^= bytes[i];
        let mut k = 0;
        while k < 8 {
            c = if c & 0x80 != 0 { (c << 1) ^ 7 } else { c << 1 };
            k += 1;
        }
        i += 1;
    }
    c
}

// Adler-32 and Fletcher-16: two sums, of which the second adds the first.
const ADLER: u32 = adler(b"Wikipedia");
const FLETCHER: u16 = fletcher(b"abcdefgh");
const fn adler(bytes: &[u8]) -> u32 {
    let (mut a, mut b) = (1u32, 0u32);
    let mut i = 0;
    while i < bytes.len() {
        a = (a + bytes[i] as u32) % 65521;
        b = (b + a) % 65521;
        i += 1;
    }
    (b << 16) | a
}
const fn fletcher(bytes: &[u8]) -> u16 {
    let (mut a, mut b) = (0u16, 0u16);
    let mut i = 0;
    while i < bytes.len() {
        a = (a + bytes[i] as u16) % 255;
        b = (b + a) % 255;
        i += 1;
    }
    (b << 8) | a
}

// The integer square root, digit by digit and by Newton's steps.
const ROOT_OF_2_63: u64 = root(1 << 63);
const ROOT_OF_MAX: u64 = root(0xffff_ffff_ffff_ffff);
const ROOT_OF_99: u64 = root(99);
const ROOT_BY_NEWTON: u64 = root_by_newton(10_000_000_000_000_001);
const CUBE_ROOT: u32 = cube_root(1_000_000_006);
const fn root(n: u64) -> u64 {
    let mut rest = n;
    let mut r = 0;
    let mut bit = 1u64 << 62;
    while bit > n {
        bit >>= 2;
    }
    while bit != 0 {
        if rest >= r + bit {
            rest -= r + bit;
            r = (r >> 1) + bit;
        } else {
            r >>= 1;
        }
        bit >>= 2;
    }
    r
}
const fn root_by_newton(n: u64) -> u64 {
    let mut x = n;
    let mut y = x / 2 + 1;
    while y < x {
        x = y;
        y = (x + n / x) / 2;
    }
    x
}
const fn cube_root(n: u32) -> u32 {
    let (mut low, mut high) = (0u32, 1626);
    while low < high {
        let middle = (low + high + 1) / 2;
        if middle * middle * middle <= n { low = middle; } else { high = middle - 1; }
    }
    low
}
// Logarithms: by halving, by tens, by a table of powers.
const LOG2: u32 = log2(0x0123_4567_89ab_cdef);
const LOG2_OF_1: u32 = log2(1);
const LOG10: u32 = log10(18_446_744_073_709_551_615);
const LOG10_OF_999: u32 = log10(999);
const LOG_BASE_7: u32 = log(123_456_789, 7);
const fn log2(mut n: u64) -> u32 {
    let mut r = 0;
    let mut half = 32;
    while half > 0 {
        if n >> half != 0 {
            n >>= half;
            r += half;
        }
        half /= 2;
    }
    r
}
const fn log10(mut n: u64) -> u32 { let mut r = 0; while n >= 10 { n /= 10; r += 1; } r }
const fn log(mut n: u64, base: u64) -> u32 { let mut r = 0; while n >= base { n /= base; r += 1; } r }
const POWERS_OF_TEN: [u64; 20] = { let mut a = [1u64; 20]; let mut i = 1; while i < 20 { a[i] = a[i - 1] * 10; i += 1; } a };

// FNV-1a at 32 and 64 bits, and other small hashes of texts.
const FNV32: u32 = fnv32(b"foobar");
const FNV64: u64 = fnv64(b"foobar");
const FNV64_EMPTY: u64 = fnv64(b"");
const DJB2: u32 = djb2(b"hash me");
const ONE_AT_A_TIME: u32 = one_at_a_time(b"hash me");
const fn fnv32(bytes: &[u8]) -> u32 { let mut h = 0x811c_9dc5; let mut i = 0; while i < bytes.len() { h = product32(h ^ bytes[i] as u32, 0x0100_0193); i += 1; } h }
const fn fnv64(bytes: &[u8]) -> u64 { let mut h = 0xcbf2_9ce4_8422_2325; let mut i = 0; while i < bytes.len() { h = product(h ^ bytes[i] as u64, 0x0100_0000_01b3); i += 1; } h }
const fn djb2(bytes: &[u8]) -> u32 { let mut h = 5381; let mut i = 0; while i < bytes.len() { h = sum32(product32(h, 33), bytes[i] as u32); i += 1; } h }
const fn one_at_a_time(bytes: &[u8]) -> u32 {
    let mut h = 0u32;
    let mut i = 0;
    while i < bytes.len() {
        h = sum32(h, bytes[i] as u32);
        h = sum32(h, h << 10);
        h ^= h >> 6;
        i += 1;
    }
    h = sum32(h, h << 3);
    h ^= h >> 11;
    sum32(h, h << 15)
}

// SipHash: the state of four words, its rounds, and the hash of one word with 2 and 4 rounds.
#[derive(Clone, Copy)]
struct Sip { v0: u64, v1: u64, v2: u64, v3: u64 }
impl Sip {
    const fn new(k0: u64, k1: u64) -> Sip {
        Sip { v0: k0 ^ 0x736f_6d65_7073_6575, v1: k1 ^ 0x646f_7261_6e64_6f6d, v2: k0 ^ 0x6c79_6765_6e65_7261, v3: k1 ^ 0x7465_6462_7974_6573 }
    }
    const fn round(self) -> Sip {
        let Sip { mut v0, mut v1, mut v2, mut v3 } = self;
        v0 = sum(v0, v1); v1 = turned(v1, 13) ^ v0; v0 = turned(v0, 32);
        v2 = sum(v2, v3); v3 = turned(v3, 16) ^ v2;
        v0 = sum(v0, v3); v3 = turned(v3, 21) ^ v0;
        v2 = sum(v2, v1); v1 = turned(v1, 17) ^ v2; v2 = turned(v2, 32);
        Sip { v0, v1, v2, v3 }
    }
    const fn word(mut self, m: u64) -> Sip { self.v3 ^= m; self = self.round().round(); self.v0 ^= m; self }
    const fn end(mut self) -> u64 { self.v2 ^= 0xff; let s = self.round().round().round().round(); s.v0 ^ s.v1 ^ s.v2 ^ s.v3 }
}
const SIP_ROUND: u64 = Sip::new(1, 2).round().v1;
const SIP_EMPTY: u64 = Sip::new(0x0706_0504_0302_0100, 0x0f0e_0d0c_0b0a_0908).word(0).end();
const SIP_ONE_WORD: u64 = Sip::new(3, 4).word(0x6f6c_6c65_6800_0000).word(8 << 56).end();

// Finalizers and generators of random numbers.
const MURMUR_END: u32 = { let mut h = 0x1234_5678u32; h ^= h >> 16; h = product32(h, 0x85eb_ca6b); h ^= h >> 13; h = product32(h, 0xc2b2_ae35); h ^ (h >> 16) };
const SPLITMIX: u64 = splitmix(42);
const XORSHIFT: u64 = { let mut x = 88_172_645_463_325_252u64; let mut i = 0; while i < 10 { x ^= x << 13; x ^= x >> 7; x ^= x << 17; i += 1; } x };
const LFSR_PERIOD: u32 = { let start = 0xace1u16; let mut x = start; let mut n = 0; loop { let bit = x & 1; x >>= 1; if bit == 1 { x ^= 0xb400; } n += 1; if x == start || n == 300 { break n; } } };
const PCG: u32 = { let state = 0x853c_49e6_748f_ea9bu64; let shifted = (((state >> 18) ^ state) >> 27) as u32; let by = (state >> 59) as u32; (shifted >> by) | (shifted << ((32 - by) & 31)) };
const CHACHA_QUARTER: u32 = { let (mut a, mut b, mut c, mut d) = (0x1111_1111u32, 0x0102_0304u32, 0x9b8d_6f43u32, 0x0123_4567u32); a = sum32(a, b); d = turned32(d ^ a, 16); c = sum32(c, d); b = turned32(b ^ c, 12); a = sum32(a, b); d = turned32(d ^ a, 8); c = sum32(c, d); b = turned32(b ^ c, 7); a ^ b ^ c ^ d };
const fn splitmix(seed: u64) -> u64 { let z = sum(seed, 0x9e37_79b9_7f4a_7c15); let z = product(z ^ (z >> 30), 0xbf58_476d_1ce4_e5b9); let z = product(z ^ (z >> 27), 0x94d0_49bb_1331_11eb); z ^ (z >> 31) }

// Dates: days since 1970 of a day of the calendar, and back; days of the week; leap years.
const EPOCH: i64 = days_from_civil(1970, 1, 1);
const LEAP_DAY: i64 = days_from_civil(2024, 2, 29);
const BEFORE_EPOCH: i64 = days_from_civil(1600, 3, 1);
const CIVIL: (i64, u32, u32) = civil_from_days(19_782);
const CIVIL_NEGATIVE: i64 = { let (y, m, d) = civil_from_days(-1); y * 10_000 + m as i64 * 100 + d as i64 };
const WEEKDAY: u32 = weekday(days_from_civil(2024, 2, 29));
const SECONDS: i64 = days_from_civil(2000, 1, 1) * 86_400 + 12 * 3_600;
const LAST_DAYS: [u8; 12] = { let mut a = [0; 12]; let mut m = 0; while m < 12 { a[m] = last_day(2023, m as u32 + 1); m += 1; } a };
const EASTER: (i32, i32) = easter(2024);
const fn days_from_civil(y: i64, m: u32, d: u32) -> i64 {
    let y = if m <= 2 { y - 1 } else { y };
    let era = (if y >= 0 { y } else { y - 399 }) / 400;
    let of_era = y - era * 400;
    let shifted = (m + 9) % 12;
    let of_year = (153 * shifted + 2) / 5 + d - 1;
    let day = of_era * 365 + of_era / 4 - of_era / 100 + of_year as i64;
    era * 146_097 + day - 719_468
}
const fn civil_from_days(z: i64) -> (i64, u32, u32) {
    let z = z + 719_468;
    let era = (if z >= 0 { z } else { z - 146_096 }) / 146_097;
    let day = z - era * 146_097;
    let year = (day - day / 1_460 + day / 36_524 - day / 146_096) / 365;
    let of_year = day - (365 * year + year / 4 - year / 100);
    let m = (5 * of_year + 2) / 153;
    let d = (of_year - (153 * m + 2) / 5 + 1) as u32;
    let month = if m < 10 { m + 3 } else { m - 9 } as u32;
    (year + era * 400 + if month <= 2 { 1 } else { 0 }, month, d)
}
const fn weekday(days: i64) -> u32 { let r = (days + 4) % 7; (if r < 0 { r + 7 } else { r }) as u32 }
const fn is_leap(y: u32) -> bool { y % 4 == 0 && (y % 100 != 0 || y % 400 == 0) }
const fn last_day(y: u32, m: u32) -> u8 { match m { 2 if is_leap(y) => 29, 2 => 28, 4 | 6 | 9 | 11 => 30, _ => 31 } }
const fn easter(y: i32) -> (i32, i32) {
    let (a, b, c) = (y % 19, y / 100, y % 100);
    let g = (8 * b + 13) / 25;
    let h = (19 * a + b - b / 4 - g + 15) % 30;
    let l = (32 + 2 * (b % 4) + 2 * (c / 4) - h - c % 4) % 7;
    let m = (a + 11 * h + 22 * l) / 451;
    ((h + l - 7 * m + 114) / 31, (h + l - 7 * m + 114) % 31 + 1)
}

// Base64: the alphabet, the table back, and three bytes as four letters. Hexadecimal digits likewise.
const BASE64: [u8; 64] = { let mut a = [0; 64]; let mut i = 0; while i < 26 { a[i] = b'A' + i as u8; a[i + 26] = b'a' + i as u8; i += 1; } while i < 36 { a[i + 26] = b'0' + (i - 26) as u8; i += 1; } a[62] = b'+'; a[63] = b'/'; a };
const BASE64_BACK: [u8; 256] = { let mut a = [255; 256]; let mut i = 0; while i < 64 { a[BASE64[i] as usize] = i as u8; i += 1; } a };
const ENCODED: [u8; 4] = encode(*b"Man");
const DECODED: u32 = decode(*b"TWFu");
const HEX_BACK: [u8; 128] = { let mut a = [255; 128]; let mut i = 0; while i < 10 { a[b'0' as usize + i] = i as u8; i += 1; } i = 10; while i < 16 { a[b'a' as usize + i - 10] = i as u8; a[b'A' as usize + i - 10] = i as u8; i += 1; } a };
const fn encode(b: [u8; 3]) -> [u8; 4] { let n = (b[0] as usize) << 16 | (b[1] as usize) << 8 | b[2] as usize; [BASE64[n >> 18], BASE64[n >> 12 & 63], BASE64[n >> 6 & 63], BASE64[n & 63]] }
const fn decode(t: [u8; 4]) -> u32 { let mut n = 0; let mut i = 0; while i < 4 { n = n << 6 | BASE64_BACK[t[i] as usize] as u32; i += 1; } n }

// Parsing and text: numbers, addresses, versions, lengths of UTF-8, escapes.
const PARSED: Option<u32> = parse(b"4294967295");
const PARSED_OR: u32 = match parse(b"429496729x") { Some(n) => n, None => 7 };
const PARSED_TOO_LARGE: u32 = match parse(b"4294967296") { Some(n) => n, None => 8 };
const ADDRESS: u32 = address(b"192.168.1.254");
const VERSION: u32 = { let (major, minor, patch) = (1u32, 95, 0); major << 20 | minor << 10 | patch };
const UTF8_LENGTHS: [usize; 4] = [utf8_length('a'), utf8_length('\u{e9}'), utf8_length('\u{20ac}'), utf8_length('\u{10348}')];
const SURROGATES: (u16, u16) = { let c = 0x1f600u32 - 0x10000; (0xd800 + (c >> 10) as u16, 0xdc00 + (c & 0x3ff) as u16) };
const IS_SPACE: [bool; 33] = { let mut a = [false; 33]; a[9] = true; a[10] = true; a[13] = true; a[32] = true; a };
const fn parse(t: &[u8]) -> Option<u32> {
    let mut n = 0u32;
    let mut i = 0;
    while i < t.len() {
        let d = match t[i] { c @ b'0'..=b'9' => (c - b'0') as u32, _ => return None };
        if n > (0xffff_ffff - d) / 10 { return None; }
        n = n * 10 + d;
        i += 1;
    }
    Some(n)
}
const fn address(t: &[u8]) -> u32 {
    let (mut whole, mut part, mut i) = (0u32, 0u32, 0);
    while i < t.len() {
        if t[i] == b'.' { whole = whole << 8 | part; part = 0; } else { part = part * 10 + (t[i] - b'0') as u32; }
        i += 1;
    }
    whole << 8 | part
}
const fn utf8_length(c: char) -> usize { let n = c as u32; if n < 0x80 { 1 } else if n < 0x800 { 2 } else if n < 0x10000 { 3 } else { 4 } }

// Numbers: binomials, inverses, primes, bits.
const BINOMIAL: u64 = binomial(30, 15);
const INVERSE: u64 = inverse(0x1_0000_0001);
const MODULAR_POWER: u64 = modular_power(7, 560, 561);
const PRIMES: [u8; 25] = { let mut a = [0; 25]; let mut n = 2; let mut count = 0; while count < 25 { let mut d = 2; let mut prime = true; while d * d <= n { if n % d == 0 { prime = false; } d += 1; } if prime { a[count] = n; count += 1; } n += 1; } a };
const MORTON: u32 = spread(0x1234) | spread(0xabcd) << 1;
const GRAY: [u8; 8] = { let mut a = [0; 8]; let mut i = 0; while i < 8 { a[i] = (i ^ (i >> 1)) as u8; i += 1; } a };
const BIT_COUNTS: [u8; 256] = { let mut a = [0; 256]; let mut i = 1; while i < 256 { a[i] = a[i / 2] + (i & 1) as u8; i += 1; } a };
const REVERSED_BYTES: [u8; 256] = { let mut a = [0; 256]; let mut i = 0; while i < 256 { let mut b = 0; let mut r = 0; while b < 8 { if i >> b & 1 == 1 { r |= 128 >> b; } b += 1; } a[i] = r; i += 1; } a };
const LUHN: bool = { let digits = [7u32, 9, 9, 2, 7, 3, 9, 8, 7, 1, 3]; let mut s = 0; let mut i = 0; while i < 11 { let d = digits[10 - i]; s += if i % 2 == 1 { if d > 4 { 2 * d - 9 } else { 2 * d } } else { d }; i += 1; } s % 10 == 0 };
const BCD: u32 = { let mut n = 20_240_229u32; let mut r = 0; let mut s = 0; while n > 0 { r |= n % 10 << s; n /= 10; s += 4; } r };
const ROMAN: u32 = { let t = b"MCMXCIV"; let mut s = 0; let mut i = 0; let mut last = 0; while i < 7 { let v = match t[6 - i] { b'I' => 1, b'V' => 5, b'X' => 10, b'L' => 50, b'C' => 100, b'D' => 500, _ => 1000 }; if v < last { s -= v; } else { s += v; last = v; } i += 1; } s };
const ALIGNED: usize = aligned(4_097, 4_096);
const SIZE_CLASSES: [u16; 8] = { let mut a = [8; 8]; let mut i = 1; while i < 8 { a[i] = a[i - 1] + a[i - 1] / 2 & !7; if a[i] == a[i - 1] { a[i] += 8; } i += 1; } a };
const SHA_ROOT: u32 = { let target = 2u128 << 96; let (mut low, mut high) = (0u128, 1u128 << 34); while low + 1 < high { let m = (low + high) / 2; if m * m * m <= target { low = m; } else { high = m; } } (low & 0xffff_ffff) as u32 };
const MATRIX_POWER: u64 = { let (mut a, mut b, mut c, mut d) = (1u64, 1, 1, 0); let mut i = 0; while i < 40 { (a, b, c, d) = (a + b, a, c + d, c); i += 1; } a - d - c + b };
const QUEENS: u32 = queens(5, 0, 0, 0, 0);
const HANOI: u32 = hanoi(10);
const fn binomial(n: u64, k: u64) -> u64 { let mut r = 1; let mut i = 1; while i <= k { r = r * (n - k + i) / i; i += 1; } r }
const fn inverse(n: u64) -> u64 { let mut x = n; let mut i = 0; while i < 5 { let e = product(n, x); x = product(x, sum(3, !e)); i += 1; } product(n, x) }
const fn modular_power(base: u64, mut exp: u64, m: u64) -> u64 { let mut r = 1; let mut b = base % m; while exp > 0 { if exp & 1 == 1 { r = r * b % m; } b = b * b % m; exp >>= 1; } r }
const fn spread(x: u32) -> u32 { let x = (x | x << 8) & 0x00ff_00ff; let x = (x | x << 4) & 0x0f0f_0f0f; let x = (x | x << 2) & 0x3333_3333; (x | x << 1) & 0x5555_5555 }
const fn aligned(n: usize, to: usize) -> usize { (n + to - 1) & !(to - 1) }
const fn queens(n: u32, row: u32, columns: u32, left: u32, right: u32) -> u32 { if row == n { return 1; } let mut free = !(columns | left | right) & ((1 << n) - 1); let mut count = 0; while free != 0 { let bit = free & (!free + 1); free &= !bit; count += queens(n, row + 1, columns | bit, (left | bit) << 1, (right | bit) >> 1); } count }
const fn hanoi(n: u32) -> u32 { if n == 0 { 0 } else { hanoi(n - 1) + 1 + hanoi(n - 1) } }
