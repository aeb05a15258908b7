// Computations with loops, over integers of many types, that need no operator as `+=`, no casts and no calls.

// Roots, powers, divisors.
const ROOT: u64 = { let n = 1_000_000_007u64; let mut low = 0; let mut high = 1 << 32; while high - low > 1 { let middle = (low + high) / 2; if middle <= n / middle { low = middle; } else { high = middle; } } low };
const ROOT_OF_U128: u128 = { let n = !0u128; let mut x = 1 << 64; loop { let y = (x + n / x) / 2; if y >= x { break x; } x = y; } };
const ROOT_BY_ODD_NUMBERS: u16 = { let mut n = 6241; let mut odd = 1; let mut root = 0; while n >= odd { n = n - odd; odd = odd + 2; root = root + 1; } root };
const ROOT_BY_BITS: u32 = { let mut n = 2_000_000_000u32; let mut root = 0; let mut bit = 1 << 30; while bit > n { bit = bit >> 2; } while bit != 0 { if n >= root + bit { n = n - (root + bit); root = (root >> 1) + bit; } else { root = root >> 1; } bit = bit >> 2; } root };
const CUBE_ROOT: i64 = { let n = -1_000_000i64; let mut x = 0; while (x - 1) * (x - 1) * (x - 1) >= n { x = x - 1; } x };
const POWER: i128 = { let mut base = -7i128; let mut exp = 41u8; let mut r = 1; while exp > 0 { if exp & 1 == 1 { r = r * base; } exp = exp >> 1; if exp > 0 { base = base * base; } } r };
const POWER_MODULO: u64 = { let m = 1_000_003u64; let mut base = 65_537 % m; let mut exp = 1_000_000_006u64; let mut r = 1; while exp > 0 { if exp % 2 == 1 { r = r * base % m; } base = base * base % m; exp = exp / 2; } r };
const LOG2: u32 = { let mut n = 1_000_000u64; let mut log = 0; while n > 1 { n = n >> 1; log = log + 1; } log };
const LOG10: u8 = { let mut n = !0u128; let mut log = 0; while n >= 10 { n = n / 10; log = log + 1; } log };
const GCD: u32 = { let mut a = 1_071_000; let mut b = 462_462; while b != 0 { let t = a % b; a = b; b = t; } a };
const GCD_BINARY: usize = { let mut a = 48_000usize; let mut b = 18_900; let mut shift = 0; while (a | b) & 1 == 0 { a = a >> 1; b = b >> 1; shift = shift + 1; } while a & 1 == 0 { a = a >> 1; } loop { while b & 1 == 0 { b = b >> 1; } if a > b { let t = a; a = b; b = t; } b = b - a; if b == 0 { break a << shift; } } };
const GCD_OF_SIGNED: i16 = { let mut a = -252i16; let mut b = 105; loop { if b == 0 { break if a < 0 { -a } else { a }; } let r = a % b; a = b; b = r; } };
const LCM: u64 = { let mut lcm = 1u64; let mut k = 2; while k <= 20 { let mut a = lcm; let mut b = k; while b != 0 { let t = a % b; a = b; b = t; } lcm = lcm / a * k; k = k + 1; } lcm };
const INVERSE: i32 = { let a = 17; let m = 3120; let mut r0 = m; let mut r1 = a; let mut t0 = 0; let mut t1 = 1; while r1 != 0 { let q = r0 / r1; let r = r0 - q * r1; r0 = r1; r1 = r; let t = t0 - q * t1; t0 = t1; t1 = t; } if t0 < 0 { t0 + m } else { t0 } };
const DIVISION_BY_SUBTRACTION: u8 = { let mut n = 250; let mut q = 0; while n >= 7 { n = n - 7; q = q + 1; } q * 7 + n };
const PRODUCT_BY_ADDITION: u16 = { let mut a = 211u16; let mut b = 199; let mut p = 0; while b != 0 { if b & 1 == 1 { p = p + a; } a = a << 1; b = b >> 1; } p };

// Primes.
const IS_PRIME: bool = { let n = 1_000_003u32; let mut d = 2; loop { if d * d > n { break true; } if n % d == 0 { break false; } d = d + 1; } };
const NO_PRIME: bool = { let n = 1_000_001u32; let mut d = 2; loop { if d * d > n { break true; } if n % d == 0 { break false; } d = d + 1; } };
const PRIMES_BELOW_200: u8 = { let mut n = 2; let mut count = 0; 'next: while n < 200 { let mut d = 2; while d * d <= n { if n % d == 0 { n = n + 1; continue 'next; } d = d + 1; } count = count + 1; n = n + 1; } count };
const PRIME_100: u16 = { let mut n = 1; let mut left = 100; 'search: loop { n = n + 1; let mut d = 2; while d * d <= n { if n % d == 0 { continue 'search; } d = d + 1; } left = left - 1; if left == 0 { break n; } } };
const SIEVE_OF_64: u64 = { let mut marks = !3u64; let mut p = 2; while p * p < 64 { if marks >> p & 1 == 1 { let mut k = p * p; while k < 64 { marks = marks & !(1 << k); k = k + p; } } p = p + 1; } marks };
const LARGEST_FACTOR: u64 = { let mut n = 600_851_475_143u64; let mut d = 2; loop { if n == d { break d; } if n % d == 0 { n = n / d; } else { d = d + 1; } } };
const TOTIENT: u32 = { let mut n = 10_080; let mut phi = n; let mut d = 2; while d * d <= n { if n % d == 0 { while n % d == 0 { n = n / d; } phi = phi - phi / d; } d = d + 1; } if n > 1 { phi - phi / n } else { phi } };
const PERFECT: i32 = { let mut n = 7; 'next: loop { let mut d = 1; let mut s = 0; while d < n { if n % d == 0 { s = s + d; if s > n { n = n + 1; continue 'next; } } d = d + 1; } if s == n { break n; } n = n + 1; } };
const PYTHAGORAS: u32 = 'found: { let mut a = 1; while a < 333 { let mut b = a + 1; while b < 500 { let c = 1000 - a - b; if a * a + b * b == c * c { break 'found a * b * c; } b = b + 1; } a = a + 1; } 0 };

// Sequences.
const FIBONACCI: u64 = { let mut a = 0; let mut b = 1; let mut i = 1; while i < 93 { let c = a + b; a = b; b = c; i = i + 1; } b };
const FIBONACCI_186: u128 = { let mut a = 0u128; let mut b = 1u128; let mut i = 1; loop { if i == 186 { break b; } let c = a + b; a = b; b = c; i = i + 1; } };
const FIBONACCI_PANICS: u8 = { let mut a = 0u8; let mut b = 1u8; let mut i = 0; while i < 20 { let c = a + b; a = b; b = c; i = i + 1; } a };
const TRIBONACCI: i32 = { let mut a = 0; let mut b = 0; let mut c = 1; let mut n = 0; while n < 35 { let d = a + b + c; a = b; b = c; c = d; n = n + 1; } a };
const CATALAN: u64 = { let mut c = 1; let mut n = 0; while n < 30 { c = c * (4 * n + 2) / (n + 2); n = n + 1; } c };
const FACTORIAL: u128 = { let mut f = 1u128; let mut i = 2; while i <= 34 { f = f * i; i = i + 1; } f };
const FACTORIAL_PANICS: i64 = { let mut f = 1i64; let mut i = 2; while i <= 21 { f = f * i; i = i + 1; } f };
const BINOMIAL: u64 = { let n = 60u64; let k = 30; let mut c = 1; let mut i = 1; while i <= k { c = c * (n - k + i) / i; i = i + 1; } c };
const COLLATZ: u16 = { let mut n = 97u32; let mut steps = 0; while n != 1 { n = if n % 2 == 0 { n / 2 } else { 3 * n + 1 }; steps = steps + 1; } steps };
const COLLATZ_LONGEST: u32 = { let mut best = 1; let mut most = 0; let mut k = 1u32; while k < 300 { let mut n = k; let mut steps = 0; loop { if n == 1 { break; } if n & 1 == 0 { n = n >> 1; } else { n = 3 * n + 1; } steps = steps + 1; } if steps > most { most = steps; best = k; } k = k + 1; } best * 1000 + most };
const TRIANGULAR: i8 = { let mut i = 1; let mut t = 0; loop { t = t + i; if t > 100 { break t; } i = i + 1; } };
const JOSEPHUS: u32 = { let mut place = 0; let mut n = 2; while n <= 41 { place = (place + 3) % n; n = n + 1; } place + 1 };
const MERSENNE: u128 = { let p = 89u32; let mut m = 0u128; let mut i = 0; while i < p { m = m << 1 | 1; i = i + 1; } m };

// Bits and digits.
const BITS_SET: u32 = { let mut n = 0xf0f0_1234_8000_0001u64; let mut c = 0; while n != 0 { n = n & (n - 1); c = c + 1; } c };
const BITS_OF_NEGATIVE_PANIC: u32 = { let mut n = -1234i32; let mut c = 0; while n != 0 { n = n & (n - 1); c = c + 1; if c == 32 { break; } } c };
const PARITY: bool = { let mut n = 0x1234_5679u32; let mut odd = false; while n != 0 { odd = odd ^ (n & 1 == 1); n = n >> 1; } odd };
const TURNED_BITS: u8 = { let mut n = 0b1100_1010u8; let mut r = 0u8; let mut i = 0; while i < 8 { r = r << 1 | n & 1; n = n >> 1; i = i + 1; } r };
const TURNED_BITS_OF_I16: i16 = { let n = 0x1f3i16; let mut r = 0; let mut i = 0; while i < 16 { r = r | (n >> i & 1) << (15 - i); i = i + 1; } r };
const LEADING_ZEROS: u8 = { let n = 0x0000_5000u32; let mut bit = 1u32 << 31; let mut c = 0; while bit != 0 && n & bit == 0 { bit = bit >> 1; c = c + 1; } c };
const TRAILING_ZEROS: usize = { let mut n = 0x5000_0000_0000u64; let mut c = 0; while n & 1 == 0 { n = n >> 1; c = c + 1; } c };
const NEXT_POWER_OF_TWO: u32 = { let n = 70_000; let mut p = 1; while p < n { p = p << 1; } p };
const GRAY: u16 = { let mut g = 0b1011_0111_0001u16; let mut n = 0; while g != 0 { n = n ^ g; g = g >> 1; } n };
const DIGIT_SUM: u8 = { let mut n = 987_654_321u64; let mut s = 0u64; while n > 0 { s = s + n % 10; n = n / 10; } let mut small = 0; while s > 0 { s = s - 1; small = small + 1; } small };
const DIGITAL_ROOT: u32 = { let mut n = 4_294_967_295u32; while n > 9 { let mut s = 0; while n > 0 { s = s + n % 10; n = n / 10; } n = s; } n };
const TURNED_DIGITS: i64 = { let mut n = -1_234_567i64; let mut r = 0; while n != 0 { r = r * 10 + n % 10; n = n / 10; } r };
const PALINDROME: bool = { let n = 123_454_321u32; let mut m = n; let mut r = 0; while m > 0 { r = r * 10 + m % 10; m = m / 10; } r == n };
const LARGEST_PALINDROME: u32 = { let mut best = 0; let mut a = 99; while a > 89 { let mut b = a; while b > 89 { let p = a * b; let mut m = p; let mut r = 0; while m > 0 { r = r * 10 + m % 10; m = m / 10; } if r == p && p > best { best = p; } b = b - 1; } a = a - 1; } best };
const BINARY_AS_DECIMAL: u64 = { let mut n = 0b1011_0110u64; let mut place = 1; let mut shown = 0; while n > 0 { if n & 1 == 1 { shown = shown + place; } place = place * 10; n = n >> 1; } shown };
const ARMSTRONG: u16 = { let mut n = 371; loop { n = n + 1; let mut m = n; let mut s = 0; while m > 0 { let d = m % 10; s = s + d * d * d; m = m / 10; } if s == n { break n; } } };
const CHECK_DIGIT: u64 = { let mut n = 7_992_739_871u64; let mut s = 0; let mut double = true; while n > 0 { let mut d = n % 10; if double { d = d * 2; if d > 9 { d = d - 9; } } s = s + d; double = !double; n = n / 10; } (10 - s % 10) % 10 };
const HASH: u32 = { let mut data = 0x6f6c_6c65_68u64; let mut h = 5381u64; while data != 0 { h = (h << 5) + h + (data & 0xff); data = data >> 8; } let mut small = 0u32; let mut i = 32; loop { if i == 0 { break small; } i = i - 1; small = small << 1 | if h >> i & 1 == 1 { 1 } else { 0 }; } };
const REMAINDER_OF_POLYNOMIAL: u16 = { let data = 0x3132u16; let mut r = data; let mut i = 0; while i < 16 { if r & 0x8000 != 0 { r = (r << 1) ^ 0x1021; } else { r = r << 1; } i = i + 1; } r };
const SHIFT_REGISTER: u16 = { let start = 0xace1u16; let mut state = start; let mut period = 0; loop { let bit = (state ^ state >> 2 ^ state >> 3 ^ state >> 5) & 1; state = state >> 1 | bit << 15; period = period + 1; if period == 1000 { break state; } if state == start { break 0; } } };

// Dates.
const DAYS_TO_2024: u32 = { let mut year = 1970; let mut days = 0; while year < 2024 { days = days + if year % 4 == 0 && (year % 100 != 0 || year % 400 == 0) { 366 } else { 365 }; year = year + 1; } days };
const DAY_OF_YEAR: u16 = { let year = 2024; let month = 10; let day = 28; let mut m = 1; let mut days = 0; while m < month { days = days + if m == 2 { if year % 4 == 0 && (year % 100 != 0 || year % 400 == 0) { 29 } else { 28 } } else if m == 4 || m == 6 || m == 9 || m == 11 { 30 } else { 31 }; m = m + 1; } days + day };
const DATE_OF_DAY: u32 = { let mut days = 19_999; let mut year = 1970; loop { let length = if year % 4 == 0 && (year % 100 != 0 || year % 400 == 0) { 366 } else { 365 }; if days < length { break; } days = days - length; year = year + 1; } let mut month = 1; let mut day = days + 1; 'months: loop { let length = if month == 2 { if year % 4 == 0 && (year % 100 != 0 || year % 400 == 0) { 29 } else { 28 } } else if month == 4 || month == 6 || month == 9 || month == 11 { 30 } else { 31 }; if day <= length { break 'months; } day = day - length; month = month + 1; } year * 10_000 + month * 100 + day };
const WEEKDAY: i32 = { let year = 1969; let month = 7; let day = 20; let y = if month < 3 { year - 1 } else { year }; let mut m = month; if m < 3 { m = m + 12; } let mut w = (day + 13 * (m + 1) / 5 + y + y / 4 - y / 100 + y / 400) - 1; while w >= 7 { w = w - 7; } w };
const LEAP_YEARS: u8 = { let mut year = 1800; let mut n = 0; 'years: loop { year = year + 1; if year > 2000 { break n; } if year % 4 != 0 { continue; } 'century: { if year % 100 != 0 { break 'century; } if year % 400 != 0 { continue 'years; } } n = n + 1; } };
const EASTER: u32 = { let mut year = 2020; let mut earliest = 500; while year < 2040 { let a = year % 19; let b = year / 100; let c = year % 100; let d = (19 * a + b - b / 4 - ((b - (b + 8) / 25 + 1) / 3) + 15) % 30; let e = (32 + 2 * (b % 4) + 2 * (c / 4) - d - c % 4) % 7; let f = d + e - 7 * ((a + 11 * d + 22 * e) / 451) + 114; let date = f / 31 * 100 + f % 31 + 1; if date < earliest { earliest = date; } year = year + 1; } earliest };
const FRIDAYS: u8 = { let mut weekday = 1u8; let mut month = 1u8; let mut n = 0; while month <= 12 { if (weekday + 12) % 7 == 5 { n = n + 1; } let length = if month == 2 { 29 } else if month == 4 || month == 6 || month == 9 || month == 11 { 30 } else { 31 }; weekday = (weekday + length) % 7; month = month + 1; } n };
const SECONDS: i64 = { let mut year = 1970i64; let mut s = 0; while year > 1900 { year = year - 1; s = s - 86_400 * if year % 4 == 0 && (year % 100 != 0 || year % 400 == 0) { 366 } else { 365 }; } s };

// Searches, and games of numbers.
const COINS: u32 = { let mut ways = 0; let mut a = 0; while a <= 100 { let mut b = 0; while a + b <= 100 { let mut c = 0; while a + b + c <= 100 { if (100 - a - b - c) % 5 == 0 { ways = ways + 1; } c = c + 10; } b = b + 25; } a = a + 50; } ways };
const QUEENS: u8 = { let mut solutions = 0u8; let mut a = 0; while a < 4 { let mut b = 0; 'b: while b < 4 { if b == a || b == a + 1 || a == b + 1 { b = b + 1; continue 'b; } let mut c = 0; 'c: while c < 4 { if c == a || c == b || c == b + 1 || b == c + 1 || c == a + 2 || a == c + 2 { c = c + 1; continue 'c; } let mut d = 0; while d < 4 { 'bad: { if d == a || d == b || d == c { break 'bad; } if d == c + 1 || c == d + 1 || d == b + 2 || b == d + 2 || d == a + 3 || a == d + 3 { break 'bad; } solutions = solutions + 1; } d = d + 1; } c = c + 1; } b = b + 1; } a = a + 1; } solutions };
const BISECTION: i32 = { let mut low = -1000; let mut high = 1000; while high - low > 1 { let middle = low + (high - low) / 2; let value = middle * middle * middle - 7 * middle + 50_000; if value < 0 { low = middle; } else { high = middle; } } low };
const NIM: bool = { let mut heap = 21u8; let mut first = true; loop { let take = if heap % 4 == 0 { 1 } else { heap % 4 }; heap = heap - take; if heap == 0 { break first; } first = !first; } };
const RANDOM: u64 = { let mut state = 88_172_645_463_325_252u64; let mut i = 0; while i < 10 { state = state ^ (state << 13); state = state ^ (state >> 7); state = state ^ (state << 17); i = i + 1; } state };
const DARTS: u32 = { let mut state = 12_345u64; let mut inside = 0; let mut i = 0; while i < 500 { state = (state * 1_103_515_245 + 12_345) % 2_147_483_648; let x = state >> 16 & 0xff; state = (state * 1_103_515_245 + 12_345) % 2_147_483_648; let y = state >> 16 & 0xff; if x * x + y * y < 65_536 { inside = inside + 1; } i = i + 1; } inside };
const PI_DIGITS: u128 = { let one = 10_000_000_000_000_000_000u128; let mut sum = 0; let mut term = 16 * one / 5; let mut n = 1; let mut minus = false; while term > 0 { sum = if minus { sum - term / n } else { sum + term / n }; term = term / 25; n = n + 2; minus = !minus; } term = 4 * one / 239; n = 1; minus = true; while term > 0 { sum = if minus { sum - term / n } else { sum + term / n }; term = term / 57_121; n = n + 2; minus = !minus; } sum };
const MANDELBROT: u16 = { let cx = -745i64; let cy = 113i64; let mut x = 0; let mut y = 0; let mut n = 0; loop { let xx = x * x / 1000; let yy = y * y / 1000; if xx + yy > 4000 || n == 200 { break n; } y = 2 * x * y / 1000 + cy; x = xx - yy + cx; n = n + 1; } };
const TOWER: u32 = { let mut moves = 0; let mut disks = 0; while disks < 20 { moves = 2 * moves + 1; disks = disks + 1; } moves };
const SUM_OF_MULTIPLES: isize = { let mut n = 0; let mut s = 0; loop { n = n + 1; if n >= 1000 { break s; } if n % 3 != 0 && n % 5 != 0 { continue; } s = s + n; } };

// Those that panic, each in a later turn.
const SUM_OVERFLOWS: i8 = { let mut i = 1i8; let mut s = 0i8; loop { s = s + i; i = i + 1; } };
const PRODUCT_OVERFLOWS: u128 = { let mut p = 1u128; let mut i = 0; while i < 50 { p = p * 7; i = i + 1; } p };
const FALLS_BELOW_ZERO: usize = { let mut n = 10usize; while n < 100 { n = n - 3; } n };
const DIVIDES_BY_ZERO: i32 = { let mut d = 3; let mut s = 0; loop { s = s + 12 / d; d = d - 1; } };
const REMAINDER_BY_ZERO: u16 = { let mut d = 5u16; let mut s = 0u16; while s < 100 { s = s + 100 % d; d = d - 1; } s };
const SHIFTS_TOO_FAR: u32 = { let mut k = 0; let mut s = 0u32; loop { s = s ^ 1 << k; k = k + 5; } };
const LEAST_BY_MINUS_ONE: i8 = { let mut d = 3i8; let mut s = 0i8; loop { s = s + (-128) / d / 100; d = if d == 1 { -1 } else { d - 1 }; } };
