// Forms inside of one another, and constants that macros make.

macro_rules! table { ($n:ident, $t:ty, $($e:expr),*) => { const $n: [$t; 3] = [$($e),*]; } }
table!(T1, u8, 1, 2, 3);
macro_rules! maxm { ($a:expr) => { $a }; ($a:expr, $($r:expr),+) => { { let a = $a; let b = maxm!($($r),+); if a > b { a } else { b } } } }
const M1: i32 = maxm!(3, 9, -4, 7);
const W: u32 = { let mut i = 0u32; let mut n = 0; while { i += 1; i < 20 } { if i == 3 { continue } if i == 15 { break } n += i; } n };
const NESTED_WHILE: u32 = { let mut n = 0; let mut i = 0; while i < 3 { let mut j = 0; while j < 3 { j += 1; if j == 2 { continue; } n += j * 10; } i += 1; if n > 70 { break; } } n };
const L2: u8 = { let v = loop { let x = loop { break 3u8; }; break x + 1; }; v };
const B2: i32 = { let x = 'a: { let y = 'b: { if false { break 'a 1 } if true { break 'b 2 } 3 }; y * 10 }; x };
const IFE: u8 = { let mut a = 0; if a == 0 { a = 1 } else if a == 1 { a = 2 } a };
const N1: bool = !(3 > 2) || { let mut k = 0; while k < 5 { k += 1 } k == 5 };
const UNS: u8 = unsafe { let x = 3u8; let p = &raw const x; *p };
const TUP: (u8, (i8, bool), [u8; 2]) = (1, (-1, true), [4, 5]);
const NEST: Option<Option<(u8, u8)>> = Some(Some((1, 2)));
const REFS: u8 = { let t = (1u8, (2u8, 3u8)); let &(a, (ref b, c)) = &t; a + *b * 10 + c * 100 };
const SL: u8 = { let a = [[1u8, 2], [3, 4]]; let [[_, x], [y, _]] = a; x * y };
const AT: u8 = match [1u8, 2, 3] { [x @ 1, rest @ ..] if rest[1] == 3 => x + rest[0], _ => 0 };
const STR: usize = { let s = "ab\u{e9}"; s.len() };
const CH: u32 = { let c = '\u{1F600}'; c as u32 };
const NEG: i64 = -(-(-5i64));
const CAST: i8 = (-1i32 as u8 as i16 - 1) as i8;
const SHR: i8 = { let mut x = -128i8; x >>= 7; x };
mod a { pub mod b { #[derive(Clone, Copy, PartialEq)] pub struct P { pub(super) x: u8, y: super::Q } impl P { pub const fn n(x: u8) -> Self { Self { x, y: super::Q(x as u16, ()) } } pub const fn y(&self) -> u16 { self.y.0 } } } #[derive(Clone, Copy, PartialEq)] pub struct Q(pub u16, pub ()); pub const fn get(p: b::P) -> u8 { p.x } }
const PRIV: u16 = a::b::P::n(7).y() + a::get(a::b::P::n(9)) as u16;
enum Op { Add(i32), Mul { by: i32 }, Neg, Chain(&'static Op, &'static Op) }
const fn apply(o: &Op, x: i32) -> i32 { match o { Op::Add(n) => x + *n, Op::Mul { by } => x * *by, Op::Neg => -x, Op::Chain(a, b) => apply(b, apply(a, x)) } }
const OPS: i32 = apply(&Op::Chain(&Op::Add(3), &Op::Chain(&Op::Mul { by: -2 }, &Op::Neg)), 4);
const fn collatz(n: u64, depth: u32) -> u32 { match n { 0 => 0, 1 => depth, n if n % 2 == 0 => collatz(n / 2, depth + 1), _ => collatz(3 * n + 1, depth + 1) } }
const COL: u32 = collatz(97, 0);
struct Stack<const N: usize> { data: [i64; N], len: usize }
impl<const N: usize> Stack<N> { const fn new() -> Self { Stack { data: [0; N], len: 0 } } const fn push(mut self, x: i64) -> Self { self.data[self.len] = x; self.len += 1; self } const fn pop(&mut self) -> Option<i64> { if self.len == 0 { None } else { self.len -= 1; Some(self.data[self.len]) } } }
const RPN: i64 = { let mut s = Stack::<4>::new().push(5).push(6).push(7); let mut t = 0; while let Some(x) = s.pop() { t = t * 10 + x; } t };
const LATE: u8 = { let x; let y; if true { x = 1; y = 2 } else { x = 3; y = 4 } x + y };
const DIV: i32 = { let x: i32 = if true { 7 } else { return_never() }; x };
const fn return_never() -> ! { panic!("never") }
const VOIDS: () = { let _ = 3; let _: u8 = { 4 }; };
const BIG: u128 = 0xffff_ffff_ffff_ffff_ffff_ffff_ffff_ffff >> 3;
const GEN: u64 = fold([1, 2, 3, 4], 10);
const fn fold<const N: usize>(a: [u64; N], init: u64) -> u64 { let mut i = 0; let mut r = init; while i < N { r = r * 3 + a[i]; i += 1; } r }
const SHADOW: u8 = { let x = 1; let y = match x { x if x > 5 => x, 1 => { let x = 40; x } _ => 0 }; x + y };
