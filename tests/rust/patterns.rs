// `match` and patterns: literals, ranges, alternatives, bindings, guards, tuples, references, slices, constants.

const LITERAL: u8 = match 3 { 1 => 10, 2 => 20, 3 => 30, _ => 40 };
const LITERAL_DEFAULT: u8 = match 9 { 1 => 10, 2 => 20, 3 => 30, _ => 40 };
const NEGATIVE: i8 = match -3i8 { 3 => 1, -3 => 2, _ => 3 };
const LEAST: u8 = match -128i8 { -128 => 1, _ => 2 };
const LARGE: u8 = match 0xffff_ffff_ffff_ffff_ffffu128 { 0xffff_ffff_ffff_ffff_ffff => 1, _ => 2 };
const BOOL: u8 = match 3 > 2 { true => 1, false => 0 };
const CHAR: u8 = match 'k' { 'a' => 1, 'k' => 2, _ => 3 };
const UNIT: u8 = match () { () => 6 };
const WILD: u8 = match 5 { _ => 1 };
const NAME: u8 = match 5 { n => n * 2 };
const RANGE: u8 = match 50u8 { 0..=9 => 1, 10..=99 => 2, 100..=255 => 3 };
const RANGE_END: u8 = match 99u8 { 0..=9 => 1, 10..=99 => 2, 100..=255 => 3 };
const RANGE_EXCLUSIVE: u8 = match 10u8 { 0..10 => 1, 10..100 => 2, _ => 3 };
const RANGE_FROM: u8 = match 200u8 { 0..=99 => 1, 100.. => 2 };
const RANGE_TO: u8 = match -50i8 { ..0 => 1, 0 => 2, _ => 3 };
const RANGE_NEGATIVE: u8 = match -50i8 { -128..=-51 => 1, -50..=-1 => 2, _ => 3 };
const RANGE_CHAR: u8 = match 'q' { 'a'..='m' => 1, 'n'..='z' => 2, _ => 3 };
const OR: u8 = match 4 { 1 | 3 | 5 => 1, 2 | 4 | 6 => 2, _ => 3 };
const OR_RANGE: u8 = match 77 { 0..=9 | 70..=79 => 1, _ => 2 };
const OR_BINDING: u8 = match (3, 0) { (n, 0) | (0, n) => n, _ => 99 };
const OR_NESTED: u8 = match (2, 7) { (1 | 2, n @ (7 | 8)) => n, _ => 0 };
const AT: u8 = match 42u8 { n @ 0..=9 => n, n @ 40..=49 => n - 40, n => n };
const AT_NESTED: u8 = match (1, 2) { (a @ 1, b @ (1 | 2)) => a * 10 + b, _ => 0 };
const GUARD: u8 = match 7 { n if n % 2 == 0 => 0, n if n % 3 == 0 => 3, n if n % 7 == 0 => 7, _ => 1 };
const GUARD_FALLS: u8 = match 5 { 5 if false => 1, 5 => 2, _ => 3 };
const GUARD_ORDER: u8 = { let mut n = 0; match 5 { _ if { n += 1; false } => 0, _ if { n += 10; n == 11 } => n, _ => 99 } };
const GUARD_WITH_OR: u8 = match 3 { 1 | 3 if 2 > 1 => 4, _ => 5 };
const TUPLE: u8 = match (1, 2) { (0, _) => 1, (1, 0) => 2, (1, n) => n * 10, _ => 4 };
const TUPLE_BOOLS: u8 = match (true, false) { (true, true) => 1, (true, false) => 2, (false, true) => 3, (false, false) => 4 };
const TUPLE_REST: u8 = match (1, 2, 3, 4) { (1, .., 4) => 1, _ => 2 };
const NESTED_TUPLE: u8 = match ((1, 2), 3) { ((a, 2), b) => a + b, _ => 0 };
const MATCH_IN_MATCH: u8 = match match 3 { 3 => 4, _ => 5 } { 4 => 1, _ => 2 };
const MATCH_OPERAND: u8 = match 2 { 2 => 3, _ => 4 } * match 1 { 1 => 5, _ => 6 };
const ARM_BLOCK: u8 = match 2 { 2 => { let a = 3; a * a } _ => 0 };
const ARM_PANICS: u8 = match 2 { 2 => 255 + 1, _ => 0 };
const ARM_NOT_TAKEN: u8 = match 3 { 2 => 1 / (1 - 1), _ => 8 };
const ARM_BREAKS: u8 = loop { match 3 { 3 => break 5, _ => {} } };
const ARM_CONTINUES: u32 = { let mut i = 0; let mut s = 0; while i < 10 { i += 1; match i % 3 { 0 => continue, 1 => s += 1, _ => s += 100 } } s };
const ZERO: u8 = 0;
const LIMIT: u8 = 100;
const CONST_PATTERN: u8 = match 100 { ZERO => 1, LIMIT => 2, _ => 3 };
const CONST_RANGE: u8 = match 50 { ZERO..=LIMIT => 1, _ => 2 };
const CONST_TUPLE: u8 = match (0, 100) { (ZERO, LIMIT) => 1, _ => 2 };
const ARRAY: u8 = match [1, 2, 3] { [1, b, c] => b * 10 + c, _ => 0 };
const ARRAY_REST: u8 = match [1, 2, 3, 4] { [a, .., d] => a * 10 + d };
const ARRAY_SUBSLICE: u8 = match [1, 2, 3, 4] { [_, rest @ ..] => rest[0] + rest[2] };
const ARRAY_LET: u8 = { let [a, b, ..] = [1, 2, 3, 4]; a * 10 + b };
const SLICE: u8 = slice(&[1, 2, 3]);
const SLICE_EMPTY: u8 = slice(&[]);
const SLICE_ONE: u8 = slice(&[9]);
const SLICE_LONG: u8 = slice(&[5, 0, 0, 0, 6]);
const SLICE_SUM: u32 = sum(&[1, 2, 3, 4, 5, 6]);
const REFERENCE: u8 = { let x = 5; match &x { &5 => 1, _ => 2 } };
const REFERENCE_BINDING: u8 = { let x = 5u8; let &y = &x; y + 1 };
const DEFAULT_BINDING: u8 = { let t = (1u8, 2u8); match &t { (a, b) => *a * 10 + *b } };
const DEFAULT_BINDING_MUT: u8 = { let mut t = (1u8, 2u8); match &mut t { (a, b) => { *a += 4; *b = 7; } } t.0 * 10 + t.1 };
const REF_BINDING: u8 = { let t = (1u8, 2u8); let (ref a, b) = t; *a * 10 + b };
const REF_MUT_BINDING: u8 = { let mut t = (1u8, 2u8); { let (ref mut a, _) = t; *a = 9; } t.0 };
const IF_LET: u8 = if let (1, n) = (1, 5) { n } else { 0 };
const IF_LET_CHAIN: u8 = if let (1, n) = (1, 5) && n > 3 && let 5..=9 = n { n } else { 0 };
const IF_LET_CHAIN_ELSE: u8 = if let (1, n) = (1, 2) && n > 3 { n } else { 77 };
const LET_ELSE: u8 = let_else((0, 4)) + let_else((1, 4));
const WHILE_LET: u32 = { let mut n = (1, 0); while let (1, k) = n { n = if k < 10 { (1, k + 3) } else { (0, k) }; } n.1 };
const MATCHES: bool = matches!(15, 10..=20) && !matches!((1, 2), (2, _));
const STRUCT: i32 = match (Point { x: 0, y: 7 }) { Point { x: 0, y } => y, Point { x, .. } => x };
const STRUCT_NESTED: i32 = match (Point { x: 3, y: 7 }, true) { (Point { y: 1..=9, .. }, true) => 1, _ => 0 };
const STRUCT_CONST: u8 = match ORIGIN { Point { x: 0, y: 0 } => 1, _ => 2 };
const FIZZ: [u8; 15] = { let mut a = [0; 15]; let mut i = 0; while i < 15 { let n = i as u8 + 1; a[i] = match (n % 3, n % 5) { (0, 0) => 255, (0, _) => 254, (_, 0) => 253, _ => n }; i += 1; } a };
const DAYS: u32 = { let mut m = 1; let mut d = 0; while m <= 12 { d += match m { 2 => 29, 4 | 6 | 9 | 11 => 30, 1 | 3 | 5 | 7..=8 | 10 | 12 => 31, _ => 0 }; m += 1; } d };

const ORIGIN: Point = Point { x: 0, y: 0 };
struct Point { x: i32, y: i32 }
const fn slice(s: &[u8]) -> u8 { match s { [] => 0, [a] => *a, [a, b] => *a + *b, [a, .., z] => *a * 10 + *z } }
const fn sum(s: &[u32]) -> u32 { match s { [] => 0, [first, rest @ ..] => *first + sum(rest) } }
const fn let_else(p: (u8, u8)) -> u8 { let (1, n) = p else { return 50 }; n }
