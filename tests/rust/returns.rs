// `return` out of functions without parameters, which are goals as constants are.

// At each type.
const fn at_u8() -> u8 { if 1 < 2 { return 255; } 7 }
const fn at_u16() -> u16 { if 1 < 2 { return 65_535; } 7 }
const fn at_u32() -> u32 { if 1 < 2 { return 4_294_967_295; } 7 }
const fn at_u64() -> u64 { if 1 < 2 { return 18_446_744_073_709_551_615; } 7 }
const fn at_u128() -> u128 { if 1 < 2 { return 340_282_366_920_938_463_463_374_607_431_768_211_455; } 7 }
const fn at_usize() -> usize { if 1 < 2 { return 0x0123_4567_89ab_cdef; } 7 }
const fn at_i8() -> i8 { if 1 < 2 { return -128; } 7 }
const fn at_i16() -> i16 { if 1 < 2 { return -32_768; } 7 }
const fn at_i32() -> i32 { if 1 < 2 { return -2; } 7 }
const fn at_i64() -> i64 { if 1 < 2 { return -9_223_372_036_854_775_808; } 7 }
const fn at_i128() -> i128 { if 1 < 2 { return -1 << 100; } 7 }
const fn at_isize() -> isize { if 1 < 2 { return 0x7fff_ffff_ffff_ffff; } 7 }
const fn at_bool() -> bool { if 1 < 2 { return true; } false }
const fn at_unit() { if 1 < 2 { return; } 1 / 0; }
const fn at_u8_not() -> u8 { if 1 > 2 { return 255; } 7 }
const fn at_i128_not() -> i128 { if 1 > 2 { return 255; } -7 }
const fn at_usize_not() -> usize { if 1 > 2 { return 255; } 7 }
const fn at_bool_not() -> bool { if 1 > 2 { return true; } false }

// As the tail, and as a statement.
const fn as_tail() -> u8 { return 3 }
const fn as_statement() -> u8 { return 3; }
const fn before_tail() -> u8 { return 3; 4 }
const fn before_code() -> u8 { let a = 1; return a + 1; let b = a + 2; b }
const fn before_another() -> u8 { return 1; return 2; }
const fn tail_of_block() -> u8 { { return 3 } }
const fn tail_of_two_blocks() -> u8 { { { return 3; } } }
const fn block_as_statement() -> u8 { { return 3; } 4 }
const fn block_as_statement_without_semicolon() -> u8 { { return 3 } 4 }
const fn no_return() -> u8 { 3 }

// In a module, with a lifetime, and where a caller needs `unsafe`.
mod inner { pub const fn in_module() -> u8 { return 12; } pub mod deeper { pub const fn in_two_modules() -> u8 { if true { return 13; } 14 } } }
const fn with_a_lifetime<'a>() -> u8 { let a = 15; if a > 3 { return a; } 16 }
const unsafe fn needs_unsafe() -> u8 { return 17 }

// Without a value.
const fn unit_tail() { return }
const fn unit_statement() { return; }
const fn unit_of_block() { return {}; }
const fn unit_of_assignment() { let mut a = 1; return a = 2; }
const fn unit_of_if() { let a = 1; return if a == 2 { 1 / 0; }; }
const fn unit_in_loop() { let mut i = 0; loop { i = i + 1; if i == 5 { return; } } }
const fn unit_in_while() { let mut i = 0; while i < 10 { if i == 4 { return } i = i + 1; } 1 / 0; }
const fn unit_written() -> () { let a = 1; if a > 0 { return; } }
const fn unit_not_returned() { let a = 1; if a > 1 { return; } }
const fn unit_before_panic() { return; 1 / 0; }
const fn unit_after_panic() { let zero = 0; 1 / zero; return; }

// In operands.
const fn in_right_operand() -> u8 { let c = true; 1 + (if c { return 5 } else { 2 }) }
const fn in_right_operand_not() -> u8 { let c = false; 1 + (if c { return 5 } else { 2 }) }
const fn in_left_operand() -> u8 { let c = true; (if c { return 5 } else { 2 }) + 1 }
const fn in_left_operand_not() -> u8 { let c = false; (if c { return 5 } else { 2 }) + 1 }
const fn in_both_operands() -> u8 { let c = true; (if c { return 5 } else { 2 }) + (if c { return 6 } else { 3 }) }
const fn in_second_operand_only() -> u8 { let c = true; (if c { 2 } else { return 5 }) + (if c { return 6 } else { 3 }) }
const fn in_inner_operand() -> i32 { let c = 3; 2 * (7 - (4 + (if c > 2 { return c } else { 1 }))) }
const fn in_inner_operand_not() -> i32 { let c = 2; 2 * (7 - (4 + (if c > 2 { return c } else { 1 }))) }
const fn in_comparison() -> bool { let a = 9; a < (if a == 9 { return false } else { 10 }) }
const fn in_comparison_not() -> bool { let a = 8; a < (if a == 9 { return false } else { 10 }) }
const fn in_shift_amount() -> u32 { let a = 40; 1 << (if a > 31 { return 0 } else { a }) }
const fn in_shift_amount_not() -> u32 { let a = 30; 1 << (if a > 31 { return 0 } else { a }) }
const fn under_minus() -> i16 { let a = 5; -(if a == 5 { return 1 } else { a }) }
const fn under_minus_not() -> i16 { let a = 6; -(if a == 5 { return 1 } else { a }) }
const fn under_not() -> u64 { let a = 5; !(if a == 5 { return 1 } else { a }) }
const fn under_not_not() -> u64 { let a = 6; !(if a == 5 { return 1 } else { a }) }
const fn in_division() -> u32 { let d = 0; 100 / (if d == 0 { return 1 } else { d }) }
const fn in_division_not() -> u32 { let d = 7; 100 / (if d == 0 { return 1 } else { d }) }
const fn block_as_operand() -> u8 { let a = 250; a + { let b = 5; if a + b == 255 { return b; } b } }
const fn block_as_operand_not() -> u8 { let a = 249; a + { let b = 5; if a + b == 255 { return b; } b } }
const fn loop_as_operand() -> u8 { let mut i = 0; 100 + loop { i = i + 1; if i == 7 { return i; } if i == 9 { break i; } } }
const fn loop_as_operand_not() -> u8 { let mut i = 0; 100 + loop { i = i + 2; if i == 7 { return i; } if i == 10 { break i; } } }

// In `let`.
const fn in_let() -> u8 { let a: u8 = return 5; a }
const fn in_let_without_type() -> u8 { let a = return 5; }
const fn in_let_if() -> u16 { let n = 6; let half: u16 = if n % 2 == 0 { n / 2 } else { return 1000 }; half + 1 }
const fn in_let_if_taken() -> u16 { let n = 7; let half: u16 = if n % 2 == 0 { n / 2 } else { return 1000 }; half + 1 }
const fn in_let_block() -> i64 { let a = { let b = -4; if b < 0 { return b; } b * 2 }; a - 1 }
const fn in_let_block_not() -> i64 { let a = { let b = 4; if b < 0 { return b; } b * 2 }; a - 1 }
const fn in_let_labelled() -> u8 { let a = 'a: { let b = 3; if b == 3 { break 'a 8; } return 20; }; a + 1 }
const fn in_let_labelled_taken() -> u8 { let a = 'a: { let b = 4; if b == 3 { break 'a 8; } return 20; }; a + 1 }
const fn in_second_let() -> bool { let a = true; let b = !a; let c: bool = if b { a } else { return a }; c ^ a }
const fn of_shadowed() -> u32 { let a = 1; let a = a + 10; { let a = a * 10; if a > 100 { return a; } } a }
const fn of_outer_name() -> u32 { let a = 1; { let a = a + 9; if a < 10 { return a; } } a }

// Of other values.
const fn of_sum() -> u8 { let a = 100; return a + a + 55; }
const fn of_if() -> u8 { let a = 3; return if a == 3 { 30 } else { 40 }; }
const fn of_block() -> u8 { return { let a = 6; let b = 7; a * b }; }
const fn of_loop() -> u32 { let mut i = 1; return loop { i = i * 3; if i > 1000 { break i; } }; }
const fn of_labelled_block() -> u32 { let i = 5; return 'a: { if i == 5 { break 'a 50; } 60 }; }
const fn of_and() -> bool { let a = 5; return a > 1 && a < 5; }
const fn of_or() -> bool { let a = 5; return a > 1 || a / 0 == 1; }
const fn of_comparison() -> bool { let a = -5i8; return a < 3; }
const fn of_negative() -> i32 { let a = 5; return -a - 1; }
const fn of_complement() -> i32 { let a = 5; return !a; }
const fn of_return() -> u8 { return return 4; }
const fn of_return_in_if() -> u8 { let a = 2; return if a == 2 { return 5 } else { 6 } + 10; }
const fn of_return_in_if_not() -> u8 { let a = 3; return if a == 2 { return 5 } else { 6 } + 10; }
const fn of_block_that_returns() -> u8 { return { let a = 8; return a; }; }

// Out of branches.
const fn both_branches() -> u8 { let a = 4; if a > 3 { return 1 } else { return 2 } }
const fn both_branches_second() -> u8 { let a = 3; if a > 3 { return 1; } else { return 2; } }
const fn one_branch() -> u8 { let a = 4; if a > 3 { return 1 } else { 2 } }
const fn one_branch_not() -> u8 { let a = 3; if a > 3 { return 1 } else { 2 } }
const fn else_if() -> i8 { let a = 0; if a < 0 { return -1; } else if a > 0 { return 1; } 0 }
const fn else_if_second() -> i8 { let a = 9; if a < 0 { return -1; } else if a > 0 { return 1; } 0 }
const fn else_if_tail() -> u8 { let n = 7; if n < 3 { 0 } else if n < 9 { return n } else { 1 } }
const fn many_returns() -> u8 { let n = 40; if n < 10 { return 1; } if n < 20 { return 2; } if n < 30 { return 3; } if n < 50 { return 4; } 5 }
const fn nested_ifs() -> u8 { let a = 1; let b = 2; if a < b { if a == 1 { if b == 2 { return 12; } return 1; } return 2; } 3 }
const fn in_condition() -> u8 { if return 3 { 1 } else { 2 } }
const fn in_condition_block() -> u8 { let a = 3; if { let b = a + 1; if b == 4 { return b; } b > 5 } { 1 } else { 2 } }
const fn in_condition_block_not() -> u8 { let a = 5; if { let b = a + 1; if b == 4 { return b; } b > 5 } { 1 } else { 2 } }
const fn in_condition_operand() -> u8 { let a = 3; if a + (if a == 3 { return 30 } else { 1 }) > 3 { 1 } else { 2 } }

// In `&&` and `||`.
const fn right_of_and() -> u8 { let a = true; let b = a && return 5; if b { 1 } else { 2 } }
const fn right_of_and_not() -> u8 { let a = false; let b = a && return 5; if b { 1 } else { 2 } }
const fn right_of_or() -> u8 { let a = false; let b = a || return 5; if b { 1 } else { 2 } }
const fn right_of_or_not() -> u8 { let a = true; let b = a || return 5; if b { 1 } else { 2 } }
const fn left_of_and() -> u8 { let a = (return 5) && true; if a { 1 } else { 2 } }
const fn left_of_or() -> u8 { let a = (return 5) || 1 / 0 == 1; if a { 1 } else { 2 } }
const fn right_of_and_in_condition() -> u8 { let a = 9; if a > 3 && { if a == 9 { return 90; } true } { 1 } else { 2 } }
const fn right_of_and_in_condition_not() -> u8 { let a = 2; if a > 3 && { if a == 2 { return 90; } true } { 1 } else { 2 } }
const fn right_of_and_as_statement() -> bool { let a = 1; a == 1 && return true; false }
const fn right_of_or_as_statement() -> bool { let a = 1; a == 2 || return true; false }
const fn right_of_or_as_statement_not() -> bool { let a = 2; a == 2 || return true; false }
const fn chain() -> i32 { let a = 1; let b = a == 1 && a != 2 && (a > 5 || return -7) && a == 3; if b { 1 } else { 2 } }
const fn chain_not() -> i32 { let a = 6; let b = a == 1 && a != 2 && (a > 5 || return -7) && a == 3; if b { 1 } else { 2 } }
const fn chain_last() -> bool { let a = true; let b = false; a && (b || a) && return b }

// In assignments.
const fn assigned() -> u8 { let mut a = 1; a = return 6; a }
const fn assigned_if() -> u8 { let mut a = 1; a = if a == 1 { return 7 } else { 2 }; a }
const fn assigned_if_not() -> u8 { let mut a = 2; a = if a == 1 { return 7 } else { a + 2 }; a }
const fn assigned_before() -> u8 { let mut a = 1; a = a + { a = 5; if a == 5 { return a; } 3 }; a }
const fn keeps_what_was_assigned() -> u64 { let mut a = 1; a = 2; { a = a * 7; if a == 14 { return a; } a = 0; } a }

// Out of loops.
const fn out_of_loop() -> u8 { loop { return 8; } }
const fn out_of_loop_tail() -> u8 { loop { return 8 } }
const fn out_of_later_turn() -> u32 { let mut i = 0; loop { i = i + 1; if i * i > 500 { return i; } } }
const fn out_of_while() -> u8 { let mut i = 0; while i < 10 { i = i + 1; if i == 6 { return i * 10; } } 1 }
const fn out_of_while_not() -> u8 { let mut i = 0; while i < 5 { i = i + 1; if i == 6 { return i * 10; } } 1 }
const fn out_of_first_turn() -> u8 { while true { return 3; } 4 }
const fn in_while_condition() -> u8 { let mut i = 0; while { if i == 3 { return 33; } i < 10 } { i = i + 1; } i }
const fn as_while_condition() -> u8 { while return 4 {} 5 }
const fn out_of_two_loops() -> u32 { let mut n = 0; loop { loop { n = n + 1; if n == 5 { return n; } } } }
const fn out_of_two_whiles() -> u32 { let mut i = 1; while i < 20 { let mut j = 1; while j < 20 { if i * j == 91 { return i * 100 + j; } j = j + 1; } i = i + 1; } 0 }
const fn out_of_three_loops() -> u16 { let mut a = 0; loop { let mut b = 0; loop { let mut c = 0; loop { if a * 100 + b * 10 + c == 123 { return a + b + c; } c = c + 1; if c == 10 { break; } } b = b + 1; if b == 10 { break; } } a = a + 1; } }
const fn out_of_labelled_loops() -> u32 { let mut n = 0; 'a: loop { 'b: loop { n = n + 1; if n % 5 == 0 { continue 'a; } if n % 7 == 0 { continue 'b; } if n == 13 { return n * 3; } if n > 20 { break 'a; } } } n }
const fn left_by_break() -> u8 { let mut i = 0; let found = loop { if i > 3 { break 100; } if i * i == 10 { return i; } i = i + 1; }; found + 1 }
const fn left_by_return() -> u8 { let mut i = 0; let found = loop { if i > 3 { break 100; } if i * i == 9 { return i; } i = i + 1; }; found + 1 }
const fn out_of_labelled_block() -> u8 { 'a: { let a = 1; if a == 1 { return 11; } if a == 2 { break 'a; } } 4 }
const fn out_of_labelled_block_not() -> u8 { 'a: { let a = 2; if a == 1 { return 11; } if a == 2 { break 'a; } return 12; } 4 }
const fn out_of_block_in_loop() -> u8 { let mut i = 0; loop { i = i + 1; 'a: { if i % 3 != 0 { break 'a; } if i > 10 { return i; } } } }
const fn as_value_of_break() -> u8 { loop { break return 9; } }
const fn in_value_of_break() -> u8 { let mut i = 0; loop { i = i + 1; if i > 3 { break i + if i == 4 { return 44 } else { 1 }; } } }
const fn in_value_of_break_not() -> u8 { let mut i = 0; loop { i = i + 2; if i > 4 { break i + if i == 4 { return 44 } else { 1 }; } } }
const fn in_value_of_outer_break() -> u8 { let mut i = 0; 'a: loop { loop { i = i + 1; if i == 3 { break 'a if i == 3 { return 31 } else { 32 }; } } } }
const fn break_as_value() -> u8 { let a = 'a: { return break 'a 6; }; a + 1 }
const fn continue_as_value() -> u8 { let mut i = 0; loop { i = i + 1; return if i < 3 { continue } else { i }; } }
const fn before_jump() -> u8 { loop { return 1; break 2; } }

// Locals that are left, in blocks inside one another.
const fn leaves_locals() -> u8 { let a = 1; { let b = 2; { let c = 3; { let d = 4; if d == 4 { return 10; } } } } 5 }
const fn leaves_locals_read() -> u8 { let a = 1; { let b = 2; { let c = 3; { let d = 4; return a + b + c + d; } } } }
const fn leaves_locals_of_many_types() -> i8 { let a = 1u64; let b = true; { let c = -3i128; { let d = 'd: { if b { break 'd 4u16; } 5 }; if d == 4 { return -1; } } } 5 }
const fn leaves_after_a_block() -> u16 { let a = 1; { let b = 2; { let c = 3; c + b; } let d = 4; if d == 4 { return 40; } } a }
const fn leaves_in_turns() -> u32 { let mut i = 0; loop { let a = i * 2; { let b = a + 1; if b > 9 { return b; } } i = i + 1; } }
const fn leaves_condition() -> bool { let a = 1; if { let b = a + 1; b == 2 } { let c = false; return c; } true }
const fn not_left() -> u8 { let a = 1; { let b = 2; { let c = 3; if c == 4 { return c; } } if b == 3 { return b; } } a }

// Panics, before a `return` and behind it.
const fn panics_before() -> u8 { let a = 255; let b = a + 1; return b; }
const fn panics_before_bare() -> u8 { let zero = 0; 1 / zero; return 1; }
const fn panics_in_value() -> u8 { let a = 200; return a + 100; }
const fn panics_in_left_operand() -> i32 { let zero = 0; 1 / zero + (if zero == 0 { return 2 } else { 3 }) }
const fn panics_in_condition() -> u32 { let a = 1u8; if a - 2 == 0 { return 1; } 2 }
const fn panics_in_loop() -> i8 { let mut i = 100i8; loop { i = i + 10; if i == 5 { return i; } } }
const fn panics_in_branch_not_returned() -> u16 { let a = 3; if a == 4 { return 1; } a << 16 }
const fn panics_behind_and() -> bool { let zero = 0u8; let a = zero == 0 && zero - 1 == 0 && return true; a }
const fn panics_in_block() -> u64 { let a = { let b = 7; b % (b - 7) }; return a; }
const fn panics_in_return_of_return() -> i16 { return return 32_767 + 1; }
const fn panic_not_reached() -> u8 { let a = 255; if a == 255 { return 1; } a + 1 }
const fn panic_behind_return() -> u8 { let a = 255; return a; a + 1 }
const fn panic_in_right_operand_not_reached() -> i32 { let zero = 0; (if zero == 0 { return 2 } else { 3 }) + 1 / zero }
const fn panic_in_let_not_reached() -> u8 { let a = 255; let b: u8 = return a; let c = a + b; c }
const fn panic_behind_loop_not_reached() -> i32 { let zero = 0; loop { if zero == 0 { return 7; } } 1 / zero }
const fn panic_behind_labelled_block_not_reached() -> u8 { let a = 0u8; 'a: { if a == 0 { return 1; } break 'a; } a - 1 }
const fn panic_in_else_not_reached() -> u8 { let a = 3u8; if a == 3 { return a } else { a / 0 } }

// Searches.
const fn root() -> u32 { let n = 1_000_000; let mut x = 0; loop { if (x + 1) * (x + 1) > n { return x; } x = x + 1; } }
const fn is_prime() -> bool { let n = 10_007u32; let mut d = 2; while d * d <= n { if n % d == 0 { return false; } d = d + 1; } true }
const fn is_no_prime() -> bool { let n = 10_003u32; let mut d = 2; while d * d <= n { if n % d == 0 { return false; } d = d + 1; } true }
const fn smallest_factor() -> u64 { let n = 1_022_117u64; let mut d = 2; while d < n { if n % d == 0 { return d; } d = d + 1; } n }
const fn gcd() -> u8 { let mut a = 48; let mut b = 18; loop { if b == 0 { return a; } let t = a % b; a = b; b = t; } }
const fn collatz() -> u16 { let mut n = 27u32; let mut steps = 0; loop { if n == 1 { return steps; } n = if n & 1 == 0 { n >> 1 } else { 3 * n + 1 }; steps = steps + 1; } }
const fn first_set_bit() -> u32 { let bits = 0x00a0_0000u32; if bits == 0 { return 32; } let mut i = 0; loop { if bits >> i & 1 == 1 { return i; } i = i + 1; } }
const fn first_set_bit_of_none() -> u32 { let bits = 0u32; if bits == 0 { return 32; } let mut i = 0; loop { if bits >> i & 1 == 1 { return i; } i = i + 1; } }
const fn pythagoras() -> u32 { let mut a = 1; while a < 333 { let mut b = a + 1; while b < 500 { let c = 1000 - a - b; if a * a + b * b == c * c { return a * b * c; } b = b + 1; } a = a + 1; } 0 }
const fn is_leap() -> bool { let year = 1900; if year % 4 != 0 { return false; } if year % 100 != 0 { return true; } year % 400 == 0 }
const fn sign() -> i8 { let n = -40i64; if n < 0 { return -1; } if n == 0 { return 0; } 1 }
const fn checked_sum() -> i32 { let a = 2_000_000_000; let b = 2_000_000_000; if a > 0x7fff_ffff - b { return -1; } a + b }
const fn bisection() -> u32 { let n = 4_000_000; let mut low = 0; let mut high = 65_536; loop { let middle = low + (high - low) / 2; if middle == low { return low; } if middle <= n / middle { low = middle; } else { high = middle; } } }
