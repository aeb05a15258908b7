//! Prints what Rust's own operators give at the ends of each integer type and on truth values, in the rows of
//! `tests/cases/operators`: the type, the operator, the left operand, the right one, and the result's bytes, the lowest
//! first, or `panic`, or `none` where the operator has no meaning there. A right operand of another type has that type
//! behind it, and an operator on one operand has `-` on the right.
//!
//! Rust has no operator between a signed integer and an unsigned one of the same length, but for shifts. For these the
//! rows follow "Operators" in `docs/MEANING.md`: the two whole numbers are compared, `&`, `|` and `^` go bit by bit, and
//! arithmetic has no meaning.
//!
//! `tests/compare_rust.py` builds it with overflow checks and compares what it prints with the rows.

use std::cmp::Ordering;
use std::fmt::Write as _;
use std::hint::black_box;
use std::panic::{UnwindSafe, catch_unwind, set_hook};

/// A value as its bytes.
trait Bytes {
    fn bytes(self) -> Vec<u8>;
}

macro_rules! bytes_of_integers {
    ($($ty:ident)*) => {
        $(impl Bytes for $ty {
            fn bytes(self) -> Vec<u8> {
                self.to_le_bytes().to_vec()
            }
        })*
    };
}

bytes_of_integers!(i8 i16 i32 i64 i128 isize u8 u16 u32 u64 u128 usize);

impl Bytes for bool {
    fn bytes(self) -> Vec<u8> {
        vec![self as u8]
    }
}

/// The bytes of a result in two digits each, or `panic`.
fn result<T: Bytes>(run: impl FnOnce() -> T + UnwindSafe) -> String {
    let Ok(value) = catch_unwind(run) else {
        return "panic".to_string();
    };
    let mut text = String::new();
    for byte in value.bytes() {
        write!(text, "{byte:02x}").unwrap();
    }
    text
}

/// Prints a row of two operands.
macro_rules! binary {
    ($ty:ident $name:literal $op:tt $left:expr, $right:expr) => {{
        let (left, right) = (black_box($left), black_box($right));
        println!("{}\t{}\t{left}\t{right}\t{}", stringify!($ty), $name, result(move || left $op right));
    }};
}

/// Prints a row of a shift.
macro_rules! shift {
    ($ty:ident $name:literal $op:tt $left:expr, $amount_ty:ident $amount:expr) => {{
        let (left, amount): ($ty, $amount_ty) = (black_box($left), black_box($amount));
        let answer = result(move || left $op amount);
        println!("{}\t{}\t{left}\t{amount}{}\t{answer}", stringify!($ty), $name, stringify!($amount_ty));
    }};
}

/// Prints the rows of comparisons and of the operators on bits.
macro_rules! bits {
    ($ty:ident $numbers:expr) => {
        for left in $numbers {
            for right in $numbers {
                binary!($ty "BitAnd" & left, right);
                binary!($ty "BitOr" | left, right);
                binary!($ty "BitXor" ^ left, right);
                binary!($ty "Eq" == left, right);
                binary!($ty "Ne" != left, right);
                binary!($ty "Lt" < left, right);
                binary!($ty "Le" <= left, right);
                binary!($ty "Gt" > left, right);
                binary!($ty "Ge" >= left, right);
            }
            println!("{}\tNot\t{left}\t-\t{}", stringify!($ty), result(move || !black_box(left)));
        }
    };
}

/// Prints the rows of arithmetic. Unary minus has no overflow here: where Rust's would panic, it wraps.
macro_rules! arithmetic {
    ($ty:ident $numbers:expr) => {
        for left in $numbers {
            for right in $numbers {
                binary!($ty "Add" + left, right);
                binary!($ty "Sub" - left, right);
                binary!($ty "Mul" * left, right);
                binary!($ty "Div" / left, right);
                binary!($ty "Rem" % left, right);
            }
            println!("{}\tNeg\t{left}\t-\t{}", stringify!($ty), result(move || left.wrapping_neg()));
        }
    };
}

/// Prints the rows of shifts by `i32`, at the ends of the type.
macro_rules! shifts {
    ($ty:ident $numbers:expr) => {
        for left in $numbers {
            for amount in [0, 1, $ty::BITS as i32 - 1, $ty::BITS as i32, -1] {
                shift!($ty "Shl" << left, i32 amount);
                shift!($ty "Shr" >> left, i32 amount);
            }
        }
    };
}

/// Prints the rows of shifts by another type: by the greatest amount that doesn't panic, and by the ends of that type.
macro_rules! shifts_by {
    ($ty:ident $left:expr, $($amount_ty:ident)*) => {
        $({
            let last = ($ty::BITS - 1) as $amount_ty;
            let mut amounts = vec![last, $amount_ty::MAX, $amount_ty::MIN];
            amounts.dedup();
            for amount in amounts {
                shift!($ty "Shl" << 1, $amount_ty amount);
                shift!($ty "Shr" >> $left, $amount_ty amount);
            }
        })*
    };
}

/// Prints all rows of an integer type.
macro_rules! integer {
    ($ty:ident $numbers:expr) => {
        arithmetic!($ty $numbers);
        bits!($ty $numbers);
        shifts!($ty $numbers);
        shifts_by!($ty !0, i8 i16 i64 i128 isize u8 u16 u32 u64 u128 usize);
        // amounts that would be good ones if their high bytes were lost
        shift!($ty "Shl" << 1, u64 1 << 32);
        shift!($ty "Shr" >> 1, i64 1 << 32);
        shift!($ty "Shl" << 1, u128 1 << 64);
        shift!($ty "Shr" >> 1, i128 1 << 64);
    };
}

macro_rules! signed {
    ($($ty:ident)*) => {
        $(integer!($ty [$ty::MIN, $ty::MIN + 1, -1, 0, 1, $ty::MAX]);)*
    };
}

macro_rules! unsigned {
    ($($ty:ident)*) => {
        $(integer!($ty [0, 1, 1 << ($ty::BITS - 1), $ty::MAX]);)*
    };
}

/// The order of two whole numbers. One that no `i128` is, is greater than each that is one.
fn order(left: i128, right: u128) -> Ordering {
    match i128::try_from(right) {
        Ok(right) => left.cmp(&right),
        Err(_) => Ordering::Less,
    }
}

/// Prints a row of two operands, of which the right one has another type.
fn between(ty: &str, name: &str, left: &str, right: &str, right_ty: &str, answer: &str) {
    println!("{ty}\t{name}\t{left}\t{right}{right_ty}\t{answer}");
}

/// Prints the rows of two operands of one length and two signs, whose order is given.
macro_rules! two_signs {
    ($ty:ident $left:expr, $right_ty:ident $right:expr, $order:expr) => {{
        let (left, right, order): ($ty, $right_ty, Ordering) = ($left, $right, $order);
        let row = |name, answer: String| {
            between(stringify!($ty), name, &left.to_string(), &right.to_string(), stringify!($right_ty), &answer);
        };
        for name in ["Add", "Sub", "Mul", "Div", "Rem"] {
            row(name, "none".to_string());
        }
        row("BitAnd", result(move || left & right as $ty));
        row("BitOr", result(move || left | right as $ty));
        row("BitXor", result(move || left ^ right as $ty));
        row("Eq", result(move || order.is_eq()));
        row("Ne", result(move || order.is_ne()));
        row("Lt", result(move || order.is_lt()));
        row("Le", result(move || order.is_le()));
        row("Gt", result(move || order.is_gt()));
        row("Ge", result(move || order.is_ge()));
    }};
}

/// Prints the rows of two signs at each pair of a signed type and the unsigned one of its length, the signed operand on
/// the left and on the right: numbers of the same bits, and the same number.
macro_rules! pairs {
    ($($signed:ident $unsigned:ident)*) => {
        $(for signed in [$signed::MIN, -1, $signed::MAX] {
            for unsigned in [$signed::MAX as $unsigned, $signed::MIN as $unsigned, $unsigned::MAX] {
                let order = order(signed as i128, unsigned as u128);
                two_signs!($signed signed, $unsigned unsigned, order);
                two_signs!($unsigned unsigned, $signed signed, order.reverse());
            }
        })*
    };
}

fn main() {
    set_hook(Box::new(|_| {}));
    signed!(i8 i16 i32 i64 i128 isize);
    unsigned!(u8 u16 u32 u64 u128 usize);
    bits!(bool [false, true]);
    pairs!(i8 u8 i16 u16 i32 u32 i64 u64 i128 u128 isize usize);
}
