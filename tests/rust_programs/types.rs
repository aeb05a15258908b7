//! Prints how Rust writes types, one a line, without the paths of their items: the texts of the rows of
//! `tests/cases/texts.json` that name this file. `tests/compare_rust.py` compares them.

use std::any::{type_name, type_name_of_val};

// The items that the world of those rows has.
struct Pair<T = (), const N: usize = 0>(T);

union Bits {
    _whole: u8,
}

enum Shape {
    _Round,
}

mod plain {
    pub trait Draw {}
}

trait Draw<T, const N: usize> {}

fn run<T, const N: usize>() {}

/// A text without the paths before its names.
fn without_paths(text: &str) -> String {
    let mut short = String::new();
    for part in text.split_inclusive("::") {
        match part.strip_suffix("::") {
            Some(path) => short.push_str(path.trim_end_matches(|c: char| c.is_alphanumeric() || c == '_')),
            None => short.push_str(part),
        }
    }
    short
}

/// Prints the text of a type.
fn show<T: ?Sized>() {
    println!("{}", without_paths(type_name::<T>()));
}

macro_rules! show_all {
    ($($ty:ty),* $(,)?) => {
        $(show::<$ty>();)*
    };
}

fn main() {
    show_all!(
        bool, char, str, i8, i16, i32, i64, i128, isize, u8, u16, u32, u64, u128, usize, f32, f64,
        (), (i32,), (i32, bool), [char; 5], [char], &str, &mut str, *const bool, *mut bool, &mut [(&str,)],
        fn() -> !, fn(i32, bool) -> i32, Pair<i32, 3>, Bits, Shape, dyn plain::Draw, dyn Draw<i32, 3> + Send,
    );
    // `!` alone is no argument yet, so it is taken from the pointer to a function that answers it
    let pointer = type_name::<fn() -> !>();
    println!("{}", pointer.trim_start_matches("fn() -> "));
    println!("{}", without_paths(type_name_of_val(&run::<i32, 3>)));
}
