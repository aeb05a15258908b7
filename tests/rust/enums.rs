// Enums: variants, discriminants, casts, layouts with tags and with niches, `Option` and `Result`.

#[derive(Clone, Copy)]
enum Colour { Red, Green, Blue }
#[derive(Clone, Copy)]
enum Numbered { Two = 2, Three, Ten = 10, Minus = -5, Next }
#[repr(u8)]
#[derive(Clone, Copy)]
enum Small { Low = 1, High = 255 }
#[repr(i64)]
#[derive(Clone, Copy)]
enum Large { Least = -9_223_372_036_854_775_808, Greatest = 9_223_372_036_854_775_807 }
#[derive(Clone, Copy)]
enum Single { Only }
enum Never {}
#[derive(Clone, Copy)]
enum Shape { Dot, Circle(u32), Rectangle { width: u16, height: u16 } }
enum Tree { Leaf(i32), Node(i32, i32) }
enum Deep { A(Option<bool>), B }
enum Generic<T> { Nothing, One(T), Two(T, T) }
#[repr(u8)]
enum Tagged { A(u8), B(u16), C { x: u32 } = 7 }

const RED: Colour = Colour::Red;
const BLUE: Colour = Colour::Blue;
const TEN: Numbered = Numbered::Ten;
const NEXT: Numbered = Numbered::Next;
const LEAST: Large = Large::Least;
const ONLY: Single = Single::Only;
const RED_NUMBER: i32 = Colour::Red as i32;
const BLUE_NUMBER: u8 = BLUE as u8;
const THREE_NUMBER: i32 = { let n = Numbered::Three; n as i32 };
const MINUS_NUMBER: i64 = { let n = Numbered::Minus; n as i64 };
const NEXT_NUMBER: u8 = { let n = Numbered::Next; n as u8 };
const TWO_BY_PATH: u16 = Numbered::Two as u16;
const THREE_BY_PATH: u16 = Numbered::Three as u16;
const HIGH_NUMBER: i8 = { let s = Small::High; s as i8 };
const HIGH_WIDE: u32 = { let s = Small::High; s as u32 };
const LEAST_NUMBER: i128 = { let l = Large::Least; l as i128 };
const GREATEST_NUMBER: i64 = { let l = Large::Greatest; l as i64 };
const ONLY_NUMBER: u8 = { let s = Single::Only; s as u8 };
const SUM_OF_NUMBERS: u8 = Colour::Green as u8 + BLUE as u8 * 10;
const MATCHED: u8 = name(Colour::Green);
const MATCHED_ALL: u32 = name(RED) as u32 * 10000 + name(Colour::Green) as u32 * 100 + name(BLUE) as u32;
const DOT: u32 = area(Shape::Dot);
const CIRCLE: u32 = area(Shape::Circle(10));
const RECTANGLE: u32 = area(Shape::Rectangle { width: 30, height: 40 });
const RECTANGLE_ORDER: u32 = area(Shape::Rectangle { height: 2, width: 65535 });
const TREE: i32 = tree(Tree::Leaf(5)) + tree(Tree::Node(-6, 7));
const DEEP_A: u8 = deep(Deep::A(Some(true)));
const DEEP_NONE: u8 = deep(Deep::A(None));
const DEEP_B: u8 = deep(Deep::B);
const GENERIC_ONE: i64 = generic(Generic::One(5));
const GENERIC_TWO: i64 = generic(Generic::Two(5, -6));
const GENERIC_NOTHING: i64 = generic(Generic::Nothing);
const TAGGED_A: u32 = tagged(Tagged::A(4));
const TAGGED_B: u32 = tagged(Tagged::B(500));
const TAGGED_C: u32 = tagged(Tagged::C { x: 70000 });
const SOME_BYTE: Option<u8> = Some(4);
const SOME_BOOL: Option<bool> = Some(true);
const NO_BOOL: Option<bool> = None;
const NO_BOOL_INSIDE: Option<Option<bool>> = Some(None);
const NO_COLOUR: Option<Colour> = None;
const SOME_COLOUR: Option<Colour> = Some(Colour::Green);
const OPTION_VALUE: u8 = or(SOME_BYTE, 9);
const OPTION_NONE: u8 = or(None, 9);
const OPTION_NICHE: u8 = match SOME_COLOUR { Some(Colour::Red) => 1, Some(Colour::Green) => 2, Some(Colour::Blue) => 3, None => 4 };
const OPTION_NICHE_NONE: u8 = match NO_COLOUR { Some(_) => 1, None => 4 };
const OPTION_CHAR: u32 = match Some('x') { Some(c) => c as u32, None => 0 };
const OPTION_WIDE: u128 = match Some(1u128 << 100) { Some(n) => n >> 90, None => 0 };
const OPTION_TWICE: u8 = match NO_BOOL_INSIDE { Some(Some(true)) => 1, Some(Some(false)) => 2, Some(None) => 3, None => 4 };
const CHECKED_SUM: u8 = or(checked_add(200, 55), 1);
const CHECKED_SUM_NONE: u8 = or(checked_add(200, 56), 1);
const RESULT_OK: i32 = result(divide(7, 2));
const RESULT_ERR: i32 = result(divide(7, 0));
const RESULT_OVERFLOW: i32 = result(divide(-2147483648, -1));
const ORDERING: i8 = { let o = compare(3, 4); o as i8 };
const ORDERING_MATCH: u8 = match compare(4, 3) { core::cmp::Ordering::Less => 1, core::cmp::Ordering::Equal => 2, core::cmp::Ordering::Greater => 3 };
const ASSIGNED: u32 = { let mut s = Shape::Dot; if 3 > 2 { s = Shape::Circle(1); } area(s) };
const STATE: u8 = { let mut light = Colour::Red; let mut n = 0; while n < 7 { light = after(light); n += 1; } light as u8 };
const IS_SOME: bool = match SOME_BYTE { Some(_) => true, None => false };
const IF_LET: u8 = if let Some(n) = SOME_BYTE { n + 1 } else { 0 };
const IF_LET_ELSE: u8 = if let Some(n) = or_none(9) { n } else { 77 };
const LET_ELSE: u8 = let_else(SOME_BYTE) + let_else(None);
const WHILE_LET: u32 = { let mut n = Some(5u32); let mut s = 0; while let Some(k) = n { s += k; n = if k == 0 { None } else { Some(k - 1) }; } s };

const fn name(c: Colour) -> u8 { match c { Colour::Red => b'r', Colour::Green => b'g', Colour::Blue => b'b' } }
const fn after(c: Colour) -> Colour { match c { Colour::Red => Colour::Green, Colour::Green => Colour::Blue, Colour::Blue => Colour::Red } }
const fn area(s: Shape) -> u32 { match s { Shape::Dot => 0, Shape::Circle(r) => 3 * r * r, Shape::Rectangle { width, height } => width as u32 * height as u32 } }
const fn tree(t: Tree) -> i32 { match t { Tree::Leaf(n) => n, Tree::Node(a, b) => a * b } }
const fn deep(d: Deep) -> u8 { match d { Deep::A(Some(true)) => 1, Deep::A(Some(false)) => 2, Deep::A(None) => 3, Deep::B => 4 } }
const fn generic(g: Generic<i64>) -> i64 { match g { Generic::Nothing => 0, Generic::One(a) => a, Generic::Two(a, b) => a * b } }
const fn tagged(t: Tagged) -> u32 { match t { Tagged::A(n) => n as u32, Tagged::B(n) => n as u32, Tagged::C { x } => x } }
const fn or(o: Option<u8>, other: u8) -> u8 { match o { Some(n) => n, None => other } }
const fn or_none(n: u8) -> Option<u8> { if n < 5 { Some(n) } else { None } }
const fn checked_add(a: u8, b: u8) -> Option<u8> { if a > 255 - b { None } else { Some(a + b) } }
const fn divide(a: i32, b: i32) -> Result<i32, bool> { if b == 0 { return Err(false); } if b == -1 && a == -2147483648 { return Err(true); } Ok(a / b) }
const fn result(r: Result<i32, bool>) -> i32 { match r { Ok(n) => n, Err(false) => -1, Err(true) => -2 } }
const fn compare(a: u32, b: u32) -> core::cmp::Ordering { if a < b { core::cmp::Ordering::Less } else if a == b { core::cmp::Ordering::Equal } else { core::cmp::Ordering::Greater } }
const fn let_else(o: Option<u8>) -> u8 { let Some(n) = o else { return 100 }; n }
const fn absurd(n: Never) -> u8 { match n {} }
