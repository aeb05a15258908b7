// References: borrowing, following, writing through, passing, and references in constants.

const FOLLOWED: u8 = { let x = 5; let r = &x; *r };
const TWICE: u8 = { let x = 5; let r = &&x; **r };
const ARITHMETIC: u8 = { let x = 5; let r = &x; *r + *r * 2 };
const WRITTEN: u8 = { let mut x = 5; let r = &mut x; *r = 8; x };
const ADDED: u8 = { let mut x = 5; let r = &mut x; *r += 8; *r *= 2; x };
const OF_FIELD: u8 = { let mut t = (1, 2); let r = &mut t.1; *r = 30; t.0 + t.1 };
const OF_ELEMENT: u8 = { let mut a = [1, 2, 3]; let r = &mut a[1]; *r = 30; a[0] + a[1] + a[2] };
const THROUGH_STRUCT: u8 = { let mut c = Cell { value: 3 }; let r = &mut c; r.value += 4; r.value };
const REBORROWED: u8 = { let mut x = 1; let r = &mut x; { let s = &mut *r; *s = 5; } *r += 1; x };
const PASSED: u8 = read(&7);
const PASSED_MUT: u8 = { let mut x = 1; bump(&mut x); bump(&mut x); x };
const RETURNED: u8 = *larger(&3, &9);
const SWAPPED: u16 = { let mut a = 1; let mut b = 2; swap(&mut a, &mut b); a * 10 + b };
const TEMPORARY: u8 = *&(3 + 4);
const CHAINED: u8 = { let c = Holder { inner: &Cell { value: 9 } }; c.inner.value };
const METHOD: u8 = { let c = Cell { value: 9 }; let r = &c; let s = &r; s.get() };
const COMPARED: bool = { let a = 3; let b = 3; *(&a) == *(&b) };
const SLICE: u8 = { let a = [1, 2, 3]; let s: &[u8] = &a; s[0] + s[2] };
const MUT_SLICE: u8 = { let mut a = [1, 2, 3]; fill(&mut a, 6); a[0] + a[2] };
const POINTED: u8 = { let x = 5u8; let p = &raw const x; unsafe { *p } };
const POINTED_MUT: u8 = { let mut x = 5u8; let p = &raw mut x; unsafe { *p += 3; } x };
const CAST_POINTER: u8 = { let x = 0x0102_0304u32; let p = &x as *const u32 as *const u8; unsafe { *p } };
const LIST: u32 = sum(&Node { value: 1, next: Some(&Node { value: 20, next: Some(&Node { value: 300, next: None }) }) });
const TEXT_LENGTH: usize = "hello".len();
const TEXT_BYTE: u8 = "hello".as_bytes()[4];

struct Cell { value: u8 }
impl Cell { const fn get(&self) -> u8 { self.value } }
struct Holder<'a> { inner: &'a Cell }
struct Node<'a> { value: u32, next: Option<&'a Node<'a>> }
const fn read(x: &u8) -> u8 { *x + 1 }
const fn bump(x: &mut u8) { *x += 1; }
const fn larger<'a>(a: &'a u8, b: &'a u8) -> &'a u8 { if *a > *b { a } else { b } }
const fn swap(a: &mut u16, b: &mut u16) { let t = *a; *a = *b; *b = t; }
const fn fill(s: &mut [u8], x: u8) { let mut i = 0; while i < s.len() { s[i] = x; i += 1; } }
const fn sum(n: &Node) -> u32 { match n.next { Some(next) => n.value + sum(next), None => n.value } }
