// Constants of traits: with an own value for a type, with the value of the trait, and those that name others.

trait Limits {
    const LOW: i64;
    const HIGH: i64;
    const WIDTH: u32 = 8;
    const SPAN: i64 = Self::HIGH - Self::LOW + 1;
    const MIDDLE: i64 = Self::LOW + Self::SPAN / 2;
}
trait Neutral { const ZERO: Self; const ONE: Self; }
struct Percent(u8);
struct Celsius;

impl Limits for u8 { const LOW: i64 = 0; const HIGH: i64 = 255; }
impl Limits for i16 { const LOW: i64 = -32768; const HIGH: i64 = 32767; const WIDTH: u32 = 16; }
impl Limits for Percent { const LOW: i64 = 0; const HIGH: i64 = 100; const WIDTH: u32 = 7; }
impl Limits for Celsius { const LOW: i64 = -273; const HIGH: i64 = 1 << 40; const MIDDLE: i64 = 20; }
impl Neutral for u16 { const ZERO: u16 = 0; const ONE: u16 = 1; }
impl Neutral for bool { const ZERO: bool = false; const ONE: bool = true; }
impl Neutral for Percent { const ZERO: Percent = Percent(0); const ONE: Percent = Percent(100); }

const LOW_U8: i64 = <u8 as Limits>::LOW;
const LOW_I16: i64 = <i16 as Limits>::LOW;
const LOW_CELSIUS: i64 = Celsius::LOW;
const HIGH_PERCENT: i64 = Percent::HIGH * 2;
const WIDTH_U8: u32 = <u8 as Limits>::WIDTH;
const WIDTH_I16: u32 = <i16 as Limits>::WIDTH;
const WIDTHS: u32 = Percent::WIDTH * 100 + Celsius::WIDTH;
const SPAN_U8: i64 = <u8 as Limits>::SPAN;
const SPAN_I16: i64 = <i16 as Limits>::SPAN;
const MIDDLE_PERCENT: i64 = Percent::MIDDLE;
const MIDDLE_I16: i64 = <i16 as Limits>::MIDDLE;
const MIDDLE_CELSIUS: i64 = Celsius::MIDDLE;
const ZERO_U16: u16 = u16::ZERO + 3;
const ONE_BOOL: bool = bool::ONE & !bool::ZERO;
const ONE_PERCENT: u8 = Percent::ONE.0 - Percent::ZERO.0;
const GENERIC_U8: i64 = clamped::<u8>(300);
const GENERIC_PERCENT: i64 = clamped::<Percent>(300) + clamped::<Percent>(-5);
const GENERIC_MIDDLE: i64 = middle::<i16>() * 1000 + middle::<Celsius>();

const fn clamped<T: Limits>(x: i64) -> i64 { if x < T::LOW { T::LOW } else if x > T::HIGH { T::HIGH } else { x } }
const fn middle<T: Limits>() -> i64 { T::MIDDLE }
