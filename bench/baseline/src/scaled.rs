//! Arithmetic, glue and badness.

pub const MAX_DIMEN: i64 = 1_073_741_823;
pub const AWFUL_BAD: i64 = 1_073_741_823;
pub const INF_BAD: i64 = 10_000;
pub const DEPLORABLE: i64 = 100_000;
pub const FORCED: i64 = -10_000;

#[derive(Clone, Copy, PartialEq, Eq, Debug)]
#[repr(u8)]
pub enum Order {
    Normal = 0,
    Fil = 1,
    Fill = 2,
    Filll = 3,
}

pub const ORDERS: [Order; 4] = [Order::Normal, Order::Fil, Order::Fill, Order::Filll];

/// Every amount of a galley fits 32 bits; sums are kept in 64.
#[derive(Clone, Copy, PartialEq, Eq, Debug)]
pub struct Glue {
    pub width: i32,
    pub stretch: i32,
    pub shrink: i32,
    pub order: Order,
}

impl Glue {
    pub const fn new(width: i32, stretch: i32, order: Order, shrink: i32) -> Glue {
        Glue { width, stretch, shrink, order }
    }
    pub const fn fixed(width: i32) -> Glue {
        Glue::new(width, 0, Order::Normal, 0)
    }
    pub const fn negate(self) -> Glue {
        Glue::new(-self.width, -self.stretch, self.order, -self.shrink)
    }
}

/// Glue that fills, as `\vfil`.
pub const VFIL: Glue = Glue::new(0, 65536, Order::Fil, 0);

/// Badness.
#[inline]
pub fn badness(t: i64, s: i64) -> i64 {
    if t == 0 {
        return 0;
    }
    if s <= 0 {
        return INF_BAD;
    }
    let r = if t <= 7_230_584 {
        // r > 1290 is decided without the division.
        if t * 297 >= 1291 * s {
            return INF_BAD;
        }
        t * 297 / s
    } else if s >= 1_663_497 {
        t / (s / 297)
    } else {
        t
    };
    if r > 1290 {
        INF_BAD
    } else {
        (r * r * r + 131_072) / 262_144
    }
}

/// A decimal fraction: the digits after the point, as bytes `0` to `9`; the first 17 count.
pub fn round_decimals(digits: &[u8]) -> i64 {
    let n = digits.len().min(17);
    let a = digits[..n]
        .iter()
        .rev()
        .fold(0i64, |a, d| (a + i64::from(d - b'0') * 131_072) / 10);
    (a + 1) / 2
}

/// Scaled division.
#[inline]
pub fn x_over_n(x: i64, n: i64) -> i64 {
    x / n
}

/// The fraction `f` (in 65536ths) of a dimension.
#[inline]
pub fn frac(f: i64, v: i64) -> i64 {
    v * f / 65_536
}
