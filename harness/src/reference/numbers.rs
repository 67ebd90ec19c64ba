//! Reals, dates, and the two shorts of a LAYER.

use super::bytes::short;

/// A layer number. Its own type, so that it is never taken for a data type.
#[derive(Clone, Copy, Debug, PartialEq, Eq)]
pub struct LayerNo(pub i16);

/// A data type. Its own type, so that it is never taken for a layer number.
#[derive(Clone, Copy, Debug, PartialEq, Eq)]
pub struct DataType(pub i16);

/// A date; the zero byte that ends it in the file is not kept.
#[derive(Clone, Copy, Debug, PartialEq, Eq)]
pub struct Date {
    pub year: i16,
    pub month: u8,
    pub day: u8,
    pub hour: u8,
    pub minute: u8,
    pub second: u8,
}

impl Date {
    /// The fields of a stored date, good or not.
    #[inline]
    pub fn read(stored: [u8; 8]) -> Date {
        let [_, _, month, day, hour, minute, second, _] = stored;
        Date {
            year: short(&stored, 0),
            month,
            day,
            hour,
            minute,
            second,
        }
    }

    /// Any year will do, and the day is not compared with the month. Second 60,
    /// the leap second, is allowed in any minute.
    #[inline]
    pub fn is_good(self) -> bool {
        (1..=12).contains(&self.month)
            && (1..=31).contains(&self.day)
            && self.hour <= 23
            && self.minute <= 59
            && self.second <= 60
    }

    /// Whether the eight bytes are a date, its zero byte included.
    #[inline]
    pub fn is_stored_well(stored: [u8; 8]) -> bool {
        stored[7] == 0 && Date::read(stored).is_good()
    }

    pub fn to_bytes(self) -> [u8; 8] {
        let [high, low] = self.year.to_be_bytes();
        [
            high,
            low,
            self.month,
            self.day,
            self.hour,
            self.minute,
            self.second,
            0,
        ]
    }
}

/// A real as a view answers it.
#[derive(Clone, Copy, Debug, PartialEq)]
pub enum Real {
    /// A double equal to the exact value; zero is +0.
    Exact(f64),
    /// No double is equal to it.
    Inexact { sign: bool, e: u8, m: u64 },
}

/// A real as a file stores it: m × 16^(e−64) / 2^56, negated by the sign.
#[derive(Clone, Copy, Debug, PartialEq, Eq)]
pub struct StoredReal {
    /// True for the set sign bit.
    pub sign: bool,
    /// Seven bits.
    pub e: u8,
    /// Fifty-six bits.
    pub m: u64,
}

const MANTISSA_BITS: u32 = 56;
const MANTISSA: u64 = (1 << MANTISSA_BITS) - 1;
const DOUBLE_MANTISSA_BITS: u32 = 53;

impl StoredReal {
    const ZERO: StoredReal = StoredReal {
        sign: false,
        e: 0,
        m: 0,
    };

    #[inline]
    pub fn from_bytes(stored: [u8; 8]) -> Self {
        let bits = u64::from_be_bytes(stored);
        StoredReal {
            sign: bits >> 63 == 1,
            e: (bits >> MANTISSA_BITS) as u8 & 0x7f,
            m: bits & MANTISSA,
        }
    }

    pub fn to_bytes(self) -> [u8; 8] {
        let high = u64::from(self.sign) << 7 | u64::from(self.e);
        (high << MANTISSA_BITS | self.m).to_be_bytes()
    }

    #[inline]
    pub fn is_positive(self) -> bool {
        !self.sign && self.m != 0
    }

    /// The normal real of the same value: moves the mantissa up, a hex digit
    /// at a time, until its first digit is not 0 or the exponent is used up.
    pub fn normal(self) -> Self {
        if self.m == 0 {
            return StoredReal::ZERO;
        }
        let empty_digits = (self.m.leading_zeros() - (u64::BITS - MANTISSA_BITS)) / 4;
        let digits = empty_digits.min(u32::from(self.e));
        StoredReal {
            sign: self.sign,
            e: self.e - digits as u8,
            m: self.m << (4 * digits),
        }
    }

    /// Whether the exact values are equal, that is m × 16^e with the sign.
    pub fn same_value(self, other: Self) -> bool {
        if self.m == 0 || other.m == 0 {
            return self.m == other.m;
        }
        if self.sign != other.sign {
            return false;
        }
        let (high, low) = if self.e >= other.e {
            (self, other)
        } else {
            (other, self)
        };
        // Divided by 16^low.e on both sides. From 14 digits on, the left side
        // is at least 2^56 and so above every mantissa.
        let digits = high.e - low.e;
        digits < 14 && u128::from(high.m) << (4 * digits) == u128::from(low.m)
    }

    /// The normal real that equals a double, where one does. Each exponent is
    /// tried in turn: the first whose mantissa is whole and fits is the normal
    /// one.
    pub fn of_double(double: f64) -> Option<Self> {
        if double.to_bits() == 0 {
            return Some(StoredReal::ZERO);
        }
        if double == 0.0 || !double.is_normal() {
            return None;
        }
        let bits = double.to_bits();
        let digits = u128::from(bits & ((1 << 52) - 1) | 1 << 52);
        let power = (bits >> 52 & 0x7ff) as i32 - 1075;
        (0..=127).find_map(|e| {
            // m = digits × 2^up.
            let up = power + 4 * (64 - i32::from(e)) + MANTISSA_BITS as i32;
            let m = match up {
                0..=56 => digits << up,
                -52..=-1 if digits.trailing_zeros() >= up.unsigned_abs() => digits >> -up,
                _ => return None,
            };
            (m <= u128::from(MANTISSA)).then_some(StoredReal {
                sign: double.is_sign_negative(),
                e,
                m: m as u64,
            })
        })
    }

    /// The double of the same value, or the parts where there is none.
    pub fn answer(self) -> Real {
        let StoredReal { sign, e, m } = self;
        if m == 0 {
            return Real::Exact(0.0);
        }
        let twos = m.trailing_zeros();
        let odd = m >> twos;
        if odd >> DOUBLE_MANTISSA_BITS != 0 {
            return Real::Inexact { sign, e, m };
        }
        // `odd` is below 2^53 and the power lies from −312 to 251, so both
        // factors and their product are doubles without rounding.
        let power = 4 * (i32::from(e) - 64) - MANTISSA_BITS as i32 + twos as i32;
        let size = odd as f64 * power_of_two(power);
        Real::Exact(if sign { -size } else { size })
    }
}

/// 2^power as a double, for powers from −1022 to 1023.
fn power_of_two(power: i32) -> f64 {
    let biased = (power + 1023) as u64;
    f64::from_bits(biased << 52)
}
