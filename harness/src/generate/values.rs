//! Random fields, with a liking for the ends of their ranges.

use super::rng::Rng;
use crate::reference::Date;

pub fn long(rng: &mut Rng) -> i32 {
    match rng.below(4) {
        0 => rng.pick(&[i32::MIN, i32::MIN + 1, -80, -1, 0, 1, 255, 256, i32::MAX]),
        1 => rng.below(2001) as i32 - 1000,
        _ => rng.bits() as i32,
    }
}

pub fn short(rng: &mut Rng) -> i16 {
    if rng.one_in(3) {
        rng.pick(&[i16::MIN, -1, 0, 1, 255, 256, i16::MAX])
    } else {
        rng.bits() as i16
    }
}

/// At least 1.
pub fn count(rng: &mut Rng) -> i32 {
    rng.pick(&[1, 2, 3, 255, 256, 70_000, i32::MAX])
}

/// A text without a zero byte: letters, any bytes, or broken UTF-8.
pub fn text(rng: &mut Rng) -> Vec<u8> {
    let length = match rng.below(20) {
        0 => rng.between(200, 400),
        1..=3 => 0,
        _ => rng.between(1, 9),
    };
    match rng.below(3) {
        0 => (0..length).map(|_| rng.pick(b"abcXYZ_09 ")).collect(),
        1 => (0..length).map(|_| rng.between(1, 255) as u8).collect(),
        _ => (0..length)
            .map(|_| rng.pick(&[0xc3, 0xff, 0x80, 0xe2, 0x01]))
            .collect(),
    }
}

pub fn date(rng: &mut Rng) -> Date {
    let mut ranged = |low: usize, high: usize| match rng.below(4) {
        0 => low as u8,
        1 => high as u8,
        _ => rng.between(low, high) as u8,
    };
    let (month, day) = (ranged(1, 12), ranged(1, 31));
    let (hour, minute, second) = (ranged(0, 23), ranged(0, 59), ranged(0, 60));
    Date {
        year: short(rng),
        month,
        day,
        hour,
        minute,
        second,
    }
}

/// A date as its eight bytes, pushed by hand.
pub fn date_bytes(date: Date) -> [u8; 8] {
    let [high, low] = date.year.to_be_bytes();
    let Date {
        month,
        day,
        hour,
        minute,
        second,
        ..
    } = date;
    [high, low, month, day, hour, minute, second, 0]
}

pub fn real_bytes(sign: bool, e: u8, m: u64) -> [u8; 8] {
    let mut bytes = m.to_be_bytes();
    bytes[0] = u8::from(sign) << 7 | e;
    bytes
}

/// Any real: zeros of all looks, normal and non-normal ones, both signs.
pub fn real(rng: &mut Rng) -> [u8; 8] {
    let sign = rng.one_in(2);
    let m = if rng.one_in(5) { 0 } else { mantissa(rng) };
    real_bytes(sign, exponent(rng), m)
}

/// A real above zero, normal or not.
pub fn positive_real(rng: &mut Rng) -> [u8; 8] {
    real_bytes(false, exponent(rng), mantissa(rng))
}

fn exponent(rng: &mut Rng) -> u8 {
    if rng.one_in(3) {
        rng.pick(&[0, 1, 2, 13, 63, 64, 65, 126, 127])
    } else {
        rng.below(128) as u8
    }
}

/// Not zero, below 2^56, with random zero digits before and zero bits after.
fn mantissa(rng: &mut Rng) -> u64 {
    let empty_digits = rng.pick(&[0, 0, 0, 1, 2, 5, 12, 13]);
    let zero_bits = rng.pick(&[0, 0, 1, 2, 3, 4, 8, 40]);
    let m = rng.bits() >> (8 + 4 * empty_digits);
    (m >> zero_bits << zero_bits).max(1)
}

/// `count` numbers for coordinates.
pub fn longs(rng: &mut Rng, count: usize) -> Vec<i32> {
    (0..count).map(|_| long(rng)).collect()
}

/// The four sides of `count` boxes, none reversed.
pub fn box_sides(rng: &mut Rng, count: usize) -> Vec<i32> {
    (0..count)
        .flat_map(|_| {
            let (a, b, c, d) = (long(rng), long(rng), long(rng), long(rng));
            [a.min(c), b.min(d), a.max(c), b.max(d)]
        })
        .collect()
}

/// A closed list of `count` points.
pub fn closed_points(rng: &mut Rng, count: usize) -> Vec<i32> {
    let mut points = longs(rng, 2 * (count - 1));
    points.extend_from_within(..2);
    points
}
