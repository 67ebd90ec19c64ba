//! Reals as doubles, and doubles as reals.

use super::report::Case;
use crate::archive;
use crate::generate::Rng;
use crate::reference::{Real, StoredReal};

/// Words and doubles made up, with a liking for the ends of their ranges.
pub fn reals(case: &mut Case, rng: &mut Rng) {
    for _ in 0..64 {
        let any = word(rng);
        real(case, any);
        let any = double(rng);
        back(case, any);
    }
}

/// The bytes taken as words, and as doubles.
pub fn reals_in(case: &mut Case, bytes: &[u8]) {
    for eight in bytes.chunks_exact(8) {
        let word = u64::from_be_bytes(eight.try_into().expect("eight bytes"));
        real(case, word);
        back(case, f64::from_bits(word));
    }
}

/// What a word says; and the real of its double is the normal one, which means
/// the same.
fn real(case: &mut Case, word: u64) {
    let stored = StoredReal::from_bytes(word.to_be_bytes());
    let (answer, other) = (stored.answer(), archive::real(word));
    case.holds(bits(answer) == bits(other), || {
        format!("real {word:016x}\n    reference: {answer:?}\n    archive:   {other:?}")
    });
    if let Real::Exact(double) = other {
        case.same(
            || format!("normal form of {word:016x} by its double"),
            &Some(u64::from_be_bytes(stored.normal().to_bytes())),
            &archive::real_of(double),
        );
    }
}

/// The real of a double, if there is one, is normal, and its double is that one.
fn back(case: &mut Case, double: f64) {
    let word = archive::real_of(double);
    case.same(
        || format!("real of the double {:016x}", double.to_bits()),
        &StoredReal::of_double(double).map(|real| u64::from_be_bytes(real.to_bytes())),
        &word,
    );
    let Some(word) = word else { return };
    let stored = StoredReal::from_bytes(word.to_be_bytes());
    case.same(
        || format!("{word:016x} is normal"),
        &stored.normal(),
        &stored,
    );
    let there_and_back = archive::real(word);
    case.holds(bits(there_and_back) == bits(Real::Exact(double)), || {
        format!(
            "the double {:016x} comes back as {there_and_back:?}",
            double.to_bits()
        )
    });
}

/// Tells +0 from -0.
fn bits(real: Real) -> Result<u64, Real> {
    match real {
        Real::Exact(double) => Ok(double.to_bits()),
        inexact => Err(inexact),
    }
}

/// A mantissa of up to `width` bits, with zeros after it.
fn mantissa(rng: &mut Rng, width: usize) -> u64 {
    let used = rng.between(0, width);
    let bits = rng.bits() & ((1 << used) - 1);
    bits << rng.below(width - used + 1)
}

fn word(rng: &mut Rng) -> u64 {
    let sign = rng.bits() << 63;
    let e = match rng.below(3) {
        0 => rng.pick(&[0, 1, 2, 13, 14, 63, 64, 65, 126, 127]),
        _ => rng.below(128) as u64,
    };
    let m = match rng.below(4) {
        0 => rng.pick(&[
            0,
            1,
            (1 << 56) - 1,
            1 << 55,
            (1 << 53) - 1,
            (1 << 53) + 1,
            1 << 52,
        ]),
        1 => rng.bits() >> 8,
        _ => mantissa(rng, 56),
    };
    sign | e << 56 | m
}

fn double(rng: &mut Rng) -> f64 {
    let sign = rng.bits() << 63;
    let exponent = match rng.below(8) {
        0 => rng.pick(&[0, 1, 2046, 2047]),
        1 => rng.bits() >> 53,
        // Around the smallest reals and the largest.
        2 => (1023 - 312 - 4 + rng.below(64)) as u64,
        3 => (1023 + 252 - 8 + rng.below(12)) as u64,
        _ => (1023 - 320 + rng.below(580)) as u64,
    };
    f64::from_bits(sign | exponent << 52 | mantissa(rng, 52))
}
