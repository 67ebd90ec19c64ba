//! Questions about a layer by its offset, in bytes that need not be a file.

use super::drawing::*;
use super::rng::Rng;
use super::valid::random_record;

/// Bytes, an offset in them, and whether there is a good LAYER.
#[derive(Clone, Debug)]
pub struct LayerQuestion {
    pub what: &'static str,
    pub bytes: Vec<u8>,
    pub offset: usize,
    pub good: bool,
}

/// A LAYER at any offset, odd or even, between bytes that mean nothing; at
/// times spoiled.
pub fn layer_question(rng: &mut Rng) -> LayerQuestion {
    let before = rng.below(12);
    let mut bytes: Vec<u8> = (0..before).map(|_| rng.byte()).collect();
    let offset = bytes.len();
    random_record(rng, LAYER).push_to(&mut bytes);
    let fault = spoil(rng, &mut bytes, offset);
    // More bytes would make good again what was cut short.
    if fault != Some(CUT) {
        let more = rng.below(5);
        bytes.extend((0..more).map(|_| rng.byte()));
    }
    LayerQuestion {
        what: fault.unwrap_or("nothing spoiled"),
        bytes,
        offset,
        good: fault.is_none() && offset >= 4 && offset.is_multiple_of(2),
    }
}

const CUT: &str = "cut short";

/// Spoils the LAYER that ends the bytes, half of the time, and tells how.
fn spoil(rng: &mut Rng, bytes: &mut Vec<u8>, offset: usize) -> Option<&'static str> {
    let size = bytes.len() - offset;
    match rng.below(10) {
        0 => {
            bytes[offset + 2] = rng.pick(&[0, 3, 5, 10, 11, 255]);
            Some("another type")
        }
        1 => {
            bytes[offset + 1] |= 1;
            Some("odd size")
        }
        2 => {
            bytes[offset] = 0;
            bytes[offset + 1] = rng.pick(&[0, 2, 4, 6]);
            Some("size too small")
        }
        3 => {
            bytes.truncate(bytes.len() - rng.between(1, size));
            Some(CUT)
        }
        4 if size > 8 => {
            *bytes.last_mut().expect("a name") = 1;
            Some("no zero at the end")
        }
        _ => None,
    }
}
