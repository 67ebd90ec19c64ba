//! Other files of the same meaning, and files of another meaning.

use super::drawing::*;
use super::rng::Rng;
use super::valid::{string_offset, unknown_record};
use super::values::real_bytes;

/// The same drawing said otherwise: meaningless flags, TEXT places, the spelling
/// of reals and unknown records may all differ.
pub fn same_meaning_variant(rng: &mut Rng, drawing: &Drawing) -> Drawing {
    let mut other = drawing.clone();
    for record in &mut other.records {
        if rng.one_in(2) {
            respell(rng, record);
        }
    }
    for _ in 0..rng.below(4) {
        let after_library = rng.between(1, other.records.len() - 1);
        other.records.insert(after_library, unknown_record(rng));
    }
    if rng.one_in(3) {
        other
            .records
            .retain(|record| !record.is_unknown() || rng.one_in(2));
    }
    other
}

fn respell(rng: &mut Rng, record: &mut Loose) {
    match record.type_byte {
        STRUCT | CPRPTY | PROPERTY | LAYER | BOX | POLY | ENDLIB => record.flags = rng.byte(),
        TEXT => {
            for place in [0x30, 0xc0] {
                let bits = record.flags & place;
                if bits == 0 || bits == place {
                    record.flags ^= if rng.one_in(2) { place } else { 0 };
                }
            }
        }
        _ => {}
    }
    for at in real_offsets(record) {
        let real: [u8; 8] = record.body[at..at + 8].try_into().expect("eight bytes");
        record.body[at..at + 8].copy_from_slice(&respelled_real(rng, real));
    }
}

/// Where the reals of a record are in its body.
pub fn real_offsets(record: &Loose) -> Vec<usize> {
    match (record.type_byte, record.flags & 3) {
        (LIBRARY, _) => vec![0, 8],
        (SREF, 1 | 2) => vec![8],
        (SREF, 3) => vec![8, 16],
        _ => vec![],
    }
}

/// Another spelling of the same real, or the same one.
fn respelled_real(rng: &mut Rng, real: [u8; 8]) -> [u8; 8] {
    let (sign, mut e, mut m) = parts(real);
    if m == 0 {
        return real_bytes(rng.one_in(2), rng.below(128) as u8, 0);
    }
    let down = rng.one_in(2);
    for _ in 0..rng.between(1, 13) {
        if down && m % 16 == 0 && e < 127 {
            (e, m) = (e + 1, m / 16);
        } else if !down && m < 1 << 52 && e > 0 {
            (e, m) = (e - 1, m * 16);
        }
    }
    real_bytes(sign, e, m)
}

fn parts(real: [u8; 8]) -> (bool, u8, u64) {
    let mut digits = real;
    digits[0] = 0;
    (real[0] >= 0x80, real[0] & 0x7f, u64::from_be_bytes(digits))
}

/// A good drawing that means something else in exactly one record, or has one
/// record more.
pub fn different_meaning_variant(rng: &mut Rng, drawing: &Drawing) -> Drawing {
    let mut other = drawing.clone();
    if rng.one_in(8) {
        let end = other.records.len() - 1;
        other.records.insert(end, plain(STRUCT));
        return other;
    }
    loop {
        let index = rng.below(other.records.len());
        if alter(rng, &mut other.records[index]) {
            return other;
        }
    }
}

/// Changes the meaning of a record and leaves it good; false if nothing was
/// changed.
fn alter(rng: &mut Rng, record: &mut Loose) -> bool {
    let before = record.clone();
    match record.type_byte {
        LIBRARY => match rng.below(4) {
            0 => record.flags ^= 1 << rng.below(8),
            1 => alter_real(record, rng.pick(&[0, 8])),
            2 => record.body[rng.pick(&[16, 24])] ^= 1 << rng.below(8),
            _ => alter_text(rng, record),
        },
        STRUCT => match rng.below(2) {
            0 => record.body[rng.pick(&[0, 8])] ^= 1 << rng.below(8),
            _ => alter_text(rng, record),
        },
        CPRPTY | PROPERTY => match rng.below(2) {
            0 => alter_byte(rng, record, 0..4),
            _ => alter_text(rng, record),
        },
        LAYER => alter_layer(rng, record),
        BOX => alter_boxes(rng, record),
        POLY => match rng.below(2) {
            0 => {
                let inner = 8..record.body.len() - 8;
                alter_byte(rng, record, inner);
            }
            // The closing point once more.
            _ => record.body.extend_from_within(..8),
        },
        WIRE => match rng.below(3) {
            0 => record.flags = (record.flags + 1) % 3,
            1 => {
                let all = 0..record.body.len();
                alter_byte(rng, record, all);
            }
            _ => record.body.extend_from_within(4..12),
        },
        TEXT => match rng.below(4) {
            0 => record.flags ^= 1 << rng.below(4),
            1 => alter_text_place(rng, record),
            2 => alter_byte(rng, record, 0..12),
            _ => alter_text(rng, record),
        },
        SREF => alter_sref(rng, record),
        _ => {}
    }
    if record.body.len() > LONGEST_BODY {
        *record = before;
        return false;
    }
    *record != before
}

fn alter_byte(rng: &mut Rng, record: &mut Loose, among: std::ops::Range<usize>) {
    let at = rng.between(among.start, among.end - 1);
    record.body[at] ^= 1 << rng.below(8);
}

/// Another mantissa, not zero, under the same exponent is another value.
fn alter_real(record: &mut Loose, at: usize) {
    let real: [u8; 8] = record.body[at..at + 8].try_into().expect("eight bytes");
    let (sign, e, m) = parts(real);
    let m = if m == 1 { 2 } else { m ^ 1 };
    record.body[at..at + 8].copy_from_slice(&real_bytes(sign, e, m));
}

/// A longer text, or another letter in it.
fn alter_text(rng: &mut Rng, record: &mut Loose) {
    let start = string_offset(record.type_byte, record.flags);
    let mut text = record.body.split_off(start);
    text.retain(|&byte| byte != 0);
    if text.is_empty() || rng.one_in(3) {
        text.push(b'q');
    } else {
        let at = rng.below(text.len());
        text[at] = if text[at] == b'q' { b'r' } else { b'q' };
    }
    let body = Body(std::mem::take(&mut record.body));
    record.body = body.string(&text).0;
}

/// Moves one of the two places to a third meaning.
fn alter_text_place(rng: &mut Rng, record: &mut Loose) {
    let shift = rng.pick(&[4, 6]);
    let moved = match record.flags >> shift & 3 {
        0 | 3 => rng.pick(&[1, 2]),
        1 => rng.pick(&[0, 2, 3]),
        _ => rng.pick(&[0, 1, 3]),
    };
    record.flags = record.flags & !(3 << shift) | moved << shift;
}

fn alter_layer(rng: &mut Rng, record: &mut Loose) {
    let unnamed = record.body.len() == 4;
    let empty = record.body.len() == 6 && record.body[4] == 0;
    match rng.below(4) {
        0 => alter_byte(rng, record, 0..4),
        // Layer number and data type confused.
        1 => record.body[..4].rotate_left(2),
        2 if empty => record.body.truncate(4),
        _ if unnamed => record.body.extend([0, 0]),
        _ => alter_text(rng, record),
    }
}

/// A side moved outwards, or the first box once more.
fn alter_boxes(rng: &mut Rng, record: &mut Loose) {
    if rng.one_in(3) {
        record.body.extend_from_within(..16);
        return;
    }
    let at = 4 * rng.below(record.body.len() / 4);
    let side: &mut [u8; 4] = (&mut record.body[at..at + 4])
        .try_into()
        .expect("four bytes");
    let number = i32::from_be_bytes(*side);
    let is_low = at % 16 < 8;
    let moved = if is_low {
        number.saturating_sub(1)
    } else {
        number.saturating_add(1)
    };
    *side = moved.to_be_bytes();
}

fn alter_sref(rng: &mut Rng, record: &mut Loose) {
    let flags = record.flags;
    match rng.below(6) {
        0 => record.flags ^= 4,
        1 => alter_byte(rng, record, 0..8),
        // An angle of 0 is not a missing angle, nor is a magnif of 1.
        2 if flags & 1 == 0 => {
            record.flags |= 1;
            record.body.splice(8..8, [0; 8]);
        }
        3 if flags & 2 == 0 => {
            let at = if flags & 1 == 0 { 8 } else { 16 };
            record.flags |= 2;
            record.body.splice(at..at, ONE);
        }
        4 => {
            let offsets = real_offsets(record);
            if !offsets.is_empty() {
                alter_real(record, rng.pick(&offsets));
            }
        }
        _ if flags & 8 != 0 => {
            let end = string_offset(SREF, flags);
            alter_byte(rng, record, end - 16..end);
        }
        _ => alter_text(rng, record),
    }
}
