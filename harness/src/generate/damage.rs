//! Files with something broken at random.

use super::drawing::*;
use super::rng::Rng;
use super::valid::{string_offset, unknown_record, valid};

/// A file and what the whole-file checker must say of it.
#[derive(Clone, Debug)]
pub struct Case {
    pub what: &'static str,
    pub bytes: Vec<u8>,
    /// Number and place of the refusal; none for an accepted file.
    pub refusal: Option<(u8, usize)>,
}

impl Case {
    pub(super) fn new(what: &'static str, bytes: Vec<u8>, refusal: Option<(u8, usize)>) -> Case {
        Case {
            what,
            bytes,
            refusal,
        }
    }
}

/// A random good file with one thing broken, and what it must be refused with.
pub fn damaged(rng: &mut Rng) -> Case {
    loop {
        let drawing = valid(rng);
        if let Some(case) = damage_file(rng, drawing) {
            return case;
        }
    }
}

fn damage_file(rng: &mut Rng, mut drawing: Drawing) -> Option<Case> {
    let index = rng.below(drawing.records.len());
    let at = drawing.offset_of(index);
    let bytes = drawing.bytes();
    let size = drawing.records[index].size();
    match rng.below(8) {
        0 => {
            let number = if rng.one_in(2) { 3 } else { 4 };
            let left = if number == 3 {
                0
            } else {
                rng.between(1, size - 1)
            };
            Some(Case::new(
                "cut",
                bytes[..at + left].to_vec(),
                Some((number, at)),
            ))
        }
        1 => {
            let mut bytes = bytes;
            bytes[at + 1] |= 1;
            Some(Case::new("odd size", bytes, Some((5, at))))
        }
        2 => {
            let end = bytes.len();
            let more = vec![rng.byte(); rng.between(1, 6)];
            Some(Case::new(
                "more bytes",
                [bytes, more].concat(),
                Some((13, end)),
            ))
        }
        3 => {
            // A second LIBRARY is nowhere allowed, nor anything before the first.
            let record = if index == 0 {
                unknown_record(rng)
            } else {
                plain(LIBRARY)
            };
            drawing.records.insert(index, record);
            Some(Case::new("record put in", drawing.bytes(), Some((6, at))))
        }
        _ => {
            let number = damage_record(rng, &mut drawing.records[index])?;
            Some(Case::new(
                "record spoiled",
                drawing.bytes(),
                Some((number, at)),
            ))
        }
    }
}

/// Breaks one rule of a known record and tells its number; none if it cannot.
fn damage_record(rng: &mut Rng, record: &mut Loose) -> Option<u8> {
    if record.is_unknown() {
        return None;
    }
    let unnamed = record.type_byte == LAYER && record.body.len() == 4;
    let has_string = !unnamed && !matches!(record.type_byte, BOX | POLY | WIRE | ENDLIB);
    if has_string && rng.one_in(3) {
        return Some(damage_string(rng, record));
    }
    let body = &mut record.body;
    match record.type_byte {
        LIBRARY if rng.one_in(2) => {
            let at = rng.pick(&[0, 8]);
            if rng.one_in(2) {
                body[at] |= 0x80;
            } else {
                body[at + 1..at + 8].fill(0);
            }
            Some(10)
        }
        LIBRARY | STRUCT => {
            let dates = if record.type_byte == LIBRARY { 16 } else { 0 };
            let date = dates + rng.pick(&[0, 8]);
            let (byte, value) = rng.pick(&[
                (2, 0),
                (2, 13),
                (3, 0),
                (3, 32),
                (4, 24),
                (5, 60),
                (6, 61),
                (7, 1),
                (7, 255),
            ]);
            body[date + byte] = value;
            Some(9)
        }
        CPRPTY | PROPERTY | TEXT => {
            let longest = string_offset(record.type_byte, 0);
            body.truncate(2 * rng.between(0, longest / 2));
            Some(8)
        }
        LAYER => {
            body.truncate(rng.pick(&[0, 2]));
            Some(8)
        }
        BOX if rng.one_in(2) => {
            let at = 16 * rng.below(body.len() / 16) + rng.pick(&[0, 4]);
            body[at..at + 4].copy_from_slice(&i32::MAX.to_be_bytes());
            body[at + 8..at + 12].copy_from_slice(&(i32::MAX - 1).to_be_bytes());
            Some(10)
        }
        POLY if rng.one_in(2) => {
            let last = body.len() - 1 - rng.below(8);
            body[last] ^= 1 << rng.below(8);
            Some(12)
        }
        WIRE if rng.one_in(2) => {
            record.flags = rng.between(3, 255) as u8;
            Some(7)
        }
        BOX | POLY | WIRE => {
            let length = body.len() - rng.pick(&[2, 4, 6]);
            body.truncate(length);
            Some(8)
        }
        SREF => Some(damage_sref(rng, record)),
        _ => {
            body.extend([0, 0]);
            Some(8)
        }
    }
}

fn damage_sref(rng: &mut Rng, record: &mut Loose) -> u8 {
    let flags = record.flags;
    let body = &mut record.body;
    let magnif = if flags & 1 != 0 { 16 } else { 8 };
    match rng.below(4) {
        0 if flags & 2 != 0 => {
            body[magnif] |= 0x80;
            10
        }
        1 if flags & 8 != 0 => {
            let array = magnif + if flags & 2 != 0 { 8 } else { 0 };
            let at = array + rng.pick(&[0, 4]);
            let count: i32 = rng.pick(&[0, -1, i32::MIN]);
            body[at..at + 4].copy_from_slice(&count.to_be_bytes());
            10
        }
        2 => {
            body.truncate(2 * rng.between(0, string_offset(SREF, flags) / 2));
            8
        }
        _ => {
            record.flags |= 1 << rng.between(4, 7);
            7
        }
    }
}

/// Spoils the string at the end of a body.
fn damage_string(rng: &mut Rng, record: &mut Loose) -> u8 {
    let start = string_offset(record.type_byte, record.flags);
    let field = &mut record.body[start..];
    let last = field.len() - 1;
    let text = if field[last - 1] == 0 { last - 1 } else { last };
    match rng.below(3) {
        0 => field[last] = rng.between(1, 255) as u8,
        // A zero inside the text; the last byte would only shorten an odd one.
        1 if text > 1 => field[rng.below(text - 1)] = 0,
        _ => record.body.extend([0, 0]),
    }
    11
}

/// The file with a few random bytes changed, put in or taken out.
pub fn mutated(rng: &mut Rng, bytes: &[u8]) -> Vec<u8> {
    let mut bytes = bytes.to_vec();
    for _ in 0..rng.between(1, 4) {
        if bytes.is_empty() {
            return bytes;
        }
        let at = rng.below(bytes.len());
        match rng.below(8) {
            0 => {
                bytes.remove(at);
            }
            1 => bytes.insert(at, rng.byte()),
            2 => bytes.truncate(at),
            3 => bytes[at] = 0,
            4 => bytes[at] ^= 1 << rng.below(8),
            5 => bytes[at] = bytes[at].wrapping_add(1),
            6 => bytes[at] = bytes[at].wrapping_sub(1),
            _ => bytes[at] = rng.byte(),
        }
    }
    bytes
}

/// The file cut at every byte, itself not included.
pub fn truncations(bytes: &[u8]) -> impl Iterator<Item = &[u8]> {
    (0..bytes.len()).map(|length| &bytes[..length])
}
