//! Files aimed at one rule each: just allowed and just refused.

use super::damage::Case;
use super::drawing::*;
use super::valid::{around, in_cell, one_record, string_offset};
use super::values::real_bytes;

/// Every rule at its boundary.
pub fn boundary_cases() -> Vec<Case> {
    let mut cases = Vec::new();
    cases.extend(beginnings());
    cases.extend(endings());
    cases.extend(sizes());
    cases.extend(sequences());
    cases.extend(flags());
    cases.extend(short_bodies());
    cases.extend(long_bodies());
    cases.extend(dates());
    cases.extend(scales());
    cases.extend(srefs());
    cases.extend(boxes());
    cases.extend(strings());
    cases.extend(polys());
    cases.extend(orders());
    cases
}

/// The case of one record among good ones: refused there with `number`.
pub(super) fn judged(what: &'static str, record: Loose, number: Option<u8>) -> Case {
    let (drawing, index) = one_record(record);
    let at = drawing.offset_of(index);
    Case::new(what, drawing.bytes(), number.map(|number| (number, at)))
}

fn refused_if(refused: bool, number: u8) -> Option<u8> {
    refused.then_some(number)
}

/// Rules 1 and 2.
fn beginnings() -> Vec<Case> {
    let good = around(vec![plain(STRUCT)]).bytes();
    let mut cases: Vec<Case> = (0..4)
        .map(|length| Case::new("under four bytes", good[..length].to_vec(), Some((1, 0))))
        .collect();
    for i in 0..3 {
        for wrong in [0, b'C', b'G', b'X', 0xff] {
            let mut bytes = good.clone();
            bytes[i] = wrong;
            cases.push(Case::new("not cgx", bytes, Some((1, 0))));
        }
    }
    for level in 1..=255 {
        let mut bytes = good.clone();
        bytes[3] = level;
        cases.push(Case::new("level", bytes, Some((2, 0))));
    }
    cases.push(Case::new(
        "not cgx and level",
        b"cgy\x01".to_vec(),
        Some((1, 0)),
    ));
    cases.push(Case::new("level alone", b"cgx\x01".to_vec(), Some((2, 0))));
    cases
}

/// Rules 3, 4 and 13: a good file cut or lengthened at every record.
fn endings() -> Vec<Case> {
    let drawing = in_cell(vec![plain(PROPERTY), plain(99), plain(BOX), plain(77)]);
    let bytes = drawing.bytes();
    let mut cases = Vec::new();
    for at in drawing.offsets() {
        cases.push(Case::new(
            "no bytes left",
            bytes[..at].to_vec(),
            Some((3, at)),
        ));
        for some in 1..=3 {
            let cut = bytes[..at + some].to_vec();
            cases.push(Case::new("one to three bytes left", cut, Some((4, at))));
        }
    }
    for (i, record) in drawing.records.iter().enumerate() {
        let at = drawing.offset_of(i);
        for cut in 4..record.size() {
            cases.push(Case::new(
                "size past the end",
                bytes[..at + cut].to_vec(),
                Some((4, at)),
            ));
        }
    }
    for more in [
        &[0u8][..],
        &[0, 0],
        &[0, 4, 10],
        &[0, 4, 10, 0],
        &[0, 4, 11, 0],
        &[1; 9],
    ] {
        let longer = [&bytes, more].concat();
        cases.push(Case::new(
            "bytes after ENDLIB",
            longer,
            Some((13, bytes.len())),
        ));
    }
    cases.push(Case::new("nothing after ENDLIB", bytes, None));
    cases
}

/// Rules 5 and 4 by the size field.
fn sizes() -> Vec<Case> {
    let drawing = in_cell(vec![plain(BOX), plain(200), plain(TEXT)]);
    let mut cases = Vec::new();
    for (i, record) in drawing.records.iter().enumerate() {
        let at = drawing.offset_of(i);
        let left = drawing.bytes().len() - at;
        let mut with_size = |what, size: usize, number| {
            let mut bytes = drawing.bytes();
            bytes[at..at + 2].copy_from_slice(&(size as u16).to_be_bytes());
            cases.push(Case::new(what, bytes, Some((number, at))));
        };
        for size in [0, 1, 2, 3, 5, record.size() + 1, 0x7fff, 0x8001, 0xffff] {
            with_size("odd size or below four", size, 5);
        }
        for size in [left + 2, 0x7ffe, 0x8000, 0xfffe] {
            with_size("size past the end", size, 4);
        }
    }
    cases
}

/// Rule 6: every type in every context.
fn sequences() -> Vec<Case> {
    const U: u8 = 42;
    // What has gone before, and the known types that may follow.
    let contexts: &[(&[u8], &[u8])] = &[
        (&[], &[0]),
        (&[0], &[1, 10]),
        (&[0, U], &[1, 10]),
        (&[0, 1], &[1, 2, 3, 4, 9, 10]),
        (&[0, 1, 2], &[1, 2, 3, 4, 9, 10]),
        (&[0, 1, U], &[1, 2, 3, 4, 9, 10]),
        (&[0, 1, 2, U, U], &[1, 2, 3, 4, 9, 10]),
        (&[0, 1, 4], &[1, 3, 4, 5, 6, 7, 8, 9, 10]),
        (&[0, 1, 2, 4, U], &[1, 3, 4, 5, 6, 7, 8, 9, 10]),
        (&[0, 1, 9], &[1, 3, 4, 9, 10]),
        (&[0, 1, 3], &[3, 9]),
        (&[0, 1, 2, 3, 3, U], &[3, 9]),
        (&[0, 1, 3, 9], &[1, 3, 4, 9, 10]),
        (&[0, 1, 4, 3], &[3, 5, 6, 7, 8, 9]),
        (&[0, 1, 4, U, 3, U, 3, U], &[3, 5, 6, 7, 8, 9]),
        (&[0, 1, 4, 3, 5], &[1, 3, 4, 5, 6, 7, 8, 9, 10]),
        (&[0, 1, 4, 3, 8], &[1, 3, 4, 5, 6, 7, 8, 9, 10]),
        (&[0, 1, 4, 6], &[1, 3, 4, 5, 6, 7, 8, 9, 10]),
        (&[0, 1, 4, 7, 1], &[1, 2, 3, 4, 9, 10]),
        (&[0, 1, 4, 5, 1, 3], &[3, 9]),
        (&[0, 1, 4, 5, 1, 4], &[1, 3, 4, 5, 6, 7, 8, 9, 10]),
    ];
    let mut cases = Vec::new();
    for (before, allowed) in contexts {
        let known = (LIBRARY..=ENDLIB).map(|t| (t, allowed.contains(&t)));
        let unknown = [11, 12, 127, 128, 255].map(|t| (t, !before.is_empty()));
        for (next, allowed) in known.chain(unknown) {
            cases.push(sequence(before, next, allowed));
        }
    }
    cases
}

fn sequence(before: &[u8], next: u8, allowed: bool) -> Case {
    let mut types = before.to_vec();
    types.push(next);
    let run_is_open = types.iter().rfind(|&&t| t < UNKNOWN) == Some(&PROPERTY);
    if run_is_open {
        types.push(SREF);
    }
    if next != ENDLIB {
        types.push(ENDLIB);
    }
    let drawing = Drawing::of(types.into_iter().map(plain).collect());
    let at = drawing.offset_of(before.len());
    let refusal = (!allowed).then_some((6, at));
    Case::new("record allowed here or not", drawing.bytes(), refusal)
}

/// Rule 7, and all flags that are free.
fn flags() -> Vec<Case> {
    let mut cases = Vec::new();
    for flags in 0..=255 {
        for type_byte in LIBRARY..=UNKNOWN {
            let refused = match type_byte {
                WIRE => flags > 2,
                SREF => flags > 15,
                _ => false,
            };
            let mut record = plain(type_byte);
            record.flags = flags;
            if type_byte == SREF && !refused {
                record = sref(flags, ONE, 1, 1);
            }
            cases.push(judged("flags", record, refused_if(refused, 7)));
        }
    }
    cases
}

/// An SREF with these fields where its flags ask for them; the angle is 1.
pub(super) fn sref(flags: u8, magnif: [u8; 8], cols: i32, rows: i32) -> Loose {
    let mut body = Body::new().longs(&[1, 2]);
    if flags & 1 != 0 {
        body = body.bytes(&ONE);
    }
    if flags & 2 != 0 {
        body = body.bytes(&magnif);
    }
    if flags & 8 != 0 {
        body = body.longs(&[cols, rows, 1, 2, 3, 4]);
    }
    Loose::new(SREF, flags, body.string(b"a"))
}

/// Rule 8: every even body length up to 100, otherwise good.
fn short_bodies() -> Vec<Case> {
    let mut cases = Vec::new();
    for type_byte in LIBRARY..=ENDLIB {
        let flag_sets = if type_byte == SREF { 0..16 } else { 0..1 };
        for flags in flag_sets {
            for length in (0..=100).step_by(2) {
                let record = Loose {
                    type_byte,
                    flags,
                    body: good_beginning(type_byte, flags, length),
                };
                let good = length_is_good(type_byte, flags, length);
                cases.push(judged("body length", record, refused_if(!good, 8)));
            }
        }
    }
    cases
}

/// `length` bytes that are a good body if the length is good.
fn good_beginning(type_byte: u8, flags: u8, length: usize) -> Vec<u8> {
    if matches!(type_byte, BOX | POLY | WIRE | ENDLIB) {
        return vec![0; length];
    }
    let fixed = string_offset(type_byte, flags);
    let mut body = match type_byte {
        SREF => sref(flags, ONE, 1, 1).body,
        _ => plain(type_byte).body,
    };
    body.truncate(fixed.min(length));
    if length > fixed {
        body.resize(length - 1, b'x');
        body.push(0);
    }
    body
}

fn length_is_good(type_byte: u8, flags: u8, length: usize) -> bool {
    match type_byte {
        LAYER => length >= 4,
        BOX => length >= 16 && length.is_multiple_of(16),
        POLY => length >= 32 && length.is_multiple_of(8),
        WIRE => length >= 12 && length % 8 == 4,
        ENDLIB => length == 0,
        _ => length >= string_offset(type_byte, flags) + 2,
    }
}

/// Rule 8 at the far end, where the size field itself sets the limit.
fn long_bodies() -> Vec<Case> {
    let mut cases = Vec::new();
    for type_byte in [BOX, POLY, WIRE, TEXT, LAYER] {
        for length in (LONGEST_BODY - 40..=LONGEST_BODY).step_by(2) {
            let record = Loose {
                type_byte,
                flags: 0,
                body: good_beginning(type_byte, 0, length),
            };
            let good = length_is_good(type_byte, 0, length);
            cases.push(judged("long body", record, refused_if(!good, 8)));
        }
    }
    cases
}

/// Rule 9: each byte of each date at the ends of its range.
fn dates() -> Vec<Case> {
    let bytes_and_ranges = [
        (2, 1, 12),
        (3, 1, 31),
        (4, 0, 23),
        (5, 0, 59),
        (6, 0, 60),
        (7, 0, 0),
    ];
    let mut cases = Vec::new();
    for (type_byte, date_at) in [(LIBRARY, 16), (LIBRARY, 24), (STRUCT, 0), (STRUCT, 8)] {
        for (byte, low, high) in bytes_and_ranges {
            for value in 0..=255 {
                let mut record = plain(type_byte);
                record.body[date_at + byte] = value;
                let good = (low..=high).contains(&value);
                cases.push(judged("date", record, refused_if(!good, 9)));
            }
        }
        for year in [i16::MIN, -1, 0, 1, 99, i16::MAX] {
            let mut record = plain(type_byte);
            record.body[date_at..date_at + 2].copy_from_slice(&year.to_be_bytes());
            cases.push(judged("year", record, None));
        }
    }
    cases
}

/// Reals and whether they are above zero.
fn reals() -> Vec<([u8; 8], bool)> {
    let mut reals = Vec::new();
    for e in [0, 1, 63, 64, 65, 127] {
        for m in [0, 1, 1 << 51, 1 << 52, (1 << 56) - 1] {
            reals.push((real_bytes(false, e, m), m > 0));
            reals.push((real_bytes(true, e, m), false));
        }
    }
    reals
}

/// Rule 10 for munit and uunit.
fn scales() -> Vec<Case> {
    let mut cases = Vec::new();
    for (real, positive) in reals() {
        for at in [0, 8] {
            let mut record = plain(LIBRARY);
            record.body[at..at + 8].copy_from_slice(&real);
            cases.push(judged("scale", record, refused_if(!positive, 10)));
        }
    }
    cases
}

/// Rule 10 for magnif, cols and rows; the angle is free.
fn srefs() -> Vec<Case> {
    let mut cases = Vec::new();
    for flags in 0..16 {
        for (real, positive) in reals() {
            let refused = flags & 2 != 0 && !positive;
            cases.push(judged(
                "magnif",
                sref(flags, real, 1, 1),
                refused_if(refused, 10),
            ));
            if flags & 1 != 0 {
                let mut record = sref(flags, ONE, 1, 1);
                record.body[8..16].copy_from_slice(&real);
                cases.push(judged("angle", record, None));
            }
        }
        for count in [i32::MIN, -1, 0, 1, 2, i32::MAX] {
            let refused = flags & 8 != 0 && count < 1;
            cases.push(judged(
                "cols",
                sref(flags, ONE, count, 1),
                refused_if(refused, 10),
            ));
            cases.push(judged(
                "rows",
                sref(flags, ONE, 1, count),
                refused_if(refused, 10),
            ));
        }
    }
    cases
}

/// Rule 10 for boxes: level, upright and reversed, alone and among others.
fn boxes() -> Vec<Case> {
    const GOOD: [i32; 4] = [0, 0, 1, 1];
    const MIN: i32 = i32::MIN;
    const MAX: i32 = i32::MAX;
    let upright = [
        [0, 0, 0, 0],
        [-1, -1, 0, 0],
        [MIN, MIN, MAX, MAX],
        [MIN, MIN, MIN, MIN],
        [MAX, MAX, MAX, MAX],
        [-1, -256, 0, 255],
    ];
    let reversed = [
        [1, 0, 0, 0],
        [0, 1, 0, 0],
        [0, 0, -1, 0],
        [0, 0, 0, -1],
        [MAX, 0, MIN, 0],
        [0, MAX, 0, MIN],
        [0, -255, 0, -256],
    ];
    let sides = upright.map(|b| (b, None)).into_iter();
    let sides = sides.chain(reversed.map(|b| (b, Some(10))));
    let mut cases = Vec::new();
    for (sides, number) in sides {
        for (before, after) in [(0, 0), (0, 3), (3, 0), (5, 5)] {
            let list = [vec![GOOD; before], vec![sides], vec![GOOD; after]].concat();
            let body = Body::new().longs(list.as_flattened());
            cases.push(judged("box", Loose::new(BOX, 0, body), number));
        }
    }
    cases
}

/// Rule 11: good and bad fields in every string.
fn strings() -> Vec<Case> {
    let good: &[&[u8]] = &[
        b"\0\0",
        b"a\0",
        b"ab\0\0",
        b"abc\0",
        b"\xff\xc3\0\0",
        b"\xe2\x82\x01\0",
    ];
    let bad: &[&[u8]] = &[
        b"ab",
        b"\0a",
        b"a\0\0\0",
        b"ab\0c",
        b"abcd",
        b"\0\0\0\0",
        b"\0bc\0",
        b"a\0c\0",
        b"a\0\0d",
        b"\0b\0\0",
        b"ab\0\0\0\0",
        b"abc\0\0\0",
        b"abcd\0f",
        b"a\0cd\0\0",
    ];
    let fields = good.iter().map(|field| (field, None));
    let fields = fields.chain(bad.iter().map(|field| (field, Some(11))));
    let mut cases = Vec::new();
    for (field, number) in fields {
        for type_byte in [LIBRARY, STRUCT, CPRPTY, PROPERTY, LAYER, TEXT] {
            let mut record = plain(type_byte);
            record.body.truncate(string_offset(type_byte, 0));
            record.body.extend(*field);
            cases.push(judged("string", record, number));
        }
        for flags in 0..16 {
            let mut record = sref(flags, ONE, 1, 1);
            record.body.truncate(string_offset(SREF, flags));
            record.body.extend(*field);
            cases.push(judged("string", record, number));
        }
    }
    cases
}

/// Rule 12: each byte of the last point changed.
fn polys() -> Vec<Case> {
    let mut cases = Vec::new();
    for pairs in [4, 5, 9] {
        let closed = Loose::new(POLY, 0, Body(vec![0x55; 8 * pairs]));
        for byte in 0..closed.body.len() {
            let mut record = closed.clone();
            record.body[byte] ^= 1;
            let inner = (8..8 * (pairs - 1)).contains(&byte);
            cases.push(judged("closed or not", record, refused_if(!inner, 12)));
        }
        cases.push(judged("closed", closed, None));
    }
    cases
}

/// Two rules broken at once: the earlier one decides.
fn orders() -> Vec<Case> {
    let bad = |type_byte, flags, body: &[u8]| Loose::new(type_byte, flags, Body(body.to_vec()));
    let mut cases = vec![
        judged("7 before 8", bad(WIRE, 3, &[]), Some(7)),
        judged("7 before 8", bad(SREF, 16, &[]), Some(7)),
        judged("8 before 9", bad(LIBRARY, 0, &[0; 32]), Some(8)),
        judged("8 before 9", bad(STRUCT, 0, &[0; 16]), Some(8)),
        judged("9 before 10", bad(LIBRARY, 0, &[0; 34]), Some(9)),
        judged("9 before 11", bad(STRUCT, 0, &[0; 20]), Some(9)),
        judged("10 before 11", bad(SREF, 2, &[0; 20]), Some(10)),
        judged(
            "8 before 10",
            bad(BOX, 0, &[[0xff; 8], [0; 8], [0xff; 8]].concat()[..20]),
            Some(8),
        ),
        judged(
            "8 before 12",
            bad(POLY, 0, &[0, 1, 2, 3, 4, 5, 6, 7, 8, 9, 10, 11]),
            Some(8),
        ),
    ];

    let mut library = plain(LIBRARY);
    library.body[..8].fill(0);
    library.body.extend([1, 1]);
    cases.push(judged("10 before 11", library, Some(10)));

    let in_wrong_place = |record: Loose| {
        let drawing = around(vec![record]);
        let at = drawing.offset_of(1);
        Case::new("6 before 7 and 8", drawing.bytes(), Some((6, at)))
    };
    cases.push(in_wrong_place(bad(WIRE, 3, &[])));
    cases.push(in_wrong_place(bad(SREF, 255, &[])));
    cases.push(in_wrong_place(bad(LIBRARY, 0, &[])));

    let mut cut = around(vec![]).bytes();
    let at = cut.len() - 4;
    cut[at..].copy_from_slice(&[0, 6, WIRE, 9]);
    cases.push(Case::new("4 before 6", cut.clone(), Some((4, at))));
    cut[at + 1] = 7;
    cases.push(Case::new("5 before 4", cut, Some((5, at))));

    let two_bad = around(vec![bad(STRUCT, 0, &[]), bad(STRUCT, 0, &[0; 20])]);
    let at = two_bad.offset_of(1);
    cases.push(Case::new(
        "the first bad record decides",
        two_bad.bytes(),
        Some((8, at)),
    ));

    let (long_end, index) = one_record(bad(ENDLIB, 0, &[0, 0]));
    let at = long_end.offset_of(index);
    let bytes = [long_end.bytes(), vec![1]].concat();
    cases.push(Case::new("8 before 13", bytes, Some((8, at))));
    cases
}
