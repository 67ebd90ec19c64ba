//! Files that are to be accepted.

use super::drawing::*;
use super::rng::Rng;
use super::values;

/// A random good drawing over all kinds, with unknown records strewn in.
pub fn valid(rng: &mut Rng) -> Drawing {
    let mut drawing = Drawing::default();
    push(rng, &mut drawing, LIBRARY);
    for _ in 0..rng.below(4) {
        push_cell(rng, &mut drawing);
    }
    drawing.push(random_record(rng, ENDLIB));
    drawing
}

fn push_cell(rng: &mut Rng, drawing: &mut Drawing) {
    push(rng, drawing, STRUCT);
    for _ in 0..rng.below(3) {
        push(rng, drawing, CPRPTY);
    }
    let mut layer_open = false;
    for _ in 0..rng.below(8) {
        if rng.one_in(3) {
            push(rng, drawing, LAYER);
            layer_open = true;
        } else {
            push_object(rng, drawing, layer_open);
        }
    }
}

/// An object, often with a property run before it.
fn push_object(rng: &mut Rng, drawing: &mut Drawing, layer_open: bool) {
    let properties = rng.pick(&[0, 0, 1, 2, 3]);
    for _ in 0..properties {
        push(rng, drawing, PROPERTY);
    }
    let type_byte = if layer_open {
        rng.between(usize::from(BOX), usize::from(SREF)) as u8
    } else {
        SREF
    };
    push(rng, drawing, type_byte);
}

/// Pushes a random record of this type, and at times unknown ones after it.
fn push(rng: &mut Rng, drawing: &mut Drawing, type_byte: u8) {
    drawing.push(random_record(rng, type_byte));
    while rng.one_in(6) {
        drawing.push(unknown_record(rng));
    }
}

/// An unknown record with any flags and any body of even length.
pub fn unknown_record(rng: &mut Rng) -> Loose {
    let type_byte = rng.between(usize::from(UNKNOWN), 255) as u8;
    let length = 2 * few_or_most(rng, &[0, 0, 1, 2, 3, 20], LONGEST_BODY / 2);
    let body: Vec<u8> = (0..length).map(|_| rng.byte()).collect();
    Loose::new(type_byte, rng.byte(), Body(body))
}

/// One of the few, or, once in a while, the most there can be.
fn few_or_most(rng: &mut Rng, few: &[usize], most: usize) -> usize {
    if rng.one_in(400) {
        most
    } else {
        rng.pick(few)
    }
}

/// A good record of a known type with random flags and fields.
pub fn random_record(rng: &mut Rng, type_byte: u8) -> Loose {
    let flags = match type_byte {
        WIRE => rng.below(3) as u8,
        SREF => rng.below(16) as u8,
        _ => rng.byte(),
    };
    let body = match type_byte {
        LIBRARY => Body::new()
            .bytes(&values::positive_real(rng))
            .bytes(&values::positive_real(rng))
            .bytes(&random_dates(rng))
            .string(&values::text(rng)),
        STRUCT => Body::new()
            .bytes(&random_dates(rng))
            .string(&values::text(rng)),
        CPRPTY | PROPERTY => Body::new()
            .longs(&[values::long(rng)])
            .string(&values::text(rng)),
        LAYER => {
            let numbers = Body::new().shorts(&[values::short(rng), values::short(rng)]);
            if rng.one_in(3) {
                numbers
            } else {
                numbers.string(&values::text(rng))
            }
        }
        BOX => {
            let count = few_or_most(rng, &[1, 1, 2, 3, 7], 4_095);
            Body::new().longs(&values::box_sides(rng, count))
        }
        POLY => {
            let count = few_or_most(rng, &[4, 4, 5, 6, 9], 8_191);
            Body::new().longs(&values::closed_points(rng, count))
        }
        WIRE => {
            let pairs = few_or_most(rng, &[1, 1, 2, 3, 8], 8_190);
            Body::new().longs(&values::longs(rng, 1 + 2 * pairs))
        }
        TEXT => Body::new()
            .longs(&values::longs(rng, 3))
            .string(&values::text(rng)),
        SREF => random_sref_body(rng, flags).string(&values::text(rng)),
        _ => Body::new(),
    };
    Loose::new(type_byte, flags, body)
}

fn random_dates(rng: &mut Rng) -> Vec<u8> {
    let first = values::date_bytes(values::date(rng));
    let second = values::date_bytes(values::date(rng));
    [first, second].concat()
}

/// The fields the flags call for, without the name.
pub fn random_sref_body(rng: &mut Rng, flags: u8) -> Body {
    let mut body = Body::new().longs(&values::longs(rng, 2));
    if flags & 1 != 0 {
        body = body.bytes(&values::real(rng));
    }
    if flags & 2 != 0 {
        body = body.bytes(&values::positive_real(rng));
    }
    if flags & 8 != 0 {
        body = body
            .longs(&[values::count(rng), values::count(rng)])
            .longs(&values::longs(rng, 4));
    }
    body
}

/// Good drawings that go to the limits of the format, each with its point.
pub fn showcase() -> Vec<(&'static str, Drawing)> {
    let mut rng = Rng::new(1);
    let mut drawings = vec![
        ("no cells", around(vec![])),
        ("one empty cell", around(vec![plain(STRUCT)])),
        (
            "two cells of one name",
            around(vec![plain(STRUCT), plain(STRUCT)]),
        ),
        (
            "the drawing of the lister",
            around(vec![plain(STRUCT), plain(LAYER), plain(BOX)]),
        ),
        (
            "empty names",
            around(vec![
                Loose::new(
                    STRUCT,
                    0,
                    Body::new().bytes(&SOME_DATE).bytes(&SOME_DATE).string(b""),
                ),
                Loose::new(LAYER, 0, Body::new().shorts(&[1, 2]).string(b"")),
            ]),
        ),
        ("all SREF flag sets", all_srefs(&mut rng)),
        ("all TEXT flags", all_texts()),
        ("all flags where they mean nothing", all_meaningless_flags()),
        ("all unknown types", all_unknowns()),
        (
            "a long property run",
            in_cell(
                std::iter::repeat_n(plain(PROPERTY), 300)
                    .chain([plain(BOX)])
                    .collect(),
            ),
        ),
        (
            "the longest unknown record",
            around(vec![Loose::new(255, 9, Body(vec![0; LONGEST_BODY]))]),
        ),
        (
            "4,095 boxes",
            in_cell(vec![Loose::new(
                BOX,
                0,
                Body::new().longs(&values::box_sides(&mut rng, 4_095)),
            )]),
        ),
        (
            "a polygon of 8,191 pairs",
            in_cell(vec![Loose::new(
                POLY,
                0,
                Body::new().longs(&values::closed_points(&mut rng, 8_191)),
            )]),
        ),
        (
            "a wire of 8,190 pairs",
            in_cell(vec![Loose::new(
                WIRE,
                2,
                Body::new().longs(&values::longs(&mut rng, 1 + 2 * 8_190)),
            )]),
        ),
    ];
    for (what, type_byte) in [
        ("a LIBRARY of 65,534 bytes", LIBRARY),
        ("a STRUCT of 65,534 bytes", STRUCT),
        ("a CPRPTY of 65,534 bytes", CPRPTY),
        ("a PROPERTY of 65,534 bytes", PROPERTY),
        ("a LAYER of 65,534 bytes", LAYER),
        ("a TEXT of 65,534 bytes", TEXT),
        ("an SREF of 65,534 bytes", SREF),
    ] {
        for spare in [1, 2] {
            drawings.push((what, longest(type_byte, spare)));
        }
    }
    drawings
}

/// LIBRARY, these records, ENDLIB.
pub fn around(records: Vec<Loose>) -> Drawing {
    let mut all = vec![plain(LIBRARY)];
    all.extend(records);
    all.push(plain(ENDLIB));
    Drawing::of(all)
}

/// The records inside a cell with an open layer.
pub fn in_cell(records: Vec<Loose>) -> Drawing {
    let mut all = vec![plain(STRUCT), plain(LAYER)];
    all.extend(records);
    around(all)
}

/// A drawing whose record of this type is as long as can be; the string ends
/// with `spare` zero bytes.
fn longest(type_byte: u8, spare: usize) -> Drawing {
    let mut record = plain(type_byte);
    let string_at = string_offset(type_byte, record.flags);
    record.body.truncate(string_at);
    record.body.resize(LONGEST_BODY - spare, b'x');
    record.body.resize(LONGEST_BODY, 0);
    let (drawing, _) = one_record(record);
    drawing
}

/// Where the string of a body begins.
pub fn string_offset(type_byte: u8, flags: u8) -> usize {
    match type_byte {
        LIBRARY => 32,
        STRUCT => 16,
        CPRPTY | PROPERTY | LAYER => 4,
        TEXT => 12,
        SREF => {
            let optional = |flag: u8, size: usize| if flags & flag != 0 { size } else { 0 };
            8 + optional(1, 8) + optional(2, 8) + optional(8, 24)
        }
        _ => unreachable!("no string in type {type_byte}"),
    }
}

/// A drawing in which this record is allowed, and its index there.
pub fn one_record(record: Loose) -> (Drawing, usize) {
    let before: &[u8] = match record.type_byte {
        LIBRARY => &[],
        STRUCT | ENDLIB => &[LIBRARY],
        BOX | POLY | WIRE | TEXT => &[LIBRARY, STRUCT, LAYER],
        CPRPTY | PROPERTY | LAYER | SREF => &[LIBRARY, STRUCT],
        _ => &[LIBRARY],
    };
    let after: &[u8] = match record.type_byte {
        ENDLIB => &[],
        PROPERTY => &[SREF, ENDLIB],
        _ => &[ENDLIB],
    };
    let mut drawing = Drawing::default();
    drawing.records.extend(before.iter().map(|&t| plain(t)));
    let index = drawing.records.len();
    drawing.push(record);
    drawing.records.extend(after.iter().map(|&t| plain(t)));
    (drawing, index)
}

fn all_srefs(rng: &mut Rng) -> Drawing {
    let srefs =
        (0..16).map(|flags| Loose::new(SREF, flags, random_sref_body(rng, flags).string(b"a")));
    let mut records = vec![plain(STRUCT)];
    records.extend(srefs);
    around(records)
}

fn all_texts() -> Drawing {
    let texts = (0..=255).map(|flags| Loose {
        flags,
        ..plain(TEXT)
    });
    in_cell(texts.collect())
}

fn all_meaningless_flags() -> Drawing {
    let mut records = Vec::new();
    for flags in 0..=255 {
        for type_byte in [STRUCT, CPRPTY, LAYER, PROPERTY, BOX, PROPERTY, POLY] {
            records.push(Loose {
                flags,
                ..plain(type_byte)
            });
        }
    }
    let mut drawing = around(records);
    for end in [0, drawing.records.len() - 1] {
        drawing.records[end].flags = 0xa5;
    }
    drawing
}

fn all_unknowns() -> Drawing {
    let mut records = vec![plain(STRUCT), plain(LAYER), plain(PROPERTY)];
    records.extend((UNKNOWN..=255).map(plain));
    records.push(plain(BOX));
    around(records)
}
