//! Random writer calls, and the bytes the good ones must leave.

use super::drawing::*;
use super::rng::Rng;
use super::values;
use crate::reference::{DataType, Date, LayerNo, Placement, Sides};

/// One call of the writer or of a maker, with all it is given.
#[derive(Clone, Debug, PartialEq, Eq)]
pub enum Call {
    Library {
        version: u8,
        units: [[u8; 8]; 2],
        dates: [Date; 2],
        name: Vec<u8>,
    },
    Struct {
        dates: [Date; 2],
        name: Vec<u8>,
    },
    Cprpty {
        number: i32,
        string: Vec<u8>,
    },
    Property {
        number: i32,
        string: Vec<u8>,
    },
    Layer {
        number: LayerNo,
        data_type: DataType,
        name: Option<Vec<u8>>,
    },
    Boxes {
        sides: Vec<i32>,
    },
    Poly {
        points: Vec<i32>,
    },
    Wire {
        style: Option<u8>,
        width: i32,
        points: Vec<i32>,
    },
    Text {
        flags: u8,
        place: [i32; 2],
        width: i32,
        label: Vec<u8>,
    },
    Sref {
        placement: Placement,
        name: Vec<u8>,
    },
    Endlib,
    TestCard(Sides),
    CaptionFrame(Sides, Vec<u8>),
}

impl Call {
    /// The records this call writes if it is good, in normal form.
    pub fn records(&self) -> Vec<Loose> {
        let one = |type_byte, flags, body| vec![Loose::new(type_byte, flags, body)];
        match self {
            Call::Library {
                version,
                units: [munit, uunit],
                dates,
                name,
            } => {
                let units = Body::new()
                    .bytes(&normal_real(*munit))
                    .bytes(&normal_real(*uunit));
                one(LIBRARY, *version, push_dates(units, *dates).string(name))
            }
            Call::Struct { dates, name } => {
                one(STRUCT, 0, push_dates(Body::new(), *dates).string(name))
            }
            Call::Cprpty { number, string } => {
                one(CPRPTY, 0, Body::new().longs(&[*number]).string(string))
            }
            Call::Property { number, string } => {
                one(PROPERTY, 0, Body::new().longs(&[*number]).string(string))
            }
            Call::Layer {
                number,
                data_type,
                name,
            } => {
                let numbers = Body::new().shorts(&[number.0, data_type.0]);
                let body = match name {
                    Some(name) => numbers.string(name),
                    None => numbers,
                };
                one(LAYER, 0, body)
            }
            Call::Boxes { sides } => one(BOX, 0, Body::new().longs(sides)),
            Call::Poly { points } => one(POLY, 0, Body::new().longs(points)),
            Call::Wire {
                style,
                width,
                points,
            } => one(
                WIRE,
                style.unwrap_or(2),
                Body::new().longs(&[*width]).longs(points),
            ),
            Call::Text {
                flags,
                place,
                width,
                label,
            } => {
                let body = Body::new().longs(place).longs(&[*width]).string(label);
                one(TEXT, normal_text_flags(*flags), body)
            }
            Call::Sref { placement, name } => {
                one(SREF, placement.flags, sref_fields(placement).string(name))
            }
            Call::Endlib => one(ENDLIB, 0, Body::new()),
            Call::TestCard(sides) => frame(*sides),
            Call::CaptionFrame(sides, label) => {
                let mut records = frame(*sides);
                let body = Body::new().longs(&[sides.left, sides.bottom, 2]);
                records.push(Loose::new(TEXT, 0, body.string(label)));
                records
            }
        }
    }

    /// How many bytes a good call takes.
    pub fn size(&self) -> usize {
        self.records().iter().map(Loose::size).sum()
    }
}

fn push_dates(body: Body, [created, modified]: [Date; 2]) -> Body {
    body.bytes(&values::date_bytes(created))
        .bytes(&values::date_bytes(modified))
}

fn sref_fields(placement: &Placement) -> Body {
    let mut body = Body::new().longs(&[placement.x, placement.y]);
    if placement.flags & 1 != 0 {
        body = body.bytes(&normal_real(placement.angle));
    }
    if placement.flags & 2 != 0 {
        body = body.bytes(&normal_real(placement.magnif));
    }
    if placement.flags & 8 != 0 {
        body = body
            .longs(&[placement.cols, placement.rows])
            .longs(&placement.points);
    }
    body
}

fn frame(sides: Sides) -> Vec<Loose> {
    let Sides {
        left,
        bottom,
        right,
        top,
    } = sides;
    let wire = [
        2, left, bottom, right, bottom, right, top, left, top, left, bottom,
    ];
    vec![
        Loose::new(LAYER, 0, Body::new().shorts(&[1, 0])),
        Loose::new(WIRE, 0, Body::new().longs(&wire)),
    ]
}

fn normal_text_flags(flags: u8) -> u8 {
    let horizontal = [0x00, 0x10, 0x20, 0x00][usize::from(flags >> 4 & 3)];
    let vertical = [0x00, 0x40, 0x80, 0x00][usize::from(flags >> 6)];
    flags & 0x0f | horizontal | vertical
}

/// The normal real, found digit by digit.
fn normal_real(real: [u8; 8]) -> [u8; 8] {
    let [first, digits @ ..] = real;
    if digits == [0; 7] {
        return [0; 8];
    }
    let sign = first & 0x80;
    let mut e = first & 0x7f;
    let mut m = u64::from_be_bytes(
        [&[0], &digits[..]]
            .concat()
            .try_into()
            .expect("eight bytes"),
    );
    while m < 1 << 52 && e > 0 {
        m *= 16;
        e -= 1;
    }
    let mut normal = m.to_be_bytes();
    normal[0] = sign | e;
    normal
}

/// A good sequence of calls from LIBRARY to ENDLIB.
pub fn good_calls(rng: &mut Rng) -> Vec<Call> {
    let mut calls = vec![random_call(rng, LIBRARY)];
    for _ in 0..rng.below(4) {
        push_cell(rng, &mut calls);
    }
    calls.push(Call::Endlib);
    calls
}

fn push_cell(rng: &mut Rng, calls: &mut Vec<Call>) {
    calls.push(random_call(rng, STRUCT));
    for _ in 0..rng.below(3) {
        calls.push(random_call(rng, CPRPTY));
    }
    let mut layer_open = false;
    for _ in 0..rng.below(8) {
        match rng.below(6) {
            0 | 1 => {
                calls.push(random_call(rng, LAYER));
                layer_open = true;
            }
            2 => {
                calls.push(random_maker(rng));
                layer_open = true;
            }
            _ => {
                for _ in 0..rng.pick(&[0, 0, 1, 2]) {
                    calls.push(random_call(rng, PROPERTY));
                }
                let first = if layer_open { BOX } else { SREF };
                let object = rng.between(usize::from(first), usize::from(SREF));
                calls.push(random_call(rng, object as u8));
            }
        }
    }
}

fn random_maker(rng: &mut Rng) -> Call {
    let sides = Sides {
        left: values::long(rng),
        bottom: values::long(rng),
        right: values::long(rng),
        top: values::long(rng),
    };
    if rng.one_in(2) {
        Call::TestCard(sides)
    } else {
        Call::CaptionFrame(sides, values::text(rng))
    }
}

/// A call for a good record of this type.
pub fn random_call(rng: &mut Rng, type_byte: u8) -> Call {
    match type_byte {
        LIBRARY => Call::Library {
            version: rng.byte(),
            units: [values::positive_real(rng), values::positive_real(rng)],
            dates: [values::date(rng), values::date(rng)],
            name: values::text(rng),
        },
        STRUCT => Call::Struct {
            dates: [values::date(rng), values::date(rng)],
            name: values::text(rng),
        },
        CPRPTY => Call::Cprpty {
            number: values::long(rng),
            string: values::text(rng),
        },
        PROPERTY => Call::Property {
            number: values::long(rng),
            string: values::text(rng),
        },
        LAYER => Call::Layer {
            number: LayerNo(values::short(rng)),
            data_type: DataType(values::short(rng)),
            name: (!rng.one_in(3)).then(|| values::text(rng)),
        },
        BOX => {
            let count = rng.pick(&[1, 2, 5]);
            Call::Boxes {
                sides: values::box_sides(rng, count),
            }
        }
        POLY => {
            let count = rng.pick(&[4, 5, 8]);
            Call::Poly {
                points: values::closed_points(rng, count),
            }
        }
        WIRE => {
            let pairs = rng.pick(&[1, 2, 5]);
            Call::Wire {
                style: rng.pick(&[None, Some(0), Some(1), Some(2)]),
                width: values::long(rng),
                points: values::longs(rng, 2 * pairs),
            }
        }
        TEXT => Call::Text {
            flags: rng.byte(),
            place: [values::long(rng), values::long(rng)],
            width: values::long(rng),
            label: values::text(rng),
        },
        SREF => Call::Sref {
            placement: random_placement(rng),
            name: values::text(rng),
        },
        _ => Call::Endlib,
    }
}

/// Good where its flags are on; anything where they are off.
fn random_placement(rng: &mut Rng) -> Placement {
    let flags = rng.below(16) as u8;
    let has = |flag: u8| flags & flag != 0;
    Placement {
        flags,
        x: values::long(rng),
        y: values::long(rng),
        angle: values::real(rng),
        magnif: if has(2) {
            values::positive_real(rng)
        } else {
            values::real(rng)
        },
        cols: if has(8) {
            values::count(rng)
        } else {
            values::long(rng)
        },
        rows: if has(8) {
            values::count(rng)
        } else {
            values::long(rng)
        },
        points: std::array::from_fn(|_| values::long(rng)),
    }
}

/// Calls in no sensible order, some spoiled: what each is answered is for the
/// two writers to agree on.
pub fn any_calls(rng: &mut Rng) -> Vec<Call> {
    let mut calls = Vec::new();
    if !rng.one_in(4) {
        calls.push(random_call(rng, LIBRARY));
    }
    if !rng.one_in(4) {
        calls.push(random_call(rng, STRUCT));
    }
    for _ in 0..rng.between(1, 12) {
        let mut call = if rng.one_in(8) {
            random_maker(rng)
        } else {
            let types = [0, 1, 2, 2, 3, 3, 4, 4, 5, 6, 7, 8, 9, 9, 10];
            let type_byte = rng.pick(&types);
            random_call(rng, type_byte)
        };
        if rng.one_in(4) {
            spoil(rng, &mut call);
        }
        calls.push(call);
    }
    calls
}

/// Breaks some rule, more often than not.
fn spoil(rng: &mut Rng, call: &mut Call) {
    match call {
        Call::Library { units, .. } if rng.one_in(3) => {
            let which = rng.below(2);
            units[which] = values::real(rng);
        }
        Call::Library { dates, .. } | Call::Struct { dates, .. } if rng.one_in(2) => {
            let which = rng.below(2);
            dates[which] = any_date(rng);
        }
        Call::Library { name: text, .. }
        | Call::Struct { name: text, .. }
        | Call::Cprpty { string: text, .. }
        | Call::Property { string: text, .. }
        | Call::Layer {
            name: Some(text), ..
        }
        | Call::Text { label: text, .. }
        | Call::CaptionFrame(_, text) => spoil_text(rng, text),
        Call::Boxes { sides } => spoil_list(rng, sides),
        Call::Poly { points } => spoil_list(rng, points),
        Call::Wire { style, points, .. } => {
            if rng.one_in(2) {
                *style = Some(rng.pick(&[2, 3, 4, 255]));
            } else {
                spoil_list(rng, points);
            }
        }
        Call::Sref { placement, name } => match rng.below(5) {
            0 => placement.flags = rng.byte(),
            1 => placement.magnif = values::real(rng),
            2 => placement.cols = rng.pick(&[0, -1, i32::MIN, 1]),
            3 => placement.rows = rng.pick(&[0, -1, i32::MIN, 1]),
            _ => spoil_text(rng, name),
        },
        Call::Layer { .. } | Call::Endlib | Call::TestCard(_) => {}
    }
}

fn any_date(rng: &mut Rng) -> Date {
    let mut near = |limits: &[u8]| rng.pick(limits);
    Date {
        year: -1,
        month: near(&[0, 1, 12, 13]),
        day: near(&[0, 1, 31, 32]),
        hour: near(&[0, 23, 24]),
        minute: near(&[0, 59, 60]),
        second: near(&[0, 60, 61]),
    }
}

fn spoil_text(rng: &mut Rng, text: &mut Vec<u8>) {
    match rng.below(3) {
        0 => text.resize(rng.between(65_490, 65_540), b'x'),
        _ => {
            let at = rng.below(text.len() + 1);
            text.insert(at, 0);
        }
    }
}

fn spoil_list(rng: &mut Rng, list: &mut Vec<i32>) {
    match rng.below(4) {
        0 => list.clear(),
        1 => list.truncate(list.len() - 1),
        2 => list.extend(std::iter::repeat_n(
            0,
            rng.pick(&[16_300, 16_380, 16_384, 16_400]),
        )),
        _ => list.reverse(),
    }
}
