//! Writer calls aimed at one rule each: just allowed and just refused.

use super::calls::Call;
use super::drawing::*;
use super::valid::string_offset;
use super::values;
use crate::reference::{DataType, Date, LayerNo, Placement, Sides};

/// A call that must be refused after some good ones.
#[derive(Clone, Debug)]
pub struct BadCall {
    pub what: &'static str,
    pub before: Vec<Call>,
    pub call: Call,
    pub number: u8,
    /// How far after the current place the named one lies; none if no place
    /// is named.
    pub named: Option<usize>,
}

/// Every refusal of the writer but 14 and 16, at its boundary.
pub fn bad_calls() -> Vec<BadCall> {
    let mut calls = Vec::new();
    calls.extend(bad_sequences());
    calls.extend(bad_flags());
    calls.extend(bad_lists());
    calls.extend(bad_dates());
    calls.extend(bad_numbers());
    calls.extend(bad_texts());
    calls.extend(long_texts());
    calls.extend(bad_orders());
    calls
}

/// Good sequences with the longest record of each kind.
pub fn longest_calls() -> Vec<Vec<Call>> {
    let boxes = Call::Boxes {
        sides: vec![-1; 4 * 4_095],
    };
    let poly = Call::Poly {
        points: vec![-1; 2 * 8_191],
    };
    let wire = Call::Wire {
        style: Some(2),
        width: -1,
        points: vec![-1; 2 * 8_190],
    };
    let mut sequences = vec![
        sequence_with(BOX, boxes),
        sequence_with(POLY, poly),
        sequence_with(WIRE, wire),
    ];
    for type_byte in WITH_TEXT {
        let room = LONGEST_BODY - string_offset(type_byte, 0);
        // One zero byte after the odd text, two after the even one.
        for length in [room - 1, room - 2] {
            let call = with_text(type_byte, &vec![0xff; length]);
            sequences.push(sequence_with(type_byte, call));
        }
    }
    sequences
}

/// A whole good sequence around a call of this type.
fn sequence_with(type_byte: u8, call: Call) -> Vec<Call> {
    let mut calls = calls_before(type_byte);
    calls.push(call);
    if type_byte == PROPERTY {
        calls.push(plain_call(SREF));
    }
    calls.push(Call::Endlib);
    calls
}

/// A plain good call of this type.
fn plain_call(type_byte: u8) -> Call {
    let dates = [PLAIN_DATE; 2];
    match type_byte {
        LIBRARY => Call::Library {
            version: 0,
            units: [THOUSANDTH, ONE],
            dates,
            name: b"m".to_vec(),
        },
        STRUCT => Call::Struct {
            dates,
            name: b"a".to_vec(),
        },
        CPRPTY => Call::Cprpty {
            number: 7,
            string: b"p".to_vec(),
        },
        PROPERTY => Call::Property {
            number: 7,
            string: b"p".to_vec(),
        },
        LAYER => Call::Layer {
            number: LayerNo(1),
            data_type: DataType(0),
            name: None,
        },
        BOX => Call::Boxes {
            sides: vec![0, 0, 1, 1],
        },
        POLY => Call::Poly {
            points: vec![0, 0, 1, 0, 1, 1, 0, 0],
        },
        WIRE => Call::Wire {
            style: None,
            width: 2,
            points: vec![0, 0, 9, 9],
        },
        TEXT => Call::Text {
            flags: 0,
            place: [1, 2],
            width: 3,
            label: b"label".to_vec(),
        },
        SREF => Call::Sref {
            placement: PLAIN_PLACEMENT,
            name: b"a".to_vec(),
        },
        _ => Call::Endlib,
    }
}

const PLAIN_DATE: Date = Date {
    year: 2025,
    month: 2,
    day: 6,
    hour: 14,
    minute: 9,
    second: 45,
};

const PLAIN_PLACEMENT: Placement = Placement {
    flags: 0,
    x: 1,
    y: 2,
    angle: ONE,
    magnif: ONE,
    cols: 1,
    rows: 1,
    points: [1, 2, 3, 4],
};

const SOME_SIDES: Sides = Sides {
    left: 0,
    bottom: 1,
    right: 20,
    top: 30,
};

fn plain_calls(types: &[u8]) -> Vec<Call> {
    types.iter().map(|&t| plain_call(t)).collect()
}

/// The good calls that make room for one of this type.
fn calls_before(type_byte: u8) -> Vec<Call> {
    plain_calls(match type_byte {
        LIBRARY => &[],
        STRUCT | ENDLIB => &[LIBRARY],
        BOX | POLY | WIRE | TEXT => &[LIBRARY, STRUCT, LAYER],
        _ => &[LIBRARY, STRUCT],
    })
}

/// A bad call in its right context, refused at its own place or, from 14 on,
/// nowhere.
fn bad(what: &'static str, type_byte: u8, call: Call, number: u8) -> BadCall {
    BadCall {
        what,
        before: calls_before(type_byte),
        call,
        number,
        named: (number < 14).then_some(0),
    }
}

fn bad_sequences() -> Vec<BadCall> {
    let contexts: &[(&[u8], &[u8])] = &[
        (&[], &[0]),
        (&[0], &[1, 10]),
        (&[0, 1], &[1, 2, 3, 4, 9, 10]),
        (&[0, 1, 2], &[1, 2, 3, 4, 9, 10]),
        (&[0, 1, 4], &[1, 3, 4, 5, 6, 7, 8, 9, 10]),
        (&[0, 1, 9], &[1, 3, 4, 9, 10]),
        (&[0, 1, 3], &[3, 9]),
        (&[0, 1, 4, 3], &[3, 5, 6, 7, 8, 9]),
        (&[0, 1, 4, 3, 5], &[1, 3, 4, 5, 6, 7, 8, 9, 10]),
        (&[0, 1, 4, 5, 1], &[1, 2, 3, 4, 9, 10]),
        (&[0, 10], &[]),
        (&[0, 1, 4, 5, 10], &[]),
    ];
    let mut calls = Vec::new();
    for (before, allowed) in contexts {
        let refused = |call| BadCall {
            what: "record not allowed here",
            before: plain_calls(before),
            call,
            number: 6,
            named: Some(0),
        };
        let not_allowed = (LIBRARY..=ENDLIB).filter(|t| !allowed.contains(t));
        calls.extend(not_allowed.map(|t| refused(plain_call(t))));
        // The makers begin with a LAYER.
        if !allowed.contains(&LAYER) {
            calls.push(refused(Call::TestCard(SOME_SIDES)));
            calls.push(refused(Call::CaptionFrame(SOME_SIDES, b"x\0".to_vec())));
        }
    }
    calls
}

fn bad_flags() -> Vec<BadCall> {
    let wires = (3..=255).map(|style| {
        let call = Call::Wire {
            style: Some(style),
            width: 0,
            points: vec![0; 2],
        };
        bad("end style", WIRE, call, 7)
    });
    let srefs = (16..=255).map(|flags| {
        let placement = Placement {
            flags,
            ..PLAIN_PLACEMENT
        };
        let name = vec![];
        bad("SREF flags", SREF, Call::Sref { placement, name }, 7)
    });
    wires.chain(srefs).collect()
}

/// Too few or a broken list is 8, too many is 15.
fn bad_lists() -> Vec<BadCall> {
    let boxes = |count: usize| Call::Boxes {
        sides: vec![0; count],
    };
    let poly = |count: usize| Call::Poly {
        points: vec![0; count],
    };
    let wire = |count: usize| Call::Wire {
        style: None,
        width: 1,
        points: vec![0; count],
    };
    let mut calls = Vec::new();
    for (count, number) in [
        (0, 8),
        (1, 8),
        (3, 8),
        (5, 8),
        (6, 8),
        (7, 8),
        (4 * 4_095 + 1, 8),
    ] {
        calls.push(bad("list of boxes", BOX, boxes(count), number));
    }
    calls.push(bad("4,096 boxes", BOX, boxes(4 * 4_096), 15));
    calls.push(bad("5,000 boxes", BOX, boxes(4 * 5_000), 15));
    calls.push(bad("4,096 boxes and a half", BOX, boxes(4 * 4_096 + 2), 8));
    for count in [0, 1, 2, 6, 7, 9, 2 * 8_191 + 1] {
        calls.push(bad("list of polygon points", POLY, poly(count), 8));
    }
    calls.push(bad("8,192 pairs", POLY, poly(2 * 8_192), 15));
    calls.push(bad("8,192 pairs and a half", POLY, poly(2 * 8_192 + 1), 8));
    for count in [0, 1, 3, 5, 2 * 8_190 + 1] {
        calls.push(bad("list of wire points", WIRE, wire(count), 8));
    }
    calls.push(bad("8,191 pairs", WIRE, wire(2 * 8_191), 15));
    calls.push(bad("8,191 pairs and a half", WIRE, wire(2 * 8_191 + 1), 8));
    calls
}

fn bad_dates() -> Vec<BadCall> {
    let good = PLAIN_DATE;
    let dates = [
        Date { month: 0, ..good },
        Date { month: 13, ..good },
        Date { day: 0, ..good },
        Date { day: 32, ..good },
        Date { hour: 24, ..good },
        Date { minute: 60, ..good },
        Date { second: 61, ..good },
        Date {
            second: 255,
            ..good
        },
    ];
    let mut calls = Vec::new();
    for date in dates {
        for dates in [[date, good], [good, date]] {
            let library = Call::Library {
                version: 0,
                units: [ONE; 2],
                dates,
                name: vec![],
            };
            calls.push(bad("date", LIBRARY, library, 9));
            let name = vec![];
            calls.push(bad("date", STRUCT, Call::Struct { dates, name }, 9));
        }
    }
    calls
}

fn bad_numbers() -> Vec<BadCall> {
    let not_positive = [
        [0; 8],
        values::real_bytes(true, 0, 0),
        values::real_bytes(false, 127, 0),
        values::real_bytes(true, 65, 1 << 52),
        values::real_bytes(true, 0, 1),
    ];
    let mut calls = Vec::new();
    for real in not_positive {
        for units in [[real, ONE], [ONE, real]] {
            let library = Call::Library {
                version: 0,
                units,
                dates: [PLAIN_DATE; 2],
                name: vec![],
            };
            calls.push(bad("scale", LIBRARY, library, 10));
        }
        for flags in [2, 3, 6, 10, 15] {
            let placement = Placement {
                flags,
                magnif: real,
                ..PLAIN_PLACEMENT
            };
            let name = vec![];
            calls.push(bad("magnif", SREF, Call::Sref { placement, name }, 10));
        }
    }
    for count in [0, -1, i32::MIN] {
        for (cols, rows) in [(count, 1), (1, count)] {
            let placement = Placement {
                flags: 8,
                cols,
                rows,
                ..PLAIN_PLACEMENT
            };
            let name = vec![];
            calls.push(bad(
                "cols or rows",
                SREF,
                Call::Sref { placement, name },
                10,
            ));
        }
    }
    for sides in [
        [1, 0, 0, 0],
        [0, 1, 0, 0],
        [0, 0, 0, -1],
        [i32::MAX, 0, i32::MIN, 0],
    ] {
        let sides = [[0; 4], sides].concat();
        calls.push(bad("reversed box", BOX, Call::Boxes { sides }, 10));
    }
    for last in [[1, 0], [0, 1], [i32::MIN, 0]] {
        let points = [&[0, 0, 5, 5, 6, 6], &last[..]].concat();
        calls.push(bad("open polygon", POLY, Call::Poly { points }, 12));
    }
    calls
}

/// A call whose text is this one.
fn with_text(type_byte: u8, text: &[u8]) -> Call {
    let mut call = plain_call(type_byte);
    match &mut call {
        Call::Layer { name, .. } => *name = Some(text.to_vec()),
        Call::Library { name: given, .. }
        | Call::Struct { name: given, .. }
        | Call::Cprpty { string: given, .. }
        | Call::Property { string: given, .. }
        | Call::Text { label: given, .. }
        | Call::Sref { name: given, .. } => *given = text.to_vec(),
        _ => unreachable!("no text in type {type_byte}"),
    }
    call
}

const WITH_TEXT: [u8; 7] = [LIBRARY, STRUCT, CPRPTY, PROPERTY, LAYER, TEXT, SREF];

fn bad_texts() -> Vec<BadCall> {
    let mut calls = Vec::new();
    for text in [&b"\0"[..], b"\0\0", b"a\0", b"\0a", b"a\0b", b"ab\0\0"] {
        for type_byte in WITH_TEXT {
            let call = with_text(type_byte, text);
            calls.push(bad("zero byte in a text", type_byte, call, 11));
        }
        // The TEXT of the frame would begin after the LAYER and the wire.
        calls.push(BadCall {
            what: "zero byte in a caption",
            before: plain_calls(&[LIBRARY, STRUCT]),
            call: Call::CaptionFrame(SOME_SIDES, text.to_vec()),
            number: 11,
            named: Some(8 + 48),
        });
    }
    calls
}

/// The first text that does not fit, which is even if the room is.
fn long_texts() -> Vec<BadCall> {
    let mut calls = Vec::new();
    for type_byte in WITH_TEXT {
        let room = LONGEST_BODY - string_offset(type_byte, 0);
        for length in [room, room + 1, room + 1_000] {
            let call = with_text(type_byte, &vec![b'x'; length]);
            calls.push(bad("text too long", type_byte, call, 15));
        }
    }
    let label = vec![b'x'; LONGEST_BODY - 12];
    calls.push(BadCall {
        what: "caption too long",
        before: plain_calls(&[LIBRARY, STRUCT]),
        call: Call::CaptionFrame(SOME_SIDES, label),
        number: 15,
        named: None,
    });
    calls
}

/// Two rules broken at once: the earlier one decides.
fn bad_orders() -> Vec<BadCall> {
    let wire = Call::Wire {
        style: Some(3),
        width: 0,
        points: vec![],
    };
    let late_wire = BadCall {
        what: "6 before 7",
        before: plain_calls(&[LIBRARY]),
        call: wire.clone(),
        number: 6,
        named: Some(0),
    };
    let mut reversed = vec![0; 4 * 4_096];
    reversed[0] = 1;
    let mut open = vec![0; 2 * 8_192];
    open[0] = 1;
    let mut long_zero = vec![b'x'; 70_000];
    long_zero[69_999] = 0;
    let library = Call::Library {
        version: 0,
        units: [[0; 8]; 2],
        dates: [Date {
            second: 61,
            ..PLAIN_DATE
        }; 2],
        name: vec![0],
    };
    let scaled = Call::Library {
        version: 0,
        units: [[0; 8]; 2],
        dates: [PLAIN_DATE; 2],
        name: vec![0],
    };
    vec![
        late_wire,
        bad("7 before 8", WIRE, wire, 7),
        bad("10 before 15", BOX, Call::Boxes { sides: reversed }, 10),
        bad("12 before 15", POLY, Call::Poly { points: open }, 12),
        bad("11 before 15", TEXT, with_text(TEXT, &long_zero), 11),
        bad("9 before 10", LIBRARY, library, 9),
        bad("10 before 11", LIBRARY, scaled, 10),
    ]
}
