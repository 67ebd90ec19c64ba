//! The files and the calls that are measured.

use cgx_harness::generate::drawing::*;
use cgx_harness::generate::valid::{random_record, unknown_record};
use cgx_harness::generate::{values, Call, Rng};
use cgx_harness::reference::Date;

type MakeRecord = fn(&mut Rng) -> Loose;

pub struct Mix {
    pub name: &'static str,
    pub bytes: Vec<u8>,
}

/// Files of about `size` bytes each, those whose names hold the word.
pub fn all(size: usize, word: &str) -> Vec<Mix> {
    let mut rng = Rng::new(2026);
    let kinds: [(&str, MakeRecord); 6] = [
        ("boxes, 4,095 a record", |rng| boxes(rng, 4_095)),
        ("texts, labels to 60,000 bytes", |rng| {
            let length = rng.between(2_000, 60_000);
            text(rng, length)
        }),
        ("texts, labels to 40 bytes", |rng| {
            let length = rng.between(4, 40);
            text(rng, length)
        }),
        ("small records", small),
        ("polygons, to 500 points", polygon),
        ("mixed", mixed),
    ];
    kinds
        .into_iter()
        .filter(|(name, _)| name.contains(word))
        .map(|(name, record)| Mix {
            name,
            bytes: file(&mut rng, size, record),
        })
        .collect()
}

/// LIBRARY, STRUCT, LAYER, as many records as fill the size, ENDLIB.
fn file(rng: &mut Rng, size: usize, record: MakeRecord) -> Vec<u8> {
    let mut bytes = b"cgx\0".to_vec();
    for type_byte in [LIBRARY, STRUCT, LAYER] {
        plain(type_byte).push_to(&mut bytes);
    }
    while bytes.len() < size {
        record(rng).push_to(&mut bytes);
    }
    // A property at the end of the mix still needs its object.
    plain(BOX).push_to(&mut bytes);
    plain(ENDLIB).push_to(&mut bytes);
    bytes
}

fn boxes(rng: &mut Rng, count: usize) -> Loose {
    Loose::new(BOX, 0, Body::new().longs(&values::box_sides(rng, count)))
}

fn text(rng: &mut Rng, length: usize) -> Loose {
    let label: Vec<u8> = (0..length).map(|_| rng.between(1, 255) as u8).collect();
    let body = Body::new().longs(&values::longs(rng, 3)).string(&label);
    Loose::new(TEXT, rng.byte(), body)
}

fn polygon(rng: &mut Rng) -> Loose {
    let count = rng.between(4, 500);
    Loose::new(
        POLY,
        0,
        Body::new().longs(&values::closed_points(rng, count)),
    )
}

/// One box, two points, a word: what most files consist of.
fn small(rng: &mut Rng) -> Loose {
    match rng.below(6) {
        0 => boxes(rng, 1),
        1 => Loose::new(WIRE, 1, Body::new().longs(&values::longs(rng, 5))),
        2 => text(rng, 6),
        3 => plain(POLY),
        4 => plain(PROPERTY),
        _ => random_record(rng, SREF),
    }
}

/// Records of all sizes that are allowed in a cell, unknown ones among them.
fn mixed(rng: &mut Rng) -> Loose {
    match rng.below(8) {
        0 => {
            let count = rng.between(1, 200);
            boxes(rng, count)
        }
        1 => {
            let length = rng.between(1, 300);
            text(rng, length)
        }
        2 => polygon(rng),
        3 => {
            let longs = 1 + 2 * rng.between(1, 100);
            Loose::new(WIRE, 2, Body::new().longs(&values::longs(rng, longs)))
        }
        4 => random_record(rng, SREF),
        5 => unknown_record(rng),
        _ => small(rng),
    }
}

/// The calls before those that are measured.
pub fn opening_calls() -> [Call; 3] {
    let dates = [Date {
        year: 2025,
        month: 2,
        day: 6,
        hour: 14,
        minute: 9,
        second: 45,
    }; 2];
    [
        Call::Library {
            version: 0,
            units: [THOUSANDTH, ONE],
            dates,
            name: b"m".to_vec(),
        },
        Call::Struct {
            dates,
            name: b"a".to_vec(),
        },
        Call::Layer {
            number: cgx_harness::reference::LayerNo(1),
            data_type: cgx_harness::reference::DataType(0),
            name: None,
        },
    ]
}

/// Calls that write about `size` bytes, those whose names hold the word.
pub fn writer_calls(size: usize, word: &str) -> Vec<(&'static str, Vec<Call>)> {
    let mut rng = Rng::new(2026);
    let boxes = |count: usize, rng: &mut Rng| Call::Boxes {
        sides: values::box_sides(rng, count),
    };
    let text = |length: usize, rng: &mut Rng| Call::Text {
        flags: 0x21,
        place: [1, 2],
        width: 3,
        label: (0..length).map(|_| rng.between(1, 255) as u8).collect(),
    };
    let mut fill = |make: &dyn Fn(&mut Rng) -> Call| {
        let first = make(&mut rng);
        let count = size / first.size();
        let mut calls = vec![first];
        calls.extend((1..count).map(|_| make(&mut rng)));
        calls
    };
    let mut workloads = vec![
        ("boxes, 4,095 a call", fill(&|rng| boxes(4_095, rng))),
        ("boxes, one a call", fill(&|rng| boxes(1, rng))),
        ("texts of 20,000 bytes", fill(&|rng| text(20_000, rng))),
        ("texts of 12 bytes", fill(&|rng| text(12, rng))),
    ];
    workloads.retain(|(name, _)| name.contains(word));
    workloads
}
