//! The structs of `cgx.h` as words of eight bytes, the low byte first, and what
//! each means in the words of the reference.
//!
//! A word that means nothing at all, such as a place with marks that no answer
//! has, is a panic: every word of an answer is looked at.

use crate::reference::{
    Array, DataType, Date, Fields, Kind, LayerNo, List, Place, Placement, Real, Run, Sides, Text,
    View,
};

pub type PlaceWords = [u64; 6];
pub type ViewWords = [u64; 14];

/// The words of a view before its fields.
pub const BEFORE_FIELDS: usize = 6;

// ---- places

const LIBRARY_SEEN: u64 = 1;
const FRESH: u64 = 2;
const ENDLIB_SEEN: u64 = 4;

/// The marks that say something; higher bits are not looked at.
pub const MARKS: u64 = LIBRARY_SEEN | FRESH | ENDLIB_SEEN;

/// Panics where C cannot say it: none is 0 there, and a run of none is no run.
pub fn of_place(place: Place) -> PlaceWords {
    let offset = |at: Option<usize>| {
        assert!(at != Some(0), "no record has offset 0");
        at.unwrap_or(0) as u64
    };
    let [first, count] = place.run.map_or([0, 0], |Run { first, count }| {
        assert!(count != 0, "a run of none is no run");
        [first as u64, count as u64]
    });
    let mark = |set: bool, mark: u64| if set { mark } else { 0 };
    [
        place.offset as u64,
        offset(place.cell),
        offset(place.layer),
        first,
        count,
        mark(place.library_seen, LIBRARY_SEEN)
            | mark(place.after_struct, FRESH)
            | mark(place.ended, ENDLIB_SEEN),
    ]
}

pub fn place([at, cell, layer, first, count, seen]: PlaceWords) -> Place {
    assert!(seen <= MARKS, "a place has marks that mean nothing");
    Place {
        offset: at as usize,
        library_seen: seen & LIBRARY_SEEN != 0,
        ended: seen & ENDLIB_SEEN != 0,
        cell: offset(cell),
        layer: offset(layer),
        run: run([first, count]),
        after_struct: seen & FRESH != 0,
    }
}

fn offset(word: u64) -> Option<usize> {
    (word != 0).then_some(word as usize)
}

fn run([first, count]: [u64; 2]) -> Option<Run> {
    assert!(count != 0 || first == 0, "no run has a first");
    (count != 0).then_some(Run {
        first: first as usize,
        count: count as usize,
    })
}

// ---- fields

fn low(word: u64) -> i32 {
    word as u32 as i32
}

fn high(word: u64) -> i32 {
    (word >> 32) as u32 as i32
}

fn pair(low: i32, high: i32) -> u64 {
    u64::from(low as u32) | u64::from(high as u32) << 32
}

/// The low half, where the high one is unused.
fn alone(word: u64) -> i32 {
    assert!(high(word) == 0, "an unused member is 0");
    low(word)
}

pub fn of_text(text: Text) -> [u64; 2] {
    [text.offset as u64, text.length as u64]
}

pub fn text([at, len]: [u64; 2]) -> Text {
    Text {
        offset: at as usize,
        length: len as usize,
    }
}

pub fn of_list(list: List) -> [u64; 2] {
    [list.first as u64, list.count as u64]
}

fn list([first, count]: [u64; 2]) -> List {
    List {
        first: first as usize,
        count: count as usize,
    }
}

pub fn point(word: u64) -> [i32; 2] {
    [low(word), high(word)]
}

pub fn sides([first, second]: [u64; 2]) -> [i32; 4] {
    [low(first), high(first), low(second), high(second)]
}

pub fn of_sides(sides: Sides) -> [u64; 2] {
    [pair(sides.left, sides.bottom), pair(sides.right, sides.top)]
}

pub fn of_layer(number: LayerNo, data_type: DataType) -> u32 {
    u32::from(number.0 as u16) | u32::from(data_type.0 as u16) << 16
}

/// The date with a last byte that is not looked at.
pub fn of_date(date: Date) -> u64 {
    let [high, low, rest @ .., _] = date.to_bytes();
    let [month, day, hour, minute, second] = rest;
    u64::from_le_bytes([low, high, month, day, hour, minute, second, 0xa5])
}

fn date(word: u64) -> Date {
    let [low, high, month, day, hour, minute, second, unused] = word.to_le_bytes();
    assert!(unused == 0, "the last byte of a date is 0");
    Date {
        year: i16::from_le_bytes([low, high]),
        month,
        day,
        hour,
        minute,
        second,
    }
}

pub fn of_placement(placement: &Placement) -> [u64; 6] {
    let [across_x, across_y, up_x, up_y] = placement.points;
    [
        pair(placement.x, placement.y),
        u64::from_be_bytes(placement.angle),
        u64::from_be_bytes(placement.magnif),
        pair(placement.cols, placement.rows),
        pair(across_x, across_y),
        pair(up_x, up_y),
    ]
}

// ---- views

/// A view, whose reals are asked by `real`.
pub fn view(words: &ViewWords, real: impl Fn(u64) -> Real) -> View {
    let [kind_and_flags, at, cell, layer, first, count, fields @ ..] = *words;
    let kind = u8::try_from(kind_and_flags as u32)
        .ok()
        .and_then(Kind::of)
        .expect("a view has one of the eleven kinds");
    let flags = u8::try_from(kind_and_flags >> 32).expect("flags are one byte");
    let run = run([first, count]);
    View {
        kind,
        flags,
        offset: at as usize,
        cell: offset(cell),
        layer: offset(layer),
        run_first: run.map(|run| run.first),
        run_count: run.map_or(0, |run| run.count),
        fields: fields_of(kind, flags, fields, real),
    }
}

#[rustfmt::skip]
fn fields_of(kind: Kind, flags: u8, words: [u64; 8], real: impl Fn(u64) -> Real) -> Fields {
    let two = |at: usize| [words[at], words[at + 1]];
    match kind {
        Kind::Library => Fields::Library {
            munit: real(words[0]),
            uunit: real(words[1]),
            created: date(words[2]),
            modified: date(words[3]),
            name: text(two(4)),
        },
        Kind::Struct => Fields::Struct { created: date(words[0]), modified: date(words[1]), name: text(two(2)) },
        Kind::Cprpty => Fields::Cprpty { number: alone(words[0]), string: text(two(1)) },
        Kind::Property => Fields::Property { number: alone(words[0]), string: text(two(1)) },
        Kind::Layer => Fields::Layer {
            number: LayerNo(words[0] as i16),
            data_type: DataType((words[0] >> 16) as i16),
            name: layer_name(high(words[0]), two(1)),
        },
        Kind::Box => Fields::Box { boxes: list(two(0)) },
        Kind::Poly => Fields::Poly { points: list(two(0)) },
        Kind::Wire => Fields::Wire { width: alone(words[0]), points: list(two(1)) },
        Kind::Text => {
            let [x, y] = point(words[0]);
            Fields::Text { x, y, width: alone(words[1]), label: text(two(2)) }
        }
        Kind::Sref => sref(flags, words, real),
        Kind::Endlib => Fields::Endlib,
    }
}

fn layer_name(named: i32, name: [u64; 2]) -> Option<Text> {
    match named {
        0 => {
            assert!(name == [0, 0], "a layer without a name has a text");
            None
        }
        1 => Some(text(name)),
        other => panic!("a layer is named with 0 or 1, not {other}"),
    }
}

/// What the flags do not have must be 0.
fn sref(flags: u8, words: [u64; 8], real: impl Fn(u64) -> Real) -> Fields {
    let [at, angle, magnif, counts, across, up, name @ ..] = words;
    let [has_angle, has_magnif, has_array] = [1, 2, 8].map(|flag| flags & flag != 0);
    assert!(has_angle || angle == 0, "an angle that is absent is 0");
    assert!(has_magnif || magnif == 0, "a magnif that is absent is 0");
    assert!(
        has_array || [counts, across, up] == [0; 3],
        "an array that is absent is 0"
    );
    let [x, y] = point(at);
    Fields::Sref {
        x,
        y,
        angle: has_angle.then(|| real(angle)),
        magnif: has_magnif.then(|| real(magnif)),
        array: has_array.then(|| Array {
            cols: low(counts),
            rows: high(counts),
            points: sides([across, up]),
        }),
        name: text(name),
    }
}

/// How many words of the fields a step writes.
pub fn field_words(kind: Kind) -> usize {
    match kind {
        Kind::Library => 6,
        Kind::Struct | Kind::Text => 4,
        Kind::Cprpty | Kind::Property | Kind::Wire | Kind::Layer => 3,
        Kind::Box | Kind::Poly => 2,
        Kind::Sref => 8,
        Kind::Endlib => 0,
    }
}

/// The words of the reals in a view's fields: as the file has them, 0 where
/// they are absent.
pub fn reals_in(words: &ViewWords, kind: Kind) -> Option<[u64; 2]> {
    let fields = &words[BEFORE_FIELDS..];
    match kind {
        Kind::Library => Some([fields[0], fields[1]]),
        Kind::Sref => Some([fields[1], fields[2]]),
        _ => None,
    }
}
