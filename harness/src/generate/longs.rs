//! Files whose four-byte numbers hold telling bytes.
//!
//! What must be said of each is told from the bytes as they are, never by
//! reading them as a number, so that no reader has a hand in it.

use super::boundary::{judged, sref};
use super::damage::Case;
use super::drawing::*;
use super::valid::{one_record, string_offset};

/// The bytes of a four-byte number, high byte first.
type Long = [u8; 4];
/// The bytes of x and y.
type Point = [Long; 2];

const LOWEST: Long = [0x80, 0, 0, 0];
const MINUS_ONE: Long = [0xff; 4];
const ZERO: Long = [0; 4];
const PLUS_ONE: Long = [0, 0, 0, 1];
const HIGHEST: Long = [0x7f, 0xff, 0xff, 0xff];

/// The numbers around every signed boundary, the lowest first.
const BOUNDARIES: [Long; 7] = [
    LOWEST,
    [0x80, 0, 0, 1],
    MINUS_ONE,
    ZERO,
    PLUS_ONE,
    [0x7f, 0xff, 0xff, 0xfe],
    HIGHEST,
];

/// No two bytes alike: a wrong byte order shows.
const DISTINCT: [Long; 12] = [
    [0x01, 0x02, 0x03, 0x04],
    [0x04, 0x03, 0x02, 0x01],
    [0xfe, 0xfd, 0xfc, 0xfb],
    [0xfb, 0xfc, 0xfd, 0xfe],
    [0x80, 0x7f, 0x00, 0xff],
    [0xff, 0x00, 0x7f, 0x80],
    [0x7f, 0x80, 0xff, 0x00],
    [0x00, 0xff, 0x80, 0x7f],
    [0x12, 0x34, 0x56, 0x78],
    [0x89, 0xab, 0xcd, 0xef],
    [0x81, 0x82, 0x83, 0x84],
    [0x7e, 0x01, 0x80, 0xff],
];

/// Whole bytes of ones or zeros at either end: a lost or an added carry shows,
/// and so does the sign of one byte spread over the others. With −80 of paper 01.
const CARRIES: [Long; 8] = [
    [0, 0, 0, 0xff],
    [0, 0, 0xff, 0xff],
    [0, 0xff, 0xff, 0xff],
    [0xff, 0xff, 0xff, 0],
    [0xff, 0xff, 0, 0],
    [0xff, 0, 0, 0],
    [0xff, 0, 0xff, 0],
    [0xff, 0xff, 0xff, 0xb0],
];

/// −80, −57, 82 and 58.
const SOME_BOX: [Long; 4] = [
    [0xff, 0xff, 0xff, 0xb0],
    [0xff, 0xff, 0xff, 0xc7],
    [0, 0, 0, 82],
    [0, 0, 0, 58],
];

/// The shortest polygon and a longer one.
const POLY_PAIRS: [u8; 2] = [4, 9];

/// Every four-byte field with every pattern, and the rules that compare two
/// such fields.
pub fn long_cases() -> Vec<Case> {
    let mut cases = Vec::new();
    cases.extend(placed_longs().into_iter().map(|placed| placed.case));
    cases.extend(closings());
    cases.extend(exchanged_ends());
    cases.extend(ends_at_the_second());
    cases.extend(box_pairs());
    cases.extend(box_sides());
    cases
}

/// Bytes that show a wrong byte order, a lost bit, a wrong sign or a carry. No
/// pattern is there twice.
pub fn long_patterns() -> Vec<[u8; 4]> {
    let single_bits = (0..32).map(|bit| {
        let mut pattern = ZERO;
        pattern[bit / 8] = 0x80 >> (bit % 8);
        pattern
    });
    let all_but_one = single_bits.clone().map(|bits| bits.map(|byte| !byte));
    let mut patterns = BOUNDARIES.to_vec();
    patterns.extend(single_bits);
    patterns.extend(all_but_one);
    patterns.extend(DISTINCT);
    patterns.extend(CARRIES);
    patterns.sort();
    patterns.dedup();
    patterns
}

/// A file with a pattern in one of its fields.
#[derive(Clone, Debug)]
pub struct PlacedLong {
    pub case: Case,
    pub pattern: [u8; 4],
    /// Where the pattern is in the file: at two places where both must be alike.
    pub at: Vec<usize>,
}

/// Every four-byte field with every pattern.
pub fn placed_longs() -> Vec<PlacedLong> {
    let patterns = long_patterns();
    fields()
        .iter()
        .flat_map(|field| patterns.iter().map(|&pattern| field.with(pattern)))
        .collect()
}

/// Whether the number of `a` is at most that of `b`. High byte first and with
/// the sign bit turned over, bytes have the order of their numbers.
fn at_most(a: Long, b: Long) -> bool {
    let key = |[high, rest @ ..]: Long| (high ^ 0x80, rest);
    key(a) <= key(b)
}

/// What a field asks of its number.
enum Rule {
    /// Any number will do.
    Free,
    /// Refusal 10 above this.
    AtMost(Long),
    /// Refusal 10 below this.
    AtLeast(Long),
    /// Refusal 12 but for this. Other bytes are another number.
    Same(Long),
}

impl Rule {
    fn refusal(&self, pattern: Long) -> Option<u8> {
        let (holds, number) = match *self {
            Rule::Free => return None,
            Rule::AtMost(most) => (at_most(pattern, most), 10),
            Rule::AtLeast(least) => (at_most(least, pattern), 10),
            Rule::Same(other) => (pattern == other, 12),
        };
        (!holds).then_some(number)
    }
}

/// A four-byte field in a record that is good but for it.
struct Field {
    what: &'static str,
    record: Loose,
    /// Where the pattern goes in the body.
    at: Vec<usize>,
    rule: Rule,
}

impl Field {
    fn ruled(what: &'static str, record: &Loose, at: usize, rule: Rule) -> Field {
        Field {
            what,
            record: record.clone(),
            at: vec![at],
            rule,
        }
    }

    fn free(what: &'static str, record: &Loose, at: usize) -> Field {
        Field::ruled(what, record, at, Rule::Free)
    }

    /// The same pattern at two places, which then suit each other.
    fn twice(what: &'static str, record: &Loose, at: [usize; 2]) -> Field {
        Field {
            at: at.to_vec(),
            ..Field::free(what, record, 0)
        }
    }

    fn with(&self, pattern: Long) -> PlacedLong {
        let mut record = self.record.clone();
        for &at in &self.at {
            record.body[at..at + 4].copy_from_slice(&pattern);
        }
        let (drawing, index) = one_record(record);
        let begins = drawing.offset_of(index);
        let refusal = self.rule.refusal(pattern).map(|number| (number, begins));
        PlacedLong {
            case: Case::new(self.what, drawing.bytes(), refusal),
            pattern,
            at: self.at.iter().map(|at| begins + 4 + at).collect(),
        }
    }
}

fn fields() -> Vec<Field> {
    let mut fields = vec![
        Field::free("CPRPTY number", &plain(CPRPTY), 0),
        Field::free("PROPERTY number", &plain(PROPERTY), 0),
        Field::free("TEXT x", &plain(TEXT), 0),
        Field::free("TEXT y", &plain(TEXT), 4),
        Field::free("TEXT width", &plain(TEXT), 8),
    ];
    fields.extend(box_fields());
    fields.extend(poly_fields());
    fields.extend(wire_fields());
    fields.extend(sref_fields());
    fields
}

fn boxes(sides: &[[Long; 4]]) -> Loose {
    let bytes = sides.as_flattened().as_flattened();
    Loose::new(BOX, 0, Body::new().bytes(bytes))
}

fn box_fields() -> Vec<Field> {
    let wide = boxes(&[[LOWEST, LOWEST, HIGHEST, HIGHEST]]);
    let last_at_0 = boxes(&[SOME_BOX, SOME_BOX, [ZERO; 4]]);
    let several = boxes(&[SOME_BOX; 3]);
    let beside_0 = |what, at: usize, rule| Field::ruled(what, &last_at_0, 32 + at, rule);
    vec![
        Field::free("BOX left", &wide, 0),
        Field::free("BOX bottom", &wide, 4),
        Field::free("BOX right", &wide, 8),
        Field::free("BOX top", &wide, 12),
        beside_0("BOX left, right 0", 0, Rule::AtMost(ZERO)),
        beside_0("BOX bottom, top 0", 4, Rule::AtMost(ZERO)),
        beside_0("BOX right, left 0", 8, Rule::AtLeast(ZERO)),
        beside_0("BOX top, bottom 0", 12, Rule::AtLeast(ZERO)),
        Field::twice("BOX left and right", &several, [0, 8]),
        Field::twice("BOX bottom and top", &several, [4, 12]),
    ]
}

fn poly(points: &[Point]) -> Loose {
    let bytes = points.as_flattened().as_flattened();
    Loose::new(POLY, 0, Body::new().bytes(bytes))
}

/// The `i`-th of some points, no two of them alike.
fn some_point(i: u8) -> Point {
    [[0, 0, 1, i], [0xff, 0xff, 0xff, 0xfe - i]]
}

/// A polygon of `pairs` points from `first` to `last`.
fn poly_between(first: Point, last: Point, pairs: u8) -> Loose {
    let inner = (1..pairs - 1).map(some_point);
    let points: Vec<Point> = [first].into_iter().chain(inner).chain([last]).collect();
    poly(&points)
}

fn poly_fields() -> Vec<Field> {
    let end @ [x, y] = some_point(0);
    let [shortest, longer] = POLY_PAIRS.map(|pairs| poly_between(end, end, pairs));
    let last = shortest.body.len() - 8;
    let before_last = longer.body.len() - 16;
    vec![
        Field::twice("POLY x of both ends", &shortest, [0, last]),
        Field::twice("POLY y of both ends", &shortest, [4, last + 4]),
        Field::free("POLY inner x", &longer, before_last),
        Field::free("POLY inner y", &longer, before_last + 4),
        Field::ruled("POLY x of the first only", &longer, 0, Rule::Same(x)),
        Field::ruled("POLY y of the first only", &longer, 4, Rule::Same(y)),
        Field::ruled("POLY x of the last only", &shortest, last, Rule::Same(x)),
        Field::ruled(
            "POLY y of the last only",
            &shortest,
            last + 4,
            Rule::Same(y),
        ),
    ]
}

fn wire_fields() -> Vec<Field> {
    let wire = |longs: &[i32]| Loose::new(WIRE, 0, Body::new().longs(longs));
    let one_point = wire(&[2, 3, 4]);
    let three_points = wire(&[2, 3, 4, 5, 6, 7, 8]);
    vec![
        Field::free("WIRE width", &three_points, 0),
        Field::free("WIRE x of the only point", &one_point, 4),
        Field::free("WIRE y of the only point", &one_point, 8),
        Field::free("WIRE x of the last point", &three_points, 20),
        Field::free("WIRE y of the last point", &three_points, 24),
    ]
}

fn sref_fields() -> Vec<Field> {
    let [bare, array, all] = [0, 8, 15].map(|flags| sref(flags, ONE, 1, 1));
    let mut fields = vec![
        Field::free("SREF x", &bare, 0),
        Field::free("SREF y", &bare, 4),
        Field::free("SREF x, all flags", &all, 0),
        Field::free("SREF y, all flags", &all, 4),
    ];
    let counts = [
        (&array, "SREF cols", "SREF rows"),
        (&all, "SREF cols, all flags", "SREF rows, all flags"),
    ];
    for (record, cols, rows) in counts {
        let at = array_at(record);
        let from_1 = || Rule::AtLeast(PLUS_ONE);
        fields.push(Field::ruled(cols, record, at, from_1()));
        fields.push(Field::ruled(rows, record, at + 4, from_1()));
    }
    let points = [
        "SREF x of the first array point",
        "SREF y of the first array point",
        "SREF x of the second array point",
        "SREF y of the second array point",
    ];
    for record in [&array, &all] {
        for (i, what) in points.into_iter().enumerate() {
            fields.push(Field::free(what, record, array_at(record) + 8 + 4 * i));
        }
    }
    fields
}

/// Where the array fields, which come right before the name, begin.
fn array_at(sref: &Loose) -> usize {
    string_offset(SREF, sref.flags) - 24
}

/// Rule 12: the ends of a polygon differ in one bit, or in none.
fn closings() -> Vec<Case> {
    let ends = [
        [ZERO, ZERO],
        [MINUS_ONE, MINUS_ONE],
        [LOWEST, HIGHEST],
        [DISTINCT[0], DISTINCT[2]],
    ];
    let mut cases = Vec::new();
    for pairs in POLY_PAIRS {
        for end in ends {
            let mut add = |what, first, last, number| {
                cases.push(judged(what, poly_between(first, last, pairs), number));
            };
            add("closed", end, end, None);
            for bit in 0..64 {
                let mut other = end;
                other.as_flattened_mut()[bit / 8] ^= 0x80 >> (bit % 8);
                add("last point off by one bit", end, other, Some(12));
                add("first point off by one bit", other, end, Some(12));
            }
        }
    }
    cases
}

/// Rule 12: x and y of the first point are y and x of the last.
fn exchanged_ends() -> Vec<Case> {
    let numbers = [&BOUNDARIES[..], &DISTINCT[..2]].concat();
    let mut cases = Vec::new();
    for pairs in POLY_PAIRS {
        for &x in &numbers {
            for &y in &numbers {
                let record = poly_between([x, y], [y, x], pairs);
                let number = (x != y).then_some(12);
                cases.push(judged(
                    "x and y exchanged in the last point",
                    record,
                    number,
                ));
            }
        }
    }
    cases
}

/// Rule 12: the last point is the second one.
fn ends_at_the_second() -> Vec<Case> {
    let points = [
        [ZERO, ZERO],
        [ZERO, MINUS_ONE],
        [MINUS_ONE, ZERO],
        [LOWEST, HIGHEST],
        [HIGHEST, LOWEST],
        [DISTINCT[0], DISTINCT[2]],
    ];
    let mut cases = Vec::new();
    for pairs in POLY_PAIRS {
        for first in points {
            for second in points {
                let mut record = poly_between(first, second, pairs);
                record.body[8..16].copy_from_slice(second.as_flattened());
                let number = (first != second).then_some(12);
                cases.push(judged("last point as the second", record, number));
            }
        }
    }
    cases
}

/// Rule 10: two opposite sides around every signed boundary, in a single box, in
/// the first and in the last of several.
fn box_pairs() -> Vec<Case> {
    let mut cases = Vec::new();
    for (what, low_side) in [("left and right", 0), ("bottom and top", 1)] {
        for (i, low) in BOUNDARIES.into_iter().enumerate() {
            for (j, high) in BOUNDARIES.into_iter().enumerate() {
                let mut sides = SOME_BOX;
                sides[low_side] = low;
                sides[low_side + 2] = high;
                for (before, after) in [(0, 0), (0, 3), (3, 0)] {
                    let list = [vec![SOME_BOX; before], vec![sides], vec![SOME_BOX; after]];
                    // The boundaries are in ascending order.
                    let number = (i > j).then_some(10);
                    cases.push(judged(what, boxes(&list.concat()), number));
                }
            }
        }
    }
    cases
}

/// Rule 10: all four sides out of four numbers, so that a side taken for
/// another one shows.
fn box_sides() -> Vec<Case> {
    let ascending = [LOWEST, MINUS_ONE, ZERO, HIGHEST];
    (0..256)
        .map(|n| {
            let [left, bottom, right, top] = [n >> 6, n >> 4 & 3, n >> 2 & 3, n & 3];
            let record = boxes(&[[left, bottom, right, top].map(|i: usize| ascending[i])]);
            let reversed = left > right || bottom > top;
            judged("all four sides", record, reversed.then_some(10))
        })
        .collect()
}
