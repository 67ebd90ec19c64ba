//! Four-byte numbers: every telling pattern in every field, against numbers that
//! are added up bit by bit. What a file holds is read here by the record table of
//! 01, without the reference.

use std::collections::{BTreeMap, BTreeSet};

use cgx_harness::drive::make_all;
use cgx_harness::generate::drawing::*;
use cgx_harness::generate::valid::around;
use cgx_harness::generate::{long_cases, long_patterns, placed_longs, Call, Case, PlacedLong};
use cgx_harness::reference::*;

const FILL: u8 = 0xee;

/// The date `SOME_DATE`.
const DATE: Date = Date {
    year: 2025,
    month: 2,
    day: 6,
    hour: 14,
    minute: 9,
    second: 45,
};

/// The number of four bytes: the sum of the weights of its bits, of which that of
/// the first one is negative. Wide, so that nothing can run over.
fn weigh(bytes: [u8; 4]) -> i128 {
    let bits = bytes
        .iter()
        .flat_map(|byte| (0..8).map(move |i| byte & (0x80 >> i) != 0));
    let weights = [-2_147_483_648]
        .into_iter()
        .chain((0..31).rev().map(|power| 1 << power));
    bits.zip(weights)
        .filter(|(set, _)| *set)
        .map(|(_, weight)| weight)
        .sum()
}

/// A record as it lies in a file.
struct Raw<'a> {
    at: usize,
    type_byte: u8,
    flags: u8,
    body: &'a [u8],
}

/// The records of a file whose sizes are good.
fn raw_records(file: &[u8]) -> Vec<Raw<'_>> {
    let mut records = Vec::new();
    let mut at = 4;
    while at < file.len() {
        let size = usize::from(file[at]) * 256 + usize::from(file[at + 1]);
        records.push(Raw {
            at,
            type_byte: file[at + 2],
            flags: file[at + 3],
            body: &file[at + 4..at + size],
        });
        at += size;
    }
    records
}

impl Raw<'_> {
    /// Where its four-byte numbers are in the body.
    fn long_offsets(&self) -> Vec<usize> {
        let longs = |from: usize, to: usize| (from..to).step_by(4).collect();
        match self.type_byte {
            CPRPTY | PROPERTY => vec![0],
            BOX | POLY | WIRE => longs(0, self.body.len()),
            TEXT => longs(0, 12),
            SREF if self.flags & 8 != 0 => {
                let array = match self.flags & 3 {
                    0 => 8,
                    1 | 2 => 16,
                    _ => 24,
                };
                [longs(0, 8), longs(array, array + 24)].concat()
            }
            SREF => longs(0, 8),
            _ => vec![],
        }
    }

    /// Its four-byte numbers in their order.
    fn numbers(&self) -> Vec<i128> {
        self.long_offsets()
            .iter()
            .map(|&at| weigh(self.body[at..at + 4].try_into().expect("four bytes")))
            .collect()
    }

    /// Its points, where they count for the extent; a box is two of them.
    fn points(&self) -> Vec<[i128; 2]> {
        let numbers = self.numbers();
        let flat = match self.type_byte {
            BOX | POLY => &numbers[..],
            WIRE => &numbers[1..],
            _ => &[],
        };
        flat.as_chunks().0.to_vec()
    }

    /// Which of the rules on its numbers it breaks, these told as exact numbers.
    fn refusal(&self) -> Option<u8> {
        let numbers = self.numbers();
        match self.type_byte {
            BOX => {
                let reversed = |b: &[i128]| b[0] > b[2] || b[1] > b[3];
                numbers.chunks(4).any(reversed).then_some(10)
            }
            POLY => (numbers[..2] != numbers[numbers.len() - 2..]).then_some(12),
            SREF if numbers.len() > 2 => (numbers[2] < 1 || numbers[3] < 1).then_some(10),
            _ => None,
        }
    }

    /// The writer call for this record. What is not a four-byte number is that of
    /// the plain records.
    fn call(&self) -> Call {
        let numbers: Vec<i32> = self
            .numbers()
            .into_iter()
            .map(|number| i32::try_from(number).expect("32 bits"))
            .collect();
        match self.type_byte {
            LIBRARY => Call::Library {
                version: 0,
                units: [THOUSANDTH, ONE],
                dates: [DATE; 2],
                name: b"m".to_vec(),
            },
            STRUCT => Call::Struct {
                dates: [DATE; 2],
                name: b"a".to_vec(),
            },
            CPRPTY => Call::Cprpty {
                number: numbers[0],
                string: b"p".to_vec(),
            },
            PROPERTY => Call::Property {
                number: numbers[0],
                string: b"p".to_vec(),
            },
            LAYER => Call::Layer {
                number: LayerNo(1),
                data_type: DataType(0),
                name: None,
            },
            BOX => Call::Boxes { sides: numbers },
            POLY => Call::Poly { points: numbers },
            WIRE => Call::Wire {
                style: Some(self.flags),
                width: numbers[0],
                points: numbers[1..].to_vec(),
            },
            TEXT => Call::Text {
                flags: self.flags,
                place: [numbers[0], numbers[1]],
                width: numbers[2],
                label: b"label".to_vec(),
            },
            SREF => {
                let array: &[i32; 6] = numbers[2..].first_chunk().unwrap_or(&[0; 6]);
                Call::Sref {
                    placement: Placement {
                        flags: self.flags,
                        x: numbers[0],
                        y: numbers[1],
                        angle: ONE,
                        magnif: ONE,
                        cols: array[0],
                        rows: array[1],
                        points: [array[2], array[3], array[4], array[5]],
                    },
                    name: b"a".to_vec(),
                }
            }
            _ => Call::Endlib,
        }
    }
}

fn accepted_cases() -> impl Iterator<Item = Case> {
    long_cases()
        .into_iter()
        .filter(|case| case.refusal.is_none())
}

fn verdict(refusal: Option<(u8, usize)>) -> Verdict {
    match refusal {
        None => Verdict::Accepted,
        Some((number, at)) => Verdict::Refused { number, at },
    }
}

/// The views of all records up to the end or the first refusal, and that.
fn walk(file: &[u8]) -> (Vec<View>, Verdict) {
    let mut place = start(file).expect("a good beginning");
    let mut views = Vec::new();
    loop {
        match step(file, place) {
            Step::Record(view, next) => {
                views.push(view);
                place = next;
            }
            Step::Done => return (views, Verdict::Accepted),
            Step::Refused {
                number,
                at,
                place: old,
            } => {
                assert_eq!(old, place);
                return (views, Err(Refusal { number, at }).into());
            }
        }
    }
}

/// The four-byte numbers that the reference tells of a record, in the order of
/// their bytes: those of the view, and those of its list one by one.
fn told(file: &[u8], view: &View) -> Vec<i32> {
    let boxes = |list: List| {
        assert_eq!(box_at(file, list, list.count), None);
        let sides = (0..list.count).flat_map(|i| box_at(file, list, i).expect("a box"));
        sides.collect::<Vec<_>>()
    };
    let points = |list: List| {
        assert_eq!(point_at(file, list, list.count), None);
        let pairs = (0..list.count).flat_map(|i| point_at(file, list, i).expect("a point"));
        pairs.collect::<Vec<_>>()
    };
    match view.fields {
        Fields::Cprpty { number, .. } | Fields::Property { number, .. } => vec![number],
        Fields::Box { boxes: list } => boxes(list),
        Fields::Poly { points: list } => points(list),
        Fields::Wire {
            width,
            points: list,
        } => [vec![width], points(list)].concat(),
        Fields::Text { x, y, width, .. } => vec![x, y, width],
        Fields::Sref { x, y, array, .. } => {
            let mut numbers = vec![x, y];
            if let Some(Array { cols, rows, points }) = array {
                numbers.extend([cols, rows]);
                numbers.extend(points);
            }
            numbers
        }
        Fields::Library { .. } | Fields::Struct { .. } | Fields::Layer { .. } | Fields::Endlib => {
            vec![]
        }
    }
}

fn wide(numbers: Vec<i32>) -> Vec<i128> {
    numbers.into_iter().map(i128::from).collect()
}

/// Which of the records holds the four-byte number at `at` in the file, and which
/// of its numbers it is.
fn find_long(records: &[Raw], at: usize) -> (usize, usize) {
    let index_in = |record: &Raw| {
        let mut offsets = record.long_offsets().into_iter();
        offsets.position(|offset| record.at + 4 + offset == at)
    };
    records
        .iter()
        .enumerate()
        .find_map(|(i, record)| Some((i, index_in(record)?)))
        .expect("a four-byte number there")
}

/// The oracle itself, at numbers worked out by hand; the first two are of 01.
#[test]
fn the_oracle_weighs_right() {
    for (bytes, number) in [
        ([0xff, 0xff, 0xff, 0xb0], -80),
        ([0x80, 0, 0, 0], -2_147_483_648),
        ([0; 4], 0),
        ([0, 0, 0, 1], 1),
        ([0xff; 4], -1),
        ([0x7f, 0xff, 0xff, 0xff], 2_147_483_647),
        ([0x80, 0, 0, 1], -2_147_483_647),
        ([0, 0, 1, 0], 256),
        ([0x01, 0x02, 0x03, 0x04], 16_909_060),
        ([0xfe, 0xfd, 0xfc, 0xfb], -16_909_061),
        ([0x80, 0x7f, 0x00, 0xff], -2_139_160_321),
    ] {
        assert_eq!(weigh(bytes), number, "{bytes:02x?}");
    }
}

#[test]
fn cases_are_judged_as_aimed_at() {
    for case in long_cases() {
        assert_eq!(check(&case.bytes), verdict(case.refusal), "{case:02x?}");
        assert_eq!(walk(&case.bytes).1, verdict(case.refusal), "{case:02x?}");
    }
}

/// The aims themselves, once more from exact numbers.
#[test]
fn aims_suit_the_numbers() {
    for case in long_cases() {
        let first = raw_records(&case.bytes)
            .iter()
            .find_map(|record| Some((record.refusal()?, record.at)));
        assert_eq!(case.refusal, first, "{case:02x?}");
    }
}

#[test]
fn open_polygons_are_refused_where_they_begin() {
    let mut open = 0;
    for case in long_cases() {
        let file = &case.bytes;
        for poly in raw_records(file).iter().filter(|r| r.type_byte == POLY) {
            let points = poly.points();
            if points.first() == points.last() {
                assert_eq!(check(file), Verdict::Accepted, "{case:02x?}");
                continue;
            }
            open += 1;
            let refused = Verdict::Refused {
                number: 12,
                at: poly.at,
            };
            assert_eq!(check(file), refused, "{case:02x?}");
            let (views, walked) = walk(file);
            assert_eq!(walked, refused);
            assert!(views.iter().all(|view| view.offset < poly.at));
        }
    }
    assert!(open > 1_000);
}

#[test]
fn views_and_lists_tell_the_numbers() {
    for case in accepted_cases() {
        let (views, _) = walk(&case.bytes);
        let records = raw_records(&case.bytes);
        assert_eq!(views.len(), records.len());
        for (view, record) in views.iter().zip(&records) {
            assert_eq!(
                (view.offset, view.kind as u8),
                (record.at, record.type_byte)
            );
            assert_eq!(
                wide(told(&case.bytes, view)),
                record.numbers(),
                "{case:02x?}"
            );
        }
    }
}

#[test]
fn placed_numbers_are_told_at_their_fields() {
    let mut accepted = 0;
    for PlacedLong { case, pattern, at } in placed_longs() {
        let file = &case.bytes;
        for at in at {
            assert_eq!(file[at..at + 4], pattern);
            let (record, index) = find_long(&raw_records(file), at);
            if case.refusal.is_none() {
                accepted += 1;
                let number = told(file, &walk(file).0[record])[index];
                assert_eq!(i128::from(number), weigh(pattern), "{case:02x?}");
            }
        }
    }
    assert!(accepted > 2_500);
}

/// Left, bottom, right and top, or nothing.
fn expected_extent(file: &[u8]) -> Option<[i128; 4]> {
    let records = raw_records(file);
    let points: Vec<_> = records.iter().flat_map(Raw::points).collect();
    let xs = || points.iter().map(|point| point[0]);
    let ys = || points.iter().map(|point| point[1]);
    Some([xs().min()?, ys().min()?, xs().max()?, ys().max()?])
}

fn told_extent(file: &[u8]) -> Option<[i128; 4]> {
    let extent = extent(file, 0).expect("an accepted file with a cell");
    extent.map(|r| [r.left, r.bottom, r.right, r.top].map(i128::from))
}

#[test]
fn extents_are_the_least() {
    for case in accepted_cases() {
        let extent = told_extent(&case.bytes);
        assert_eq!(extent, expected_extent(&case.bytes), "{case:02x?}");
    }
}

#[test]
fn extents_contain_the_placed_numbers() {
    let mut contained = 0;
    for PlacedLong { case, pattern, at } in placed_longs() {
        if case.refusal.is_some() {
            continue;
        }
        let records = raw_records(&case.bytes);
        for at in at {
            let (record, index) = find_long(&records, at);
            // The width of a wire comes before its points and is none of them.
            let is_x = match records[record].type_byte {
                BOX | POLY => index % 2 == 0,
                WIRE if index > 0 => index % 2 == 1,
                _ => continue,
            };
            let [left, bottom, right, top] = told_extent(&case.bytes).expect("a point");
            let range = if is_x { left..=right } else { bottom..=top };
            assert!(range.contains(&weigh(pattern)), "{case:02x?}");
            contained += 1;
        }
    }
    assert!(contained > 1_200);
}

/// The writer, given the exact numbers, leaves the very bytes, or refuses what a
/// file is refused for.
#[test]
fn writing_gives_the_same_bytes() {
    for case in long_cases() {
        let file = &case.bytes;
        let records = raw_records(file);
        let last = match case.refusal {
            None => records.last().expect("ENDLIB"),
            Some((_, at)) => records.iter().find(|r| r.at == at).expect("a record"),
        };
        let calls: Vec<Call> = records
            .iter()
            .take_while(|record| record.at <= last.at)
            .map(Raw::call)
            .collect();
        let mut buffer = vec![FILL; file.len()];
        let answers = make_all(&mut buffer, &calls).expect("room");
        let (last_answer, others) = answers.split_last().expect("an answer");
        assert!(
            others.iter().all(|a| matches!(a, Answer::Taken(_))),
            "{case:02x?}"
        );
        match (case.refusal, last_answer) {
            (None, Answer::Taken(place)) => {
                assert_eq!(place.offset, file.len());
                assert_eq!(buffer, *file, "{case:02x?}");
            }
            (
                Some((number, at)),
                Answer::Refused {
                    number: n, at: a, ..
                },
            ) => {
                assert_eq!((*n, *a), (number, Some(at)), "{case:02x?}");
                assert_eq!(buffer[..at], file[..at]);
                assert!(buffer[at..].iter().all(|&byte| byte == FILL));
            }
            _ => panic!("{last_answer:?}: {case:02x?}"),
        }
    }
}

/// All of the files are in normal form already, so no number may change in it.
#[test]
fn the_normal_form_keeps_the_numbers() {
    for case in accepted_cases() {
        let mut out = vec![FILL; case.bytes.len()];
        assert_eq!(normal_form(&case.bytes, &mut out), Ok(case.bytes.len()));
        assert_eq!(out, case.bytes, "{case:02x?}");
    }
}

/// Two patterns in one field are two meanings.
#[test]
fn other_patterns_mean_something_else() {
    let placed = placed_longs();
    for field in placed.chunks(long_patterns().len()) {
        let files: Vec<&[u8]> = field
            .iter()
            .filter(|placed| placed.case.refusal.is_none())
            .map(|placed| &placed.case.bytes[..])
            .collect();
        for (i, a) in files.iter().enumerate() {
            for (j, b) in files.iter().enumerate().skip(i) {
                assert_eq!(same_meaning(a, b), Ok(i == j), "{}", field[0].case.what);
            }
        }
    }
}

/// The number of four bytes as the reference tells it.
fn read(bytes: [u8; 4]) -> i32 {
    let body = Body::new().bytes(&bytes).string(b"p");
    let file = around(vec![plain(STRUCT), Loose::new(CPRPTY, 0, body)]).bytes();
    match walk(&file).0[2].fields {
        Fields::Cprpty { number, .. } => number,
        fields => panic!("{fields:?} is not a CPRPTY"),
    }
}

/// The four bytes of a number as the reference writes it.
fn written(number: i32) -> [u8; 4] {
    let place = Place {
        library_seen: true,
        cell: Some(4),
        after_struct: true,
        ..Place::START
    };
    let mut buffer = [FILL; 16];
    assert!(matches!(
        cprpty(&mut buffer, place, number, b"p"),
        Answer::Taken(_)
    ));
    buffer[8..12].try_into().expect("four bytes")
}

#[test]
fn bytes_and_numbers_are_one_to_one() {
    let patterns = long_patterns();
    let all_bytes: BTreeSet<_> = patterns.iter().collect();
    let numbers: BTreeSet<i128> = patterns.iter().map(|&pattern| weigh(pattern)).collect();
    let told: BTreeSet<i32> = patterns.iter().map(|&pattern| read(pattern)).collect();
    for count in [all_bytes.len(), numbers.len(), told.len()] {
        assert_eq!(count, patterns.len());
    }
    for &pattern in &patterns {
        assert_eq!(i128::from(read(pattern)), weigh(pattern), "{pattern:02x?}");
        assert_eq!(written(read(pattern)), pattern);
    }
    assert!(told.contains(&i32::MIN) && told.contains(&i32::MAX));
}

/// Every value of every byte among zeros and among ones.
#[test]
fn every_byte_counts_by_its_weight() {
    for at in 0..4 {
        for others in [0, 0xff] {
            for byte in 0..=255 {
                let mut bytes = [others; 4];
                bytes[at] = byte;
                assert_eq!(i128::from(read(bytes)), weigh(bytes), "{bytes:02x?}");
                assert_eq!(written(read(bytes)), bytes);
            }
        }
    }
}

/// No group is missing, and all together stay small.
#[test]
fn the_cases_are_as_many_as_meant() {
    let cases = long_cases();
    assert!(cases.len() <= 6_000);
    assert!(cases.iter().all(|case| case.bytes.len() < 2_048));

    let patterns = long_patterns().len();
    let mut groups: BTreeMap<&str, usize> = BTreeMap::new();
    for case in &cases {
        *groups.entry(case.what).or_default() += 1;
    }
    for (what, count) in [
        ("closed", 8),
        ("last point off by one bit", 512),
        ("first point off by one bit", 512),
        ("x and y exchanged in the last point", 162),
        ("last point as the second", 72),
        ("left and right", 147),
        ("bottom and top", 147),
        ("all four sides", 256),
    ] {
        assert_eq!(groups.remove(what), Some(count), "{what}");
    }
    // The points of an array are there with and without reals before them.
    for (what, count) in groups {
        let fields = if what.contains("array point") { 2 } else { 1 };
        assert_eq!(count, fields * patterns, "{what}");
    }
    assert_eq!(placed_longs().len(), 44 * patterns);
}
