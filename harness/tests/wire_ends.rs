//! The ends of a wire: square where no style is given, flush in the two makers.
//! What must be written is pushed by hand.

use cgx_harness::drive::make;
use cgx_harness::generate::drawing::*;
use cgx_harness::generate::{forged_places, values, Call, MadeUp, Rng};
use cgx_harness::reference::*;

const FILL: u8 = 0xee;

/// Where a wire is allowed.
const ON_A_LAYER: [&[u8]; 3] = [
    &[LIBRARY, STRUCT, LAYER],
    &[LIBRARY, STRUCT, LAYER, WIRE],
    &[LIBRARY, STRUCT, LAYER, PROPERTY, PROPERTY],
];

/// Where a wire is not allowed.
const NO_WIRE: [&[u8]; 9] = [
    &[],
    &[LIBRARY],
    &[LIBRARY, STRUCT],
    &[LIBRARY, STRUCT, CPRPTY],
    &[LIBRARY, STRUCT, PROPERTY],
    &[LIBRARY, STRUCT, SREF],
    &[LIBRARY, STRUCT, LAYER, STRUCT],
    &[LIBRARY, ENDLIB],
    &[LIBRARY, STRUCT, LAYER, ENDLIB],
];

/// Where a LAYER is allowed, and so a maker.
const IN_A_CELL: [&[u8]; 4] = [
    &[LIBRARY, STRUCT],
    &[LIBRARY, STRUCT, CPRPTY],
    &[LIBRARY, STRUCT, SREF],
    &[LIBRARY, STRUCT, LAYER, WIRE],
];

/// Where a LAYER is not allowed.
const NO_MAKER: [&[u8]; 6] = [
    &[],
    &[LIBRARY],
    &[LIBRARY, STRUCT, PROPERTY],
    &[LIBRARY, STRUCT, LAYER, PROPERTY],
    &[LIBRARY, ENDLIB],
    &[LIBRARY, STRUCT, LAYER, ENDLIB],
];

/// The LAYER and the wire of a maker.
const CARD_SIZE: usize = 8 + 48;

const SOME_SIDES: Sides = Sides {
    left: -80,
    bottom: 1,
    right: 258,
    top: 3,
};

/// A WIRE record.
fn wire_bytes(style: u8, width: i32, points: &[i32]) -> Vec<u8> {
    let size = u16::try_from(8 + 4 * points.len()).expect("a record's size");
    let mut bytes = size.to_be_bytes().to_vec();
    bytes.extend([7, style]);
    bytes.extend(width.to_be_bytes());
    bytes.extend(points.iter().flat_map(|n| n.to_be_bytes()));
    bytes
}

/// What a test card was before there were square ends, and still is.
#[rustfmt::skip]
fn card_bytes(Sides { left, bottom, right, top }: Sides) -> Vec<u8> {
    let mut bytes = vec![
        0, 8, 4, 0, 0, 1, 0, 0, // LAYER 1, data type 0
        0, 48, 7, 0, 0, 0, 0, 2, // WIRE, flush ends, width 2
    ];
    for n in [
        left, bottom,
        right, bottom,
        right, top,
        left, top,
        left, bottom,
    ] {
        bytes.extend(n.to_be_bytes());
    }
    bytes
}

/// The same of a caption frame.
fn frame_bytes(sides: Sides, label: &[u8]) -> Vec<u8> {
    let mut bytes = card_bytes(sides);
    let zeros = 2 - label.len() % 2;
    let size = u16::try_from(16 + label.len() + zeros).expect("a record's size");
    bytes.extend(size.to_be_bytes());
    bytes.extend([8, 0]);
    bytes.extend(sides.left.to_be_bytes());
    bytes.extend(sides.bottom.to_be_bytes());
    bytes.extend([0, 0, 0, 2]);
    bytes.extend(label);
    bytes.extend(&[0, 0][..zeros]);
    bytes
}

fn wire_call(style: Option<u8>, width: i32, points: &[i32]) -> Call {
    Call::Wire {
        style,
        width,
        points: points.to_vec(),
    }
}

fn frame_call(label: &[u8]) -> Call {
    Call::CaptionFrame(SOME_SIDES, label.to_vec())
}

/// Widths and point lists at the ends of their ranges, and random ones.
fn many_wires() -> Vec<(i32, Vec<i32>)> {
    let mut rng = Rng::new(53);
    let mut wires = Vec::new();
    for width in [i32::MIN, -1, 0, 1, 2, 255, 256, i32::MAX] {
        for pairs in [1, 2, 3, 100, 8_190] {
            wires.push((width, values::longs(&mut rng, 2 * pairs)));
        }
    }
    for _ in 0..500 {
        let (width, pairs) = (values::long(&mut rng), rng.between(1, 20));
        wires.push((width, values::longs(&mut rng, 2 * pairs)));
    }
    wires
}

/// A buffer that begins with plain records of these types, the place after
/// them, and this much room left.
fn writer_after(types: &[u8], room: usize) -> (Vec<u8>, Place) {
    let mut buffer = Drawing::of(types.iter().map(|&t| plain(t)).collect()).bytes();
    let mut place = start(&buffer).expect("a good beginning");
    while let Step::Record(_, next) = step(&buffer, place) {
        place = next;
    }
    assert_eq!(place.offset, buffer.len(), "{types:?}");
    buffer.resize(place.offset + room, FILL);
    (buffer, place)
}

/// The call writes these bytes and changes no others. The place after it.
fn writes(before: &[u8], place: Place, call: &Call, bytes: &[u8]) -> Place {
    let mut buffer = before.to_vec();
    let answer = make(&mut buffer, place, call);
    let mut expected = before.to_vec();
    expected[place.offset..][..bytes.len()].copy_from_slice(bytes);
    assert!(buffer == expected, "{call:?}");
    match answer {
        Answer::Taken(next) => next,
        refused => panic!("{call:?}: {refused:?}"),
    }
}

/// The call is refused so, and no byte changes.
fn refuses(before: &[u8], place: Place, call: &Call, number: u8, at: Option<usize>) {
    let mut buffer = before.to_vec();
    let answer = make(&mut buffer, place, call);
    assert_eq!(answer, Answer::Refused { number, at, place }, "{call:?}");
    assert!(buffer == before, "{call:?}");
}

/// A wire without a style is refused with this number, and so is one with a
/// good style.
fn refuses_wires(before: &[u8], place: Place, points: &[i32], number: u8) {
    let at = (number < 14).then_some(place.offset);
    for style in [None, Some(0), Some(1), Some(2)] {
        refuses(before, place, &wire_call(style, 1, points), number, at);
    }
}

/// The maker writes these bytes, whatever it follows and whatever room is left.
fn maker_writes(maker: &Call, bytes: &[u8]) {
    for types in IN_A_CELL {
        for spare in [0, 1, 37] {
            let (before, place) = writer_after(types, bytes.len() + spare);
            let next = Place {
                offset: place.offset + bytes.len(),
                layer: Some(place.offset),
                after_struct: false,
                ..place
            };
            assert_eq!(writes(&before, place, maker, bytes), next);
        }
    }
}

/// A caption frame with this label is refused so, the place named counted from
/// the maker's. Without room for the LAYER and the wire it is 14: they come first.
fn refuses_label(label: &[u8], number: u8, at: Option<usize>) {
    for types in IN_A_CELL {
        for room in (0..100).chain([140_000]) {
            let (before, place) = writer_after(types, room);
            let (number, at) = if room < CARD_SIZE {
                (14, None)
            } else {
                (number, at.map(|after| place.offset + after))
            };
            refuses(&before, place, &frame_call(label), number, at);
        }
    }
}

/// Only the flags byte is another one than it was.
#[test]
fn without_a_style_is_style_2() {
    for (width, points) in many_wires() {
        let old = wire_bytes(0, width, &points);
        for types in ON_A_LAYER {
            for spare in [0, 1, 37] {
                let (before, place) = writer_after(types, old.len() + spare);
                let written = |style| {
                    let mut buffer = before.clone();
                    let answer = wire(&mut buffer, place, style, width, &points);
                    (answer, buffer)
                };
                let (answer, buffer) = written(None);
                let (styled_answer, styled_buffer) = written(Some(2));
                let next = Place {
                    offset: place.offset + old.len(),
                    run: None,
                    ..place
                };
                assert_eq!(answer, Answer::Taken(next));
                assert_eq!(answer, styled_answer);
                assert!(buffer == styled_buffer);

                let mut old_buffer = before.clone();
                old_buffer[place.offset..][..old.len()].copy_from_slice(&old);
                let flags = place.offset + 3;
                assert_eq!((old_buffer[flags], buffer[flags]), (0, 2));
                old_buffer[flags] = 2;
                assert!(buffer == old_buffer);
            }
        }
    }
}

/// A wire of width 2 from (0, 1) to (-80, 10): without a style, and as it was,
/// which now has to be asked for.
#[test]
#[rustfmt::skip]
fn one_wire_byte_for_byte() {
    let is = [
        0, 24, 7, 2, 0, 0, 0, 2,
        0, 0, 0, 0, 0, 0, 0, 1, 0xff, 0xff, 0xff, 0xb0, 0, 0, 0, 10,
    ];
    let was = [
        0, 24, 7, 0, 0, 0, 0, 2,
        0, 0, 0, 0, 0, 0, 0, 1, 0xff, 0xff, 0xff, 0xb0, 0, 0, 0, 10,
    ];
    let (before, place) = writer_after(&[LIBRARY, STRUCT, LAYER], 24);
    let points = [0, 1, -80, 10];
    writes(&before, place, &wire_call(None, 2, &points), &is);
    writes(&before, place, &wire_call(Some(0), 2, &points), &was);
}

#[test]
fn stated_styles_are_kept() {
    for (width, points) in many_wires() {
        for style in 0..=2 {
            let bytes = wire_bytes(style, width, &points);
            let (before, place) = writer_after(&[LIBRARY, STRUCT, LAYER], bytes.len() + 1);
            let call = wire_call(Some(style), width, &points);
            let next = writes(&before, place, &call, &bytes);
            assert_eq!(next.offset, place.offset + bytes.len());
        }
    }
}

#[test]
fn styles_3_to_255_are_refused() {
    for types in ON_A_LAYER {
        for style in 3..=255 {
            for points in [&[0, 0][..], &[0, 0, 9, 9], &[]] {
                for room in [0, 100] {
                    let (before, place) = writer_after(types, room);
                    let call = wire_call(Some(style), 1, points);
                    refuses(&before, place, &call, 7, Some(place.offset));
                }
            }
        }
    }
}

/// What was written is read with the style it was written with, and is normal.
#[test]
fn styles_are_read_back() {
    for (style, flags) in [(None, 2), (Some(0), 0), (Some(1), 1), (Some(2), 2)] {
        let (mut file, place) = writer_after(&[LIBRARY, STRUCT, LAYER], 24 + 4);
        let Answer::Taken(next) = wire(&mut file, place, style, 2, &[0, 0, 9, 9]) else {
            panic!("{style:?} is good");
        };
        assert!(matches!(endlib(&mut file, next), Answer::Taken(_)));
        let Step::Record(view, after) = step(&file, place) else {
            panic!("a wire was written");
        };
        assert_eq!((view.kind, view.flags, after), (Kind::Wire, flags, next));
        let mut form = vec![FILL; file.len()];
        assert_eq!(normal_form(&file, &mut form), Ok(file.len()));
        assert_eq!(form, file);
    }
}

#[test]
fn wires_out_of_order() {
    for types in NO_WIRE {
        for room in [0, 100] {
            let (before, place) = writer_after(types, room);
            for points in [&[0, 0][..], &[0, 0, 9, 9], &[]] {
                refuses_wires(&before, place, points, 6);
            }
        }
    }
}

#[test]
fn bad_lists_of_points() {
    for types in ON_A_LAYER {
        for room in [0, 100, 70_000] {
            let (before, place) = writer_after(types, room);
            for count in [0, 1, 3, 5, 2 * 8_190 + 1, 2 * 8_191 + 1] {
                refuses_wires(&before, place, &vec![0; count], 8);
            }
            for count in [2 * 8_191, 2 * 9_000] {
                refuses_wires(&before, place, &vec![0; count], 15);
            }
        }
    }
}

#[test]
fn no_room_for_a_wire() {
    for types in ON_A_LAYER {
        for pairs in [1, 2, 5] {
            for room in 0..8 + 8 * pairs {
                let (before, place) = writer_after(types, room);
                refuses_wires(&before, place, &vec![0; 2 * pairs], 14);
            }
        }
    }
}

#[test]
fn forged_places_are_answered_16() {
    for length in [4, 60, 61, 300] {
        let before = vec![FILL; length];
        for MadeUp { place, forged, .. } in forged_places(length) {
            if !forged {
                continue;
            }
            refuses_wires(&before, place, &[0, 0], 16);
            refuses_wires(&before, place, &[], 16);
            for maker in [
                Call::TestCard(SOME_SIDES),
                frame_call(b"name"),
                frame_call(b"\0"),
            ] {
                refuses(&before, place, &maker, 16, None);
            }
        }
    }
}

/// Every set of faults: the first of 16, 6, 7, 8, 15 and 14 decides. Without a
/// style there is never a 7.
#[test]
fn first_fault_of_a_wire_decides() {
    for style in [None, Some(0), Some(1), Some(2), Some(3), Some(255)] {
        for faults in 0..32 {
            let [forged, no_layer, half, long, tight]: [bool; 5] =
                std::array::from_fn(|fault| faults >> fault & 1 == 1);
            let pairs = if long { 8_191 } else { 8_190 };
            let points = vec![-1; 2 * pairs + usize::from(half)];
            let room = 8 + 4 * points.len() - usize::from(tight);
            let (before, mut place) = writer_after(&[LIBRARY, STRUCT, LAYER], room);
            if forged {
                place.cell = Some(place.offset + 1);
            }
            if no_layer {
                place.layer = None;
            }
            let bad_style = style.is_some_and(|style| style > 2);
            let first = [
                (16, forged),
                (6, no_layer),
                (7, bad_style),
                (8, half),
                (15, long),
                (14, tight),
            ]
            .into_iter()
            .find_map(|(number, found)| found.then_some(number));
            let call = wire_call(style, 1, &points);
            match first {
                Some(number) => {
                    let at = (number < 14).then_some(place.offset);
                    refuses(&before, place, &call, number, at);
                }
                None => {
                    let bytes = wire_bytes(style.unwrap_or(2), 1, &points);
                    writes(&before, place, &call, &bytes);
                }
            }
        }
    }
}

/// A caption frame from (-80, 1) to (258, 3), and the test card it begins with.
#[test]
#[rustfmt::skip]
fn one_frame_byte_for_byte() {
    let frame = [
        0, 8, 4, 0, 0, 1, 0, 0,
        0, 48, 7, 0, 0, 0, 0, 2,
        0xff, 0xff, 0xff, 0xb0, 0, 0, 0, 1,
        0, 0, 1, 2, 0, 0, 0, 1,
        0, 0, 1, 2, 0, 0, 0, 3,
        0xff, 0xff, 0xff, 0xb0, 0, 0, 0, 3,
        0xff, 0xff, 0xff, 0xb0, 0, 0, 0, 1,
        0, 20, 8, 0,
        0xff, 0xff, 0xff, 0xb0, 0, 0, 0, 1, 0, 0, 0, 2,
        b'a', b'b', 0, 0,
    ];
    maker_writes(&Call::TestCard(SOME_SIDES), &frame[..CARD_SIZE]);
    maker_writes(&frame_call(b"ab"), &frame);
}

/// All sides at the ends of their range and about 0, reversed ones included.
#[test]
fn makers_keep_their_bytes_for_all_sides() {
    let ends = [i32::MIN, -1, 0, 1, i32::MAX];
    for n in 0..5 * 5 * 5 * 5 {
        let [left, bottom, right, top] = [n, n / 5, n / 25, n / 125].map(|n| ends[n % 5]);
        let sides = Sides {
            left,
            bottom,
            right,
            top,
        };
        maker_writes(&Call::TestCard(sides), &card_bytes(sides));
        let frame = Call::CaptionFrame(sides, b"name".to_vec());
        maker_writes(&frame, &frame_bytes(sides, b"name"));
    }
}

#[test]
fn makers_keep_their_bytes_for_all_labels() {
    let mut rng = Rng::new(59);
    let longest = [vec![b'x'; 65_516], vec![0xff; 65_517]];
    let short = (0..40).map(|length| vec![b'a'; length]);
    let bytes = (1..=255).map(|byte| vec![byte]);
    let random = (0..500).map(|_| values::text(&mut rng));
    let labels: Vec<Vec<u8>> = random.chain(longest).chain(short).chain(bytes).collect();
    for label in labels {
        let [left, bottom, right, top] = std::array::from_fn(|_| values::long(&mut rng));
        let sides = Sides {
            left,
            bottom,
            right,
            top,
        };
        maker_writes(&Call::TestCard(sides), &card_bytes(sides));
        let bytes = frame_bytes(sides, &label);
        maker_writes(&Call::CaptionFrame(sides, label), &bytes);
    }
}

/// 6 comes before a bad label and before too little room.
#[test]
fn makers_out_of_order() {
    for types in NO_MAKER {
        for room in [0, 8, CARD_SIZE, 200] {
            let (before, place) = writer_after(types, room);
            for maker in [
                Call::TestCard(SOME_SIDES),
                frame_call(b"name"),
                frame_call(b"\0"),
                frame_call(&vec![b'x'; 70_000]),
            ] {
                refuses(&before, place, &maker, 6, Some(place.offset));
            }
        }
    }
}

#[test]
fn no_room_for_a_maker() {
    for types in IN_A_CELL {
        for room in 0..CARD_SIZE {
            let (before, place) = writer_after(types, room);
            refuses(&before, place, &Call::TestCard(SOME_SIDES), 14, None);
        }
        for label in [&b""[..], b"a", b"name", &[b'x'; 99]] {
            for room in 0..frame_bytes(SOME_SIDES, label).len() {
                let (before, place) = writer_after(types, room);
                refuses(&before, place, &frame_call(label), 14, None);
            }
        }
    }
}

/// 11 at the TEXT, also where the label is too long as well.
#[test]
fn zero_byte_in_a_label() {
    for label in [&b"\0"[..], b"\0\0", b"a\0", b"\0a", b"a\0b"] {
        refuses_label(label, 11, Some(CARD_SIZE));
    }
    let mut long = vec![b'x'; 70_000];
    long[69_999] = 0;
    refuses_label(&long, 11, Some(CARD_SIZE));
}

#[test]
fn label_too_long() {
    for length in [65_518, 65_519, 70_000] {
        refuses_label(&vec![b'x'; length], 15, None);
    }
}
