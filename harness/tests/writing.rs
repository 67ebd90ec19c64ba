//! Generated writer calls: what they write, refuse and leave alone.

use cgx_harness::drive::{make, make_all};
use cgx_harness::generate::{self, Call, Rng};
use cgx_harness::reference::*;

const FILL: u8 = 0xee;

/// The bytes that a good sequence of calls must leave.
fn expected(calls: &[Call]) -> Vec<u8> {
    let mut bytes = b"cgx\0".to_vec();
    for record in calls.iter().flat_map(Call::records) {
        record.push_to(&mut bytes);
    }
    bytes
}

fn all_taken(answers: &[Answer]) -> bool {
    answers.iter().all(|a| matches!(a, Answer::Taken(_)))
}

#[test]
fn good_calls_write_their_bytes() {
    let mut rng = Rng::new(31);
    let random = (0..2_000).map(|_| generate::good_calls(&mut rng));
    for calls in random.chain(generate::longest_calls()) {
        let bytes = expected(&calls);
        for spare in [0, 1, 37] {
            let mut buffer = vec![FILL; bytes.len() + spare];
            let answers = make_all(&mut buffer, &calls).expect("room");
            assert!(all_taken(&answers));
            assert_eq!(buffer[..bytes.len()], bytes);
            assert!(buffer[bytes.len()..].iter().all(|&byte| byte == FILL));
        }
        assert_eq!(check(&bytes), Verdict::Accepted);
        let mut form = vec![0; bytes.len()];
        assert_eq!(normal_form(&bytes, &mut form), Ok(bytes.len()));
        assert_eq!(form, bytes, "the writer writes normal form");
        walk_gives_back(&bytes, &calls);
    }
}

/// One byte less than needed: the last call is refused with 14, and writes
/// nothing.
#[test]
fn one_byte_less_is_14() {
    let mut rng = Rng::new(37);
    for _ in 0..1_000 {
        let mut calls = generate::good_calls(&mut rng);
        calls.truncate(rng.between(1, calls.len()));
        let bytes = expected(&calls);
        let before = bytes.len() - calls[calls.len() - 1].size();
        let mut buffer = vec![FILL; bytes.len() - 1];
        let answers = make_all(&mut buffer, &calls).expect("room");
        let (last, others) = answers.split_last().expect("one call");
        assert!(all_taken(others));
        assert!(
            matches!(*last, Answer::Refused { number: 14, at: None, place } if place.offset == before)
        );
        assert_eq!(buffer[..before], bytes[..before]);
        assert!(buffer[before..].iter().all(|&byte| byte == FILL));
    }
}

#[test]
fn bad_calls_are_refused_as_aimed_at() {
    for bad in generate::bad_calls() {
        let bytes = expected(&bad.before);
        for room in [bytes.len(), bytes.len() + 90, 200_000] {
            let mut buffer = vec![FILL; room];
            let answers = make_all(&mut buffer, &bad.before).expect("room");
            assert!(all_taken(&answers), "{}", bad.what);
            let place = match answers.last() {
                Some(Answer::Taken(place)) => *place,
                _ => Place::START,
            };
            let answer = make(&mut buffer, place, &bad.call);
            let aimed = Answer::Refused {
                number: bad.number,
                at: bad.named.map(|after| place.offset + after),
                place,
            };
            // A maker may already lack the room for an earlier record.
            let no_room = Answer::Refused {
                number: 14,
                at: None,
                place,
            };
            let is_frame = matches!(bad.call, Call::CaptionFrame(..));
            let lacks_room = is_frame && bad.number != 6 && room - place.offset < 56;
            assert_eq!(
                answer,
                if lacks_room { no_room } else { aimed },
                "{}",
                bad.what
            );
            assert_eq!(buffer[..bytes.len()], bytes);
            assert!(buffer[bytes.len()..].iter().all(|&byte| byte == FILL));
        }
    }
}

#[test]
fn makers_are_all_or_nothing() {
    let mut rng = Rng::new(41);
    let before = [
        generate::calls::random_call(&mut rng, 0),
        generate::calls::random_call(&mut rng, 1),
    ];
    let start = expected(&before);
    let sides = Sides {
        left: -5,
        bottom: -6,
        right: 7,
        top: 8,
    };
    for call in [
        Call::TestCard(sides),
        Call::CaptionFrame(sides, b"name".to_vec()),
    ] {
        let size = call.size();
        for room in 0..=size + 2 {
            let mut buffer = vec![FILL; start.len() + room];
            let answers = make_all(&mut buffer, &before).expect("room");
            let Some(Answer::Taken(place)) = answers.last().copied() else {
                panic!("the calls before are good");
            };
            let answer = make(&mut buffer, place, &call);
            assert_eq!(matches!(answer, Answer::Taken(_)), room >= size);
            if room < size {
                assert!(buffer[start.len()..].iter().all(|&byte| byte == FILL));
            }
        }
    }
}

#[test]
fn any_calls_leave_a_good_beginning() {
    let mut rng = Rng::new(43);
    for _ in 0..1_000 {
        let calls = generate::any_calls(&mut rng);
        let room = rng.pick(&[0, 3, 4, 60, 300, 200_000]);
        let mut buffer = vec![FILL; room];
        let Some(answers) = make_all(&mut buffer, &calls) else {
            assert!(room < 4);
            assert!(buffer.iter().all(|&byte| byte == FILL));
            continue;
        };
        let taken: Vec<Call> = calls
            .iter()
            .zip(&answers)
            .filter(|(_, answer)| matches!(answer, Answer::Taken(_)))
            .map(|(call, _)| call.clone())
            .collect();
        let bytes = expected(&taken);
        assert_eq!(buffer[..bytes.len()], bytes);
        assert!(buffer[bytes.len()..].iter().all(|&byte| byte == FILL));
        let ended = taken.last() == Some(&Call::Endlib);
        match check(&bytes) {
            Verdict::Accepted => assert!(ended),
            Verdict::Refused { number, at } => {
                assert!(!ended);
                assert_eq!((number, at), (3, bytes.len()));
            }
        }
    }
}

#[test]
fn forged_places_are_answered_16() {
    for length in [4, 60, 61, 300] {
        for made_up in generate::forged_places(length) {
            let mut buffer = vec![FILL; length];
            let answer = boxes(&mut buffer, made_up.place, &[0, 0, 1]);
            let forged = answer
                == Answer::Refused {
                    number: 16,
                    at: None,
                    place: made_up.place,
                };
            assert_eq!(
                forged, made_up.forged,
                "{}: {:?}",
                made_up.what, made_up.place
            );
            assert!(buffer.iter().all(|&byte| byte == FILL));
        }
    }
}

/// A made-up place that passes is believed, and only the record is written.
#[test]
fn passing_places_are_believed() {
    let mut rng = Rng::new(47);
    let mut taken = 0;
    for _ in 0..5_000 {
        let length = rng.between(4, 400);
        let mut buffer = vec![FILL; length];
        let place = generate::passing_place(&mut rng, length, &[]);
        let type_byte = rng.below(11) as u8;
        let call = generate::random_call(&mut rng, type_byte);
        let mut expected = buffer.clone();
        match make(&mut buffer, place, &call) {
            Answer::Taken(next) => {
                taken += 1;
                let record = &call.records()[0];
                let mut bytes = Vec::new();
                record.push_to(&mut bytes);
                assert_eq!(next.offset, place.offset + bytes.len());
                expected[place.offset..next.offset].copy_from_slice(&bytes);
                assert!(matches!(step(&buffer, place), Step::Record(_, after) if after == next));
            }
            Answer::Refused { number, .. } => assert!(matches!(number, 6 | 14)),
        }
        assert_eq!(buffer, expected);
    }
    assert!(taken > 500);
}

#[test]
fn the_start_needs_four_bytes() {
    for length in 0..4 {
        let refusal = Refusal {
            number: 14,
            at: None,
        };
        assert_eq!(writer_start(&mut vec![FILL; length]), Err(refusal));
    }
    let mut buffer = [FILL; 5];
    assert_eq!(writer_start(&mut buffer), Ok(Place::START));
    assert_eq!(&buffer, b"cgx\0\xee");
}

/// Walks a written file and compares each view with what was given.
fn walk_gives_back(file: &[u8], calls: &[Call]) {
    let mut place = start(file).expect("a good beginning");
    let mut next = || {
        let Step::Record(view, after) = step(file, place) else {
            panic!("too few records");
        };
        place = after;
        view
    };
    for call in calls {
        match call {
            Call::TestCard(sides) => frame_given_back(file, next(), next(), *sides),
            Call::CaptionFrame(sides, label) => {
                frame_given_back(file, next(), next(), *sides);
                let caption = Call::Text {
                    flags: 0,
                    place: [sides.left, sides.bottom],
                    width: 2,
                    label: label.clone(),
                };
                given_back(file, next(), &caption);
            }
            call => given_back(file, next(), call),
        }
    }
    assert_eq!(step(file, place), Step::Done);
}

fn frame_given_back(file: &[u8], layer: View, wire: View, sides: Sides) {
    let layer_call = Call::Layer {
        number: LayerNo(1),
        data_type: DataType(0),
        name: None,
    };
    given_back(file, layer, &layer_call);
    let Sides {
        left,
        bottom,
        right,
        top,
    } = sides;
    let wire_call = Call::Wire {
        style: Some(0),
        width: 2,
        points: vec![
            left, bottom, right, bottom, right, top, left, top, left, bottom,
        ],
    };
    given_back(file, wire, &wire_call);
}

fn longs(file: &[u8], list: List, each: usize) -> Vec<i32> {
    file[list.first..][..4 * each * list.count]
        .chunks_exact(4)
        .map(|long| i32::from_be_bytes(long.try_into().expect("four bytes")))
        .collect()
}

fn same_real(view: Real, given: [u8; 8]) -> bool {
    match (view, StoredReal::from_bytes(given).answer()) {
        (Real::Exact(a), Real::Exact(b)) => a == b,
        (Real::Inexact { sign, e, m }, Real::Inexact { .. }) => {
            StoredReal { sign, e, m }.same_value(StoredReal::from_bytes(given))
        }
        _ => false,
    }
}

fn given_back(file: &[u8], view: View, call: &Call) {
    let says = |text: Text, given: &[u8]| assert_eq!(text.in_file(file), given);
    match (view.fields, call) {
        (
            Fields::Library {
                munit,
                uunit,
                created,
                modified,
                name,
            },
            Call::Library {
                version,
                units,
                dates,
                name: given,
            },
        ) => {
            assert_eq!(view.flags, *version);
            assert!(same_real(munit, units[0]) && same_real(uunit, units[1]));
            assert_eq!([created, modified], *dates);
            says(name, given);
        }
        (
            Fields::Struct {
                created,
                modified,
                name,
            },
            Call::Struct { dates, name: given },
        ) => {
            assert_eq!([created, modified], *dates);
            says(name, given);
        }
        (
            Fields::Cprpty { number, string },
            Call::Cprpty {
                number: given_number,
                string: given,
            },
        )
        | (
            Fields::Property { number, string },
            Call::Property {
                number: given_number,
                string: given,
            },
        ) => {
            assert_eq!(number, *given_number);
            says(string, given);
        }
        (
            Fields::Layer {
                number,
                data_type,
                name,
            },
            Call::Layer {
                number: given_number,
                data_type: given_type,
                name: given,
            },
        ) => {
            assert_eq!((number, data_type), (*given_number, *given_type));
            assert_eq!(name.map(|name| name.in_file(file)), given.as_deref());
        }
        (Fields::Box { boxes }, Call::Boxes { sides }) => assert_eq!(longs(file, boxes, 4), *sides),
        (Fields::Poly { points }, Call::Poly { points: given }) => {
            assert_eq!(longs(file, points, 2), *given)
        }
        (
            Fields::Wire { width, points },
            Call::Wire {
                style,
                width: given_width,
                points: given,
            },
        ) => {
            assert_eq!(view.flags, style.unwrap_or(2));
            assert_eq!(width, *given_width);
            assert_eq!(longs(file, points, 2), *given);
        }
        (
            Fields::Text { x, y, width, label },
            Call::Text {
                flags,
                place,
                width: given_width,
                label: given,
            },
        ) => {
            assert_eq!(view.flags, Kind::Text.meaningful_flags(*flags));
            assert_eq!(([x, y], width), (*place, *given_width));
            says(label, given);
        }
        (
            Fields::Sref {
                x,
                y,
                angle,
                magnif,
                array,
                name,
            },
            Call::Sref {
                placement,
                name: given,
            },
        ) => {
            let has = |flag: u8| placement.flags & flag != 0;
            assert_eq!(view.flags, placement.flags);
            assert_eq!((x, y), (placement.x, placement.y));
            assert_eq!(angle.is_some(), has(1));
            assert!(angle.is_none_or(|angle| same_real(angle, placement.angle)));
            assert_eq!(magnif.is_some(), has(2));
            assert!(magnif.is_none_or(|magnif| same_real(magnif, placement.magnif)));
            let given_array = Array {
                cols: placement.cols,
                rows: placement.rows,
                points: placement.points,
            };
            assert_eq!(array, has(8).then_some(given_array));
            says(name, given);
        }
        (Fields::Endlib, Call::Endlib) => {}
        (fields, call) => panic!("{fields:?} is not {call:?}"),
    }
}
