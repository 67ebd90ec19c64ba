//! The second of a date: 0 to 60 in each of the four dates of a file.

use cgx_harness::drive::{make, make_all};
use cgx_harness::generate::drawing::*;
use cgx_harness::generate::valid::around;
use cgx_harness::generate::Call;
use cgx_harness::reference::*;

const FILL: u8 = 0xee;

/// The two dates of LIBRARY and the two of STRUCT: the record, and where in its
/// body the second is.
const SECONDS: [(usize, usize); 4] = [(0, 22), (0, 30), (1, 6), (1, 14)];

/// LIBRARY, STRUCT and ENDLIB, with this second in date `which`.
fn drawing_with(which: usize, second: u8) -> Drawing {
    let mut drawing = around(vec![plain(STRUCT)]);
    let (record, at) = SECONDS[which];
    drawing.records[record].body[at] = second;
    drawing
}

/// The four dates of that drawing.
fn dates_with(which: usize, second: u8) -> [Date; 4] {
    let mut dates = [Date::read(SOME_DATE); 4];
    dates[which].second = second;
    dates
}

/// The calls that write that drawing.
fn calls_with(which: usize, second: u8) -> [Call; 3] {
    let [library_created, library_modified, created, modified] = dates_with(which, second);
    [
        Call::Library {
            version: 0,
            units: [THOUSANDTH, ONE],
            dates: [library_created, library_modified],
            name: b"m".to_vec(),
        },
        Call::Struct {
            dates: [created, modified],
            name: b"a".to_vec(),
        },
        Call::Endlib,
    ]
}

fn refused(number: u8, at: usize) -> Verdict {
    Verdict::Refused { number, at }
}

fn taken(answer: Answer) -> Place {
    match answer {
        Answer::Taken(place) => place,
        refused => panic!("{refused:?}"),
    }
}

/// What a walk comes to, and the dates it gives on the way.
fn walk(file: &[u8]) -> (Verdict, Vec<Date>) {
    let mut place = start(file).expect("a good beginning");
    let mut dates = Vec::new();
    loop {
        match step(file, place) {
            Step::Record(view, next) => {
                match view.fields {
                    Fields::Library {
                        created, modified, ..
                    }
                    | Fields::Struct {
                        created, modified, ..
                    } => dates.extend([created, modified]),
                    _ => {}
                }
                place = next;
            }
            Step::Done => return (Verdict::Accepted, dates),
            Step::Refused {
                number,
                at,
                place: old,
            } => {
                assert_eq!(old, place);
                return (Err(Refusal { number, at }).into(), dates);
            }
        }
    }
}

/// A writer that has made these calls, with this much room left.
fn writer_after(calls: &[Call], room: usize) -> (Vec<u8>, Place) {
    let mut buffer = vec![FILL; 100];
    let mut place = writer_start(&mut buffer).expect("room");
    for call in calls {
        place = taken(make(&mut buffer, place, call));
    }
    buffer.resize(place.offset + room, FILL);
    (buffer, place)
}

/// The number that the record of date `which` is refused with by the reader,
/// once `spoil` has changed it; none where the file is accepted.
fn reader_says(which: usize, second: u8, spoil: impl Fn(&mut Loose)) -> Option<u8> {
    let mut drawing = drawing_with(which, second);
    let (record, _) = SECONDS[which];
    spoil(&mut drawing.records[record]);
    match check(&drawing.bytes()) {
        Verdict::Accepted => None,
        Verdict::Refused { number, at } => {
            assert_eq!(at, drawing.offset_of(record));
            Some(number)
        }
    }
}

/// The same of the writer, with this much room for the record. A refusal must
/// name the place it should and leave place and buffer as they were.
fn writer_says(which: usize, second: u8, room: usize, spoil: impl Fn(&mut Call)) -> Option<u8> {
    let mut calls = calls_with(which, second);
    let (record, _) = SECONDS[which];
    spoil(&mut calls[record]);
    let (mut buffer, place) = writer_after(&calls[..record], room);
    let old_buffer = buffer.clone();
    match make(&mut buffer, place, &calls[record]) {
        Answer::Taken(_) => None,
        Answer::Refused {
            number,
            at,
            place: old,
        } => {
            assert_eq!(at, (number < 14).then_some(place.offset));
            assert_eq!(old, place);
            assert!(buffer == old_buffer);
            Some(number)
        }
    }
}

/// Up to second 60 another fault decides, if there is one, and then the date.
fn date_decides_from_61(other: Option<u8>, says: impl Fn(u8) -> Option<u8>) {
    for second in [0, 59, 60] {
        assert_eq!(says(second), other, "{second}");
    }
    for second in [61, 62, 255] {
        assert_eq!(says(second), Some(9), "{second}");
    }
}

fn name_of(call: &mut Call) -> &mut Vec<u8> {
    match call {
        Call::Library { name, .. } | Call::Struct { name, .. } => name,
        _ => unreachable!("only LIBRARY and STRUCT have dates"),
    }
}

#[test]
fn reader_takes_0_to_60() {
    for which in 0..4 {
        for second in 0..=60 {
            let file = drawing_with(which, second).bytes();
            let dates = dates_with(which, second).to_vec();
            assert_eq!(check(&file), Verdict::Accepted, "{which}, {second}");
            assert_eq!(walk(&file), (Verdict::Accepted, dates));
            let mut form = vec![FILL; file.len()];
            assert_eq!(normal_form(&file, &mut form), Ok(file.len()));
            assert_eq!(form, file);
        }
    }
}

#[test]
fn reader_refuses_61_to_255() {
    for (which, (record, _)) in SECONDS.into_iter().enumerate() {
        for second in 61..=255 {
            let drawing = drawing_with(which, second);
            let file = drawing.bytes();
            let at = drawing.offset_of(record);
            // The two dates of a good LIBRARY before it are still given.
            let dates = dates_with(which, second)[..2 * record].to_vec();
            assert_eq!(check(&file), refused(9, at), "{which}, {second}");
            assert_eq!(walk(&file), (refused(9, at), dates));
            let refusal = Refusal {
                number: 9,
                at: Some(at),
            };
            let mut form = vec![FILL; file.len()];
            assert_eq!(normal_form(&file, &mut form), Err(refusal));
        }
    }
}

#[test]
fn writer_takes_0_to_60() {
    for which in 0..4 {
        for second in 0..=60 {
            let file = drawing_with(which, second).bytes();
            let dates = dates_with(which, second).to_vec();
            let mut buffer = vec![FILL; file.len() + 10];
            let answers = make_all(&mut buffer, &calls_with(which, second)).expect("room");
            let all_taken = answers.iter().all(|a| matches!(a, Answer::Taken(_)));
            assert!(all_taken, "{which}, {second}: {answers:?}");
            let (written, beyond) = buffer.split_at(file.len());
            assert_eq!(written, file);
            assert!(beyond.iter().all(|&byte| byte == FILL));
            assert_eq!(walk(written), (Verdict::Accepted, dates));
        }
    }
}

#[test]
fn writer_refuses_61_to_255() {
    for which in 0..4 {
        for second in 61..=255 {
            let says = writer_says(which, second, 100, |_| ());
            assert_eq!(says, Some(9), "{which}, {second}");
        }
    }
}

/// A leap second is not tied to a minute, an hour or a day.
#[test]
fn second_60_in_any_minute() {
    for (month, day, hour, minute) in [(1, 1, 0, 0), (2, 31, 14, 9), (12, 31, 23, 59)] {
        let mut drawing = around(vec![plain(STRUCT)]);
        for (record, at) in SECONDS {
            let date = [0x80, 0, month, day, hour, minute, 60, 0];
            drawing.records[record].body[at - 6..at + 2].copy_from_slice(&date);
        }
        assert_eq!(check(&drawing.bytes()), Verdict::Accepted);
    }
}

/// Only the second has changed.
#[test]
fn minute_60_is_refused() {
    for (which, (_, at)) in SECONDS.into_iter().enumerate() {
        for second in [0, 59, 60, 61] {
            let says = reader_says(which, second, |record| record.body[at - 1] = 60);
            assert_eq!(says, Some(9));
        }
    }
}

#[test]
fn date_before_scale() {
    for which in 0..2 {
        for unit in 0..2 {
            for wrong in [[0; 8], [0xc1, 0x10, 0, 0, 0, 0, 0, 0]] {
                let in_file = |record: &mut Loose| {
                    record.body[8 * unit..][..8].copy_from_slice(&wrong);
                };
                date_decides_from_61(Some(10), |second| reader_says(which, second, in_file));
                let in_call = |call: &mut Call| {
                    let Call::Library { units, .. } = call else {
                        unreachable!("the first two dates are those of LIBRARY");
                    };
                    units[unit] = wrong;
                };
                date_decides_from_61(Some(10), |second| writer_says(which, second, 100, in_call));
            }
        }
    }
}

#[test]
fn date_before_string() {
    for which in 0..4 {
        for wrong in [&b"\0\0"[..], b"\0x", b"xy"] {
            let in_file = |record: &mut Loose| record.body.extend_from_slice(wrong);
            date_decides_from_61(Some(11), |second| reader_says(which, second, in_file));
        }
        let in_call = |call: &mut Call| name_of(call).push(0);
        date_decides_from_61(Some(11), |second| writer_says(which, second, 100, in_call));
    }
}

/// No flags of LIBRARY and STRUCT are refused, so there is no 7 before the 9.
#[test]
fn flags_do_not_decide() {
    for which in 0..4 {
        for flags in 0..=255 {
            let in_file = |record: &mut Loose| record.flags = flags;
            date_decides_from_61(None, |second| reader_says(which, second, in_file));
            let in_call = |call: &mut Call| {
                if let Call::Library { version, .. } = call {
                    *version = flags;
                }
            };
            date_decides_from_61(None, |second| writer_says(which, second, 100, in_call));
        }
    }
}

/// A body that ends before its string, or even inside its dates. The writer
/// cannot be given one.
#[test]
fn length_before_date() {
    for (which, string_at) in [32, 32, 16, 16].into_iter().enumerate() {
        for length in (0..=string_at).step_by(2) {
            let cut = |record: &mut Loose| record.body.truncate(length);
            for second in [0, 60, 61, 255] {
                let says = reader_says(which, second, cut);
                assert_eq!(says, Some(8), "{which}, {second}, {length}");
            }
        }
    }
}

/// A second LIBRARY, and a STRUCT before the first.
#[test]
fn sequence_before_date() {
    for (which, (record, _)) in SECONDS.into_iter().enumerate() {
        for second in [0, 60, 61, 255] {
            let bad = drawing_with(which, second).records[record].clone();
            let mut drawing = Drawing::of(vec![plain(LIBRARY); 1 - record]);
            let at = drawing.offset_of(1 - record);
            drawing.push(bad);
            drawing.push(plain(ENDLIB));
            assert_eq!(check(&drawing.bytes()), refused(6, at));

            let before = calls_with(which, 0);
            let (mut buffer, place) = writer_after(&before[..1 - record], 100);
            let old_buffer = buffer.clone();
            assert_eq!(
                make(&mut buffer, place, &calls_with(which, second)[record]),
                Answer::Refused {
                    number: 6,
                    at: Some(at),
                    place
                }
            );
            assert_eq!(buffer, old_buffer);
        }
    }
}

/// The writer's last two: a record that would be too long, and no room.
#[test]
fn date_before_length_and_room() {
    for which in 0..4 {
        let long = |call: &mut Call| name_of(call).resize(70_000, b'x');
        date_decides_from_61(Some(15), |second| writer_says(which, second, 80_000, long));
        date_decides_from_61(Some(15), |second| writer_says(which, second, 0, long));
        date_decides_from_61(Some(14), |second| writer_says(which, second, 0, |_| ()));
    }
}
