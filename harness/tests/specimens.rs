//! Every specimen of paper 01, and each of the errors met before.

use cgx_harness::generate::drawing::*;
use cgx_harness::generate::valid::{around, in_cell};
use cgx_harness::reference::*;

fn refused(number: u8, at: usize) -> Verdict {
    Verdict::Refused { number, at }
}

/// All views of an accepted file.
fn views(file: &[u8]) -> Vec<View> {
    let mut place = start(file).expect("a good beginning");
    let mut views = Vec::new();
    loop {
        match step(file, place) {
            Step::Record(view, next) => {
                views.push(view);
                place = next;
            }
            Step::Done => return views,
            refusal => panic!("{refusal:?}"),
        }
    }
}

fn normal(file: &[u8]) -> Vec<u8> {
    let mut out = vec![0xee; file.len()];
    let length = normal_form(file, &mut out).expect("an accepted file");
    out.truncate(length);
    out
}

fn real(bytes: [u8; 8]) -> StoredReal {
    StoredReal::from_bytes(bytes)
}

#[test]
fn beginnings() {
    assert_eq!(check(b""), refused(1, 0));
    assert_eq!(check(b"cgx\x01"), refused(2, 0));
    assert_eq!(check(b"cgx\0"), refused(3, 4));
    assert_eq!(check(b"cgx\0\x00\x05\x00\x00"), refused(5, 4));
    assert_eq!(check(b"cgx\0\x00\x04\x0b\x00"), refused(6, 4));
}

#[test]
fn string_fields() {
    assert_eq!(text_of(b"a\0"), Some(&b"a"[..]));
    assert_eq!(text_of(b"ab\0\0"), Some(&b"ab"[..]));
    assert_eq!(text_of(b"\0\0"), Some(&b""[..]));
    assert_eq!(text_of(b"a\0\0\0"), None);
    assert_eq!(text_of(b"ab\0c"), None);
}

#[test]
fn longs_are_signed() {
    for (bytes, expected) in [
        ([0xff, 0xff, 0xff, 0xb0], -80),
        ([0x80, 0, 0, 0], -2_147_483_648),
        ([0xff; 4], -1),
    ] {
        let body = Body::new().bytes(&bytes).string(b"p");
        let file = around(vec![plain(STRUCT), Loose::new(CPRPTY, 0, body)]).bytes();
        let Fields::Cprpty { number, .. } = views(&file)[2].fields else {
            panic!("not a CPRPTY");
        };
        assert_eq!(number, expected);
    }
}

#[test]
fn layer_number_and_data_type_are_signed_shorts() {
    let body = Body::new().bytes(&[0xff, 0xff, 0x80, 0x00]);
    let file = around(vec![plain(STRUCT), Loose::new(LAYER, 0, body)]).bytes();
    let Fields::Layer {
        number, data_type, ..
    } = views(&file)[2].fields
    else {
        panic!("not a LAYER");
    };
    assert_eq!((number, data_type), (LayerNo(-1), DataType(i16::MIN)));
}

#[test]
fn normal_reals() {
    let lazy_one = [0x42, 0x01, 0, 0, 0, 0, 0, 0];
    assert_eq!(real(lazy_one).normal().to_bytes(), ONE);
    assert_eq!(real(lazy_one).answer(), Real::Exact(1.0));
    assert_eq!(real(ONE).answer(), Real::Exact(1.0));
    let minus_zero = [0x80, 0, 0, 0, 0, 0, 0, 0];
    assert_eq!(real(minus_zero).normal().to_bytes(), [0; 8]);
    let Real::Exact(zero) = real(minus_zero).answer() else {
        panic!("zero is exact");
    };
    assert!(zero == 0.0 && zero.is_sign_positive());
}

#[test]
fn exact_and_inexact_reals() {
    let Real::Exact(thousandth) = real(THOUSANDTH).answer() else {
        panic!("exact in paper 004");
    };
    assert!((thousandth - 0.001).abs() < 1e-18);
    let billionth = [0x39, 0x44, 0xb8, 0x2f, 0xa0, 0x9b, 0x5a, 0x54];
    let Real::Exact(billionth) = real(billionth).answer() else {
        panic!("exact in paper 004");
    };
    assert!((billionth - 1e-9).abs() < 1e-24);
    let all_ones = [0x41, 0xff, 0xff, 0xff, 0xff, 0xff, 0xff, 0xff];
    assert_eq!(
        real(all_ones).answer(),
        Real::Inexact {
            sign: false,
            e: 0x41,
            m: (1 << 56) - 1
        }
    );
}

#[test]
fn exactness_turns_at_53_bits() {
    let exact = |m| {
        matches!(
            StoredReal {
                sign: true,
                e: 64,
                m
            }
            .answer(),
            Real::Exact(_)
        )
    };
    assert!(exact((1 << 53) - 1));
    assert!(exact(1 << 53));
    assert!(!exact((1 << 53) + 1));
    assert!(exact(((1 << 53) - 1) << 3));
    assert!(!exact((1 << 56) - 1));
}

/// The double is taken apart again and compared by whole numbers.
#[test]
fn exact_answers_equal_the_exact_value() {
    let mut rng = cgx_harness::generate::Rng::new(3);
    let mut exact = 0;
    for _ in 0..20_000 {
        let stored = real(cgx_harness::generate::values::real(&mut rng));
        let Real::Exact(double) = stored.answer() else {
            continue;
        };
        exact += 1;
        let bits = double.to_bits();
        if stored.m == 0 {
            assert_eq!(bits, 0);
            continue;
        }
        assert_eq!(bits >> 63 == 1, stored.sign);
        let fraction = bits & ((1 << 52) - 1) | 1 << 52;
        let power = (bits >> 52 & 0x7ff) as i32 - 1075;
        // m × 2^(4e − 312) = fraction × 2^power
        let shift = 4 * i32::from(stored.e) - 312 - power;
        if shift >= 0 {
            assert_eq!(u128::from(stored.m) << shift, u128::from(fraction));
        } else {
            assert_eq!(u128::from(stored.m), u128::from(fraction) << -shift);
        }
    }
    assert!(exact > 1_000);
}

#[test]
fn seconds() {
    let mut record = plain(STRUCT);
    record.body[6] = 60;
    let mut drawing = around(vec![record]);
    assert_eq!(check(&drawing.bytes()), Verdict::Accepted);
    drawing.records[1].body[6] = 61;
    assert_eq!(check(&drawing.bytes()), refused(9, drawing.offset_of(1)));
}

#[test]
fn most_boxes() {
    let record = Loose::new(BOX, 0, Body(vec![0; 4_095 * 16]));
    assert_eq!(record.size(), 65_524);
    assert_eq!(check(&in_cell(vec![record]).bytes()), Verdict::Accepted);

    let mut buffer = vec![0; 100_000];
    let mut place = in_layer(&mut buffer);
    let too_many = vec![0; 4_096 * 4];
    assert_eq!(
        boxes(&mut buffer, place, &too_many),
        Answer::Refused {
            number: 15,
            at: None,
            place
        }
    );
    place = taken(boxes(&mut buffer, place, &too_many[4..]));
    assert_eq!(place.offset, 4 + 38 + 22 + 8 + 65_524);
}

fn taken(answer: Answer) -> Place {
    match answer {
        Answer::Taken(place) => place,
        refused => panic!("{refused:?}"),
    }
}

/// A writer with LIBRARY, STRUCT and LAYER written.
fn in_layer(buffer: &mut [u8]) -> Place {
    let date = Date::read(SOME_DATE);
    let place = writer_start(buffer).expect("room");
    let place = taken(library(
        buffer,
        place,
        3,
        [THOUSANDTH, ONE],
        [date; 2],
        b"m",
    ));
    let place = taken(structure(buffer, place, [date; 2], b"a"));
    taken(layer(buffer, place, LayerNo(1), DataType(0), None))
}

#[test]
fn text_flags_f0_become_00() {
    let record = Loose {
        flags: 0xf0,
        ..plain(TEXT)
    };
    let drawing = in_cell(vec![record]);
    let at = drawing.offset_of(3);
    assert_eq!(normal(&drawing.bytes())[at + 3], 0);

    let mut buffer = vec![0xee; 200];
    let place = in_layer(&mut buffer);
    taken(text(&mut buffer, place, 0xf0, [0, 0], 1, b"x"));
    assert_eq!(buffer[place.offset + 3], 0);
}

#[test]
fn lister_of_the_small_drawing() {
    let file = in_cell(vec![plain(BOX)]).bytes();
    assert_eq!(file.len(), 96);
    assert_eq!(
        lister(&file),
        "4 LIBRARY\n42 STRUCT\n64 LAYER\n72 BOX\n92 ENDLIB\nok\n"
    );
}

#[test]
fn lister_tells_refusals() {
    let mut file = in_cell(vec![plain(99), plain(BOX)]).bytes();
    file.push(0);
    assert_eq!(
        lister(&file),
        "4 LIBRARY\n42 STRUCT\n64 LAYER\n80 BOX\n100 ENDLIB\nrefused 13 at 104\n"
    );
    assert_eq!(lister(b""), "refused 1 at 0\n");
    assert_eq!(
        lister(&file[..101]),
        "4 LIBRARY\n42 STRUCT\n64 LAYER\n80 BOX\nrefused 4 at 100\n"
    );
    assert_eq!(lister(&vec![0; 65_536]), "refused 1 at 0\n");
    assert_eq!(lister(&vec![0; 65_537]), "too large\n");
}

#[test]
fn a_property_run_is_for_one_object() {
    let file = in_cell(vec![
        plain(PROPERTY),
        plain(77),
        plain(PROPERTY),
        plain(78),
        plain(BOX),
        plain(BOX),
    ])
    .bytes();
    let views = views(&file);
    let runs: Vec<_> = views.iter().map(|v| (v.run_first, v.run_count)).collect();
    assert_eq!(views[5].kind, Kind::Box);
    assert_eq!(runs[5], (Some(72), 2));
    assert_eq!(runs[6], (None, 0));
    assert!(runs[..5].iter().all(|run| *run == (None, 0)));
}

#[test]
fn struct_clears_the_layer() {
    let drawing = in_cell(vec![plain(STRUCT), plain(BOX)]);
    assert_eq!(check(&drawing.bytes()), refused(6, drawing.offset_of(4)));
    let drawing = in_cell(vec![plain(STRUCT), plain(SREF)]);
    let views = views(&drawing.bytes());
    let second = Some(drawing.offset_of(3));
    let context: Vec<_> = views.iter().map(|v| (v.cell, v.layer)).collect();
    assert_eq!(
        context,
        [
            (None, None),
            (Some(42), None),
            (Some(42), Some(64)),
            (second, None),
            (second, None),
            (second, None)
        ]
    );
}

#[test]
fn endlib_has_the_cell_and_layer_then_open() {
    let file = in_cell(vec![]).bytes();
    let last = *views(&file).last().expect("ENDLIB");
    assert_eq!(last.kind, Kind::Endlib);
    assert_eq!((last.cell, last.layer), (Some(42), Some(64)));
}

#[test]
fn reals_are_compared_by_value() {
    let one = real(ONE);
    let lazy = real([0x42, 0x01, 0, 0, 0, 0, 0, 0]);
    let lazier = real([0x4e, 0, 0, 0, 0, 0, 0, 1]);
    assert!(one.same_value(lazy) && lazy.same_value(one));
    assert!(one.same_value(lazier) && lazier.same_value(one));
    assert!(!one.same_value(StoredReal { sign: true, ..one }));
    assert!(!one.same_value(StoredReal {
        e: one.e + 1,
        ..one
    }));
    assert!(!one.same_value(StoredReal { e: 127, ..one }));
    let zero = StoredReal {
        sign: true,
        e: 99,
        m: 0,
    };
    assert!(zero.same_value(real([0; 8])));
    assert!(!zero.same_value(StoredReal {
        sign: true,
        e: 0,
        m: 1
    }));
}

#[test]
fn layer_names() {
    let named = |name: &[u8]| {
        let body = Body::new().shorts(&[1, 0]).string(name);
        around(vec![plain(STRUCT), Loose::new(LAYER, 9, body)]).bytes()
    };
    let whole = Shown {
        source: Source::Substitute,
        start: 0,
        length: 3,
    };
    let nothing = Shown { length: 0, ..whole };
    let in_file = |start, length| Shown {
        source: Source::File,
        start,
        length,
    };
    assert_eq!(layer_name(&named(b"metal"), 64, b"sub"), in_file(72, 5));
    assert_eq!(layer_name(&named(b"poly"), 64, b"sub"), in_file(72, 4));
    assert_eq!(layer_name(&named(b""), 64, b"sub"), whole);
    let unnamed = in_cell(vec![]).bytes();
    assert_eq!(layer_name(&unnamed, 64, b"sub"), whole);
    let refused = Err(Refusal {
        number: 16,
        at: None,
    });
    for offset in [0, 2, 3, 4, 42, 63, 65, 66, 72, 74, 75, 76, 78, usize::MAX] {
        assert_eq!(layer_name(&unnamed, offset, b"sub"), nothing, "{offset}");
        assert_eq!(good_layer(&unnamed, offset), refused, "{offset}");
    }
    assert_eq!(good_layer(&unnamed, 64), Ok(()));
    // Nothing before the record is read, nor anything after it.
    let mut alone = unnamed[..72].to_vec();
    alone[..64].fill(0xff);
    assert_eq!(good_layer(&alone, 64), Ok(()));
    assert_eq!(good_layer(&alone[..71], 64), refused);
    let mut spoiled = named(b"metal");
    spoiled[73] = 0;
    assert_eq!(good_layer(&spoiled, 64), refused);
}

#[test]
fn extents() {
    let wire = Loose::new(WIRE, 0, Body::new().longs(&[1000, -90, 3]));
    let file = around(vec![
        plain(STRUCT),
        plain(SREF),
        plain(STRUCT),
        plain(LAYER),
        plain(BOX),
        wire,
        plain(TEXT),
        plain(STRUCT),
        plain(LAYER),
        Loose::new(
            POLY,
            0,
            Body::new().longs(&[5, 6, 7, 8, i32::MIN, i32::MAX, 5, 6]),
        ),
    ])
    .bytes();
    let rect = |left, bottom, right, top| {
        Ok(Some(Rect {
            left,
            bottom,
            right,
            top,
        }))
    };
    assert_eq!(extent(&file, 0), Ok(None));
    assert_eq!(extent(&file, 1), rect(-90, -57, 82, 58));
    assert_eq!(extent(&file, 2), rect(i32::MIN, 6, 7, i32::MAX));
    assert_eq!(
        extent(&file, 3),
        Err(Refusal {
            number: 16,
            at: None
        })
    );
    assert_eq!(
        extent(&file[..50], 0),
        Err(Refusal {
            number: 4,
            at: Some(42)
        })
    );
}
