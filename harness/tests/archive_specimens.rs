//! Every specimen of paper 01, run through the archive. What is expected is
//! written out from the paper; the reference is asked for nothing.

use cgx_harness::archive::{check, make, normal_form, start, step, writer_start};
use cgx_harness::generate::drawing::*;
use cgx_harness::generate::valid::{around, in_cell};
use cgx_harness::generate::Call;
use cgx_harness::reference::{
    Answer, DataType, Date, Fields, LayerNo, Place, Real, Step, Verdict, View,
};

fn refused(number: u8, at: usize) -> Verdict {
    Verdict::Refused { number, at }
}

fn views(file: &[u8]) -> Vec<View> {
    let mut place = start(file).expect("a good beginning");
    let mut views = Vec::new();
    while let Step::Record(view, next) = step(file, place) {
        views.push(view);
        place = next;
    }
    views
}

fn normal(file: &[u8]) -> Vec<u8> {
    let mut out = vec![0xee; file.len()];
    let length = normal_form(file, &mut out).expect("an accepted file");
    out.truncate(length);
    out
}

fn bytes_of(word: u64) -> [u8; 8] {
    word.to_be_bytes()
}

#[test]
fn beginnings() {
    assert_eq!(check(b""), refused(1, 0));
    assert_eq!(check(b"cgx\x01"), refused(2, 0));
    assert_eq!(check(b"cgx\0"), refused(3, 4));
    assert_eq!(check(b"cgx\0\x00\x05\x00\x00"), refused(5, 4));
    assert_eq!(check(b"cgx\0\x00\x04\x0b\x00"), refused(6, 4));
}

/// As the name of a STRUCT, at offset 42.
#[test]
fn string_fields() {
    let named = |field: &[u8]| {
        let mut record = plain(STRUCT);
        record.body.truncate(16);
        record.body.extend(field);
        around(vec![record]).bytes()
    };
    for (field, text) in [(&b"a\0"[..], &b"a"[..]), (b"ab\0\0", b"ab"), (b"\0\0", b"")] {
        let file = named(field);
        assert_eq!(check(&file), Verdict::Accepted);
        let Fields::Struct { name, .. } = views(&file)[1].fields else {
            panic!("not a STRUCT");
        };
        assert_eq!(name.in_file(&file), text);
    }
    for field in [b"a\0\0\0", b"ab\0c"] {
        assert_eq!(check(&named(field)), refused(11, 42));
    }
}

#[test]
fn longs() {
    for (bytes, expected) in [
        ([0xff, 0xff, 0xff, 0xb0], -80),
        ([0xff, 0xff, 0xff, 0xff], -1),
        ([0x80, 0, 0, 0], -2_147_483_648),
        ([0x7f, 0xff, 0xff, 0xff], 2_147_483_647),
    ] {
        let body = Body::new().bytes(&bytes).string(b"p");
        let file = around(vec![plain(STRUCT), Loose::new(CPRPTY, 0, body)]).bytes();
        let Fields::Cprpty { number, .. } = views(&file)[2].fields else {
            panic!("not a CPRPTY");
        };
        assert_eq!(number, expected);
    }
}

#[test]
fn shorts() {
    for (bytes, expected) in [
        ([0xff, 0xff], -1),
        ([0x80, 0], -32_768),
        ([0x7f, 0xff], 32_767),
    ] {
        let body = Body::new().bytes(&bytes).bytes(&bytes);
        let file = around(vec![plain(STRUCT), Loose::new(LAYER, 0, body)]).bytes();
        let Fields::Layer {
            number, data_type, ..
        } = views(&file)[2].fields
        else {
            panic!("not a LAYER");
        };
        assert_eq!((number, data_type), (LayerNo(expected), DataType(expected)));
    }
}

/// A real as the angle of an SREF: what a view answers, an exact one by the
/// bits of its double, and the bytes of the normal real.
#[test]
fn reals() {
    enum Answered {
        Exact(u64),
        Inexact(bool, u8, u64),
    }
    use Answered::*;
    let ones = (1 << 56) - 1;
    for (stored, answered, normal_real) in [
        (
            0x4201000000000000,
            Exact(0x3ff0000000000000),
            0x4110000000000000,
        ),
        (
            0x4110000000000000,
            Exact(0x3ff0000000000000),
            0x4110000000000000,
        ),
        (
            0xc110000000000000,
            Exact(0xbff0000000000000),
            0xc110000000000000,
        ),
        (0x8000000000000000, Exact(0), 0),
        (
            0x3e4189374bc6a7f0,
            Exact(0x3f50624dd2f1a9fc),
            0x3e4189374bc6a7f0,
        ),
        (
            0x3944b82fa09b5a54,
            Exact(0x3e112e0be826d695),
            0x3944b82fa09b5a54,
        ),
        (
            0x41ffffffffffffff,
            Inexact(false, 0x41, ones),
            0x41ffffffffffffff,
        ),
        (
            0xc1ffffffffffffff,
            Inexact(true, 0x41, ones),
            0xc1ffffffffffffff,
        ),
    ] {
        let body = Body::new()
            .longs(&[1, 2])
            .bytes(&bytes_of(stored))
            .string(b"a");
        let drawing = around(vec![plain(STRUCT), Loose::new(SREF, 1, body)]);
        let file = drawing.bytes();
        let Fields::Sref { angle, .. } = views(&file)[2].fields else {
            panic!("not an SREF");
        };
        match (angle.expect("an angle"), answered) {
            (Real::Exact(double), Exact(bits)) => assert_eq!(double.to_bits(), bits),
            (Real::Inexact { sign, e, m }, Inexact(negative, exponent, mantissa)) => {
                assert_eq!((sign, e, m), (negative, exponent, mantissa))
            }
            (other, _) => panic!("{stored:016x} is answered as {other:?}"),
        }
        let angle_at = drawing.offset_of(2) + 12;
        assert_eq!(normal(&file)[angle_at..][..8], bytes_of(normal_real));
    }
}

#[test]
fn seconds() {
    let mut record = plain(STRUCT);
    record.body[6] = 60;
    let mut drawing = around(vec![record]);
    assert_eq!(check(&drawing.bytes()), Verdict::Accepted);
    drawing.records[1].body[6] = 61;
    assert_eq!(check(&drawing.bytes()), refused(9, 42));
}

#[test]
fn most_boxes() {
    let record = Loose::new(BOX, 0, Body(vec![0; 4_095 * 16]));
    assert_eq!(record.size(), 65_524);
    assert_eq!(check(&in_cell(vec![record]).bytes()), Verdict::Accepted);

    let mut buffer = vec![0; 100_000];
    let place = in_layer(&mut buffer);
    let sides = vec![0; 4_096 * 4];
    let too_many = Answer::Refused {
        number: 15,
        at: None,
        place,
    };
    assert_eq!(make(&mut buffer, place, &Call::Boxes { sides }), too_many);
}

#[test]
fn text_flags_f0_become_00() {
    let record = Loose {
        flags: 0xf0,
        ..plain(TEXT)
    };
    let drawing = in_cell(vec![record]);
    assert_eq!(normal(&drawing.bytes())[drawing.offset_of(3) + 3], 0);

    let mut buffer = vec![0xee; 200];
    let place = in_layer(&mut buffer);
    let text = Call::Text {
        flags: 0xf0,
        place: [0, 0],
        width: 1,
        label: b"x".to_vec(),
    };
    taken(make(&mut buffer, place, &text));
    assert_eq!(buffer[place.offset + 3], 0);
}

fn taken(answer: Answer) -> Place {
    match answer {
        Answer::Taken(place) => place,
        refused => panic!("{refused:?}"),
    }
}

/// A writer with LIBRARY, STRUCT and LAYER written.
fn in_layer(buffer: &mut [u8]) -> Place {
    let dates = [Date::read(SOME_DATE); 2];
    let calls = [
        Call::Library {
            version: 3,
            units: [THOUSANDTH, ONE],
            dates,
            name: b"m".to_vec(),
        },
        Call::Struct {
            dates,
            name: b"a".to_vec(),
        },
        Call::Layer {
            number: LayerNo(1),
            data_type: DataType(0),
            name: None,
        },
    ];
    let first = writer_start(buffer).expect("room");
    calls
        .iter()
        .fold(first, |place, call| taken(make(buffer, place, call)))
}
