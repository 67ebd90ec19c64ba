//! The archive agrees with the reference on a few cases, and a case in which two
//! answers differ is counted as failed. `differential` does the rest.

use cgx_harness::compare::{self, Report};
use cgx_harness::generate::{self, Call, Rng};

#[test]
fn archive_answers_as_the_reference_does() {
    let mut report = Report::new(false);
    let mut rng = Rng::new(9);
    for _ in 0..200 {
        let file = generate::valid(&mut rng).bytes();
        let mutated = generate::mutated(&mut rng, &file);
        for input in [&file, &mutated] {
            report.case("file", "test", input, |case, file| {
                compare::whole_file(case, file, &mut rng);
            });
        }
        let calls = generate::good_calls(&mut rng);
        let room = 4 + calls.iter().map(Call::size).sum::<usize>();
        report.case("calls", "test", &[], |case, _| {
            compare::calls(case, &calls, room);
        });
    }
    assert_eq!((report.passed(), report.failed()), (600, 0));
}

/// The version that `cgx.h` has.
#[test]
fn archive_has_its_version() {
    assert_eq!(cgx_harness::archive::version(), 3 << 16);
}

/// A real or a double that has no equal leaves what was lent, and the rest goes
/// there and back.
#[test]
fn reals_and_doubles() {
    let mut report = Report::new(false);
    let mut rng = Rng::new(10);
    for _ in 0..200 {
        report.case("reals", "test", &[], |case, _| {
            compare::reals(case, &mut rng);
        });
    }
    assert_eq!((report.passed(), report.failed()), (200, 0));
}

#[test]
fn a_difference_is_counted() {
    let mut report = Report::new(false);
    report.case("same", "test", b"a", |case, _| {
        case.same(|| "number".to_string(), &1, &1);
        case.same_bytes(|| "bytes".to_string(), b"ab", b"ab");
    });
    report.case("number differs", "test", b"a", |case, _| {
        case.same(|| "number".to_string(), &1, &2);
    });
    report.case("byte differs", "test", b"a", |case, _| {
        case.same_bytes(|| "bytes".to_string(), b"ab", b"aa");
    });
    report.case("call that panics", "test", b"a", |_, _| {
        panic!("on purpose")
    });
    assert_eq!((report.passed(), report.failed()), (1, 3));
}

/// A whole run must see every refusal number.
#[test]
fn numbers_never_seen_are_counted() {
    assert_eq!(Report::new(true).failed(), 16);
}
