//! Compares the archive with the reference on fixed and on random cases.
//!
//! `differential --count N --seed S` runs the fixed cases and then N random
//! ones. Random case I depends on S and I alone: `--from I --count 1` makes it
//! again by itself. The last line is `N passed, M failed`, where a case is one
//! file or one sequence of writer calls with all that is asked of it. In a run
//! with the fixed cases, a refusal number from 1 to 16 that was never given
//! counts as failed.

use std::process::ExitCode;

use cgx_harness::compare::{self, Report};
use cgx_harness::generate::{self, Call, Case, Drawing, Rng};

const USAGE: &str = "usage: differential [--count N] [--seed S] [--from I]";
/// About a minute on one core.
const QUICK_COUNT: u64 = 200_000;

struct Options {
    count: u64,
    seed: u64,
    /// The first random case; the fixed ones are left out unless it is 0.
    from: u64,
}

fn main() -> ExitCode {
    let Some(options) = options(std::env::args().skip(1)) else {
        eprintln!("{USAGE}");
        return ExitCode::from(2);
    };
    let Options { count, seed, from } = options;
    println!("differential: {count} random cases from {from}, seed {seed}");
    let mut report = Report::new(from == 0);
    if from == 0 {
        fixed_cases(&mut report);
    }
    for index in from..from + count {
        random_case(&mut report, seed, index);
    }
    println!("{}", report.summary());
    println!("{} passed, {} failed", report.passed(), report.failed());
    ExitCode::from(u8::from(report.failed() > 0))
}

/// None where the arguments make no sense.
fn options(mut words: impl Iterator<Item = String>) -> Option<Options> {
    let mut options = Options {
        count: QUICK_COUNT,
        seed: 1,
        from: 0,
    };
    while let Some(word) = words.next() {
        let number = words.next()?.parse().ok()?;
        match word.as_str() {
            "--count" => options.count = number,
            "--seed" => options.seed = number,
            "--from" => options.from = number,
            _ => return None,
        }
    }
    Some(options)
}

// ---- cases that do not depend on the seed

fn fixed_cases(report: &mut Report) {
    limits(report);
    aimed_files(report, "file at a boundary", generate::boundary_cases());
    aimed_files(report, "file of telling longs", generate::long_cases());
    cuts(report);
    aimed_calls(report);
}

/// Good files that go to the limits of the format.
fn limits(report: &mut Report) {
    for (what, drawing) in generate::showcase() {
        whole_file(report, "file at the limits", what, &drawing.bytes(), 1);
    }
}

/// Every rule, just met and just broken, or every long with telling bytes; the
/// answer is known beforehand.
fn aimed_files(report: &mut Report, kind: &'static str, cases: Vec<Case>) {
    for aimed in cases {
        report.case(kind, aimed.what, &aimed.bytes, |case, file| {
            compare::whole_file(case, file, &mut Rng::new(1));
            compare::aimed_verdict(case, &aimed);
        });
    }
}

/// Files cut at every byte: small good ones, and one with every kind at length.
fn cuts(report: &mut Report) {
    let mut rng = Rng::new(1);
    let random = (0..40).map(|_| generate::valid(&mut rng));
    let showcase = generate::showcase().into_iter().map(|(_, drawing)| drawing);
    for file in showcase.chain(random).map(|drawing| drawing.bytes()) {
        if file.len() > 3_000 {
            continue;
        }
        for cut in generate::truncations(&file) {
            report.case("file cut at every byte", "fixed", cut, compare::cut_file);
        }
    }
}

fn aimed_calls(report: &mut Report) {
    for bad in generate::bad_calls() {
        report.case("call that is refused", bad.what, &[], |case, _| {
            compare::aimed_call(case, &bad);
        });
    }
    for calls in generate::longest_calls() {
        let room = 4 + calls.iter().map(Call::size).sum::<usize>();
        for room in [room, room - 1, room + 9] {
            report.case("longest calls", "fixed", &[], |case, _| {
                compare::calls(case, &calls, room);
            });
        }
    }
    for room in 0..8 {
        report.case("start of a writer", "fixed", &[], |case, _| {
            compare::calls(case, &[], room);
        });
    }
}

// ---- random cases

/// Runs random case `index`, whose kind is taken in turn.
fn random_case(report: &mut Report, seed: u64, index: u64) {
    let mut rng = Rng::new(Rng::new(seed).bits() ^ Rng::new(index).bits());
    let origin = format!("--seed {seed} --from {index} --count 1");
    let rng = &mut rng;
    match index % 13 {
        0 => {
            let file = generate::valid(rng).bytes();
            whole_file(report, "good file", &origin, &file, index);
        }
        1 => damaged(report, &origin, rng),
        2 => {
            let file = generate::valid(rng).bytes();
            let mutated = generate::mutated(rng, &file);
            whole_file(report, "mutated file", &origin, &mutated, index);
        }
        3 => {
            let file = generate::valid(rng).bytes();
            let cut = &file[..rng.below(file.len())];
            whole_file(report, "cut file", &origin, cut, index);
        }
        4 => {
            let drawing = generate::valid(rng);
            let other = generate::same_meaning_variant(rng, &drawing);
            pair(report, "pair of one meaning", &origin, &drawing, &other);
        }
        5 => {
            let drawing = generate::valid(rng);
            let other = generate::different_meaning_variant(rng, &drawing);
            pair(report, "pair of two meanings", &origin, &drawing, &other);
        }
        6 => places(report, &origin, rng),
        7 => {
            let question = generate::layer_question(rng);
            let kind = "layer in any bytes";
            report.case(kind, &origin, &question.bytes, |case, bytes| {
                compare::layer_question(case, bytes, &question, rng);
            });
        }
        8 => good_calls(report, &origin, rng),
        9 => any_calls(report, &origin, rng),
        10 => calls_at_places(report, &origin, rng),
        11 => report.case("reals and doubles", &origin, &[], |case, _| {
            compare::reals(case, rng);
        }),
        _ => {
            let file = generate::valid(rng).bytes();
            report.case("made-up lists and texts", &origin, &file, |case, file| {
                compare::made_up_lists(case, file, rng);
            });
        }
    }
}

fn whole_file(report: &mut Report, kind: &'static str, origin: &str, file: &[u8], seed: u64) {
    report.case(kind, origin, file, |case, file| {
        compare::whole_file(case, file, &mut Rng::new(seed));
    });
}

fn damaged(report: &mut Report, origin: &str, rng: &mut Rng) {
    let aimed = generate::damaged(rng);
    report.case("damaged file", origin, &aimed.bytes, |case, file| {
        compare::whole_file(case, file, rng);
        compare::aimed_verdict(case, &aimed);
    });
}

fn pair(report: &mut Report, kind: &'static str, origin: &str, one: &Drawing, other: &Drawing) {
    let (one, other) = (one.bytes(), other.bytes());
    report.case(kind, origin, &[&one[..], &other].concat(), |case, both| {
        compare::pair(case, &both[..one.len()], &both[one.len()..]);
    });
}

/// Made-up places on a good file, and on a mutated one.
fn places(report: &mut Report, origin: &str, rng: &mut Rng) {
    let drawing = generate::valid(rng);
    let mut file = drawing.bytes();
    if rng.one_in(2) {
        file = generate::mutated(rng, &file);
    }
    let mut offsets = drawing.offsets();
    offsets.retain(|&offset| offset <= file.len());
    report.case("made-up places", origin, &file, |case, file| {
        compare::made_up_places(case, file, &offsets, rng);
    });
}

fn good_calls(report: &mut Report, origin: &str, rng: &mut Rng) {
    let calls = generate::good_calls(rng);
    let size = 4 + calls.iter().map(Call::size).sum::<usize>();
    let room = rng.pick(&[size, size - 1, size + 9]);
    report.case("good calls", origin, &[], |case, _| {
        compare::calls(case, &calls, room);
    });
}

fn any_calls(report: &mut Report, origin: &str, rng: &mut Rng) {
    let calls = generate::any_calls(rng);
    let room = rng.pick(&[4, 5, 60, 100, 200, 1_000, 70_000]);
    report.case("calls in any order", origin, &[], |case, _| {
        compare::calls(case, &calls, room);
    });
}

fn calls_at_places(report: &mut Report, origin: &str, rng: &mut Rng) {
    let calls = generate::any_calls(rng);
    let room = rng.pick(&[0, 3, 4, 5, 60, 200, 500]);
    report.case("calls at made-up places", origin, &[], |case, _| {
        compare::calls_at_made_up_places(case, &calls, room, rng);
    });
}
