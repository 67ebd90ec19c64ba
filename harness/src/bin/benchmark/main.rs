//! Measures the archive against the reference, against plain C and against a
//! bare memcpy of the same bytes.
//!
//! `benchmark [--rounds N] [--megabytes M] [--table WORD] [--mix WORD]` prints
//! markdown tables, or only those whose names hold the words. All contenders of
//! a line take turns in every round and the best time of each counts, so a
//! loaded machine is unfair to none of them.

mod mixes;
mod timing;

use std::hint::black_box;
use std::mem::MaybeUninit;
use std::process::ExitCode;

use cgx_harness::generate::Call;
use cgx_harness::reference::{self, Answer, Place, Step};
use cgx_harness::{archive, drive, plain_c, words};
use mixes::Mix;
use timing::{best_of, Best};

const USAGE: &str = "usage: benchmark [--rounds N] [--megabytes M] [--table WORD] [--mix WORD]";

struct Options {
    rounds: usize,
    megabytes: usize,
    /// A word in the names of the tables to print; all names hold the empty one.
    table: String,
    /// A word in the names of the lines to measure.
    mix: String,
}

fn main() -> ExitCode {
    let Some(options) = options(std::env::args().skip(1)) else {
        eprintln!("{USAGE}");
        return ExitCode::from(2);
    };
    let Options {
        rounds, megabytes, ..
    } = options;
    let size = megabytes << 20;
    println!("best of {rounds} rounds, files of about {megabytes} MiB, times in ms\n");
    let wanted = |table: &str| table.contains(&options.table);
    let mut mixes = Vec::new();
    if ["check", "normal form", "walk"].into_iter().any(wanted) {
        mixes = mixes::all(size, &options.mix);
    }
    if wanted("check") {
        files_table("check", &mixes, rounds, check);
    }
    if wanted("normal form") {
        files_table("normal form", &mixes, rounds, normal_form);
    }
    if wanted("walk") {
        walk_table(&mixes, rounds);
    }
    if wanted("writer") {
        writer_table(&mixes::writer_calls(size, &options.mix), rounds);
    }
    ExitCode::SUCCESS
}

/// None where the arguments make no sense.
fn options(mut words: impl Iterator<Item = String>) -> Option<Options> {
    let mut options = Options {
        rounds: 15,
        megabytes: 32,
        table: String::new(),
        mix: String::new(),
    };
    while let Some(word) = words.next() {
        let value = words.next()?;
        match word.as_str() {
            "--rounds" => options.rounds = value.parse().ok()?,
            "--megabytes" => options.megabytes = value.parse().ok()?,
            "--table" => options.table = value,
            "--mix" => options.mix = value,
            _ => return None,
        }
    }
    (options.rounds > 0 && options.megabytes > 0).then_some(options)
}

// ---- check and normal form

fn files_table(what: &str, mixes: &[Mix], rounds: usize, measure: fn(&Mix, usize) -> Best) {
    println!(
        "| {what} | archive | Rust | C | memcpy | archive / C | archive / better of the two |"
    );
    println!("|---|---|---|---|---|---|---|");
    for mix in mixes {
        let best = measure(mix, rounds);
        println!("| {} {}", mix.name, best.cells());
    }
    println!();
}

fn check(mix: &Mix, rounds: usize) -> Best {
    let file = &mix.bytes;
    let mut copy = vec![1; file.len()];
    best_of(
        rounds,
        || assert!(archive::check(black_box(file)) == reference::Verdict::Accepted),
        || assert!(reference::check(black_box(file)) == reference::Verdict::Accepted),
        || assert!(plain_c::check(black_box(file)).is_ok()),
        || black_box(&mut copy).copy_from_slice(black_box(file)),
    )
}

fn normal_form(mix: &Mix, rounds: usize) -> Best {
    let file = &mix.bytes;
    let mut outs: [Vec<u8>; 4] = std::array::from_fn(|_| vec![1; file.len()]);
    let [by_archive, by_reference, by_c, copy] = &mut outs;
    let best = best_of(
        rounds,
        || assert!(archive::normal_form(black_box(file), by_archive).is_ok()),
        || assert!(reference::normal_form(black_box(file), by_reference).is_ok()),
        || assert!(plain_c::normal_form(black_box(file), by_c).is_ok()),
        || black_box(&mut *copy).copy_from_slice(black_box(file)),
    );
    assert!(by_archive == by_reference && by_archive == by_c);
    best
}

// ---- the walk

fn walk_table(mixes: &[Mix], rounds: usize) {
    println!(
        "| walk, ns a record | records | archive | Rust | C | archive / C | archive, check alone |"
    );
    println!("|---|---|---|---|---|---|---|");
    for mix in mixes {
        let records = walk_by_archive(&mix.bytes);
        let best = walk(mix, rounds, records);
        let each = |seconds: f64| 1e9 * seconds / records as f64;
        println!(
            "| {} | {records} | {:.1} | {:.1} | {:.1} | {:.2} | {:.1} |",
            mix.name,
            each(best.archive),
            each(best.rust),
            each(best.c),
            best.archive / best.c,
            each(best.bare),
        );
    }
    println!();
}

/// The bare time is that of a check, to tell what the views add.
fn walk(mix: &Mix, rounds: usize, records: usize) -> Best {
    let file = &mix.bytes;
    best_of(
        rounds,
        || assert_eq!(walk_by_archive(black_box(file)), records),
        || assert_eq!(walk_by_reference(black_box(file)), records),
        || assert_eq!(walk_by_c(black_box(file)), records),
        || assert!(archive::check(black_box(file)) == reference::Verdict::Accepted),
    )
}

fn walk_by_archive(file: &[u8]) -> usize {
    let mut place = archive::start_plain(file).expect("a good file");
    let mut view = MaybeUninit::uninit();
    let mut records = 0;
    while archive::step_plain(file, &mut place, &mut view) {
        black_box(&view);
        records += 1;
    }
    records
}

fn walk_by_reference(file: &[u8]) -> usize {
    let mut place = Place::START;
    let mut records = 0;
    while let Step::Record(view, next) = reference::step(file, place) {
        black_box(&view);
        records += 1;
        place = next;
    }
    records
}

fn walk_by_c(file: &[u8]) -> usize {
    let mut records = 0;
    let end = plain_c::walk(file, |view| {
        black_box(view);
        records += 1;
    });
    assert!(end.is_ok());
    records
}

// ---- the writer

fn writer_table(workloads: &[(&str, Vec<Call>)], rounds: usize) {
    println!(
        "| writer | archive | Rust | C | memcpy | archive / C | archive / better of the two |"
    );
    println!("|---|---|---|---|---|---|---|");
    for (name, calls) in workloads {
        println!("| {name} {}", writer(calls, rounds).cells());
    }
    println!();
}

/// Opens a cell and a layer by the reference, then times the calls from there.
fn writer(calls: &[Call], rounds: usize) -> Best {
    let room = 1_000 + calls.iter().map(Call::size).sum::<usize>();
    let mut outs: [Vec<u8>; 4] = std::array::from_fn(|_| vec![1; room]);
    let [by_archive, by_reference, by_c, copy] = &mut outs;
    let place = open_layer(by_archive);
    open_layer(by_reference);
    open_layer(by_c);
    let source = vec![2; room];
    let best = best_of(
        rounds,
        || write_by_archive(by_archive, place, calls),
        || write_by_reference(by_reference, place, calls),
        || write_by_c(by_c, place, calls),
        || black_box(&mut *copy).copy_from_slice(black_box(&source)),
    );
    assert!(by_archive == by_reference && by_archive == by_c);
    best
}

fn open_layer(buffer: &mut [u8]) -> Place {
    let place = reference::writer_start(buffer).expect("room for four bytes");
    mixes::opening_calls()
        .iter()
        .fold(place, |place, call| taken(drive::make(buffer, place, call)))
}

fn taken(answer: Answer) -> Place {
    match answer {
        Answer::Taken(place) => place,
        Answer::Refused { number, .. } => panic!("refused {number}"),
    }
}

fn write_by_archive(buffer: &mut [u8], place: Place, calls: &[Call]) {
    let mut place = words::of_place(place);
    for call in calls {
        assert!(match call {
            Call::Boxes { sides } => archive::boxes_plain(buffer, &mut place, sides),
            Call::Text {
                flags,
                place: at,
                width,
                label,
            } => {
                archive::text_plain(buffer, &mut place, *flags, *at, *width, label)
            }
            _ => unreachable!("only boxes and texts are measured"),
        });
    }
    black_box(place);
}

fn write_by_reference(buffer: &mut [u8], place: Place, calls: &[Call]) {
    let mut place = place;
    for call in calls {
        place = taken(match call {
            Call::Boxes { sides } => reference::boxes(buffer, place, sides),
            Call::Text {
                flags,
                place: at,
                width,
                label,
            } => reference::text(buffer, place, *flags, *at, *width, label),
            _ => unreachable!("only boxes and texts are measured"),
        });
    }
    black_box(place);
}

fn write_by_c(buffer: &mut [u8], place: Place, calls: &[Call]) {
    let mut place = plain_c::writer(place);
    for call in calls {
        let answer = match call {
            Call::Boxes { sides } => plain_c::boxes(buffer, &mut place, sides),
            Call::Text {
                flags,
                place: at,
                width,
                label,
            } => plain_c::text(buffer, &mut place, *flags, *at, *width, label),
            _ => unreachable!("only boxes and texts are measured"),
        };
        assert!(answer.is_ok());
    }
    black_box(&place);
}
