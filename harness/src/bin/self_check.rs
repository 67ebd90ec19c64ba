//! Runs the reference over generated cases and counts them.
//!
//! `self_check --count N --seed S` makes N random cases of each kind beside
//! the fixed ones, prints how many cases of each kind there were and how often
//! each refusal number was seen, and fails if any answer was not the one aimed at.

use std::collections::BTreeMap;
use std::process::ExitCode;

use cgx_harness::drive::{make, make_all};
use cgx_harness::generate::{self, Call, Drawing, Rng};
use cgx_harness::reference::*;

const USAGE: &str = "usage: self_check [--count N] [--seed S]";

fn main() -> ExitCode {
    let Some((count, seed)) = options(std::env::args().skip(1)) else {
        eprintln!("{USAGE}");
        return ExitCode::from(2);
    };
    let mut tally = Tally::default();
    fixed_cases(&mut tally);
    let mut rng = Rng::new(seed);
    for _ in 0..count {
        file_cases(&mut rng, &mut tally);
        place_cases(&mut rng, &mut tally);
        writer_cases(&mut rng, &mut tally);
    }
    print!("{}", tally.report());
    if tally.surprises.is_empty() {
        ExitCode::SUCCESS
    } else {
        ExitCode::FAILURE
    }
}

/// Count and seed, or none where the arguments make no sense.
fn options(mut words: impl Iterator<Item = String>) -> Option<(u64, u64)> {
    let (mut count, mut seed) = (1_000, 1);
    while let Some(word) = words.next() {
        let number = words.next()?.parse().ok()?;
        match word.as_str() {
            "--count" => count = number,
            "--seed" => seed = number,
            _ => return None,
        }
    }
    Some((count, seed))
}

/// What has been seen so far.
#[derive(Default)]
struct Tally {
    cases: BTreeMap<&'static str, u64>,
    /// Index 0 counts the cases without a refusal.
    numbers: [u64; 17],
    surprises: Vec<String>,
}

impl Tally {
    /// Counts one case, the number it was refused with (0 for none), and
    /// whether the answer was the one aimed at.
    fn count(&mut self, kind: &'static str, number: u8, as_aimed: bool) {
        *self.cases.entry(kind).or_default() += 1;
        self.numbers[usize::from(number)] += 1;
        if !as_aimed {
            self.surprises.push(format!("{kind}: answered {number}"));
        }
    }

    fn file(&mut self, kind: &'static str, file: &[u8], aimed: Option<(u8, usize)>) {
        let verdict = check(file);
        let as_aimed = match (verdict, aimed) {
            (Verdict::Accepted, None) => true,
            (Verdict::Refused { number, at }, Some(aimed)) => (number, at) == aimed,
            _ => false,
        };
        let (number, _) = refusal_of(verdict);
        self.count(kind, number, as_aimed && holds_together(file, verdict));
    }

    fn report(&self) -> String {
        let mut lines = vec!["cases by kind".to_string()];
        lines.extend(
            self.cases
                .iter()
                .map(|(kind, n)| format!("{n:>10}  {kind}")),
        );
        lines.push(format!("{:>10}  in all", self.cases.values().sum::<u64>()));
        lines.push("answers by refusal number".to_string());
        lines.push(format!("{:>10}  not refused", self.numbers[0]));
        lines.extend((1..=16).map(|i| format!("{:>10}  refused {i}", self.numbers[i])));
        lines.push(format!("{} surprises", self.surprises.len()));
        lines.extend(self.surprises.iter().take(20).cloned());
        lines.join("\n") + "\n"
    }
}

fn refusal_of(verdict: Verdict) -> (u8, Option<usize>) {
    match verdict {
        Verdict::Accepted => (0, None),
        Verdict::Refused { number, at } => (number, Some(at)),
    }
}

/// Whether the walk, the normal form and the lister agree with the checker.
fn holds_together(file: &[u8], verdict: Verdict) -> bool {
    let (number, at) = refusal_of(verdict);
    let last_line = match verdict {
        Verdict::Accepted => "ok\n".to_string(),
        Verdict::Refused { number, at } => format!("refused {number} at {at}\n"),
    };
    let listed = file.len() > LARGEST_INPUT || lister(file).ends_with(&last_line);
    let mut out = vec![0; file.len()];
    let formed = match normal_form(file, &mut out) {
        Ok(length) => number == 0 && same_meaning(file, &out[..length]) == Ok(true),
        Err(refusal) => (refusal.number, refusal.at) == (number, at),
    };
    listed && formed && walk(file) == verdict
}

fn walk(file: &[u8]) -> Verdict {
    let mut place = match start(file) {
        Ok(place) => place,
        Err(refusal) => return Err(refusal).into(),
    };
    loop {
        match step(file, place) {
            Step::Record(_, next) => place = next,
            Step::Done => return Verdict::Accepted,
            Step::Refused { number, at, .. } => return Err(Refusal { number, at }).into(),
        }
    }
}

/// The cases that do not depend on the seed.
fn fixed_cases(tally: &mut Tally) {
    for (_, drawing) in generate::showcase() {
        tally.file("file at the limits", &drawing.bytes(), None);
    }
    for case in generate::boundary_cases() {
        tally.file("file at a boundary", &case.bytes, case.refusal);
    }
    for case in generate::long_cases() {
        tally.file("file of telling longs", &case.bytes, case.refusal);
    }
    for calls in generate::longest_calls() {
        let mut buffer = vec![0; 4 + calls.iter().map(Call::size).sum::<usize>()];
        let place = written(&mut buffer, &calls);
        let as_aimed = place.offset == buffer.len() && check(&buffer) == Verdict::Accepted;
        tally.count("longest writer call", 0, as_aimed);
    }
    for bad in generate::bad_calls() {
        let mut buffer = vec![0; 200_000];
        let place = written(&mut buffer, &bad.before);
        let answer = make(&mut buffer, place, &bad.call);
        let aimed = Answer::Refused {
            number: bad.number,
            at: bad.named.map(|after| place.offset + after),
            place,
        };
        tally.count("bad writer call", number_of(answer), answer == aimed);
    }
}

/// The place after calls that are all good.
fn written(buffer: &mut [u8], calls: &[Call]) -> Place {
    let answers = make_all(buffer, calls).expect("room for four bytes");
    match answers.last() {
        Some(Answer::Taken(place)) => *place,
        _ => Place::START,
    }
}

fn number_of(answer: Answer) -> u8 {
    match answer {
        Answer::Taken(_) => 0,
        Answer::Refused { number, .. } => number,
    }
}

fn file_cases(rng: &mut Rng, tally: &mut Tally) {
    let drawing = generate::valid(rng);
    let file = drawing.bytes();
    tally.file("valid file", &file, None);

    let damaged = generate::damaged(rng);
    tally.file("damaged file", &damaged.bytes, damaged.refusal);

    let mutated = generate::mutated(rng, &file);
    let verdict = check(&mutated);
    let (number, _) = refusal_of(verdict);
    tally.count("mutated file", number, holds_together(&mutated, verdict));

    let cut = &file[..rng.below(file.len())];
    let (number, _) = refusal_of(check(cut));
    tally.count("truncated file", number, matches!(number, 1 | 3 | 4));

    meaning_cases(rng, tally, &drawing);
    question_cases(rng, tally, &drawing);
}

fn meaning_cases(rng: &mut Rng, tally: &mut Tally, drawing: &Drawing) {
    let file = drawing.bytes();
    let same = generate::same_meaning_variant(rng, drawing).bytes();
    let as_aimed = same_meaning(&file, &same) == Ok(true) && normal(&file) == normal(&same);
    tally.count("pair of the same meaning", 0, as_aimed);

    let other = generate::different_meaning_variant(rng, drawing).bytes();
    let as_aimed = same_meaning(&file, &other) == Ok(false) && normal(&file) != normal(&other);
    tally.count("pair of different meaning", 0, as_aimed);

    let mut short = vec![0; normal(&file).map_or(0, |form| form.len() - 1)];
    let number = normal_form(&file, &mut short).map_or_else(|refusal| refusal.number, |_| 0);
    tally.count("normal form with a byte too little", number, number == 14);
}

fn normal(file: &[u8]) -> Result<Vec<u8>, Refusal> {
    let mut out = vec![0; file.len()];
    let length = normal_form(file, &mut out)?;
    out.truncate(length);
    Ok(out)
}

/// Questions by offset and by cell number.
fn question_cases(rng: &mut Rng, tally: &mut Tally, drawing: &Drawing) {
    let file = drawing.bytes();
    for (at, record) in drawing.offsets().into_iter().zip(&drawing.records) {
        let number = good_layer(&file, at).map_or_else(|refusal| refusal.number, |()| 0);
        let is_layer = Kind::of(record.type_byte) == Some(Kind::Layer);
        tally.count("layer asked at a record", number, (number == 0) == is_layer);
    }
    let offset = rng.below(file.len() + 2);
    let number = good_layer(&file, offset).map_or_else(|refusal| refusal.number, |()| 0);
    tally.count("layer asked anywhere", number, matches!(number, 0 | 16));

    let question = generate::layer_question(rng);
    let number =
        good_layer(&question.bytes, question.offset).map_or_else(|refusal| refusal.number, |()| 0);
    let as_aimed = (number == 0) == question.good;
    tally.count("layer asked in any bytes", number, as_aimed);

    let structs = |record: &&generate::Loose| Kind::of(record.type_byte) == Some(Kind::Struct);
    let cells = drawing.records.iter().filter(structs).count();
    for k in 0..=cells {
        let number = extent(&file, k).map_or_else(|refusal| refusal.number, |_| 0);
        tally.count("extent", number, (number == 0) == (k < cells));
    }
}

fn place_cases(rng: &mut Rng, tally: &mut Tally) {
    let drawing = generate::valid(rng);
    let file = drawing.bytes();
    let made_up = generate::forged_places(file.len());
    let made_up = made_up[rng.below(made_up.len())];
    let number = step_number(&file, made_up.place);
    tally.count(
        "place at a boundary",
        number,
        (number == 16) == made_up.forged,
    );

    let place = generate::passing_place(rng, file.len(), &drawing.offsets());
    let number = step_number(&file, place);
    tally.count("made-up place that passes", number, number != 16);
}

fn step_number(file: &[u8], place: Place) -> u8 {
    match step(file, place) {
        Step::Refused { number, .. } => number,
        _ => 0,
    }
}

fn writer_cases(rng: &mut Rng, tally: &mut Tally) {
    let calls = generate::good_calls(rng);
    let size = 4 + calls.iter().map(Call::size).sum::<usize>();
    for (kind, room, aimed) in [
        ("good calls, exact room", size, 0),
        ("good calls, more room", size + 9, 0),
        ("good calls, a byte too little", size - 1, 14),
    ] {
        let mut buffer = vec![0; room];
        let answers = make_all(&mut buffer, &calls).expect("room for four bytes");
        let number = answers.last().map_or(0, |&answer| number_of(answer));
        let accepted = aimed != 0 || check(&buffer[..size]) == Verdict::Accepted;
        tally.count(kind, number, number == aimed && accepted);
    }

    let mut buffer = vec![0; rng.pick(&[4, 100, 1_000, 100_000])];
    let calls = generate::any_calls(rng);
    for answer in make_all(&mut buffer, &calls).expect("room for four bytes") {
        tally.count("writer call of any kind", number_of(answer), true);
    }

    let place = generate::passing_place(rng, buffer.len(), &[]);
    let type_byte = rng.below(11) as u8;
    let call = generate::random_call(rng, type_byte);
    let number = number_of(make(&mut buffer, place, &call));
    tally.count(
        "good call at a place that passes",
        number,
        matches!(number, 0 | 6 | 14),
    );

    let made_up = generate::forged_places(buffer.len());
    let made_up = made_up[rng.below(made_up.len())];
    let number = number_of(make(&mut buffer, made_up.place, &call));
    tally.count(
        "good call at a made-up place",
        number,
        (number == 16) == made_up.forged,
    );
}
