//! The plain C answers as the reference does, so that measuring against it is
//! fair.

use cgx_harness::generate::{self, Call, Rng};
use cgx_harness::reference::{self, Answer, Place, Refusal, Step, StoredReal, Verdict, View};
use cgx_harness::{drive, plain_c, words};

#[test]
fn plain_c_checks_walks_and_normalises_as_the_reference_does() {
    let mut rng = Rng::new(5);
    let boundary = generate::boundary_cases()
        .into_iter()
        .chain(generate::long_cases())
        .map(|aimed| aimed.bytes);
    let showcase = generate::showcase()
        .into_iter()
        .map(|(_, drawing)| drawing.bytes());
    boundary
        .chain(showcase)
        .for_each(|file| same_answers(&file));
    for _ in 0..2_000 {
        let file = generate::valid(&mut rng).bytes();
        same_answers(&file);
        same_answers(&generate::mutated(&mut rng, &file));
    }
}

fn same_answers(file: &[u8]) {
    let verdict: Verdict = plain_c::check(file).into();
    assert_eq!(verdict, reference::check(file));
    assert_eq!(walk_by_c(file), walk(file));
    let (mut one, mut other) = (vec![7; file.len()], vec![7; file.len()]);
    assert_eq!(
        plain_c::normal_form(file, &mut one),
        reference::normal_form(file, &mut other)
    );
    assert!(one == other, "normal forms differ");
}

/// Each view, and how the walk ends.
type Walk = (Vec<View>, Result<(), Refusal>);

fn walk_by_c(file: &[u8]) -> Walk {
    let mut views = Vec::new();
    let real = |word: u64| StoredReal::from_bytes(word.to_be_bytes()).answer();
    let end = plain_c::walk(file, |view| views.push(words::view(view, real)));
    (views, end)
}

fn walk(file: &[u8]) -> Walk {
    let mut views = Vec::new();
    if let Err(refusal) = reference::start(file) {
        return (views, Err(refusal));
    }
    let mut place = Place::START;
    loop {
        match reference::step(file, place) {
            Step::Record(view, next) => {
                views.push(view);
                place = next;
            }
            Step::Done => return (views, Ok(())),
            Step::Refused { number, at, .. } => return (views, Err(Refusal { number, at })),
        }
    }
}

/// The two calls that are measured, in rooms around what they need.
#[test]
fn plain_c_writes_as_the_reference_does() {
    let mut rng = Rng::new(6);
    for _ in 0..2_000 {
        for call in generate::any_calls(&mut rng) {
            let room = 200 + call.size();
            let place = generate::passing_place(&mut rng, room, &[60, 200]);
            let (mut one, mut other) = (vec![7; room], vec![7; room]);
            let mut writer = plain_c::writer(place);
            let by_c = match &call {
                Call::Boxes { sides } => plain_c::boxes(&mut one, &mut writer, sides),
                Call::Text {
                    flags,
                    place: at,
                    width,
                    label,
                } => plain_c::text(&mut one, &mut writer, *flags, *at, *width, label),
                _ => continue,
            };
            let answer = match by_c {
                Ok(()) => Answer::Taken(words::place(writer)),
                Err(Refusal { number, at }) => Answer::Refused {
                    number,
                    at,
                    place: words::place(writer),
                },
            };
            assert_eq!(answer, drive::make(&mut other, place, &call));
            assert!(one == other, "what is written differs");
        }
    }
}
