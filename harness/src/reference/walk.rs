//! Walking a file record by record, and checking it whole.

use super::place::Place;
use super::record::{next_record, Record};
use super::refusal::{number, Refusal, Verdict};
use super::view::View;

/// What a step answers.
#[derive(Clone, Copy, Debug, PartialEq)]
pub enum Step {
    /// The next known record, and the place after it.
    Record(View, Place),
    /// ENDLIB has been passed and the file ends there.
    Done,
    /// A refusal, with the old place handed back.
    Refused {
        number: u8,
        at: Option<usize>,
        place: Place,
    },
}

/// Starts a walk after the first four bytes.
pub fn start(file: &[u8]) -> Result<Place, Refusal> {
    match file.first_chunk() {
        Some([b'c', b'g', b'x', 0]) => Ok(Place::START),
        Some([b'c', b'g', b'x', _]) => Err(Refusal::at(number::LEVEL, 0)),
        _ => Err(Refusal::at(number::NOT_CGX, 0)),
    }
}

/// Takes one step. Never looks at the first four bytes.
#[inline]
pub fn step(file: &[u8], place: Place) -> Step {
    let refused = |Refusal { number, at }| Step::Refused { number, at, place };
    if place.is_forged(file.len()) {
        return refused(Refusal::nowhere(number::FORGED));
    }
    if place.ended {
        return match check_end(file, &place) {
            Ok(()) => Step::Done,
            Err(refusal) => refused(refusal),
        };
    }
    match next_record(file, &place) {
        Ok(record) => {
            let mut after = place;
            after.pass(record.kind, record.at, record.whole.len());
            Step::Record(View::of(&record, &place, &after), after)
        }
        Err(refusal) => refused(refusal),
    }
}

/// Checks the whole file by rules 1 to 13.
pub fn check(file: &[u8]) -> Verdict {
    visit(file, |_| ()).into()
}

/// Shows each good known record in file order, up to the first refusal.
#[inline]
pub fn visit(file: &[u8], mut show: impl FnMut(Record)) -> Result<(), Refusal> {
    let mut place = start(file)?;
    while !place.ended {
        let record = next_record(file, &place)?;
        place.pass(record.kind, record.at, record.whole.len());
        show(record);
    }
    check_end(file, &place)
}

/// Rule 13: nothing follows ENDLIB, which has been passed.
#[inline]
fn check_end(file: &[u8], place: &Place) -> Result<(), Refusal> {
    if place.offset == file.len() {
        Ok(())
    } else {
        Err(Refusal::at(number::AFTER_ENDLIB, place.offset))
    }
}
