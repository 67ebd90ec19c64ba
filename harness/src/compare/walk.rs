//! The walk, step by step.

use super::lists;
use super::report::Case;
use crate::archive;
use crate::reference::{self, Fields, Place, Real, Step, View};

pub fn start(case: &mut Case, file: &[u8]) {
    let answer = reference::start(file);
    case.outcome(&answer);
    case.same(|| "start".to_string(), &answer, &archive::start(file));
}

/// All steps from the beginning, with all that the views lead to. The first
/// four bytes do not matter to a step, so a bad beginning is walked as well.
pub fn walk(case: &mut Case, file: &[u8]) {
    let mut place = Place::START;
    while let Some((view, next)) = step(case, file, place) {
        lists::of_view(case, file, &view);
        place = next;
    }
}

/// One step from any place, and the record that both found.
pub fn step(case: &mut Case, file: &[u8], place: Place) -> Option<(View, Place)> {
    let answer = reference::step(file, place);
    let other = archive::step(file, place);
    case.number(match answer {
        Step::Refused { number, .. } => number,
        _ => 0,
    });
    let alike = answer == other && real_bits(&answer) == real_bits(&other);
    case.holds(alike, || {
        format!("step from {place:?}\n    reference: {answer:?}\n    archive:   {other:?}")
    });
    match answer {
        Step::Record(view, next) if alike => Some((view, next)),
        _ => None,
    }
}

/// The bits of the doubles in a view. Comparing these tells +0 from -0.
fn real_bits(step: &Step) -> [Option<u64>; 2] {
    let bits = |real: Option<Real>| match real {
        Some(Real::Exact(double)) => Some(double.to_bits()),
        _ => None,
    };
    match step {
        Step::Record(view, _) => match view.fields {
            Fields::Library { munit, uunit, .. } => [bits(Some(munit)), bits(Some(uunit))],
            Fields::Sref { angle, magnif, .. } => [bits(angle), bits(magnif)],
            _ => [None, None],
        },
        _ => [None, None],
    }
}
