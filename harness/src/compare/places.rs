//! Places that nobody was given.

use super::report::Case;
use super::walk;
use crate::archive;
use crate::generate::{forged_places, passing_place, Rng};
use crate::reference::{number, Step};

/// How many places that pass are tried on a file.
const SOME: usize = 24;

/// A step from every place at a boundary of rule 16, and from some that pass;
/// `offsets` are those of the file's records.
pub fn made_up_places(case: &mut Case, file: &[u8], offsets: &[usize], rng: &mut Rng) {
    for made_up in forged_places(file.len()) {
        walk::step(case, file, made_up.place);
        let other = archive::step(file, made_up.place);
        let refused = matches!(
            other,
            Step::Refused {
                number: number::FORGED,
                ..
            }
        );
        case.same(|| made_up.what.to_string(), &made_up.forged, &refused);
    }
    if file.len() < 4 {
        return;
    }
    for _ in 0..SOME {
        // A few steps on, so that the made-up context has its effects.
        let mut place = passing_place(rng, file.len(), offsets);
        for _ in 0..4 {
            match walk::step(case, file, place) {
                Some((_, next)) => place = next,
                None => break,
            }
        }
    }
}
