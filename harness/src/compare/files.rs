//! All that can be asked of one file.

use super::report::Case;
use super::{normal, questions, walk};
use crate::archive;
use crate::generate::{Case as Aimed, Rng};
use crate::reference::{self, Verdict};

/// Every question but the made-up ones.
pub fn whole_file(case: &mut Case, file: &[u8], rng: &mut Rng) {
    check(case, file);
    walk::start(case, file);
    walk::walk(case, file);
    normal::normal_forms(case, file);
    questions::layers(case, file, rng);
    questions::extents(case, file);
}

/// What tells one cut of a file from the next: the verdict, the walk, and an
/// output that must not be touched.
pub fn cut_file(case: &mut Case, file: &[u8]) {
    check(case, file);
    walk::start(case, file);
    walk::walk(case, file);
    normal::normal_form(case, file, file.len());
}

fn check(case: &mut Case, file: &[u8]) {
    let verdict = reference::check(file);
    case.number(match verdict {
        Verdict::Accepted => 0,
        Verdict::Refused { number, .. } => number,
    });
    case.same(|| "check".to_string(), &verdict, &archive::check(file));
}

/// The archive gives the verdict that the file was made for.
pub fn aimed_verdict(case: &mut Case, aimed: &Aimed) {
    let verdict = match aimed.refusal {
        None => Verdict::Accepted,
        Some((number, at)) => Verdict::Refused { number, at },
    };
    case.same(
        || format!("verdict aimed at: {}", aimed.what),
        &verdict,
        &archive::check(&aimed.bytes),
    );
}
