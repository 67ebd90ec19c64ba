//! The normal form, in outputs with too little room, just enough, and more.

use super::lent::Lent;
use super::report::Case;
use crate::archive;
use crate::reference::{self, Verdict};

/// The rooms tried for a file: none, the length of its normal form and those
/// around it, and more. A refused file must leave each of them as it is.
pub fn normal_forms(case: &mut Case, file: &[u8]) {
    length(case, file);
    let mut form = vec![0; file.len()];
    match reference::normal_form(file, &mut form) {
        Ok(length) => {
            for room in [0, length - 1, length, length + 1, length + 40] {
                normal_form(case, file, room);
            }
            form.truncate(length);
            of_a_normal_form(case, file, &form);
        }
        Err(_) => {
            for room in [0, file.len(), file.len() + 40] {
                normal_form(case, file, room);
            }
        }
    }
}

/// The length of the normal form, as the reference makes it with enough room.
fn length(case: &mut Case, file: &[u8]) {
    let answer = reference::normal_form(file, &mut vec![0; file.len()]);
    let other = archive::normal_length(file);
    case.outcome(&answer);
    case.same(|| "length of the normal form".to_string(), &answer, &other);
}

/// One output, with all its bytes and those around it.
pub fn normal_form(case: &mut Case, file: &[u8], room: usize) {
    let mut reference_out = Lent::new(room);
    let mut archive_out = reference_out.clone();
    let answer = reference::normal_form(file, reference_out.part());
    let other = archive::normal_form(file, archive_out.part());
    case.outcome(&answer);
    case.same(|| format!("normal form, room {room}"), &answer, &other);
    case.same_bytes(
        || format!("normal form, room {room}"),
        reference_out.all(),
        archive_out.all(),
    );
}

/// A normal form is accepted, means the same as the file and is its own normal
/// form.
fn of_a_normal_form(case: &mut Case, file: &[u8], form: &[u8]) {
    let verdict = archive::check(form);
    case.same(
        || "its normal form".to_string(),
        &Verdict::Accepted,
        &verdict,
    );
    let mut again = vec![0; form.len()];
    let length = archive::normal_form(form, &mut again);
    case.same(
        || "normal form of its normal form".to_string(),
        &Ok(form.len()),
        &length,
    );
    case.same_bytes(
        || "normal form of its normal form".to_string(),
        form,
        &again,
    );
    case.same(
        || "meaning of its normal form".to_string(),
        &Ok(true),
        &reference::same_meaning(file, form),
    );
}
