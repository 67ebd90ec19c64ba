//! Two files have one normal form exactly when they mean the same.

use super::report::Case;
use crate::archive;
use crate::reference::{self, Refusal};

pub fn pair(case: &mut Case, file: &[u8], other: &[u8]) {
    let one_form = form(file).and_then(|form_of_one| Ok(form_of_one == form(other)?));
    case.same(
        || "whether the two mean the same, and whether they have one normal form".to_string(),
        &reference::same_meaning(file, other),
        &one_form,
    );
}

/// The normal form the archive makes.
fn form(file: &[u8]) -> Result<Vec<u8>, Refusal> {
    let mut out = vec![0; file.len()];
    let length = archive::normal_form(file, &mut out)?;
    out.truncate(length);
    Ok(out)
}
