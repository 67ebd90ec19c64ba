//! Questions about a layer by its offset and about a cell by its number.

use super::report::Case;
use crate::archive;
use crate::generate::{LayerQuestion, Rng};
use crate::reference::{self, number};

/// Files up to this length are asked for a layer at every offset.
const SMALL: usize = 512;
/// How many offsets are asked for in larger ones.
const SOME: usize = 64;

/// Layers at every offset of a small file, odd ones and those past the end
/// included; at some offsets of a larger one.
pub fn layers(case: &mut Case, file: &[u8], rng: &mut Rng) {
    if file.len() <= SMALL {
        (0..file.len() + 6).for_each(|offset| layer(case, file, offset));
    } else {
        for _ in 0..SOME {
            let even = 2 * rng.below(file.len() / 2 + 2);
            layer(case, file, even);
        }
        let any = rng.below(file.len() + 6);
        layer(case, file, any);
    }
    for beyond in [1 << 32, usize::MAX - 3, usize::MAX - 1, usize::MAX] {
        layer(case, file, beyond);
    }
}

fn layer(case: &mut Case, file: &[u8], offset: usize) {
    let answer = reference::good_layer(file, offset);
    case.outcome(&answer);
    case.same(
        || format!("good layer at {offset}"),
        &answer,
        &archive::good_layer(file, offset),
    );
    for substitute in [&b""[..], b"x", b"no name"] {
        case.same(
            || format!("layer name at {offset}, substitute of {}", substitute.len()),
            &reference::layer_name(file, offset, substitute),
            &archive::layer_name(file, offset, substitute),
        );
    }
}

/// A question whose answer is known beforehand, and all other offsets.
pub fn layer_question(case: &mut Case, bytes: &[u8], question: &LayerQuestion, rng: &mut Rng) {
    layers(case, bytes, rng);
    case.same(
        || format!("{} at {}", question.what, question.offset),
        &question.good,
        &archive::good_layer(bytes, question.offset).is_ok(),
    );
}

/// The extent of every cell, of one more, and of the last number.
pub fn extents(case: &mut Case, file: &[u8]) {
    for k in 0.. {
        let answer = extent(case, file, k);
        if answer.is_err() {
            break;
        }
    }
    let beyond = extent(case, file, usize::MAX);
    let refused = reference::check(file) != reference::Verdict::Accepted;
    case.holds(refused || beyond == Err(number::FORGED), || {
        "the last cell number is not 16".to_string()
    });
}

fn extent(case: &mut Case, file: &[u8], k: usize) -> Result<(), u8> {
    let answer = reference::extent(file, k);
    case.outcome(&answer);
    case.same(
        || format!("extent of cell {k}"),
        &answer,
        &archive::extent(file, k),
    );
    answer.map(|_| ()).map_err(|refusal| refusal.number)
}
