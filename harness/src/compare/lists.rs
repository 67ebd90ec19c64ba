//! The boxes, points and texts a view leads to, and made-up ones.

use super::report::Case;
use crate::archive;
use crate::generate::Rng;
use crate::reference::{self, Fields, List, Text, View};

pub fn of_view(case: &mut Case, file: &[u8], view: &View) {
    match view.fields {
        Fields::Box { boxes } => all_items(case, file, boxes, box_at),
        Fields::Poly { points } | Fields::Wire { points, .. } => {
            all_items(case, file, points, point_at);
        }
        Fields::Library { name, .. } | Fields::Struct { name, .. } | Fields::Sref { name, .. } => {
            text(case, file, name);
        }
        Fields::Cprpty { string, .. } | Fields::Property { string, .. } => {
            text(case, file, string);
        }
        Fields::Text { label, .. } => text(case, file, label),
        Fields::Layer {
            name: Some(name), ..
        } => text(case, file, name),
        Fields::Layer { name: None, .. } | Fields::Endlib => {}
    }
}

/// Every item of the list, and indices where there is none.
fn all_items(case: &mut Case, file: &[u8], list: List, ask: fn(&mut Case, &[u8], List, usize)) {
    let beyond = [list.count, list.count + 1, usize::MAX / 16, usize::MAX];
    for i in (0..list.count).chain(beyond) {
        ask(case, file, list, i);
    }
}

fn box_at(case: &mut Case, file: &[u8], boxes: List, i: usize) {
    case.same(
        || format!("box {i} of {boxes:?}"),
        &reference::box_at(file, boxes, i),
        &archive::box_at(file, boxes, i),
    );
}

fn point_at(case: &mut Case, file: &[u8], points: List, i: usize) {
    case.same(
        || format!("point {i} of {points:?}"),
        &reference::point_at(file, points, i),
        &archive::point_at(file, points, i),
    );
}

fn text(case: &mut Case, file: &[u8], text: Text) {
    case.same(
        || format!("inside: {text:?}"),
        &reference::text_inside(file, text),
        &archive::text_inside(file, text),
    );
}

/// Lists and texts that no view has given, at the ends of the file and of the
/// numbers.
pub fn made_up_lists(case: &mut Case, file: &[u8], rng: &mut Rng) {
    for _ in 0..64 {
        let list = List {
            first: near_an_end(rng, file.len()),
            count: near_an_end(rng, file.len() / 8),
        };
        let i = near_an_end(rng, list.count);
        box_at(case, file, list, i);
        point_at(case, file, list, i);
        let made_up = Text {
            offset: list.first,
            length: near_an_end(rng, file.len().wrapping_sub(list.first)),
        };
        text(case, file, made_up);
    }
}

/// A number near 0, near `end`, near a wrap-around, or between 0 and `end`.
fn near_an_end(rng: &mut Rng, end: usize) -> usize {
    let little = rng.below(20);
    match rng.below(6) {
        0 => little,
        1 => end.wrapping_sub(little),
        2 => end.wrapping_add(little),
        3 => usize::MAX - little,
        4 => (usize::MAX / rng.pick(&[2, 4, 8, 16])).wrapping_add(little),
        _ => rng.below(end.saturating_add(1).max(1)),
    }
}
