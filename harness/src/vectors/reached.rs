//! What `cgx_test_reader` prints: the answers that only Rattle can reach.

use super::answers::SUBSTITUTE;
use super::stored::Case;
use crate::reference::{
    good_layer, layer_name, start, step, Fields, Place, Refusal, Source, Step, Text,
};

/// The vectors that `cgx_test_reader` is run on. A reader that lost a part of its
/// context on the way would answer one of them otherwise.
pub const REACHED: [&str; 11] = [
    "query-every-kind-unknown-between",
    "query-three-cells",
    "query-layers",
    "query-layers-bad",
    "query-refused-in-later-cell",
    "query-text-empty",
    "query-text-greek",
    "after-property-endlib",
    "query-tail",
    "query-empty",
    "query-level-1",
];

/// All that it prints of a file: what a reader answers, to its end or refusal
/// and a step further, with the labels, and the layer names.
pub fn reached(case: &Case) -> String {
    let file = &case.bytes;
    let mut text = format!("{}\n", case.name);
    match start(file) {
        Ok(place) => text += &reading(file, place),
        Err(refusal) => text += &format!("{refusal}\n"),
    }
    text + &names(file)
}

fn reading(file: &[u8], mut place: Place) -> String {
    let mut text = String::new();
    let mut last = false;
    loop {
        let answer = step(file, place);
        let line = line(file, &answer);
        let more = match answer {
            Step::Record(_, after) => {
                place = after;
                true
            }
            Step::Done | Step::Refused { .. } => false,
        };
        text += &format!("peek {line}\nnext {line}\n  place {}\n", place.offset);
        if last {
            return text;
        }
        last = !more;
    }
}

/// The record's offset, and the label of a TEXT; or done, or the refusal.
fn line(file: &[u8], answer: &Step) -> String {
    match *answer {
        Step::Record(view, _) => match view.fields {
            Fields::Text { label, .. } => {
                format!("{} {}", view.offset, quoted(label.in_file(file)))
            }
            _ => view.offset.to_string(),
        },
        Step::Done => "done".to_string(),
        Step::Refused { number, at, .. } => Refusal { number, at }.to_string(),
    }
}

fn names(file: &[u8]) -> String {
    (0..=file.len())
        .filter(|&at| good_layer(file, at).is_ok())
        .map(|at| {
            let shown = layer_name(file, at, SUBSTITUTE);
            let of = match shown.source {
                Source::File => file,
                Source::Substitute => SUBSTITUTE,
            };
            let name = Text {
                offset: shown.start,
                length: shown.length,
            };
            format!("layer {at} {}\n", quoted(name.in_file(of)))
        })
        .collect()
}

/// The chosen files have texts in UTF-8, which are printed as they are.
fn quoted(bytes: &[u8]) -> String {
    let text = std::str::from_utf8(bytes).expect("a text in UTF-8");
    format!("\"{text}\"")
}
