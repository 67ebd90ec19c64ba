//! The name shown for a layer.

use super::kind::{limits, Kind};
use super::record::{check_layer, Header};
use super::refusal::{number, Refusal};
use super::text::text_length;

/// Which of the two lent texts a shown name is a part of.
#[derive(Clone, Copy, Debug, PartialEq, Eq)]
pub enum Source {
    File,
    Substitute,
}

/// A part of the file or of the substitute.
#[derive(Clone, Copy, Debug, PartialEq, Eq)]
pub struct Shown {
    pub source: Source,
    pub start: usize,
    pub length: usize,
}

/// The name to show for the LAYER at `offset`: its own, or the whole
/// substitute where it has none, or an empty one where there is no good LAYER.
pub fn layer_name(file: &[u8], offset: usize, substitute: &[u8]) -> Shown {
    let of_substitute = |length| Shown {
        source: Source::Substitute,
        start: 0,
        length,
    };
    match name_field(file, offset) {
        None => of_substitute(0),
        Some([] | [0, 0]) => of_substitute(substitute.len()),
        Some(field) => Shown {
            source: Source::File,
            start: offset + limits::RECORD_HEADER + limits::LAYER_FIXED,
            length: text_length(field),
        },
    }
}

/// Whether there is a good LAYER at `offset`; nothing before it is read.
pub fn good_layer(file: &[u8], offset: usize) -> Result<(), Refusal> {
    name_field(file, offset)
        .map(|_| ())
        .ok_or(Refusal::nowhere(number::FORGED))
}

/// The name field of the good LAYER at `offset`, empty where it is absent.
fn name_field(file: &[u8], offset: usize) -> Option<&[u8]> {
    if offset < limits::FILE_HEADER || !offset.is_multiple_of(2) || offset > file.len() {
        return None;
    }
    let header = Header::read(file, offset).ok()?;
    if Kind::of(header.type_byte) != Some(Kind::Layer) {
        return None;
    }
    let body = &file[offset..][limits::RECORD_HEADER..header.size];
    check_layer(body).ok()?;
    Some(&body[limits::LAYER_FIXED..])
}
