//! Hands generated calls to the reference writer.

use crate::generate::Call;
use crate::reference::{self as cgx, Answer, Place};

/// Makes one call.
pub fn make(buffer: &mut [u8], place: Place, call: &Call) -> Answer {
    match call {
        Call::Library {
            version,
            units,
            dates,
            name,
        } => cgx::library(buffer, place, *version, *units, *dates, name),
        Call::Struct { dates, name } => cgx::structure(buffer, place, *dates, name),
        Call::Cprpty { number, string } => cgx::cprpty(buffer, place, *number, string),
        Call::Property { number, string } => cgx::property(buffer, place, *number, string),
        Call::Layer {
            number,
            data_type,
            name,
        } => cgx::layer(buffer, place, *number, *data_type, name.as_deref()),
        Call::Boxes { sides } => cgx::boxes(buffer, place, sides),
        Call::Poly { points } => cgx::poly(buffer, place, points),
        Call::Wire {
            style,
            width,
            points,
        } => cgx::wire(buffer, place, *style, *width, points),
        Call::Text {
            flags,
            place: at,
            width,
            label,
        } => cgx::text(buffer, place, *flags, *at, *width, label),
        Call::Sref { placement, name } => cgx::sref(buffer, place, placement, name),
        Call::Endlib => cgx::endlib(buffer, place),
        Call::TestCard(sides) => cgx::test_card(buffer, place, *sides),
        Call::CaptionFrame(sides, label) => cgx::caption_frame(buffer, place, *sides, label),
    }
}

/// Starts a writer and makes all calls, going on from the place each answer
/// hands back. The answers, in turn; none where the start was refused.
pub fn make_all(buffer: &mut [u8], calls: &[Call]) -> Option<Vec<Answer>> {
    let mut place = cgx::writer_start(buffer).ok()?;
    let answers = calls.iter().map(|call| {
        let answer = make(buffer, place, call);
        place = match answer {
            Answer::Taken(next) => next,
            Answer::Refused { place, .. } => place,
        };
        answer
    });
    Some(answers.collect())
}
