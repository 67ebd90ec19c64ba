//! The proved crates, called through the archive they are built into.
//!
//! Every function takes and answers what its namesake in [`crate::reference`]
//! does, so that the two can be compared. This is the only place with unsafe
//! code beside the plain C's: each call passes the pointer and the length of a
//! slice that outlives it, and pointers to words that do, which is all the
//! archive asks of its caller.
//!
//! All that a call is lent to be filled has margins. What an answer does not
//! fill must be as it was, byte by byte, or the call panics.

#![allow(unsafe_code)]

mod exports;
mod fence;
mod lent;

use std::mem::MaybeUninit;

use exports::*;
pub use fence::Fence;
use lent::{At, Lent, FILL};

use crate::generate::Call;
use crate::reference::{
    Answer, Kind, List, Place, Real, Rect, Refusal, Shown, Source, Step, StoredReal, Text, Verdict,
    View,
};
use crate::words::{self, PlaceWords, ViewWords, BEFORE_FIELDS, MARKS};

// ---- answers that are no refusal

const OK: u32 = 0;
const DONE: u32 = 256;
const NOTHING: u32 = 257;
const SUBSTITUTE: u32 = 258;
const INEXACT: u32 = 259;

/// Panics at an answer that the function does not have.
fn unexpected(answer: u32) -> ! {
    panic!("an answer that this function does not have: {answer}")
}

/// The length of a slice as C is told it.
fn len<T>(slice: &[T]) -> u64 {
    slice.len() as u64
}

pub fn version() -> u32 {
    unsafe { cgx_version() }
}

// ---- reading

pub fn check(file: &[u8]) -> Verdict {
    let mut at = At::new();
    let answer = unsafe { cgx_check(file.as_ptr(), len(file), at.lend()) };
    match at.refusal(answer) {
        Ok(()) if answer != OK => unexpected(answer),
        verdict => verdict.into(),
    }
}

pub fn start(file: &[u8]) -> Result<Place, Refusal> {
    let (mut place, mut at) = (Lent::unused(), At::new());
    let answer = unsafe { cgx_start(file.as_ptr(), len(file), place.lend(), at.lend()) };
    filled(answer, &place, &at).map(words::place)
}

/// What a call has filled; or its refusal, which fills nothing.
fn filled<const N: usize>(answer: u32, lent: &Lent<N>, at: &At) -> Result<[u64; N], Refusal> {
    match at.refusal(answer) {
        Ok(()) if answer == OK => Ok(lent.filled()),
        Ok(()) => unexpected(answer),
        Err(refusal) => {
            lent.untouched();
            Err(refusal)
        }
    }
}

/// The words of a place, with marks above those that are looked at.
fn marked(place: Place) -> PlaceWords {
    let mut words = words::of_place(place);
    words[5] |= FILL & !MARKS;
    words
}

pub fn step(file: &[u8], place: Place) -> Step {
    let mut lent_place = Lent::new(marked(place));
    let mut lent_view = Lent::unused();
    let mut at = At::new();
    let answer = unsafe {
        cgx_step(
            file.as_ptr(),
            len(file),
            lent_place.lend(),
            lent_view.lend(),
            at.lend(),
        )
    };
    let refusal = at.refusal(answer);
    if answer == OK {
        return Step::Record(seen(file, &lent_view), words::place(lent_place.filled()));
    }
    lent_place.untouched();
    lent_view.untouched();
    match refusal {
        Ok(()) if answer == DONE => Step::Done,
        Ok(()) => unexpected(answer),
        Err(Refusal { number, at }) => Step::Refused { number, at, place },
    }
}

/// The view that a step has written. Panics where it wrote fields of another
/// kind, or a real that is not the file's.
fn seen(file: &[u8], lent: &Lent<14>) -> View {
    let (given, words) = lent.given_and_filled();
    let view = words::view(&words, real);
    let written = BEFORE_FIELDS + words::field_words(view.kind);
    assert!(
        words[written..] == given[written..],
        "a step wrote fields of another kind"
    );
    if let Some(reals) = words::reals_in(&words, view.kind) {
        assert_eq!(reals, stored_reals(file, &view), "the words of the reals");
    }
    view
}

/// The reals of a LIBRARY or an SREF, as its bytes have them.
fn stored_reals(file: &[u8], view: &View) -> [u64; 2] {
    let body = &file[view.offset + 4..];
    let word = |at: usize| u64::from_be_bytes(body[at..at + 8].try_into().expect("eight bytes"));
    let sref = view.kind == Kind::Sref;
    let (first, second) = (!sref || view.flags & 1 != 0, !sref || view.flags & 2 != 0);
    let begin = if sref { 8 } else { 0 };
    let between = if first { 8 } else { 0 };
    [
        if first { word(begin) } else { 0 },
        if second { word(begin + between) } else { 0 },
    ]
}

pub fn box_at(file: &[u8], boxes: List, i: usize) -> Option<[i32; 4]> {
    let mut sides = Lent::unused();
    let list = words::of_list(boxes);
    let answer = unsafe { cgx_box_at(file.as_ptr(), len(file), &list, i as u64, sides.lend()) };
    found(answer, NOTHING, &sides).map(words::sides)
}

pub fn point_at(file: &[u8], points: List, i: usize) -> Option<[i32; 2]> {
    let mut point = Lent::unused();
    let list = words::of_list(points);
    let answer = unsafe { cgx_point_at(file.as_ptr(), len(file), &list, i as u64, point.lend()) };
    found(answer, NOTHING, &point).map(|[word]| words::point(word))
}

/// What a call has filled; none where the answer is `none`, which fills nothing.
fn found<const N: usize>(answer: u32, none: u32, lent: &Lent<N>) -> Option<[u64; N]> {
    if answer == none {
        lent.untouched();
        return None;
    }
    match answer {
        OK => Some(lent.filled()),
        _ => unexpected(answer),
    }
}

pub fn text_inside(file: &[u8], text: Text) -> bool {
    let text = words::of_text(text);
    match unsafe { cgx_text_inside(file.as_ptr(), len(file), &text) } {
        OK => true,
        NOTHING => false,
        other => unexpected(other),
    }
}

// ---- reals

/// The double of a real, or its parts where there is none.
pub fn real(word: u64) -> Real {
    let mut double = Lent::unused();
    let answer = unsafe { cgx_real_double(&word, double.lend()) };
    match found(answer, INEXACT, &double) {
        Some([bits]) => Real::Exact(f64::from_bits(bits)),
        None => {
            let StoredReal { sign, e, m } = StoredReal::from_bytes(word.to_be_bytes());
            Real::Inexact { sign, e, m }
        }
    }
}

/// The real of a double, where one equals it.
pub fn real_of(double: f64) -> Option<u64> {
    let mut real = Lent::unused();
    let answer = unsafe { cgx_real_from_double(&double, real.lend()) };
    found(answer, INEXACT, &real).map(|[word]| word)
}

// ---- the normal form and the questions

pub fn normal_length(file: &[u8]) -> Result<usize, Refusal> {
    let (mut length, mut at) = (Lent::unused(), At::new());
    let answer = unsafe { cgx_normal_length(file.as_ptr(), len(file), length.lend(), at.lend()) };
    filled(answer, &length, &at).map(|[length]| length as usize)
}

pub fn normal_form(file: &[u8], out: &mut [u8]) -> Result<usize, Refusal> {
    let (mut length, mut at) = (Lent::unused(), At::new());
    let answer = unsafe {
        cgx_normal_form(
            file.as_ptr(),
            len(file),
            out.as_mut_ptr(),
            len(out),
            length.lend(),
            at.lend(),
        )
    };
    filled(answer, &length, &at).map(|[length]| length as usize)
}

pub fn good_layer(file: &[u8], offset: usize) -> Result<(), Refusal> {
    match unsafe { cgx_layer_at(file.as_ptr(), len(file), offset as u64) } {
        OK => Ok(()),
        16 => Err(Refusal::nowhere(16)),
        other => unexpected(other),
    }
}

/// Nothing of the substitute where there is no good LAYER, as the reference
/// says it.
pub fn layer_name(file: &[u8], offset: usize, substitute: &[u8]) -> Shown {
    let mut name = Lent::unused();
    let answer = unsafe {
        cgx_layer_name(
            file.as_ptr(),
            len(file),
            offset as u64,
            substitute.as_ptr(),
            len(substitute),
            name.lend(),
        )
    };
    let none = good_layer(file, offset).is_err();
    assert!((answer == 16) == none, "a name where there is no LAYER");
    let (source, name) = match answer {
        OK => (Source::File, name.filled()),
        SUBSTITUTE => (Source::Substitute, name.filled()),
        16 => {
            name.untouched();
            (Source::Substitute, [0, 0])
        }
        other => unexpected(other),
    };
    let Text { offset, length } = words::text(name);
    Shown {
        source,
        start: offset,
        length,
    }
}

pub fn extent(file: &[u8], k: usize) -> Result<Option<Rect>, Refusal> {
    let (mut sides, mut at) = (Lent::unused(), At::new());
    let answer = unsafe { cgx_extent(file.as_ptr(), len(file), k as u64, sides.lend(), at.lend()) };
    if answer == NOTHING {
        at.refusal(answer)?;
        sides.untouched();
        return Ok(None);
    }
    let [left, bottom, right, top] = words::sides(filled(answer, &sides, &at)?);
    Ok(Some(Rect {
        left,
        bottom,
        right,
        top,
    }))
}

// ---- the writer

pub fn writer_start(buffer: &mut [u8]) -> Result<Place, Refusal> {
    let mut writer = Lent::unused();
    let answer = unsafe { cgx_write_start(buffer.as_mut_ptr(), len(buffer), writer.lend()) };
    // It is lent no offset, since it names none.
    filled(answer, &writer, &At::new()).map(words::place)
}

/// Makes one call of the writer.
pub fn make(buffer: &mut [u8], place: Place, call: &Call) -> Answer {
    let (mut writer, mut at) = (Lent::new(marked(place)), At::new());
    let answer = made(buffer, writer.lend(), at.lend(), call);
    match filled(answer, &writer, &at) {
        Ok(after) => Answer::Taken(words::place(after)),
        Err(Refusal { number, at }) => Answer::Refused { number, at, place },
    }
}

#[rustfmt::skip]
fn made(buffer: &mut [u8], writer: *mut PlaceWords, at: *mut u64, call: &Call) -> u32 {
    let (buf, room) = (buffer.as_mut_ptr(), len(buffer));
    unsafe { match call {
        Call::Library { version, units, dates, name } => {
            let ([munit, uunit], [created, modified]) = (units.map(u64::from_be_bytes), dates.map(words::of_date));
            cgx_write_library(
                buf, room, writer, at, *version, &munit, &uunit, &created, &modified, name.as_ptr(), len(name),
            )
        }
        Call::Struct { dates, name } => {
            let [created, modified] = dates.map(words::of_date);
            cgx_write_struct(buf, room, writer, at, &created, &modified, name.as_ptr(), len(name))
        }
        Call::Cprpty { number, string } =>
            cgx_write_cprpty(buf, room, writer, at, *number, string.as_ptr(), len(string)),
        Call::Property { number, string } =>
            cgx_write_property(buf, room, writer, at, *number, string.as_ptr(), len(string)),
        Call::Layer { number, data_type, name } => {
            let layer = words::of_layer(*number, *data_type);
            match name {
                None => cgx_write_layer(buf, room, writer, at, &layer),
                Some(name) => cgx_write_named_layer(buf, room, writer, at, &layer, name.as_ptr(), len(name)),
            }
        }
        Call::Boxes { sides: longs } =>
            cgx_write_box_longs(buf, room, writer, at, longs.as_ptr(), len(longs)),
        Call::Poly { points: longs } =>
            cgx_write_poly_longs(buf, room, writer, at, longs.as_ptr(), len(longs)),
        Call::Wire { style: None, width, points: longs } =>
            cgx_write_wire_longs(buf, room, writer, at, *width, longs.as_ptr(), len(longs)),
        Call::Wire { style: Some(style), width, points: longs } =>
            cgx_write_styled_wire_longs(buf, room, writer, at, *style, *width, longs.as_ptr(), len(longs)),
        Call::Text { flags, place: [x, y], width, label } =>
            cgx_write_text(buf, room, writer, at, *flags, *x, *y, *width, label.as_ptr(), len(label)),
        Call::Sref { placement, name } => {
            let placed = words::of_placement(placement);
            cgx_write_sref(buf, room, writer, at, placement.flags, &placed, name.as_ptr(), len(name))
        }
        Call::Endlib => cgx_write_endlib(buf, room, writer, at),
        Call::TestCard(sides) =>
            cgx_write_test_card(buf, room, writer, at, &words::of_sides(*sides)),
        Call::CaptionFrame(sides, label) =>
            cgx_write_caption_frame(buf, room, writer, at, &words::of_sides(*sides), label.as_ptr(), len(label)),
    } }
}

// ---- calls as C makes them, for measuring them alone

/// The start of a walk; none where it is refused.
pub fn start_plain(file: &[u8]) -> Option<PlaceWords> {
    start(file).ok().map(words::of_place)
}

/// A step: whether there was a record.
#[inline]
pub fn step_plain(file: &[u8], place: &mut PlaceWords, view: &mut MaybeUninit<ViewWords>) -> bool {
    let mut at = 0;
    let answer = unsafe { cgx_step(file.as_ptr(), len(file), place, view.as_mut_ptr(), &mut at) };
    answer == OK
}

/// Writes boxes: whether the call was taken.
#[inline]
pub fn boxes_plain(buffer: &mut [u8], writer: &mut PlaceWords, sides: &[i32]) -> bool {
    let (buf, room) = (buffer.as_mut_ptr(), len(buffer));
    let mut at = 0;
    unsafe { cgx_write_box_longs(buf, room, writer, &mut at, sides.as_ptr(), len(sides)) == OK }
}

/// Writes a text in the same way.
#[inline]
#[rustfmt::skip]
pub fn text_plain(buffer: &mut [u8], writer: &mut PlaceWords, flags: u8, [x, y]: [i32; 2], width: i32, label: &[u8]) -> bool {
    let (buf, room) = (buffer.as_mut_ptr(), len(buffer));
    let mut at = 0;
    unsafe {
        cgx_write_text(buf, room, writer, &mut at, flags, x, y, width, label.as_ptr(), len(label)) == OK
    }
}
