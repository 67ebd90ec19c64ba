//! One record: its header, and the rules its body must meet.

use super::bytes::{long, pair, part};
use super::kind::{limits, Kind};
use super::numbers::{Date, StoredReal};
use super::place::Place;
use super::refusal::{number, Refusal};
use super::text::text_of;

/// A known record of a file.
#[derive(Clone, Copy)]
pub struct Record<'a> {
    pub at: usize,
    pub kind: Kind,
    pub flags: u8,
    /// The whole record, header included.
    pub whole: &'a [u8],
}

impl<'a> Record<'a> {
    #[inline]
    pub fn body(&self) -> &'a [u8] {
        &self.whole[limits::RECORD_HEADER..]
    }
}

/// A record header whose size fits into the file.
pub struct Header {
    pub size: usize,
    pub type_byte: u8,
    pub flags: u8,
}

impl Header {
    /// Reads the header at `at`, by rules 3, 4 and 5. `at` is not past the end.
    #[inline]
    pub fn read(file: &[u8], at: usize) -> Result<Header, Refusal> {
        let rest = &file[at..];
        let Some(&[high, low, type_byte, flags]) = rest.first_chunk() else {
            let number = if rest.is_empty() {
                number::NO_ENDLIB
            } else {
                number::CUT_SHORT
            };
            return Err(Refusal::at(number, at));
        };
        let size = usize::from(u16::from_be_bytes([high, low]));
        if !size.is_multiple_of(2) || size < limits::RECORD_HEADER {
            return Err(Refusal::at(number::SIZE, at));
        }
        if size > rest.len() {
            return Err(Refusal::at(number::CUT_SHORT, at));
        }
        Ok(Header {
            size,
            type_byte,
            flags,
        })
    }
}

/// Finds the next known record from `place` on, past unknown ones, and checks
/// it by rules 3 to 12.
#[inline]
pub fn next_record<'a>(file: &'a [u8], place: &Place) -> Result<Record<'a>, Refusal> {
    let mut at = place.offset;
    loop {
        let Header {
            size,
            type_byte,
            flags,
        } = Header::read(file, at)?;
        let here = |number| Refusal::at(number, at);
        if let Some(kind) = Kind::of(type_byte) {
            let whole = &file[at..at + size];
            require(place.allows(kind), number::SEQUENCE).map_err(here)?;
            check_body(kind, flags, &whole[limits::RECORD_HEADER..]).map_err(here)?;
            return Ok(Record {
                at,
                kind,
                flags,
                whole,
            });
        }
        require(place.allows_unknown(), number::SEQUENCE).map_err(here)?;
        at += size;
    }
}

/// The known records of a file that has been accepted.
pub fn known_records(accepted: &[u8]) -> impl Iterator<Item = Record<'_>> {
    let mut at = limits::FILE_HEADER;
    std::iter::from_fn(move || loop {
        let &[high, low, type_byte, flags] = accepted.get(at..)?.first_chunk()?;
        let start = at;
        at += usize::from(u16::from_be_bytes([high, low]));
        if let Some(kind) = Kind::of(type_byte) {
            return Some(Record {
                at: start,
                kind,
                flags,
                whole: &accepted[start..at],
            });
        }
    })
}

/// Rules 7 to 12, in that order, or the number of the first one broken.
#[inline]
pub fn check_body(kind: Kind, flags: u8, body: &[u8]) -> Result<(), u8> {
    match kind {
        Kind::Library => check_library(body),
        Kind::Struct => check_struct(body),
        Kind::Cprpty | Kind::Property => {
            check_string(after_fixed::<{ limits::PROPERTY_FIXED }>(body)?.1)
        }
        Kind::Layer => check_layer(body),
        Kind::Box => check_boxes(body),
        Kind::Poly => check_poly(body),
        Kind::Wire => check_wire(flags, body),
        Kind::Text => check_string(after_fixed::<{ limits::TEXT_FIXED }>(body)?.1),
        Kind::Sref => check_sref(flags, body),
        Kind::Endlib => require(body.is_empty(), number::BODY),
    }
}

/// A rule that either holds or gives its number.
#[inline]
pub fn require(holds: bool, number: u8) -> Result<(), u8> {
    if holds {
        Ok(())
    } else {
        Err(number)
    }
}

/// Splits a body into its `N` fixed bytes and the string field after them.
#[inline]
fn after_fixed<const N: usize>(body: &[u8]) -> Result<(&[u8; N], &[u8]), u8> {
    body.split_first_chunk()
        .filter(|(_, string)| string.len() >= limits::SHORTEST_STRING)
        .ok_or(number::BODY)
}

#[inline]
fn check_string(field: &[u8]) -> Result<(), u8> {
    require(text_of(field).is_some(), number::STRING)
}

/// Two dates, one after the other, here and in STRUCT.
#[inline]
fn check_dates(dates: &[u8]) -> Result<(), u8> {
    let good = |at| Date::is_stored_well(part(dates, at));
    require(good(0) && good(8), number::DATE)
}

#[inline]
fn check_positive(stored: [u8; 8]) -> Result<(), u8> {
    require(StoredReal::from_bytes(stored).is_positive(), number::NUMBER)
}

fn check_library(body: &[u8]) -> Result<(), u8> {
    let (fixed, name) = after_fixed::<{ limits::LIBRARY_FIXED }>(body)?;
    check_dates(&fixed[16..])?;
    check_positive(part(fixed, 0))?;
    check_positive(part(fixed, 8))?;
    check_string(name)
}

fn check_struct(body: &[u8]) -> Result<(), u8> {
    let (dates, name) = after_fixed::<{ limits::STRUCT_FIXED }>(body)?;
    check_dates(dates)?;
    check_string(name)
}

/// Also the rules for a good LAYER asked by its offset.
#[inline]
pub fn check_layer(body: &[u8]) -> Result<(), u8> {
    match body.get(limits::LAYER_FIXED..) {
        None => Err(number::BODY),
        Some([]) => Ok(()),
        Some(name) => check_string(name),
    }
}

#[inline]
fn check_boxes(body: &[u8]) -> Result<(), u8> {
    let (boxes, rest) = body.as_chunks::<{ limits::BOX }>();
    let count_fits = (1..=limits::MOST_BOXES).contains(&boxes.len());
    require(rest.is_empty() && count_fits, number::BODY)?;
    require(
        boxes.iter().all(|b| {
            let (left, bottom, right, top) = (long(b, 0), long(b, 4), long(b, 8), long(b, 12));
            left <= right && bottom <= top
        }),
        number::NUMBER,
    )
}

#[inline]
fn check_poly(body: &[u8]) -> Result<(), u8> {
    let (pairs, rest) = body.as_chunks::<{ limits::PAIR }>();
    let count_fits = (limits::FEWEST_POLY_PAIRS..=limits::MOST_POLY_PAIRS).contains(&pairs.len());
    require(rest.is_empty() && count_fits, number::BODY)?;
    require(
        pairs.first().map(pair) == pairs.last().map(pair),
        number::OPEN_POLY,
    )
}

#[inline]
fn check_wire(flags: u8, body: &[u8]) -> Result<(), u8> {
    require(flags <= limits::HIGHEST_WIRE_STYLE, number::FLAGS)?;
    let points = body.get(limits::WIRE_FIXED..).ok_or(number::BODY)?;
    let (pairs, rest) = points.as_chunks::<{ limits::PAIR }>();
    let count_fits = (limits::FEWEST_WIRE_PAIRS..=limits::MOST_WIRE_PAIRS).contains(&pairs.len());
    require(rest.is_empty() && count_fits, number::BODY)
}

#[inline]
fn check_sref(flags: u8, body: &[u8]) -> Result<(), u8> {
    require(flags <= limits::HIGHEST_SREF_FLAGS, number::FLAGS)?;
    let parts = SrefParts::of(flags);
    let name = body
        .get(parts.name..)
        .filter(|name| name.len() >= limits::SHORTEST_STRING)
        .ok_or(number::BODY)?;
    if let Some(at) = parts.magnif {
        check_positive(part(body, at))?;
    }
    if let Some(at) = parts.array {
        let counts_fit = long(body, at) >= 1 && long(body, at + 4) >= 1;
        require(counts_fit, number::NUMBER)?;
    }
    check_string(name)
}

/// Where the fields after x and y are in an SREF body: its flags decide.
pub struct SrefParts {
    pub angle: Option<usize>,
    pub magnif: Option<usize>,
    pub array: Option<usize>,
    pub name: usize,
}

impl SrefParts {
    #[inline]
    pub fn of(flags: u8) -> SrefParts {
        let mut end = limits::SREF_FIXED;
        let mut field = |flag: u8, size: usize| {
            (flags & flag != 0).then(|| {
                let at = end;
                end += size;
                at
            })
        };
        let angle = field(limits::SREF_ANGLE, limits::REAL);
        let magnif = field(limits::SREF_MAGNIF, limits::REAL);
        let array = field(limits::SREF_ARRAY, limits::ARRAY);
        SrefParts {
            angle,
            magnif,
            array,
            name: end,
        }
    }
}
