//! The writer: appends one record per call, in normal form.

use super::kind::{limits, Kind};
use super::normal::normal_real;
use super::numbers::{DataType, Date, LayerNo, StoredReal};
use super::place::Place;
use super::record::require;
use super::refusal::{number, Refusal};
use super::text::field_length;

/// What a writer call answers.
#[derive(Clone, Copy, Debug, PartialEq, Eq)]
pub enum Answer {
    /// The record was written; the place after it.
    Taken(Place),
    /// Nothing was written; the old place handed back.
    Refused {
        number: u8,
        at: Option<usize>,
        place: Place,
    },
}

/// The four sides the two makers draw along.
#[derive(Clone, Copy, Debug, PartialEq, Eq)]
pub struct Sides {
    pub left: i32,
    pub bottom: i32,
    pub right: i32,
    pub top: i32,
}

/// All that an SREF says beside its name. Fields whose flag is off are ignored.
#[derive(Clone, Copy, Debug, PartialEq, Eq)]
pub struct Placement {
    pub flags: u8,
    pub x: i32,
    pub y: i32,
    pub angle: [u8; 8],
    pub magnif: [u8; 8],
    pub cols: i32,
    pub rows: i32,
    pub points: [i32; 4],
}

impl Placement {
    fn has(&self, flag: u8) -> bool {
        self.flags & flag != 0
    }
}

/// Writes the four bytes every file begins with.
pub fn writer_start(buffer: &mut [u8]) -> Result<Place, Refusal> {
    let header = buffer
        .first_chunk_mut()
        .ok_or(Refusal::nowhere(number::ROOM))?;
    *header = *b"cgx\0";
    Ok(Place::START)
}

pub fn library(
    buffer: &mut [u8],
    place: Place,
    version: u8,
    [munit, uunit]: [[u8; 8]; 2],
    dates: [Date; 2],
    name: &[u8],
) -> Answer {
    let draft = Draft::Library {
        version,
        munit,
        uunit,
        dates,
        name,
    };
    append(buffer, place, &[draft])
}

pub fn structure(buffer: &mut [u8], place: Place, dates: [Date; 2], name: &[u8]) -> Answer {
    append(buffer, place, &[Draft::Struct { dates, name }])
}

pub fn cprpty(buffer: &mut [u8], place: Place, number: i32, string: &[u8]) -> Answer {
    append(buffer, place, &[Draft::Cprpty { number, string }])
}

pub fn property(buffer: &mut [u8], place: Place, number: i32, string: &[u8]) -> Answer {
    append(buffer, place, &[Draft::Property { number, string }])
}

pub fn layer(
    buffer: &mut [u8],
    place: Place,
    number: LayerNo,
    data_type: DataType,
    name: Option<&[u8]>,
) -> Answer {
    let draft = Draft::Layer {
        number,
        data_type,
        name,
    };
    append(buffer, place, &[draft])
}

/// `sides` are left, bottom, right and top of the first box, then of the next.
pub fn boxes(buffer: &mut [u8], place: Place, sides: &[i32]) -> Answer {
    append(buffer, place, &[Draft::Box { sides }])
}

/// `points` are x and y of the first point, then of the next.
pub fn poly(buffer: &mut [u8], place: Place, points: &[i32]) -> Answer {
    append(buffer, place, &[Draft::Poly { points }])
}

/// A wire without an end style has square ends.
pub fn wire(
    buffer: &mut [u8],
    place: Place,
    style: Option<u8>,
    width: i32,
    points: &[i32],
) -> Answer {
    let draft = Draft::Wire {
        style: style.unwrap_or(limits::DEFAULT_WIRE_STYLE),
        width,
        points,
    };
    append(buffer, place, &[draft])
}

pub fn text(
    buffer: &mut [u8],
    place: Place,
    flags: u8,
    [x, y]: [i32; 2],
    width: i32,
    label: &[u8],
) -> Answer {
    let draft = Draft::Text {
        flags,
        x,
        y,
        width,
        label,
    };
    append(buffer, place, &[draft])
}

pub fn sref(buffer: &mut [u8], place: Place, placement: &Placement, name: &[u8]) -> Answer {
    append(buffer, place, &[Draft::Sref { placement, name }])
}

pub fn endlib(buffer: &mut [u8], place: Place) -> Answer {
    append(buffer, place, &[Draft::Endlib])
}

/// Appends an unnamed LAYER 1 and a wire with flush ends along the four sides.
pub fn test_card(buffer: &mut [u8], place: Place, sides: Sides) -> Answer {
    let outline = outline(sides);
    append(buffer, place, &frame(&outline))
}

/// Appends a test card and a label at its left bottom corner.
pub fn caption_frame(buffer: &mut [u8], place: Place, sides: Sides, label: &[u8]) -> Answer {
    let outline = outline(sides);
    let [layer, wire] = frame(&outline);
    let caption = Draft::Text {
        flags: 0,
        x: sides.left,
        y: sides.bottom,
        width: FRAME_WIDTH,
        label,
    };
    append(buffer, place, &[layer, wire, caption])
}

const FRAME_WIDTH: i32 = 2;
/// Flush ends. The makers say so themselves.
const FRAME_STYLE: u8 = 0;

/// Once around: left-bottom, right-bottom, right-top, left-top and back.
#[rustfmt::skip]
fn outline(Sides { left, bottom, right, top }: Sides) -> [i32; 10] {
    [
        left, bottom,
        right, bottom,
        right, top,
        left, top,
        left, bottom,
    ]
}

fn frame(outline: &[i32; 10]) -> [Draft<'_>; 2] {
    [
        Draft::Layer {
            number: LayerNo(1),
            data_type: DataType(0),
            name: None,
        },
        Draft::Wire {
            style: FRAME_STYLE,
            width: FRAME_WIDTH,
            points: outline,
        },
    ]
}

/// Appends all records or none, and answers the first refusal.
fn append(buffer: &mut [u8], place: Place, drafts: &[Draft]) -> Answer {
    let judged = drafts
        .iter()
        .try_fold(place, |place, draft| judge(buffer.len(), &place, draft));
    match judged {
        Ok(after) => {
            let mut pen = Pen {
                rest: &mut buffer[place.offset..after.offset],
            };
            drafts.iter().for_each(|draft| draft.write(&mut pen));
            Answer::Taken(after)
        }
        Err(Refusal { number, at }) => Answer::Refused { number, at, place },
    }
}

/// Whether a record may be written at `place` in a buffer of `length` bytes,
/// and the place after it.
fn judge(length: usize, place: &Place, draft: &Draft) -> Result<Place, Refusal> {
    if place.is_forged(length) {
        return Err(Refusal::nowhere(number::FORGED));
    }
    let here = |number| Refusal::at(number, place.offset);
    require(place.allows(draft.kind()), number::SEQUENCE).map_err(here)?;
    draft.check().map_err(here)?;
    let size = draft.size();
    if size > limits::LARGEST_RECORD {
        return Err(Refusal::nowhere(number::TOO_LONG));
    }
    if size > length - place.offset {
        return Err(Refusal::nowhere(number::ROOM));
    }
    let mut after = *place;
    after.pass(draft.kind(), place.offset, size);
    Ok(after)
}

/// A record as it is given to the writer.
enum Draft<'a> {
    Library {
        version: u8,
        munit: [u8; 8],
        uunit: [u8; 8],
        dates: [Date; 2],
        name: &'a [u8],
    },
    Struct {
        dates: [Date; 2],
        name: &'a [u8],
    },
    Cprpty {
        number: i32,
        string: &'a [u8],
    },
    Property {
        number: i32,
        string: &'a [u8],
    },
    Layer {
        number: LayerNo,
        data_type: DataType,
        name: Option<&'a [u8]>,
    },
    Box {
        sides: &'a [i32],
    },
    Poly {
        points: &'a [i32],
    },
    Wire {
        style: u8,
        width: i32,
        points: &'a [i32],
    },
    Text {
        flags: u8,
        x: i32,
        y: i32,
        width: i32,
        label: &'a [u8],
    },
    Sref {
        placement: &'a Placement,
        name: &'a [u8],
    },
    Endlib,
}

impl Draft<'_> {
    fn kind(&self) -> Kind {
        match self {
            Draft::Library { .. } => Kind::Library,
            Draft::Struct { .. } => Kind::Struct,
            Draft::Cprpty { .. } => Kind::Cprpty,
            Draft::Property { .. } => Kind::Property,
            Draft::Layer { .. } => Kind::Layer,
            Draft::Box { .. } => Kind::Box,
            Draft::Poly { .. } => Kind::Poly,
            Draft::Wire { .. } => Kind::Wire,
            Draft::Text { .. } => Kind::Text,
            Draft::Sref { .. } => Kind::Sref,
            Draft::Endlib => Kind::Endlib,
        }
    }

    /// The flags as they are written.
    fn flags(&self) -> u8 {
        let given = match self {
            Draft::Library { version, .. } => *version,
            Draft::Wire { style, .. } => *style,
            Draft::Text { flags, .. } => *flags,
            Draft::Sref { placement, .. } => placement.flags,
            _ => 0,
        };
        self.kind().meaningful_flags(given)
    }

    /// Rules 7 to 12, in that order. Too many boxes or pairs is a matter of
    /// the size and not looked at here.
    fn check(&self) -> Result<(), u8> {
        match *self {
            Draft::Library {
                munit,
                uunit,
                dates,
                name,
                ..
            } => {
                check_dates(dates)?;
                check_positive(munit)?;
                check_positive(uunit)?;
                check_text(name)
            }
            Draft::Struct { dates, name } => {
                check_dates(dates)?;
                check_text(name)
            }
            Draft::Cprpty { string, .. } | Draft::Property { string, .. } => check_text(string),
            Draft::Layer { name, .. } => name.map_or(Ok(()), check_text),
            Draft::Box { sides } => {
                let (boxes, rest) = sides.as_chunks();
                require(rest.is_empty() && !boxes.is_empty(), number::BODY)?;
                let upright =
                    |&[left, bottom, right, top]: &[i32; 4]| left <= right && bottom <= top;
                require(boxes.iter().all(upright), number::NUMBER)
            }
            Draft::Poly { points } => {
                let pairs = check_pairs(points, limits::FEWEST_POLY_PAIRS)?;
                require(pairs.first() == pairs.last(), number::OPEN_POLY)
            }
            Draft::Wire { style, points, .. } => {
                require(style <= limits::HIGHEST_WIRE_STYLE, number::FLAGS)?;
                check_pairs(points, limits::FEWEST_WIRE_PAIRS).map(|_| ())
            }
            Draft::Text { label, .. } => check_text(label),
            Draft::Sref { placement, name } => {
                require(placement.flags <= limits::HIGHEST_SREF_FLAGS, number::FLAGS)?;
                if placement.has(limits::SREF_MAGNIF) {
                    check_positive(placement.magnif)?;
                }
                if placement.has(limits::SREF_ARRAY) {
                    let counts_fit = placement.cols >= 1 && placement.rows >= 1;
                    require(counts_fit, number::NUMBER)?;
                }
                check_text(name)
            }
            Draft::Endlib => Ok(()),
        }
    }

    /// The size of the whole record, which may be too large for one.
    fn size(&self) -> usize {
        let body = match self {
            Draft::Library { name, .. } => limits::LIBRARY_FIXED + field_length(name.len()),
            Draft::Struct { name, .. } => limits::STRUCT_FIXED + field_length(name.len()),
            Draft::Cprpty { string, .. } | Draft::Property { string, .. } => {
                limits::PROPERTY_FIXED + field_length(string.len())
            }
            Draft::Layer { name, .. } => {
                limits::LAYER_FIXED + name.map_or(0, |name| field_length(name.len()))
            }
            Draft::Box { sides } => size_of_val(*sides),
            Draft::Poly { points } => size_of_val(*points),
            Draft::Wire { points, .. } => limits::WIRE_FIXED + size_of_val(*points),
            Draft::Text { label, .. } => limits::TEXT_FIXED + field_length(label.len()),
            Draft::Sref { placement, name } => {
                let optional = |flag, size| if placement.has(flag) { size } else { 0 };
                limits::SREF_FIXED
                    + optional(limits::SREF_ANGLE, limits::REAL)
                    + optional(limits::SREF_MAGNIF, limits::REAL)
                    + optional(limits::SREF_ARRAY, limits::ARRAY)
                    + field_length(name.len())
            }
            Draft::Endlib => 0,
        };
        limits::RECORD_HEADER + body
    }

    /// Writes the record in normal form. All rules have been checked.
    fn write(&self, pen: &mut Pen) {
        let size = u16::try_from(self.size()).expect("rule 15 was checked");
        pen.put(&size.to_be_bytes());
        pen.put(&[self.kind() as u8, self.flags()]);
        match *self {
            Draft::Library {
                munit,
                uunit,
                dates,
                name,
                ..
            } => {
                pen.put(&normal_real(munit));
                pen.put(&normal_real(uunit));
                pen.dates(dates);
                pen.string(name);
            }
            Draft::Struct { dates, name } => {
                pen.dates(dates);
                pen.string(name);
            }
            Draft::Cprpty { number, string } | Draft::Property { number, string } => {
                pen.longs(&[number]);
                pen.string(string);
            }
            Draft::Layer {
                number: LayerNo(number),
                data_type: DataType(data_type),
                name,
            } => {
                pen.put(&number.to_be_bytes());
                pen.put(&data_type.to_be_bytes());
                if let Some(name) = name {
                    pen.string(name);
                }
            }
            Draft::Box { sides } => pen.longs(sides),
            Draft::Poly { points } => pen.longs(points),
            Draft::Wire { width, points, .. } => {
                pen.longs(&[width]);
                pen.longs(points);
            }
            Draft::Text {
                x, y, width, label, ..
            } => {
                pen.longs(&[x, y, width]);
                pen.string(label);
            }
            Draft::Sref { placement, name } => {
                pen.longs(&[placement.x, placement.y]);
                if placement.has(limits::SREF_ANGLE) {
                    pen.put(&normal_real(placement.angle));
                }
                if placement.has(limits::SREF_MAGNIF) {
                    pen.put(&normal_real(placement.magnif));
                }
                if placement.has(limits::SREF_ARRAY) {
                    pen.longs(&[placement.cols, placement.rows]);
                    pen.longs(&placement.points);
                }
                pen.string(name);
            }
            Draft::Endlib => {}
        }
    }
}

fn check_dates(dates: [Date; 2]) -> Result<(), u8> {
    require(dates.iter().all(|date| date.is_good()), number::DATE)
}

fn check_positive(stored: [u8; 8]) -> Result<(), u8> {
    require(StoredReal::from_bytes(stored).is_positive(), number::NUMBER)
}

fn check_text(text: &[u8]) -> Result<(), u8> {
    require(!text.contains(&0), number::STRING)
}

/// The pairs of a list that holds enough of them and does not end inside one.
fn check_pairs(points: &[i32], fewest: usize) -> Result<&[[i32; 2]], u8> {
    let (pairs, rest) = points.as_chunks();
    require(rest.is_empty() && pairs.len() >= fewest, number::BODY)?;
    Ok(pairs)
}

/// Writes from the beginning of what is left of the buffer.
struct Pen<'a> {
    rest: &'a mut [u8],
}

impl Pen<'_> {
    fn put(&mut self, bytes: &[u8]) {
        self.rest
            .split_off_mut(..bytes.len())
            .expect("the room was checked")
            .copy_from_slice(bytes);
    }

    fn longs(&mut self, numbers: &[i32]) {
        let room = self
            .rest
            .split_off_mut(..size_of_val(numbers))
            .expect("the room was checked");
        for (place, number) in room.as_chunks_mut().0.iter_mut().zip(numbers) {
            *place = number.to_be_bytes();
        }
    }

    fn dates(&mut self, dates: [Date; 2]) {
        dates.iter().for_each(|date| self.put(&date.to_bytes()));
    }

    /// The text and its one or two zero bytes.
    fn string(&mut self, text: &[u8]) {
        self.put(text);
        self.put(&[0, 0][..field_length(text.len()) - text.len()]);
    }
}
