//! Views: what a step tells of a record.

use super::bytes::{long, part, short};
use super::kind::{limits, Kind};
use super::numbers::{DataType, Date, LayerNo, Real, StoredReal};
use super::place::Place;
use super::record::{Record, SrefParts};
use super::text::text_length;

/// A text in the file, without the zero bytes after it.
#[derive(Clone, Copy, Debug, PartialEq, Eq)]
pub struct Text {
    pub offset: usize,
    pub length: usize,
}

impl Text {
    pub fn in_file(self, file: &[u8]) -> &[u8] {
        &file[self.offset..][..self.length]
    }
}

/// Boxes or points in the file, one after the other.
#[derive(Clone, Copy, Debug, PartialEq, Eq)]
pub struct List {
    /// Offset of the first one.
    pub first: usize,
    pub count: usize,
}

/// The array fields of an SREF.
#[derive(Clone, Copy, Debug, PartialEq, Eq)]
pub struct Array {
    pub cols: i32,
    pub rows: i32,
    /// x and y of the first point, then of the second.
    pub points: [i32; 4],
}

/// The fields of a record, by kind.
#[derive(Clone, Copy, Debug, PartialEq)]
pub enum Fields {
    Library {
        munit: Real,
        uunit: Real,
        created: Date,
        modified: Date,
        name: Text,
    },
    Struct {
        created: Date,
        modified: Date,
        name: Text,
    },
    Cprpty {
        number: i32,
        string: Text,
    },
    Property {
        number: i32,
        string: Text,
    },
    Layer {
        number: LayerNo,
        data_type: DataType,
        /// None where the record holds no name field at all.
        name: Option<Text>,
    },
    Box {
        boxes: List,
    },
    Poly {
        points: List,
    },
    Wire {
        width: i32,
        points: List,
    },
    Text {
        x: i32,
        y: i32,
        width: i32,
        label: Text,
    },
    Sref {
        x: i32,
        y: i32,
        angle: Option<Real>,
        magnif: Option<Real>,
        array: Option<Array>,
        name: Text,
    },
    Endlib,
}

/// All that a step tells of a record.
#[derive(Clone, Copy, Debug, PartialEq)]
pub struct View {
    pub kind: Kind,
    /// The flags byte as the file has it.
    pub flags: u8,
    /// Offset of the record.
    pub offset: usize,
    /// Offset of its STRUCT; a STRUCT is its own.
    pub cell: Option<usize>,
    /// Offset of its LAYER; a LAYER is its own.
    pub layer: Option<usize>,
    /// Offset of the first PROPERTY of its run.
    pub run_first: Option<usize>,
    /// Number of PROPERTY records in its run.
    pub run_count: usize,
    pub fields: Fields,
}

impl View {
    /// The view of a checked record found from `before`, with `after` next.
    #[inline]
    pub(super) fn of(record: &Record, before: &Place, after: &Place) -> View {
        let run = before.run.filter(|_| record.kind.is_object());
        View {
            kind: record.kind,
            flags: record.flags,
            offset: record.at,
            // STRUCT and LAYER are already in the place after them.
            cell: after.cell,
            layer: after.layer,
            run_first: run.map(|run| run.first),
            run_count: run.map_or(0, |run| run.count),
            fields: fields(record),
        }
    }
}

/// Reads the fields of a checked record.
#[inline]
fn fields(record: &Record) -> Fields {
    let body = record.body();
    let body_at = record.at + limits::RECORD_HEADER;
    let text = |at: usize| Text {
        offset: body_at + at,
        length: text_length(&body[at..]),
    };
    let list = |at: usize, item: usize| List {
        first: body_at + at,
        count: (body.len() - at) / item,
    };
    let real = |at: usize| StoredReal::from_bytes(part(body, at)).answer();
    let date = |at: usize| Date::read(part(body, at));

    match record.kind {
        Kind::Library => Fields::Library {
            munit: real(0),
            uunit: real(8),
            created: date(16),
            modified: date(24),
            name: text(limits::LIBRARY_FIXED),
        },
        Kind::Struct => Fields::Struct {
            created: date(0),
            modified: date(8),
            name: text(limits::STRUCT_FIXED),
        },
        Kind::Cprpty => Fields::Cprpty {
            number: long(body, 0),
            string: text(limits::PROPERTY_FIXED),
        },
        Kind::Property => Fields::Property {
            number: long(body, 0),
            string: text(limits::PROPERTY_FIXED),
        },
        Kind::Layer => Fields::Layer {
            number: LayerNo(short(body, 0)),
            data_type: DataType(short(body, 2)),
            name: (body.len() > limits::LAYER_FIXED).then(|| text(limits::LAYER_FIXED)),
        },
        Kind::Box => Fields::Box {
            boxes: list(0, limits::BOX),
        },
        Kind::Poly => Fields::Poly {
            points: list(0, limits::PAIR),
        },
        Kind::Wire => Fields::Wire {
            width: long(body, 0),
            points: list(limits::WIRE_FIXED, limits::PAIR),
        },
        Kind::Text => Fields::Text {
            x: long(body, 0),
            y: long(body, 4),
            width: long(body, 8),
            label: text(limits::TEXT_FIXED),
        },
        Kind::Sref => {
            let parts = SrefParts::of(record.flags);
            Fields::Sref {
                x: long(body, 0),
                y: long(body, 4),
                angle: parts.angle.map(real),
                magnif: parts.magnif.map(real),
                array: parts.array.map(|at| array(body, at)),
                name: text(parts.name),
            }
        }
        Kind::Endlib => Fields::Endlib,
    }
}

fn array(body: &[u8], at: usize) -> Array {
    Array {
        cols: long(body, at),
        rows: long(body, at + 4),
        points: std::array::from_fn(|i| long(body, at + 8 + 4 * i)),
    }
}
