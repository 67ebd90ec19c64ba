//! Whether two files mean the same, decided on what their records mean and
//! not on normal forms, so that the two can be tried against each other.

use super::bytes::part;
use super::numbers::{DataType, Date, LayerNo, StoredReal};
use super::refusal::Refusal;
use super::view::{Array, Fields, List, View};
use super::walk::{start, step, Step};

/// Whether two accepted files have the same meaning. Otherwise the refusal of
/// the first file, or else that of the second.
pub fn same_meaning(a: &[u8], b: &[u8]) -> Result<bool, Refusal> {
    Ok(sequence(a)? == sequence(b)?)
}

/// What the known records of a file mean, in file order.
fn sequence(file: &[u8]) -> Result<Vec<Meaning<'_>>, Refusal> {
    let mut meanings = Vec::new();
    let mut place = start(file)?;
    loop {
        match step(file, place) {
            Step::Record(view, next) => {
                meanings.push(Meaning::of(file, &view));
                place = next;
            }
            Step::Done => return Ok(meanings),
            Step::Refused { number, at, .. } => return Err(Refusal { number, at }),
        }
    }
}

/// A real that is compared by its exact value.
struct Value(StoredReal);

impl PartialEq for Value {
    fn eq(&self, other: &Self) -> bool {
        self.0.same_value(other.0)
    }
}

/// How a TEXT is turned and placed.
#[derive(PartialEq)]
struct Orientation {
    quarter_turns: u8,
    mirror: bool,
    shift_by_45: bool,
    horizontal: Side,
    vertical: Side,
}

/// Left or bottom, center, right or top.
#[derive(PartialEq)]
enum Side {
    Low,
    Center,
    High,
}

impl Side {
    fn of(two_bits: u8) -> Side {
        match two_bits & 3 {
            1 => Side::Center,
            2 => Side::High,
            _ => Side::Low,
        }
    }
}

impl Orientation {
    fn of(flags: u8) -> Orientation {
        Orientation {
            quarter_turns: flags & 3,
            mirror: flags & 4 != 0,
            shift_by_45: flags & 8 != 0,
            horizontal: Side::of(flags >> 4),
            vertical: Side::of(flags >> 6),
        }
    }
}

/// What one record means: its kind, its meaningful flags and all its fields.
#[derive(PartialEq)]
enum Meaning<'a> {
    Library {
        version: u8,
        munit: Value,
        uunit: Value,
        dates: [Date; 2],
        name: &'a [u8],
    },
    Struct {
        dates: [Date; 2],
        name: &'a [u8],
    },
    Cprpty {
        number: i32,
        string: &'a [u8],
    },
    Property {
        number: i32,
        string: &'a [u8],
    },
    Layer {
        number: LayerNo,
        data_type: DataType,
        name: Option<&'a [u8]>,
    },
    Box {
        corners: Vec<i32>,
    },
    Poly {
        points: Vec<i32>,
    },
    Wire {
        style: u8,
        width: i32,
        points: Vec<i32>,
    },
    Text {
        orientation: Orientation,
        place: [i32; 2],
        width: i32,
        label: &'a [u8],
    },
    Sref {
        reflect: bool,
        place: [i32; 2],
        angle: Option<Value>,
        magnif: Option<Value>,
        array: Option<Array>,
        name: &'a [u8],
    },
    Endlib,
}

impl<'a> Meaning<'a> {
    fn of(file: &'a [u8], view: &View) -> Meaning<'a> {
        let flags = view.flags;
        let value = |within: usize| Value(StoredReal::from_bytes(part(file, view.offset + within)));
        match view.fields {
            Fields::Library {
                created,
                modified,
                name,
                ..
            } => Meaning::Library {
                version: flags,
                munit: value(4),
                uunit: value(12),
                dates: [created, modified],
                name: name.in_file(file),
            },
            Fields::Struct {
                created,
                modified,
                name,
            } => Meaning::Struct {
                dates: [created, modified],
                name: name.in_file(file),
            },
            Fields::Cprpty { number, string } => Meaning::Cprpty {
                number,
                string: string.in_file(file),
            },
            Fields::Property { number, string } => Meaning::Property {
                number,
                string: string.in_file(file),
            },
            Fields::Layer {
                number,
                data_type,
                name,
            } => Meaning::Layer {
                number,
                data_type,
                name: name.map(|name| name.in_file(file)),
            },
            Fields::Box { boxes } => Meaning::Box {
                corners: longs(file, boxes, 4),
            },
            Fields::Poly { points } => Meaning::Poly {
                points: longs(file, points, 2),
            },
            Fields::Wire { width, points } => Meaning::Wire {
                style: flags,
                width,
                points: longs(file, points, 2),
            },
            Fields::Text { x, y, width, label } => Meaning::Text {
                orientation: Orientation::of(flags),
                place: [x, y],
                width,
                label: label.in_file(file),
            },
            Fields::Sref {
                x,
                y,
                angle,
                magnif,
                array,
                name,
            } => Meaning::Sref {
                reflect: flags & 4 != 0,
                place: [x, y],
                angle: angle.map(|_| value(12)),
                magnif: magnif.map(|_| value(if angle.is_some() { 20 } else { 12 })),
                array,
                name: name.in_file(file),
            },
            Fields::Endlib => Meaning::Endlib,
        }
    }
}

/// The numbers of a list whose items are `each` longs.
fn longs(file: &[u8], list: List, each: usize) -> Vec<i32> {
    let (longs, _) = file[list.first..].as_chunks();
    longs[..list.count * each]
        .iter()
        .map(|&long| i32::from_be_bytes(long))
        .collect()
}
