//! All that the reference answers of a case, a line for each fact.

use super::stored::Case;
use crate::reference::{
    box_at, check, extent, good_layer, layer_name, normal_form, point_at, start, step, Date,
    Fields, List, Place, Real, Refusal, Run, Shown, Source, Step, Text, Verdict, View,
};

/// A part of more lines is given by their count and checksum.
const MOST_LINES: usize = 200;
/// A list of more items, and a text of more bytes, is given by its checksum.
const MOST_ITEMS: usize = 64;
pub const SUBSTITUTE: &[u8] = b"unnamed";

pub fn answers(case: &Case) -> Vec<String> {
    let file = &case.bytes;
    match case.from {
        Some(place) => one_step(file, place),
        None => [check_line(file)]
            .into_iter()
            .chain(folded(walk(file)))
            .chain(normal(file))
            .chain(folded(layers(file)))
            .chain(folded(cells(file)))
            .collect(),
    }
}

/// FNV's start and factor, with a sum in place of its exclusive or.
fn checksum(bytes: impl IntoIterator<Item = u8>) -> u32 {
    bytes.into_iter().fold(2_166_136_261, |sum: u32, byte| {
        sum.wrapping_mul(16_777_619).wrapping_add(u32::from(byte))
    })
}

fn folded(lines: Vec<String>) -> Vec<String> {
    if lines.len() <= MOST_LINES {
        return lines;
    }
    let bytes = lines
        .iter()
        .flat_map(|line| line.bytes().chain(std::iter::once(b'\n')));
    vec![format!("{} lines {:08x}", lines.len(), checksum(bytes))]
}

// ---- the parts

fn check_line(file: &[u8]) -> String {
    match check(file) {
        Verdict::Accepted => "accepted".to_string(),
        Verdict::Refused { number, at } => Refusal::at(number, at).to_string(),
    }
}

fn walk(file: &[u8]) -> Vec<String> {
    let mut lines = Vec::new();
    let mut place = match start(file) {
        Ok(place) => place,
        Err(refusal) => return vec![format!("start {refusal}")],
    };
    loop {
        match step(file, place) {
            Step::Record(view, after) => {
                lines.extend(record(file, &view));
                place = after;
            }
            Step::Done => {
                lines.push("done".to_string());
                return lines;
            }
            Step::Refused { number, at, .. } => {
                lines.push(Refusal { number, at }.to_string());
                return lines;
            }
        }
    }
}

fn one_step(file: &[u8], place: Place) -> Vec<String> {
    match step(file, place) {
        Step::Record(view, after) => {
            let mut lines = record(file, &view);
            lines.push(place_line(after));
            lines
        }
        Step::Done => vec!["done".to_string()],
        Step::Refused { number, at, place } => {
            vec![Refusal { number, at }.to_string(), place_line(place)]
        }
    }
}

/// With room as for the file, and then with one byte too few.
fn normal(file: &[u8]) -> Vec<String> {
    let mut out = vec![0; file.len()];
    let length = match normal_form(file, &mut out) {
        Ok(length) => length,
        Err(refusal) => return vec![format!("normal {refusal}")],
    };
    let sum = checksum(out[..length].iter().copied());
    let short = match normal_form(file, &mut out[..length - 1]) {
        Ok(length) => format!("short {length}"),
        Err(refusal) => format!("short {refusal}"),
    };
    vec![format!("normal {length} {sum:08x}"), short]
}

/// Every offset is asked, and the end; those with a good LAYER have a line.
fn layers(file: &[u8]) -> Vec<String> {
    (0..=file.len())
        .filter(|&at| good_layer(file, at).is_ok())
        .map(|at| match layer_name(file, at, SUBSTITUTE) {
            Shown {
                source: Source::File,
                start,
                length,
            } => {
                let name = Text {
                    offset: start,
                    length,
                };
                format!("layer {at}{}", text(file, name))
            }
            Shown { length, .. } => format!("layer {at} substitute {length}"),
        })
        .collect()
}

/// The cells in turn, up to the refusal.
fn cells(file: &[u8]) -> Vec<String> {
    let mut lines = Vec::new();
    for k in 0.. {
        match extent(file, k) {
            Ok(None) => lines.push(format!("cell {k} nothing")),
            Ok(Some(r)) => lines.push(format!(
                "cell {k} {} {} {} {}",
                r.left, r.bottom, r.right, r.top
            )),
            Err(refusal) => {
                lines.push(format!("cell {k} {refusal}"));
                break;
            }
        }
    }
    lines
}

// ---- places and views

fn or_dash(offset: Option<usize>) -> String {
    offset.map_or("-".to_string(), |offset| offset.to_string())
}

fn context(cell: Option<usize>, layer: Option<usize>, run: Option<Run>) -> String {
    let run = run.map_or("-".to_string(), |run| {
        format!("{}+{}", run.first, run.count)
    });
    format!("cell {} layer {} run {run}", or_dash(cell), or_dash(layer))
}

fn place_line(place: Place) -> String {
    let mark = |so: bool, word: &'static str| if so { word } else { "" };
    format!(
        "place {} {}{}{}{}",
        place.offset,
        context(place.cell, place.layer, place.run),
        mark(place.library_seen, " library"),
        mark(place.after_struct, " fresh"),
        mark(place.ended, " ended"),
    )
}

/// Offset, kind, flags and context of a record.
fn head(view: &View) -> String {
    let run = view.run_first.map(|first| Run {
        first,
        count: view.run_count,
    });
    format!(
        "{} {} flags {} {}",
        view.offset,
        view.kind.name(),
        view.flags,
        context(view.cell, view.layer, run)
    )
}

/// The line of a record, and one for its boxes or points.
fn record(file: &[u8], view: &View) -> Vec<String> {
    let line = format!("{}{}", head(view), fields(file, &view.fields));
    match view.fields {
        Fields::Box { boxes } => vec![line, items(file, "boxes", boxes, box_at)],
        Fields::Poly { points } | Fields::Wire { points, .. } => {
            vec![line, items(file, "points", points, point_at)]
        }
        _ => vec![line],
    }
}

/// The fields in the order of 01's table.
fn fields(file: &[u8], fields: &Fields) -> String {
    match *fields {
        Fields::Library {
            munit,
            uunit,
            created,
            modified,
            name,
        } => [
            real(munit),
            real(uunit),
            date(created),
            date(modified),
            text(file, name),
        ]
        .concat(),
        Fields::Struct {
            created,
            modified,
            name,
        } => [date(created), date(modified), text(file, name)].concat(),
        Fields::Cprpty { number, string } | Fields::Property { number, string } => {
            format!(" {number}{}", text(file, string))
        }
        Fields::Layer {
            number,
            data_type,
            name,
        } => {
            let name = name.map_or(" -".to_string(), |name| text(file, name));
            format!(" {} {}{name}", number.0, data_type.0)
        }
        Fields::Box { boxes } => list(boxes),
        Fields::Poly { points } => list(points),
        Fields::Wire { width, points } => format!(" {width}{}", list(points)),
        Fields::Text { x, y, width, label } => format!(" {x} {y} {width}{}", text(file, label)),
        Fields::Sref {
            x,
            y,
            angle,
            magnif,
            array,
            name,
        } => {
            let optional = |given: Option<Real>| given.map_or(" -".to_string(), real);
            let array = array.map_or(" -".to_string(), |array| {
                [[array.cols, array.rows].as_slice(), &array.points]
                    .concat()
                    .iter()
                    .map(|long| format!(" {long}"))
                    .collect()
            });
            format!(
                " {x} {y}{}{}{array}{}",
                optional(angle),
                optional(magnif),
                text(file, name)
            )
        }
        Fields::Endlib => String::new(),
    }
}

/// An exact real is given by the bits of its double.
fn real(real: Real) -> String {
    match real {
        Real::Exact(double) => format!(" exact {:016x}", double.to_bits()),
        Real::Inexact { sign, e, m } => {
            format!(" inexact {} {e} {m}", if sign { '-' } else { '+' })
        }
    }
}

fn date(d: Date) -> String {
    format!(
        " {} {} {} {} {} {}",
        d.year, d.month, d.day, d.hour, d.minute, d.second
    )
}

fn list(list: List) -> String {
    format!(" {}+{}", list.first, list.count)
}

fn text(file: &[u8], text: Text) -> String {
    let bytes = text.in_file(file);
    let shown = if bytes.len() > MOST_ITEMS {
        format!("{:08x}", checksum(bytes.iter().copied()))
    } else {
        quoted(bytes)
    };
    format!(" {}+{} {shown}", text.offset, text.length)
}

/// Bytes that are no plain letters are given in hex.
fn quoted(bytes: &[u8]) -> String {
    let letters: String = bytes
        .iter()
        .map(|&byte| match byte {
            b'"' | b'\\' => format!("\\{byte:02x}"),
            b' '..=b'~' => char::from(byte).to_string(),
            _ => format!("\\{byte:02x}"),
        })
        .collect();
    format!("\"{letters}\"")
}

/// The items of a list, and the first index outside. The checksum of a long
/// one is that of its longs as a file stores them.
fn items<const N: usize>(
    file: &[u8],
    name: &str,
    list: List,
    item_at: fn(&[u8], List, usize) -> Option<[i32; N]>,
) -> String {
    let longs: Vec<i32> = (0..list.count)
        .flat_map(|i| item_at(file, list, i).expect("a list of a view"))
        .collect();
    let shown = if list.count > MOST_ITEMS {
        let bytes = longs.iter().flat_map(|long| long.to_be_bytes());
        format!(" {:08x}", checksum(bytes))
    } else {
        longs.iter().map(|long| format!(" {long}")).collect()
    };
    let outside = match item_at(file, list, list.count) {
        Some(_) => " more",
        None => " outside",
    };
    format!("{name}{shown}{outside}")
}
