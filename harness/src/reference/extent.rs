//! The extent of a cell.

use super::bytes::pair;
use super::kind::{limits, Kind};
use super::record::{known_records, Record};
use super::refusal::{number, Refusal};
use super::walk::visit;

#[derive(Clone, Copy, Debug, PartialEq, Eq)]
pub struct Rect {
    pub left: i32,
    pub bottom: i32,
    pub right: i32,
    pub top: i32,
}

impl Rect {
    fn point((x, y): (i32, i32)) -> Rect {
        Rect {
            left: x,
            bottom: y,
            right: x,
            top: y,
        }
    }

    /// The least rectangle around both.
    fn around(self, other: Rect) -> Rect {
        Rect {
            left: self.left.min(other.left),
            bottom: self.bottom.min(other.bottom),
            right: self.right.max(other.right),
            top: self.top.max(other.top),
        }
    }
}

/// The least rectangle around the boxes, polygon points and wire points of
/// cell `k`, counted from 0, or nothing where it has none.
pub fn extent(file: &[u8], k: usize) -> Result<Option<Rect>, Refusal> {
    visit(file, |_| ())?;
    let mut records = known_records(file);
    records
        .by_ref()
        .filter(|record| record.kind == Kind::Struct)
        .nth(k)
        .ok_or(Refusal::nowhere(number::FORGED))?;
    Ok(records
        .take_while(|record| record.kind != Kind::Struct)
        .flat_map(|record| corners(&record))
        .map(|corner| Rect::point(pair(corner)))
        .reduce(Rect::around))
}

/// The points that count. A box is stored as its two corners, so its body is
/// a list of points as well.
fn corners<'a>(record: &Record<'a>) -> &'a [[u8; 8]] {
    let points = match record.kind {
        Kind::Box | Kind::Poly => record.body(),
        Kind::Wire => &record.body()[limits::WIRE_FIXED..],
        _ => &[],
    };
    points.as_chunks().0
}
