//! The i-th box or point of a list in a file, and whether a text lies inside
//! it. Lists and texts may be made up.

use super::view::{List, Text};

/// Left, bottom, right and top of box `i`, or none where the list is shorter
/// or the box does not lie inside the file.
pub fn box_at(file: &[u8], boxes: List, i: usize) -> Option<[i32; 4]> {
    longs_at(file, boxes, i)
}

/// x and y of point `i`, or none as for a box.
pub fn point_at(file: &[u8], points: List, i: usize) -> Option<[i32; 2]> {
    longs_at(file, points, i)
}

pub fn text_inside(file: &[u8], text: Text) -> bool {
    text.offset as u128 + text.length as u128 <= file.len() as u128
}

/// The longs of item `i`. Offsets are summed up in twice the width, so that no
/// made-up list wraps around.
fn longs_at<const N: usize>(file: &[u8], list: List, i: usize) -> Option<[i32; N]> {
    if i >= list.count {
        return None;
    }
    let size = 4 * N;
    let at = usize::try_from(list.first as u128 + size as u128 * i as u128).ok()?;
    let (longs, _) = file.get(at..)?.get(..size)?.as_chunks();
    Some(std::array::from_fn(|k| i32::from_be_bytes(longs[k])))
}
