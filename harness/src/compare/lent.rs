//! Buffers to lend: a pattern inside, and more of it on both sides, so that a
//! store outside of the part that is lent is seen too.

/// Bytes before and after the part that is lent.
const MARGIN: usize = 32;

#[derive(Clone)]
pub struct Lent {
    bytes: Vec<u8>,
}

impl Lent {
    pub fn new(room: usize) -> Lent {
        let bytes = (0..room + 2 * MARGIN).map(pattern).collect();
        Lent { bytes }
    }

    pub fn part(&mut self) -> &mut [u8] {
        let end = self.bytes.len() - MARGIN;
        &mut self.bytes[MARGIN..end]
    }

    /// The first `room` bytes of the part, with what they hold then.
    pub fn first(&self, room: usize) -> Lent {
        let mut bytes = self.bytes[..MARGIN + room].to_vec();
        bytes.extend((0..MARGIN).map(pattern));
        Lent { bytes }
    }

    /// The part and its margins.
    pub fn all(&self) -> &[u8] {
        &self.bytes
    }
}

/// Bytes with no zero among them, and no two alike beside each other.
fn pattern(i: usize) -> u8 {
    (i % 251) as u8 + 1
}
