//! Numbers as a file stores them: high byte first, two's complement.

/// The `N` bytes at `at`. The caller has made sure that they are there.
#[inline]
pub fn part<const N: usize>(bytes: &[u8], at: usize) -> [u8; N] {
    *bytes[at..]
        .first_chunk()
        .expect("the body length was checked")
}

#[inline]
pub fn short(bytes: &[u8], at: usize) -> i16 {
    i16::from_be_bytes(part(bytes, at))
}

#[inline]
pub fn long(bytes: &[u8], at: usize) -> i32 {
    i32::from_be_bytes(part(bytes, at))
}

/// The two longs of a coordinate pair.
#[inline]
pub fn pair(bytes: &[u8; 8]) -> (i32, i32) {
    (long(bytes, 0), long(bytes, 4))
}
