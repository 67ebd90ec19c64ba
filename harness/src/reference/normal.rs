//! The normal form: known records only, each said in the one normal way.

use super::kind::{limits, Kind};
use super::numbers::StoredReal;
use super::record::{known_records, Record};
use super::refusal::{number, Refusal};
use super::walk::visit;

/// Writes the normal form of `file` from the beginning of `out` and answers
/// its length. A refusal leaves `out` as it was.
pub fn normal_form(file: &[u8], out: &mut [u8]) -> Result<usize, Refusal> {
    let mut length = limits::FILE_HEADER;
    visit(file, |record| length += record.whole.len())?;
    let mut rest = out
        .get_mut(..length)
        .ok_or(Refusal::nowhere(number::ROOM))?;

    let header = take(&mut rest, limits::FILE_HEADER);
    header.copy_from_slice(&file[..limits::FILE_HEADER]);
    for record in known_records(file) {
        write_normal(&record, take(&mut rest, record.whole.len()));
    }
    Ok(length)
}

/// Cuts the first `size` bytes off `rest`.
fn take<'a>(rest: &mut &'a mut [u8], size: usize) -> &'a mut [u8] {
    rest.split_off_mut(..size)
        .expect("the length was summed up before")
}

fn write_normal(record: &Record, out: &mut [u8]) {
    out.copy_from_slice(record.whole);
    out[3] = record.kind.meaningful_flags(record.flags);
    let (first, reals) = reals_of(record);
    for real in out[first..].as_chunks_mut().0.iter_mut().take(reals) {
        *real = normal_real(*real);
    }
}

/// Where the reals of a record begin and how many there are; they are always
/// one after the other.
fn reals_of(record: &Record) -> (usize, usize) {
    match record.kind {
        Kind::Library => (limits::RECORD_HEADER, 2),
        Kind::Sref => {
            let reals = record.flags & (limits::SREF_ANGLE | limits::SREF_MAGNIF);
            let first = limits::RECORD_HEADER + limits::SREF_FIXED;
            (first, reals.count_ones() as usize)
        }
        _ => (limits::RECORD_HEADER, 0),
    }
}

/// The normal real of eight given bytes.
pub fn normal_real(stored: [u8; 8]) -> [u8; 8] {
    StoredReal::from_bytes(stored).normal().to_bytes()
}
