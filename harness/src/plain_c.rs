//! The plain C of `c/cgx_plain.c`, which the archive is measured against. It is
//! called as the archive is, and lent the same.

#![allow(unsafe_code)]

use crate::reference::{Place, Refusal};
use crate::words::{self, PlaceWords, ViewWords};

#[rustfmt::skip]
extern "C" {
    fn cgx_plain_check(file: *const u8, size: u64, at: *mut u64) -> u32;
    fn cgx_plain_start(file: *const u8, size: u64, place: *mut PlaceWords, at: *mut u64) -> u32;
    fn cgx_plain_step(file: *const u8, size: u64, place: *mut PlaceWords, view: *mut ViewWords, at: *mut u64) -> u32;
    fn cgx_plain_normal_form(file: *const u8, size: u64, out: *mut u8, room: u64, length: *mut u64, at: *mut u64) -> u32;
    fn cgx_plain_write_box_longs(buf: *mut u8, room: u64, writer: *mut PlaceWords, at: *mut u64, longs: *const i32, long_count: u64) -> u32;
    fn cgx_plain_write_text(buf: *mut u8, room: u64, writer: *mut PlaceWords, at: *mut u64, flags: u8, x: i32, y: i32, width: i32, label: *const u8, len: u64) -> u32;
}

/// An answer that is 0, or a refusal, which names an offset where it is 1 to 13.
fn outcome(answer: u32, at: u64) -> Result<(), Refusal> {
    match answer {
        0 => Ok(()),
        _ => Err(Refusal {
            number: u8::try_from(answer).expect("a refusal"),
            at: (answer <= 13).then_some(at as usize),
        }),
    }
}

/// The writer of a place.
pub fn writer(place: Place) -> PlaceWords {
    words::of_place(place)
}

pub fn check(file: &[u8]) -> Result<(), Refusal> {
    let mut at = 0;
    let answer = unsafe { cgx_plain_check(file.as_ptr(), file.len() as u64, &mut at) };
    outcome(answer, at)
}

/// Walks the whole file and shows each view.
pub fn walk(file: &[u8], mut show: impl FnMut(&ViewWords)) -> Result<(), Refusal> {
    const DONE: u32 = 256;
    let (bytes, size) = (file.as_ptr(), file.len() as u64);
    let (mut place, mut view, mut at) = ([0; 6], [0; 14], 0);
    let start = unsafe { cgx_plain_start(bytes, size, &mut place, &mut at) };
    outcome(start, at)?;
    loop {
        match unsafe { cgx_plain_step(bytes, size, &mut place, &mut view, &mut at) } {
            0 => show(&view),
            DONE => return Ok(()),
            answer => return outcome(answer, at),
        }
    }
}

pub fn normal_form(file: &[u8], out: &mut [u8]) -> Result<usize, Refusal> {
    let (bytes, size) = (file.as_ptr(), file.len() as u64);
    let (to, room) = (out.as_mut_ptr(), out.len() as u64);
    let (mut length, mut at) = (0, 0);
    let answer = unsafe { cgx_plain_normal_form(bytes, size, to, room, &mut length, &mut at) };
    outcome(answer, at).map(|()| length as usize)
}

pub fn boxes(buffer: &mut [u8], writer: &mut PlaceWords, sides: &[i32]) -> Result<(), Refusal> {
    let (buf, room) = (buffer.as_mut_ptr(), buffer.len() as u64);
    let mut at = 0;
    let answer = unsafe {
        cgx_plain_write_box_longs(
            buf,
            room,
            writer,
            &mut at,
            sides.as_ptr(),
            sides.len() as u64,
        )
    };
    outcome(answer, at)
}

#[rustfmt::skip]
pub fn text(buffer: &mut [u8], writer: &mut PlaceWords, flags: u8, [x, y]: [i32; 2], width: i32, label: &[u8]) -> Result<(), Refusal> {
    let (buf, room) = (buffer.as_mut_ptr(), buffer.len() as u64);
    let mut at = 0;
    let answer = unsafe {
        cgx_plain_write_text(buf, room, writer, &mut at, flags, x, y, width, label.as_ptr(), label.len() as u64)
    };
    outcome(answer, at)
}
