//! The functions the archive exports. Each answers one number; bytes cross as
//! their pointer and their count, and all else is lent, as words.

use crate::words::{PlaceWords, ViewWords};

type Bytes = *const u8;
type Buffer = *mut u8;
/// Where the offset goes that a refusal names.
type At = *mut u64;
type Writer = *mut PlaceWords;
type Two = *const [u64; 2];
type Longs = *const i32;

// ---- the checker, the walk, the normal form and the questions
#[rustfmt::skip]
extern "C" {
    pub fn cgx_version() -> u32;
    pub fn cgx_check(file: Bytes, size: u64, at: At) -> u32;
    pub fn cgx_start(file: Bytes, size: u64, place: *mut PlaceWords, at: At) -> u32;
    pub fn cgx_step(file: Bytes, size: u64, place: *mut PlaceWords, view: *mut ViewWords, at: At) -> u32;
    pub fn cgx_box_at(file: Bytes, size: u64, boxes: Two, i: u64, sides: *mut [u64; 2]) -> u32;
    pub fn cgx_point_at(file: Bytes, size: u64, points: Two, i: u64, point: *mut [u64; 1]) -> u32;
    pub fn cgx_text_inside(file: Bytes, size: u64, text: Two) -> u32;
    pub fn cgx_real_double(real: *const u64, double: *mut [u64; 1]) -> u32;
    pub fn cgx_real_from_double(double: *const f64, real: *mut [u64; 1]) -> u32;
    pub fn cgx_layer_at(file: Bytes, size: u64, at: u64) -> u32;
    pub fn cgx_layer_name(file: Bytes, size: u64, at: u64, substitute: Bytes, substitute_len: u64, name: *mut [u64; 2]) -> u32;
    pub fn cgx_extent(file: Bytes, size: u64, cell: u64, extent: *mut [u64; 2], at: At) -> u32;
    pub fn cgx_normal_length(file: Bytes, size: u64, length: *mut [u64; 1], at: At) -> u32;
    pub fn cgx_normal_form(file: Bytes, size: u64, out: Buffer, room: u64, length: *mut [u64; 1], at: At) -> u32;
}

// ---- the writer and the makers
#[rustfmt::skip]
extern "C" {
    pub fn cgx_write_start(buf: Buffer, room: u64, writer: Writer) -> u32;
    pub fn cgx_write_library(buf: Buffer, room: u64, writer: Writer, at: At, version: u8, munit: *const u64, uunit: *const u64, created: *const u64, modified: *const u64, name: Bytes, len: u64) -> u32;
    pub fn cgx_write_struct(buf: Buffer, room: u64, writer: Writer, at: At, created: *const u64, modified: *const u64, name: Bytes, len: u64) -> u32;
    pub fn cgx_write_cprpty(buf: Buffer, room: u64, writer: Writer, at: At, number: i32, value: Bytes, len: u64) -> u32;
    pub fn cgx_write_property(buf: Buffer, room: u64, writer: Writer, at: At, number: i32, value: Bytes, len: u64) -> u32;
    pub fn cgx_write_layer(buf: Buffer, room: u64, writer: Writer, at: At, layer: *const u32) -> u32;
    pub fn cgx_write_named_layer(buf: Buffer, room: u64, writer: Writer, at: At, layer: *const u32, name: Bytes, len: u64) -> u32;
    pub fn cgx_write_box_longs(buf: Buffer, room: u64, writer: Writer, at: At, longs: Longs, long_count: u64) -> u32;
    pub fn cgx_write_poly_longs(buf: Buffer, room: u64, writer: Writer, at: At, longs: Longs, long_count: u64) -> u32;
    pub fn cgx_write_wire_longs(buf: Buffer, room: u64, writer: Writer, at: At, width: i32, longs: Longs, long_count: u64) -> u32;
    pub fn cgx_write_styled_wire_longs(buf: Buffer, room: u64, writer: Writer, at: At, style: u8, width: i32, longs: Longs, long_count: u64) -> u32;
    pub fn cgx_write_text(buf: Buffer, room: u64, writer: Writer, at: At, flags: u8, x: i32, y: i32, width: i32, label: Bytes, len: u64) -> u32;
    pub fn cgx_write_sref(buf: Buffer, room: u64, writer: Writer, at: At, flags: u8, placement: *const [u64; 6], name: Bytes, len: u64) -> u32;
    pub fn cgx_write_endlib(buf: Buffer, room: u64, writer: Writer, at: At) -> u32;
    pub fn cgx_write_test_card(buf: Buffer, room: u64, writer: Writer, at: At, sides: Two) -> u32;
    pub fn cgx_write_caption_frame(buf: Buffer, room: u64, writer: Writer, at: At, sides: Two, label: Bytes, len: u64) -> u32;
}
