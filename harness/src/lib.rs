//! An independent CGX implementation, to test another one against.
//!
//! * [`reference`] reads, checks, normalises, writes and lists drawings. It was
//!   written from the papers alone; `CHOICES.md` tells what was chosen where
//!   they leave room.
//! * [`generate`] makes files, places and writer calls to try it on. It pushes
//!   its bytes itself, so that an error in the reference writer cannot hide.
//! * [`drive`] hands generated writer calls to the reference writer.
//! * [`archive`] calls the proved crates, with the same types.
//! * [`plain_c`] calls the plain C that both are measured against.
//! * [`compare`] asks both the same and tells where they differ.
//! * [`words`] has the structs of the C header, as both are lent them.
//! * [`vectors`] has the stored files and what the reference says of them.

#![deny(unsafe_code)]

pub mod archive;
pub mod compare;
pub mod drive;
pub mod generate;
pub mod plain_c;
pub mod reference;
pub mod vectors;
pub mod words;
