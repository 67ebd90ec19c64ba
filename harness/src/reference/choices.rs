//! Choices that follow the project's settled readings.
//!
//! Each is about a made-up place whose context contradicts itself, of which the
//! paper only says that it is answered "as though its context were true". Both
//! readings suit these words; `CHOICES.md` has them under the same names. No
//! file can tell them apart, only a made-up place.

/// BOX, POLY, WIRE and TEXT need an open cell beside a layer. False: a layer
/// alone is enough.
pub const OBJECT_ON_A_LAYER_NEEDS_A_CELL: bool = true;

/// CPRPTY needs an open cell beside "only CPRPTY since STRUCT". False: the
/// latter alone is enough.
pub const CPRPTY_NEEDS_A_CELL: bool = true;

/// After LIBRARY no cell and no layer is open, whatever the place before said.
/// False: they stay.
pub const LIBRARY_CLEARS_CELL_AND_LAYER: bool = true;
