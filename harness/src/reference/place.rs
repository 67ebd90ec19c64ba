//! A place in a file: an offset and the context so far.

use super::choices;
use super::kind::{limits, Kind};

/// A run of PROPERTY records waiting for its object.
#[derive(Clone, Copy, Debug, PartialEq, Eq)]
pub struct Run {
    /// Offset of the first PROPERTY.
    pub first: usize,
    /// How many there are.
    pub count: usize,
}

/// Where a walk or a writer is. Anyone may make one up.
#[derive(Clone, Copy, Debug, PartialEq, Eq)]
pub struct Place {
    pub offset: usize,
    pub library_seen: bool,
    /// ENDLIB has been passed.
    pub ended: bool,
    /// Offset of the STRUCT of the open cell.
    pub cell: Option<usize>,
    /// Offset of the LAYER in force.
    pub layer: Option<usize>,
    /// The property run so far.
    pub run: Option<Run>,
    /// Only CPRPTY records are between here and the last STRUCT.
    pub after_struct: bool,
}

impl Place {
    /// Just after the first four bytes.
    pub const START: Place = Place {
        offset: limits::FILE_HEADER,
        library_seen: false,
        ended: false,
        cell: None,
        layer: None,
        run: None,
        after_struct: false,
    };

    /// Whether the place cannot belong to `length` bytes (refusal 16).
    #[inline]
    pub fn is_forged(&self, length: usize) -> bool {
        let above = |kept: usize| kept > self.offset;
        self.offset < limits::FILE_HEADER
            || !self.offset.is_multiple_of(2)
            || self.offset > length
            || self.cell.is_some_and(above)
            || self.layer.is_some_and(above)
            || self
                .run
                .is_some_and(|run| above(run.first) || above(run.count))
    }

    /// Whether a record of this kind is allowed here (refusal 6).
    ///
    /// The rules are read one by one and all must hold, so that a made-up
    /// context is taken at its word.
    #[inline]
    pub fn allows(&self, kind: Kind) -> bool {
        let first_and_once = self.library_seen != (kind == Kind::Library);
        let run_goes_on = self.run.is_none() || kind == Kind::Property || kind.is_object();
        let cell_if = |needed: bool| self.cell.is_some() || !needed;
        let context = match kind {
            Kind::Library | Kind::Struct | Kind::Endlib => true,
            Kind::Cprpty => self.after_struct && cell_if(choices::CPRPTY_NEEDS_A_CELL),
            Kind::Property | Kind::Layer | Kind::Sref => self.cell.is_some(),
            Kind::Box | Kind::Poly | Kind::Wire | Kind::Text => {
                self.layer.is_some() && cell_if(choices::OBJECT_ON_A_LAYER_NEEDS_A_CELL)
            }
        };
        !self.ended && first_and_once && run_goes_on && context
    }

    /// Whether an unknown record is allowed here: not before LIBRARY.
    #[inline]
    pub fn allows_unknown(&self) -> bool {
        self.library_seen
    }

    /// Goes past a record of this kind and size, found at `at`.
    #[inline]
    pub fn pass(&mut self, kind: Kind, at: usize, size: usize) {
        self.offset = at + size;
        self.after_struct = matches!(kind, Kind::Struct | Kind::Cprpty);
        match kind {
            Kind::Library => {
                self.library_seen = true;
                if choices::LIBRARY_CLEARS_CELL_AND_LAYER {
                    (self.cell, self.layer) = (None, None);
                }
            }
            Kind::Struct => {
                self.cell = Some(at);
                self.layer = None;
            }
            Kind::Cprpty => {}
            Kind::Property => self.run = Some(longer(self.run, at)),
            Kind::Layer => self.layer = Some(at),
            Kind::Box | Kind::Poly | Kind::Wire | Kind::Text | Kind::Sref => self.run = None,
            Kind::Endlib => self.ended = true,
        }
    }
}

/// The run with one more PROPERTY, the one at `at`.
#[inline]
fn longer(run: Option<Run>, at: usize) -> Run {
    match run {
        None => Run {
            first: at,
            count: 1,
        },
        Some(Run { first, count }) => Run {
            first,
            count: count + 1,
        },
    }
}
