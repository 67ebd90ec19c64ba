//! Makers of test cases: files as bytes, places, and writer calls.
//!
//! Everything here is built by plain byte pushing from a seed. Nothing uses the
//! reference reader or writer, only its plain data types (`Place`, `Date` and
//! the like), so the two stay independent of each other.

pub mod aimed_calls;
pub mod boundary;
pub mod calls;
pub mod damage;
pub mod drawing;
pub mod longs;
pub mod places;
pub mod questions;
pub mod rng;
pub mod valid;
pub mod values;
pub mod variants;

pub use aimed_calls::{bad_calls, longest_calls, BadCall};
pub use boundary::boundary_cases;
pub use calls::{any_calls, good_calls, random_call, Call};
pub use damage::{damaged, mutated, truncations, Case};
pub use drawing::{Body, Drawing, Loose};
pub use longs::{long_cases, long_patterns, placed_longs, PlacedLong};
pub use places::{forged_places, passing_place, MadeUp};
pub use questions::{layer_question, LayerQuestion};
pub use rng::Rng;
pub use valid::{showcase, valid};
pub use variants::{different_meaning_variant, same_meaning_variant};
