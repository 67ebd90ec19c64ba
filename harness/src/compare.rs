//! Compares the archive with the reference, answer by answer.
//!
//! A case is one input: a file, a file and places made up for it, or a sequence
//! of writer calls. All that can be asked of it is asked of both, and the case
//! fails if one answer or one byte of a lent buffer differs.

mod files;
mod lent;
mod lists;
mod meaning;
mod normal;
mod places;
mod questions;
mod reals;
mod report;
mod walk;
mod writer;

pub use files::{aimed_verdict, cut_file, whole_file};
pub use lists::made_up_lists;
pub use meaning::pair;
pub use places::made_up_places;
pub use questions::layer_question;
pub use reals::{reals, reals_in};
pub use report::{Case, Report};
pub use writer::{aimed_call, calls, calls_at_made_up_places};
