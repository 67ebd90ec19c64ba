//! The CGX reference: reader, whole-file checker, writer, normal form, lister.

mod bytes;
mod choices;
mod extent;
mod kind;
mod layer;
mod lister;
mod lists;
mod meaning;
mod normal;
mod numbers;
mod place;
mod record;
mod refusal;
mod text;
mod view;
mod walk;
mod writer;

pub use extent::{extent, Rect};
pub use kind::{limits, Kind};
pub use layer::{good_layer, layer_name, Shown, Source};
pub use lister::{lister, LARGEST_INPUT};
pub use lists::{box_at, point_at, text_inside};
pub use meaning::same_meaning;
pub use normal::normal_form;
pub use numbers::{DataType, Date, LayerNo, Real, StoredReal};
pub use place::{Place, Run};
pub use refusal::{number, Refusal, Verdict};
pub use text::text_of;
pub use view::{Array, Fields, List, Text, View};
pub use walk::{check, start, step, Step};
pub use writer::{
    boxes, caption_frame, cprpty, endlib, layer, library, poly, property, sref, structure,
    test_card, text, wire, writer_start, Answer, Placement, Sides,
};
