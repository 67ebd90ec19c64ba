//! Made-up places: forged ones, and ones that pass. None of them has a record at
//! offset 0 or a run of no properties, which C cannot say: there 0 is none.

use super::rng::Rng;
use crate::reference::{Place, Run};

/// A place nobody was ever given.
#[derive(Clone, Copy, Debug)]
pub struct MadeUp {
    pub what: &'static str,
    pub place: Place,
    /// Whether it must be refused with 16.
    pub forged: bool,
}

/// A place right in the middle of things, with nothing wrong about it.
fn honest(offset: usize) -> Place {
    Place {
        offset,
        library_seen: true,
        ended: false,
        cell: Some(4),
        layer: Some(4),
        run: None,
        after_struct: false,
    }
}

/// Every clause of rule 16, just allowed and just refused, for a file or a
/// buffer of `length` bytes.
pub fn forged_places(length: usize) -> Vec<MadeUp> {
    let mut places = Vec::new();
    let mut add = |what, place, forged| {
        places.push(MadeUp {
            what,
            place,
            forged,
        });
    };
    let bare = |offset| Place {
        offset,
        cell: None,
        layer: None,
        ..honest(offset)
    };

    for offset in 0..4 {
        add("offset below 4", bare(offset), true);
    }
    for offset in [5, 7, length | 1, length.wrapping_sub(1) | 1, usize::MAX] {
        add("odd offset", bare(offset), true);
    }
    for beyond in [1, 2, 3, 4, 1 << 16, 1 << 40] {
        add("offset past the end", bare(length + beyond), true);
    }
    add("highest even offset", bare(usize::MAX - 1), true);
    if length < 4 {
        return places;
    }

    let end = length & !1;
    for offset in [4, end / 4 * 2, end] {
        if offset < 4 {
            continue;
        }
        for (kept, forged) in [
            (1, false),
            (3, false),
            (offset - 1, false),
            (offset, false),
            (offset + 1, true),
            (offset + 2, true),
            (usize::MAX, true),
        ] {
            let place = honest(offset);
            let run = |first, count| Some(Run { first, count });
            let with_cell = Place {
                cell: Some(kept),
                ..place
            };
            let with_layer = Place {
                layer: Some(kept),
                ..place
            };
            let with_first = Place {
                run: run(kept, 1),
                ..place
            };
            let with_count = Place {
                run: run(4, kept),
                ..place
            };
            add("cell offset", with_cell, forged);
            add("layer offset", with_layer, forged);
            add("first of the run", with_first, forged);
            add(
                "a run at 0",
                Place {
                    run: run(0, kept),
                    ..place
                },
                forged,
            );
            add("count of the run", with_count, forged);
            for end in [true, false] {
                add(
                    "an ended place",
                    Place {
                        ended: end,
                        ..with_cell
                    },
                    forged,
                );
            }
        }
    }
    places
}

/// A made-up place that passes rule 16, mostly at one of the given offsets.
pub fn passing_place(rng: &mut Rng, length: usize, offsets: &[usize]) -> Place {
    assert!(length >= 4, "no place passes in fewer than four bytes");
    let offset = if offsets.is_empty() || rng.one_in(6) {
        4 + 2 * rng.below((length - 4) / 2 + 1)
    } else {
        rng.pick(offsets)
    };
    let kept = |rng: &mut Rng| match rng.below(3) {
        0 => None,
        1 => Some(rng.between(1, offset)),
        _ => Some(rng.pick(&[1, 4, offset])),
    };
    let (cell, layer) = (kept(rng), kept(rng));
    let run = rng.one_in(3).then(|| Run {
        first: rng.below(offset + 1),
        count: rng.pick(&[1, 2, 3, offset]),
    });
    Place {
        offset,
        library_seen: !rng.one_in(5),
        ended: rng.one_in(10),
        cell,
        layer,
        run,
        after_struct: rng.one_in(3),
    }
}
