//! Writer calls, with every byte of the buffer after each of them.

use super::lent::Lent;
use super::report::Case;
use super::{files, walk};
use crate::generate::{forged_places, passing_place, BadCall, Call, Rng};
use crate::reference::{self, Answer, Place};
use crate::{archive, drive};

/// The buffers of the two writers, and where both are.
struct Desk {
    reference: Lent,
    archive: Lent,
    place: Place,
}

impl Desk {
    fn new(room: usize) -> Desk {
        Desk {
            reference: Lent::new(room),
            archive: Lent::new(room),
            place: Place::START,
        }
    }

    /// The same, in a buffer that ends after `room` bytes.
    fn with_room(&self, room: usize) -> Desk {
        Desk {
            reference: self.reference.first(room),
            archive: self.archive.first(room),
            place: self.place,
        }
    }

    fn start(&mut self, case: &mut Case) {
        let answer = reference::writer_start(self.reference.part());
        let other = archive::writer_start(self.archive.part());
        case.outcome(&answer);
        case.same(|| "start of the writer".to_string(), &answer, &other);
        self.same_bytes(case, "start of the writer");
    }

    /// Makes a call from where both are, and goes on to the place handed back.
    fn make(&mut self, case: &mut Case, call: &Call) -> Answer {
        let given = self.place;
        let answer = drive::make(self.reference.part(), given, call);
        let (number, place) = match answer {
            Answer::Taken(place) => (0, place),
            Answer::Refused { number, place, .. } => (number, place),
        };
        self.place = place;
        let other = archive::make(self.archive.part(), given, call);
        case.number(number);
        case.same(|| told(call, given), &answer, &other);
        self.same_bytes(case, &told(call, given));
        answer
    }

    fn same_bytes(&self, case: &mut Case, asked: &str) {
        case.same_bytes(
            || asked.to_string(),
            self.reference.all(),
            self.archive.all(),
        );
    }
}

/// A call in a few words: the lists of one may be very long.
fn told(call: &Call, place: Place) -> String {
    let mut words = format!("{call:?}");
    if words.len() > 300 {
        words = words.chars().take(300).collect();
        words.push_str("..");
    }
    format!("{words} at {place:?}")
}

/// Makes the calls one after the other in a buffer of this room. Before each of
/// them it is tried in buffers that end where it ends, a byte before, and where
/// it begins.
pub fn calls(case: &mut Case, calls: &[Call], room: usize) {
    let mut desk = Desk::new(room);
    desk.start(case);
    if room < 4 {
        return;
    }
    for call in calls {
        try_rooms(case, &desk, call, room);
        desk.make(case, call);
    }
    let end = desk.place.offset;
    files::cut_file(case, &desk.archive.part()[..end]);
}

fn try_rooms(case: &mut Case, desk: &Desk, call: &Call, room: usize) {
    let begin = desk.place.offset;
    let end = begin + call.size();
    for shorter in [begin, end - 1, end] {
        if shorter < room {
            desk.with_room(shorter).make(case, call);
        }
    }
}

/// A call that must be refused, and how. The calls before it are good.
pub fn aimed_call(case: &mut Case, bad: &BadCall) {
    let room = 140_000 + bad.before.iter().map(Call::size).sum::<usize>();
    let mut desk = Desk::new(room);
    desk.start(case);
    for call in &bad.before {
        desk.make(case, call);
    }
    let place = desk.place;
    let answer = desk.make(case, &bad.call);
    let aimed = Answer::Refused {
        number: bad.number,
        at: bad.named.map(|after| place.offset + after),
        place,
    };
    case.same(
        || format!("aimed at: {}", told(&bad.call, place)),
        &aimed,
        &answer,
    );
}

/// Calls from places that nobody was given, forged ones and ones that pass.
pub fn calls_at_made_up_places(case: &mut Case, calls: &[Call], room: usize, rng: &mut Rng) {
    let mut desk = Desk::new(room);
    let forged = forged_places(room);
    for call in calls {
        desk.place = forged[rng.below(forged.len())].place;
        desk.make(case, call);
        if room >= 4 {
            desk.place = passing_place(rng, room, &[]);
            desk.make(case, call);
            walk::step(case, desk.archive.part(), desk.place);
        }
    }
}
