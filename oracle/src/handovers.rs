//! What a station hands over to be written, and the handovers that get tried:
//! lawful ones, every single change and cut, faults that compete, counts at
//! their limits, every short one, and kinds of recordings that there are not.

mod changed;
mod competing;
mod dated;
mod kinds;
mod limits;
mod short;
mod split;

use crate::format::{Event, Link, Recording, Timed, LINK_BYTES};
use crate::prng::Prng;
use crate::random_table::Size;
use crate::schedule::random_recording;
use crate::sizes::RecordingKind;
use crate::writing::{begun_events, task_numbers, Handover, LINK_NUMBERS};
use changed::{every_cut, every_number, every_room, small_or_example};
use competing::{competing_events, competing_links, soup};
use kinds::{every_kind, some_kind};
pub use limits::{limits, of_few_events};
pub use short::every_short;
pub use split::{arises_in_writing, split};

/// A handover and the room of the buffer lent with it.
#[derive(Clone, PartialEq, Eq, Debug)]
pub struct Lent {
    pub handover: Handover,
    pub room: usize,
}

impl Handover {
    pub fn of(recording: &Recording) -> Handover {
        let Recording { kind, table, events } = recording;
        let task = |task: usize| [table.defaults[task], table.deadline(task)].into_iter().take(task_numbers(*kind));
        Handover {
            kind: kind.number(),
            tasks: (0..table.defaults.len()).flat_map(task).collect(),
            links: table.links.iter().flat_map(|link| link_numbers(*link)).collect(),
            events: events.iter().flat_map(|timed| numbers(*timed)).collect(),
        }
    }

    /// The kind to be written; where it is none, the smaller one stands for it.
    pub fn kind_or_smaller(&self) -> RecordingKind {
        RecordingKind::of_number(self.kind).unwrap_or(RecordingKind::SIXTEEN)
    }

    /// How many bytes the whole has, if it can be written; roughly so else.
    pub fn length(&self) -> usize {
        let kind = self.kind_or_smaller();
        let events = begun_events(kind, &self.events);
        let events = events.into_iter().map(|record| kind.event_bytes(record[0]).unwrap_or(2));
        let tasks = kind.task_bytes() * self.tasks.chunks(task_numbers(kind)).len();
        let links = LINK_BYTES * self.links.chunks(LINK_NUMBERS).len();
        1 + 1 + tasks + 1 + links + 2 + events.sum::<usize>()
    }

    /// With as much room as the whole needs, and `more`, which may be less.
    fn lent(self, more: isize) -> Lent {
        let room = (self.length() as isize + more).max(0) as usize;
        Lent { handover: self, room }
    }
}

fn link_numbers(link: Link) -> [u32; LINK_NUMBERS] {
    let [writer, reader, kind] = [link.writer, link.reader, link.kind].map(u32::from);
    [writer, reader, kind, link.start_value]
}

/// An event as numbers: its kind, its tick where it has one, then what the kind
/// has.
pub fn numbers(Timed { tick, event }: Timed) -> Vec<u32> {
    let (kind, fields) = match event {
        Event::Arrival(set) => (1, vec![set]),
        Event::Start(task) => (2, vec![u32::from(task)]),
        Event::Read(link) => (3, vec![u32::from(link)]),
        Event::Finish(task, value) => (4, vec![u32::from(task), value]),
    };
    [kind].into_iter().chain(tick).chain(fields).collect()
}

/// The next handovers: one, or a whole family from one. `number` counts the
/// batches.
pub fn batch(number: usize, prng: &mut Prng) -> Vec<Lent> {
    match number % 400 {
        200 => every_cut(&small_or_example(prng, number / 400)),
        201 => every_number(&small_or_example(prng, number / 400)),
        202 => every_room(&small_or_example(prng, number / 400)),
        203 => every_kind(&small_or_example(prng, number / 400)),
        n => {
            let mut handover = match n % 4 {
                0 => lawful(prng),
                1 => competing_links(prng),
                2 => competing_events(prng),
                _ => soup(prng),
            };
            handover.kind = some_kind(prng, handover.kind);
            vec![some_room(prng, handover)]
        }
    }
}

fn lawful(prng: &mut Prng) -> Handover {
    let size = prng.pick(&[Size::Small, Size::Any, Size::Limit, Size::Full]);
    let (recording, _) = random_recording(prng, size, 60);
    Handover::of(&recording)
}

/// Exact, more than enough, one byte short, none, or anything less.
fn some_room(prng: &mut Prng, handover: Handover) -> Lent {
    let length = handover.length();
    let less = prng.below(length);
    let room = prng.pick(&[length, length, length, length + 1, length + 9, length + 300, length - 1, 0, less]);
    Lent { handover, room }
}
