//! The long example of the document, with the start value 90 of request
//! 2026-02; a short one of request 2026-04, of the kind of request 2026-06; and
//! one of request 2026-07.

use crate::format::{untimed, Event, Link, Recording, Table};
use crate::sizes::RecordingKind;
use Event::{Arrival as A, Finish as F, Read as R, Start as S};

/// The example with this number, if there is one.
pub fn example(number: usize) -> Option<Recording> {
    match number {
        0 => Some(long_example()),
        1 => Some(own_output_example()),
        2 => Some(deadline_example()),
        _ => None,
    }
}

#[rustfmt::skip]
pub fn long_example() -> Recording {
    let events = vec![
        A(0b1111), S(0), R(0), F(0, 0), S(1), F(1, 101), S(2), R(1), F(2, 0), S(3),
        A(0b0011), S(0), R(0), F(0, 0), S(1), F(1, 102),
        A(0b0100), S(2), R(1), F(2, 0),
        A(0b0011), S(0), R(0), F(0, 0), S(1), F(1, 103), R(2), F(3, 0),
        A(0b1001), S(0), R(0), F(0, 0), S(3), R(2), F(3, 0),
    ];
    recording(RecordingKind::SIXTEEN, &[0, 100, 0, 0], &[([1, 0, 1], 90), ([1, 2, 0], 0), ([1, 3, 0], 0)], events)
}

/// Two tasks that read their own last output and add 1 to it; the second reads
/// the first one's output too.
#[rustfmt::skip]
pub fn own_output_example() -> Recording {
    let events = vec![
        A(0b11), S(0), R(0), F(0, 41), S(1), R(1), R(2), F(1, 8),
        A(0b01), S(0), R(0), F(0, 42),
    ];
    recording(RecordingKind::THIRTY_TWO, &[1000, 1001], &[([0, 0, 1], 40), ([0, 1, 0], 0), ([1, 1, 1], 7)], events)
}

/// Three tasks with relative deadlines 5, 2 and 5, so that task 1 is ahead of task
/// 0, and task 0 of task 2. The job of task 0 is due at 5, as early as that of task
/// 1 that arrives at 3, which goes first; the second one of task 1, that arrives
/// at 4, is due at 6 and so does not interrupt task 0, which finishes at its
/// deadline.
#[rustfmt::skip]
pub fn deadline_example() -> Recording {
    let events = [
        (0, A(0b001)), (1, S(0)), (2, A(0b100)),
        (3, A(0b010)), (3, S(1)), (3, R(0)), (3, F(1, 11)),
        (4, A(0b010)), (4, R(1)), (5, F(0, 5)),
        (5, S(1)), (6, R(0)), (6, F(1, 12)),
        (6, S(2)), (7, R(2)), (7, F(2, 21)),
    ];
    let table = Table {
        defaults: vec![100, 101, 102],
        deadlines: Some(vec![5, 2, 5]),
        links: vec![Link::of([0, 1, 1], 40), Link::of([1, 0, 0], 0), Link::of([0, 2, 0], 0)],
    };
    let events = events.map(|(tick, event)| event.at(tick)).to_vec();
    Recording { kind: RecordingKind::DATED, table, events }
}

fn recording(kind: RecordingKind, defaults: &[u32], links: &[([u8; 3], u32)], events: Vec<Event>) -> Recording {
    let links = links.iter().map(|(ends, start_value)| Link::of(*ends, *start_value)).collect();
    Recording { kind, table: Table::undated(defaults.to_vec(), links), events: untimed(&events) }
}
