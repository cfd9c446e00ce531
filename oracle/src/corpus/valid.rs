//! Recordings that are possible.

use std::rc::Rc;

use super::{Case, Origin};
use crate::format::{encode, Event, Recording, Table, Timed};
use crate::prng::Prng;
use crate::random_table::{all_read_themselves, crowded_table, random_table, Size};
use crate::schedule::{events_after_round, random_events, random_recording, reads};
use crate::sizes::{all_of, RecordingKind, KINDS};

fn valid_case(prng: &mut Prng, recording: Recording) -> Case {
    let room = reads(&recording) + prng.below(4);
    Case { bytes: encode(&recording), room, origin: Origin::Valid(Rc::new(recording)) }
}

pub fn valid(prng: &mut Prng, size: Size, most: usize) -> Case {
    let (recording, _) = random_recording(prng, size, most);
    valid_case(prng, recording)
}

/// As many events as there may be, of each kind in turn; each third one has exactly
/// that many. The first three of a kind have the largest tables: with the most readers
/// behind, twice, the first time with a read by every link, the second time with
/// the most bytes that can be accepted; and with a self link of every task.
pub fn valid_long(prng: &mut Prng, number: usize) -> Case {
    let kind = KINDS[number % KINDS.len()];
    let of_kind = number / KINDS.len();
    let table = match of_kind {
        0 | 1 => crowded_table(prng, kind),
        2 => all_read_themselves(prng, kind),
        n => random_table(prng, kind, if n % 4 == 0 { Size::Any } else { Size::Limit }),
    };
    let most = kind.most_events;
    let count = if of_kind == 2 || of_kind % 3 == 0 { most } else { prng.between(1_000, most) };
    let events = match of_kind {
        0 => events_after_round(prng, &table, count).0,
        1 => most_bytes(kind, &table),
        _ => random_events(prng, &table, count).0,
    };
    valid_case(prng, Recording { kind, table, events })
}

/// With everything arriving at once and no reads, the share of finishes, the
/// longest records, is greatest. Where there are ticks each round is one tick.
fn most_bytes(kind: RecordingKind, table: &Table) -> Vec<Timed> {
    let tasks = table.order().from_the_first();
    let mut round = vec![Event::Arrival(all_of(tasks.len()))];
    round.extend(
        tasks
            .iter()
            .map(|task| *task as u8)
            .flat_map(|task| [Event::Start(task), Event::Finish(task, u32::from(task) + 1)]),
    );
    let of_round = |number: usize| {
        let tick = Some(number as u32).filter(|_| kind.dated);
        round.iter().map(move |event| Timed { tick, event: *event })
    };
    (0..).flat_map(of_round).take(kind.most_events).collect()
}
